#!/usr/bin/python3
"""Draws the pictures of the page for planners in docs/ anew, with the library that is built: its table with faults, and
a plan that is compared with the one before a rush job."""
import base64
import io
import os
import pathlib
import sys
import tempfile
import time

TOP = pathlib.Path(__file__).resolve().parents[1]
sys.path[:0] = [str(TOP / "python" / "src"), str(TOP / "tests"), str(TOP / "tests" / "python")]
os.environ.setdefault("PFS_LIBRARY", str(TOP / "lib" / "out" / "libpfs.so.1"))
from PIL import Image
from test_web_page import Page, browser_in
from test_web_server import served

TIMES = {"A-1024": "45 0 80 105 60 25", "A-1031": "55 35 75 110 60 90", "A-1032": "40 60 0 55 100 70",
         "A-1040": "50 90 25 30 40 105", "A-1047": "50 50 55 80 55 55", "A-1050": "50 50 95 75 20 85",
         "A-1052": "100 50 25 65 30 80", "A-1058": "70 20 75 30 75 75", "A-1061": "75 110 75 50 110 110",
         "A-1063": "50 25 60 20 90 95", "A-1066": "20 100 75 95 20 105"}
DATES = {"begin": "2026-11-30T06:00", "shifts": "06:00-14:00", "title": "Week 49", "seconds": "2"}
HEAD = "Order [min];Pieces;Saw;Drill;Mill;Weld;Paint;Check\n"
ROWS = "".join(f"{job};{4 + at * 7 % 9};{times.replace(' ', ';')}\n" for at, (job, times) in enumerate(TIMES.items()))


def draw(page: Page, first: str, last: str, name: str) -> None:
    """Write what is from the one element to the other one as a picture of 64 colours."""
    top, bottom = (page.browser.execute_script("return document.querySelector(arguments[0]).getBoundingClientRect()."
                                               f"{side} + scrollY", place) for place, side in ((first, "top"),
                                                                                               (last, "bottom")))
    clip = {"x": 0, "y": top - 8, "width": 985, "height": bottom - top + 16, "scale": 1}
    shot = page.browser.execute_cdp_cmd("Page.captureScreenshot", {"clip": clip})
    picture = Image.open(io.BytesIO(base64.b64decode(shot["data"]))).convert("RGB")
    picture.quantize(64, dither=Image.Dither.NONE).save(TOP / "docs" / name, optimize=True)


def open_table(page: Page, text: str) -> None:
    """Paste a table, of which one column isn't a machine, and plan it."""
    page.paste(text)
    page.wait(lambda: len(page.all("#faults li")) == 1)
    page.press("2,machine")
    page.wait(lambda: page.one("#two").is_displayed())
    for name, value in DATES.items():
        page.browser.execute_script("const one = document.getElementById(arguments[0]); one.value = arguments[1]; "
                                    "one.dispatchEvent(new Event('change', {bubbles: true}))", name, value)
    page.click("#plan")
    page.wait(lambda: page.one("#plan").is_enabled() and len(page.order()) == text.count("\n") - 1)


def main() -> None:
    folder = pathlib.Path(tempfile.mkdtemp())
    with served() as server, browser_in(folder) as browser:
        page = Page(browser, server, folder)
        browser.set_window_size(985, 2600)  # a frame that isn't seen isn't drawn
        page.open()
        page.paste(HEAD + ROWS.replace("A-1047;5;50", "A-1047;5;n/a").replace(";0;", ";-;"))
        page.wait(lambda: page.all(".wrong"))
        draw(page, "#read", "#table", "web-table.png")
        open_table(page, HEAD + ROWS)
        page.click("#keep")
        page.wait(lambda: page.all("#plans td"))
        open_table(page, f"{HEAD}{ROWS}Rush;1;30;30;30;30;30;30\n")
        page.press("Rush:first")
        page.wait(lambda: page.all(".held"))
        # The chart is drawn a moment later.
        time.sleep(2)
        draw(page, "#two", "#order [aria-rowindex='4']", "web.png")
        draw(page, "#compared", "#plans tr:last-child", "web-plans.png")


if __name__ == "__main__":
    main()
