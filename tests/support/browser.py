"""Pages of charts, looked at in a browser by scripts that run after the page's own."""
import base64
import hashlib
import html
import json
import pathlib
import re
import subprocess
from collections.abc import Mapping, Sequence
from typing import Any

# Runs after the script of a page: the pen notes what it does, and the page is looked at as a user does it.
PEN = """
let calls = [], path_ = [];
function note(...call) { calls.push(call); }
function noteLine(...what) { note(...what, pen.strokeStyle, pen.globalAlpha, pen.lineWidth, ...pen.getLineDash()); }
const NOTES = {
  scale: (...scale) => {
    [calls, path_] = [[], []];
    note("scale", ...scale, canvas.width, canvas.height, parseFloat(canvas.style.height));
  },
  save: () => note("save"), clip: () => note("clip", ...path_), restore: () => note("restore"),
  fillText: (...what) =>
    note("fillText", ...what, pen.textAlign, pen.textBaseline, pen.font, pen.fillStyle, pen.globalAlpha),
  fillRect: (...box) => note("fillRect", ...box, pen.fillStyle, pen.globalAlpha),
  strokeRect: (...box) => noteLine("strokeRect", ...box),
  beginPath: () => { path_ = []; },
  rect: (...box) => path_.push(...box), moveTo: (...at) => path_.push(...at), lineTo: (...at) => path_.push(...at),
  stroke: () => noteLine("stroke", ...path_),
};
for (const [name, each] of Object.entries(NOTES)) {
  const own = pen[name].bind(pen);
  pen[name] = (...words) => { each(...words); own(...words); };
}
function send(kind, type, x, y, more) {
  const box = canvas.getBoundingClientRect(), place = kind === "pointerup" ? window : canvas;
  place.dispatchEvent(new type(kind, {clientX: box.left + x, clientY: box.top + y, bubbles: true, cancelable: true,
                                      ...more}));
}
function press(...keys) {
  for (const key of keys) canvas.dispatchEvent(new KeyboardEvent("keydown", {key, cancelable: true}));
}
function tell(seen) {
  if (window.parent !== window) { window.parent.postMessage({[window.name]: seen}, "*"); return; }
  document.getElementById("data").remove();
  const element = document.createElement("pre");
  element.id = "seen";
  element.textContent = JSON.stringify(seen);
  document.body.append(element);
}
"""
# A window with pages in frames, which tell what they have seen.
FRAMES = """<!DOCTYPE html><meta charset="utf-8"><pre id="seen"></pre><script>
const seen = {};
addEventListener("message", ({data}) => {
  document.getElementById("seen").textContent = JSON.stringify(Object.assign(seen, data));
});
</script>"""


def scripted(page: pathlib.Path, script: str, injected: str = "") -> str:
    """A page with a script at its end, for which its policy doesn't hold. It holds for what is injected before it."""
    text = page.read_text("utf-8")
    assert text.count("</body>") == 1
    digest = base64.b64encode(hashlib.sha256(script.encode()).digest()).decode()
    allowed = text.replace("script-src 'sha256-", f"script-src 'sha256-{digest}' 'sha256-", 1)
    assert allowed != text, "the page's policy names its script by a hash"
    return allowed.replace("</body>", f"{injected}<script>{script}</script></body>")


def browsed(chromium: str, page: pathlib.Path, folder: pathlib.Path, *flags: str) -> subprocess.CompletedProcess[str]:
    words = [chromium, "--headless", "--no-sandbox", "--disable-gpu", "--disable-dev-shm-usage",
             f"--user-data-dir={folder / 'profile'}", "--window-size=1000,600", "--virtual-time-budget=5000"]
    return subprocess.run([*words, *flags, page.as_uri()], capture_output=True, text=True, timeout=120)


def looked_at(chromium: str, text: str, folder: pathlib.Path, flags: Sequence[str] = ()) -> Any:
    """What the script of a page has seen in a browser with these flags."""
    copy = folder / "looked_at.html"
    copy.write_text(text, "utf-8")
    done = browsed(chromium, copy, folder, "--enable-logging=stderr", "--dump-dom", *flags)
    found = re.search(r'<pre id="seen">(.+?)</pre>', done.stdout, re.DOTALL)
    faults = re.findall(r"CONSOLE.*", done.stderr)
    assert found, f"the page's script ended with {faults or done.stderr[-500:]}"
    return json.loads(html.unescape(found[1]))


def all_looked_at(chromium: str, frames: Mapping[str, tuple[str, int]], folder: pathlib.Path) -> dict[str, Any]:
    """What the scripts of these pages have seen, each in a frame of a width; nothing if a script fails."""
    shown = [f'<iframe name="{name}" width="{wide}" height="150" style="border: 0" srcdoc="{html.escape(text)}">'
             "</iframe>" for name, (text, wide) in frames.items()]
    return dict(looked_at(chromium, FRAMES + "".join(shown), folder))


def printed(chromium: str, page: pathlib.Path, folder: pathlib.Path) -> bytes:
    """The PDF file as which a page is printed."""
    done = browsed(chromium, page, folder, "--no-pdf-header-footer", f"--print-to-pdf={folder / 'page.pdf'}")
    assert done.returncode == 0, done.stderr[-500:]
    return (folder / "page.pdf").read_bytes()
