"""The page for planners in a browser: a week of a planner, by a pointer and by the keyboard alone."""
import base64
import contextlib
import difflib
import json
import pathlib
import re
from collections.abc import Callable, Iterator
from typing import Any

import pytest
from support.needs import require_module, tool
from support.servers import free_port
from test_web import LONG, TOKEN, workbook
from test_web_server import Server, served

require_module("selenium")
from selenium import webdriver
from selenium.webdriver.chrome.service import Service
from selenium.webdriver.common.by import By
from selenium.webdriver.common.keys import Keys
from selenium.webdriver.remote.webelement import WebElement
from selenium.webdriver.support.ui import Select, WebDriverWait

pytestmark = [pytest.mark.seconds(40), pytest.mark.xdist_group("page")]
SCRIPT = "<img src=x onerror=\"document.title='run'\">"
# Faults as planners make them, and letters that aren't in UTF-8.
BOOK = workbook({"KW 49": [
    ["Plan", "Stand 27.11."], ["Auftrag", "Menge", "S\u00e4ge [h]", "Bohren [h]", "Lack [h]"], ["Tisch", 4, 3, 2.5, 4],
    ["Stuhl", 1, 2, "n/a", 1.5], ["Regal", 2, 4, 1], ["Kiste", 3, 1, "1.500", 6], ["Summe", None, 10, 5, 11.5]],
    "Lager": [["nichts"]]})
LADEN = "Auftrag;S\u00e4ge;Bohren\nT\u00fcr;1,25;2\nTor;3;1,5\n"


# Pastes a text; drags a file over the page or a row of it, or drops it.
PASTE = """new ClipboardEvent("paste", {bubbles: true, clipboardData: Object.assign(new DataTransfer(), {
  getData: kind => kind === "text/plain" ? arguments[1] : ""})}));"""
DRAG = """const dataTransfer = new DataTransfer(), [kind, selector] = arguments;
dataTransfer.items.add(new File(["job,saw\\nJ1,1\\nJ2,2\\n"], "dropped.csv"));
const event = new DragEvent(kind, {dataTransfer, cancelable: true});
if ((selector ? document.querySelector(selector) : window).dispatchEvent(event) && kind !== "dragleave")
  throw new Error("the browser would open the file");"""


class Page:
    """The page in a browser."""

    def __init__(self, browser: webdriver.Chrome, server: Server, downloads: pathlib.Path) -> None:
        self.browser, self.server, self.downloads = browser, server, downloads

    def open(self, language: str = "en") -> None:
        self.browser.get(f"http://127.0.0.1:{self.server.port}/#{self.server.token}")
        self.browser.execute_script("sessionStorage.removeItem('document'); localStorage.setItem('language', "
                                    f"'{language}'); location.reload()")
        self.wait(lambda: self.text("h1") in ("Plan a flow shop", "Flie\u00dffertigung planen"))

    def one(self, selector: str) -> WebElement:
        return self.browser.find_element(By.CSS_SELECTOR, selector)

    def all(self, selector: str) -> list[WebElement]:
        return list(self.browser.find_elements(By.CSS_SELECTOR, selector))

    def text(self, selector: str) -> str:
        return str(self.one(selector).text)

    def key(self, key: str) -> WebElement:
        return self.one(f"[data-key={json.dumps(key)}]")

    def press(self, key: str) -> None:
        """Clicks a button of a list, which may be drawn again at any time."""
        self.browser.execute_script("document.querySelector(arguments[0]).click()", f"[data-key={json.dumps(key)}]")

    def click(self, selector: str) -> None:
        self.browser.execute_script("arguments[0].click()", self.one(selector))

    def write(self, element: WebElement, text: str) -> None:
        element.send_keys(Keys.CONTROL, "a")
        element.send_keys(text, Keys.TAB)

    def wait(self, has_come: Callable[[], Any], what: str = "the page shows it") -> None:
        WebDriverWait(self.browser, 20, 0.05, [Exception]).until(lambda _: has_come(), what)

    def drop(self, name: str, content: bytes) -> None:
        """Choose a file."""
        path = self.downloads / name
        path.write_bytes(content)
        self.one("#file").send_keys(str(path))

    def paste(self, text: str) -> None:
        self.browser.execute_script(f"window.dispatchEvent({PASTE}", "", text)

    def order(self) -> list[str]:
        return [each.text for each in self.all("#order td.name")]

    def logged(self) -> list[str]:
        """What the browser complains of: a script that the policy has forbidden, or one that failed."""
        return [each["message"] for each in self.browser.get_log("browser")]


@contextlib.contextmanager
def browser_in(folder: pathlib.Path) -> Iterator[webdriver.Chrome]:
    """A browser, which downloads to this folder."""
    options = webdriver.ChromeOptions()
    options.binary_location = tool("chromium")
    for flag in ("--headless=new", "--no-sandbox", "--disable-gpu", "--disable-dev-shm-usage", "--lang=en",
                 "--window-size=1200,1400", f"--user-data-dir={folder / 'profile'}"):
        options.add_argument(flag)
    options.add_experimental_option("prefs", {"download.default_directory": str(folder),
                                              "profile.default_content_setting_values.automatic_downloads": 1})
    options.set_capability("goog:loggingPrefs", {"browser": "ALL"})
    browser = webdriver.Chrome(service=Service(tool("chromedriver")), options=options)
    try:
        yield browser
    finally:
        browser.quit()


@pytest.fixture(scope="module")
def page(tmp_path_factory: pytest.TempPathFactory) -> Iterator[Page]:
    folder = tmp_path_factory.mktemp("browser")
    with served("--searches", "2") as server, browser_in(folder) as browser:
        yield Page(browser, server, folder)


# Notes what the page asks, and says what is seen of it. What a search returns is up to the test.
WATCH = r"""{
Object.assign(window, {noted: [], busy: 0, late: null, fails: null, teller: null});
const ownFetch = window.fetch, ownRead = FileReader.prototype.readAsDataURL;
window.fetch = async (path, given = {}) => {
  const name = path.replace("api/", "");
  noted.push([given.method, name, given.body ? JSON.parse(given.body) : {}]);
  const failure = fails, wait = late;
  fails = null;
  if (failure && !failure[0]) throw new TypeError();
  if (failure) return new Response(failure[2], {status: failure[0], headers: {"Content-Type": failure[1]}});
  if (name === "search") return Response.json({search: "S"});
  if (name === "search/S")
    return Response.json(given.method === "GET" && await new Promise(done => { teller = done; }));
  late = null;
  busy += !wait;
  try {
    const got = await ownFetch(path, given), content = await got.arrayBuffer();
    await wait;
    // What comes late is taken a moment later.
    if (wait) { busy += 1; ownWait(() => { busy -= 1; }, 500); }
    return new Response(content, got);
  } finally { busy -= !wait; }
};
FileReader.prototype.readAsDataURL = function (file) {
  busy += 1;
  this.addEventListener("loadend", () => { busy -= 1; });
  ownRead.call(this, file);
};
HTMLAnchorElement.prototype.click = function () { noted.push(["save", this.download, {}]); };
URL.revokeObjectURL = href => noted.push(["free", href.slice(0, 5), {}]);
const ownWait = window.setTimeout;
// What failed is asked again when the network comes back, and not after some seconds.
window.setTimeout = (call, wait, ...given) => wait >= 1000 && wait < 60_000 ? 0
  : ownWait(call, wait === 60_000 ? 0 : wait, ...given);
// Waits until nothing is under way but a search that asks again.
window.idle = async () => {
  for (let calm = 0; calm < 3; calm = busy || window.desk?.state.search && !teller ? 0 : calm + 1)
    await new Promise(done => setTimeout(done, 10));
};
const SIGNS = ["wrong", "off", "held", "best", "moved", "over"], BLOCKS = "p, li, h1, h2, h3, tr, summary, label, div";
const WORDS = ["type", "rows", "min", "max", "maxlength", "accept", "placeholder", "sandbox"];
const wordsOf = (each, ...more) => [...more, ...WORDS].map(name => each.getAttribute(name))
  .filter(word => word && word !== "text").join(" ");
function controlOf(each) {
  const words = each.dataset.key ? "" : wordsOf(each, "aria-label", "title");
  const value = each.options ? [...each.options].map(one => one.text + "*".repeat(one.selected)).join("/") : each.value;
  const text = each.type === "checkbox" ? (each.checked ? "[x]" : "[ ]") : each.matches("button")
    ? `[${each.textContent}]` : `<${words && `${words}: `}${value ?? ""}>`;
  const focus = each !== document.activeElement ? "" : each.type === "text" && each.selectionStart < each.selectionEnd
    ? `!${each.selectionStart}-${each.selectionEnd}` : "!";
  return each.matches("button[data-key]") && !focus ? "" : `${text}${each.disabled ? "(off)" : ""}${focus} `;
}
// What is seen, line by line, but for numbers, and for buttons of lists that haven't the focus.
window.seen = () => {
  const lines = [`${document.title} ${location.pathname}${location.hash}`];
  let line = "";
  const end = () => { lines.push(line.replace(/\s+/g, " ").replace(/ ?\| ?/g, "|").trim()); line = ""; };
  const walk = node => {
    if (node.nodeType === Node.TEXT_NODE) line += node.data;
    if (!node.checkVisibility?.()) return;
    if (node.matches(BLOCKS)) end();
    if (node.matches(".number")) return;
    if (node.matches("td + *, th + *")) line += "|";
    line += SIGNS.filter(sign => node.classList.contains(sign)).map(sign => `{${sign}}`).join("");
    if (node.role && node.textContent) line += `${node.role}: `;
    if (node.matches("input, select, button, textarea, progress, iframe")) line += controlOf(node);
    else node.childNodes.forEach(walk);
    if (node.matches(BLOCKS)) end();
  };
  walk(document.body);
  end();
  return lines.filter(Boolean);
};
// What is said of a row's controls and texts.
window.said = key => [...document.querySelector(`[data-key="${key}"]`).closest("tr").querySelectorAll("[title]")]
  .map(each => [...new Set([each.ariaLabel, each.title]), wordsOf(each), each.matches("button") && each.textContent,
                each.ariaInvalid === "true" && "invalid"].filter(Boolean).join(" | "));
}"""


def flat(value: Any, name: str = "") -> dict[str, Any]:
    """The values of a request by their names, and the rows of a table by their lines."""
    inner = value.items() if isinstance(value, dict) else value if name == "rows" else ()
    return {path: found for key, each in inner for path, found in flat(each, str(key)).items()} or {name: value}


def text_of(value: Any, comma: str) -> str:
    """A value of a request in a recorded line, which breaks at blanks."""
    return json.dumps(value, ensure_ascii=False, separators=(comma, ":"))


class Play:
    """Does the steps of a script. After :: is what the page asks (>), as its difference from the request before, and
    what is seen: how many lines less (-), and the new ones (+); or what a question shows (=). After a step that begins
    with ~ nothing is looked at."""

    def __init__(self, page: Page, files: dict[str, bytes]) -> None:
        run, place = page.browser.execute_script, "document.querySelector(arguments[0])"
        self.page, self.files, self.run, self.seen, self.before = page, files, run, list[str](), dict[str, Any]()
        self.verbs: dict[str, Callable[..., Any]] = {
            "open": lambda: page.open("de"), "reload": page.browser.refresh, "click": page.click, "press": page.press,
            "twice": lambda selector: run(f"const one = {place}; one.click(); one.click()", selector),
            "set": lambda *given: run(f"const one = {place}; one.value = arguments[1]; "
                                      "one.dispatchEvent(new Event('change', {bubbles: true}))", *given),
            "write": lambda key, text: page.write(page.key(key), text),
            "type": lambda key, text: page.key(key).send_keys(Keys.CONTROL, "a", Keys.NULL, text),
            "drop": self.drop,
            "paste": lambda text: page.paste(text.replace("|", "\n")),
            "drag": self.drag,
            "tell": lambda told: run("const own = teller; teller = null; own(JSON.parse(arguments[0]))", told),
            "into": lambda key: run(f"{place}.dispatchEvent({PASTE}", f"[data-key='{key}']", "a;b"),
            "over": lambda kind, selector="": run(DRAG, kind, selector),
            "late": lambda: run("late = new Promise(done => { window.come = done; })"),
            "come": lambda: run("come()"),
            "fail": lambda text: run("fails = arguments[0]", [int(text.split()[0]), *text.split(" ", 2)[1:]]),
            "do": run, "row": lambda key: run("return said(arguments[0])", key),
            "numbers": lambda: [each.text for each in page.all(".number")],
            "headings": lambda: [each.text for each in page.all("h1, h2, #message") if each.is_displayed()]}

    def drop(self, name: str) -> None:
        self.page.drop(name, self.files[name])
        self.page.wait(lambda: self.run("return noted.length"))

    def drag(self, *names: str) -> None:
        one, other = (each for name in names for each in self.page.all("#order .name") if each.text == name)
        self.run("arguments[0].scrollIntoView({block: 'center'})", one)
        webdriver.ActionChains(self.page.browser).drag_and_drop(one, other).perform()
        self.page.wait(lambda: self.run("return noted.length"))

    def asked(self) -> Iterator[str]:
        """What the page has asked since the last step, each as its difference from the request before."""
        for method, name, body in self.run("return noted.splice(0)"):
            kind, now = ("shop" if "shop" in body else name), flat(body)
            before = self.before.get(kind, {})
            if "content" in now:
                data = base64.b64decode(now["content"])
                now["content"] = next((name for name, each in self.files.items() if each == data), "pasted")
            changed = {path: value for path, value in now.items() if before.get(path, ...) != value}
            texts = [f"{path}={text_of(value, ', ' if path == 'kept' else ',')}"
                     for path, value in sorted(changed.items()) if body]
            if body:
                texts += [f"-{path}" for path in before if path not in now]
                self.before[kind] = now
            if method != "GET":
                yield " ".join([f"> {method} {name}", *texts])

    def step(self, line: str) -> Iterator[str]:
        verb, _, words = line.removeprefix("~").partition(" ")
        given = [words] if verb in ("do", "tell") else re.split(" = ?", words, maxsplit=1)[:2 * bool(words)]
        found = self.verbs[verb](*given)
        self.page.browser.execute_async_script("idle().then(arguments[0])")
        yield from self.asked()
        if isinstance(found, list):
            yield f"= {' / '.join(filter(None, found))}"
        elif not line.startswith("~"):
            before, self.seen = self.seen, self.run("return seen()")
            edits = difflib.SequenceMatcher(None, before, self.seen, autojunk=False).get_opcodes()
            gone = sum(end - begin for kind, begin, end, _, _ in edits if kind != "equal")
            come = [each for kind, _, _, begin, end in edits if kind != "equal" for each in self.seen[begin:end]]
            if gone or come:
                yield " ".join([f"-{gone}"] * (gone > 0) + [f"+ {' / '.join(come)}"] * (come != []))

    def play(self, script: str) -> None:
        for line in script.replace("\n    ", " ").splitlines():
            step, _, due = line.partition(" :: ")
            assert " ".join(self.step(step)) == due, step


def test_each_step_in_german(page: Page) -> None:
    """What the page asks and shows after each step is as a person wrote it."""
    script = pathlib.Path(__file__).with_name("page_in_german.txt").read_text("utf-8")
    watch = page.browser.execute_cdp_cmd("Page.addScriptToEvaluateOnNewDocument", {"source": WATCH})
    try:
        Play(page, {"woche.xlsx": BOOK, "laden.csv": LADEN.encode("cp1252")}).play(script)
    finally:
        page.browser.execute_cdp_cmd("Page.removeScriptToEvaluateOnNewDocument", watch)
    assert [" 422 " in each for each in page.logged()] == [True] * 4, "other jobs, and plans without a beginning"


@contextlib.contextmanager
def week(folder: pathlib.Path) -> Iterator[Play]:
    """A browser that plays a week. Its first server can be stopped and started again, and the second one is another
    machine's, with another token. A file has what the page has saved."""
    (folder / "token").write_text(f"{TOKEN}\n")
    (folder / "token").chmod(0o600)
    words, port = ("--token-file", str(folder / "token")), free_port()
    with contextlib.ExitStack() as first, browser_in(folder) as browser, served() as second:
        browser.execute_cdp_cmd("Page.addScriptToEvaluateOnNewDocument", {"source": WATCH})
        play = Play(page := Page(browser, first.enter_context(served(*words, port=port)), folder), {})

        def save(name: str) -> None:
            play.files[name] = play.run("return desk.steps.toFile(desk.state.doc)").encode()

        def move() -> None:
            page.server = second
            page.open("de")

        play.verbs |= {"stop": first.close, "start": lambda: first.enter_context(served(*words, port=port)),
                       "save": save, "move": move}
        yield play


def test_a_week_over_a_restart_and_two_servers(tmp_path: pathlib.Path) -> None:
    """Saved on Monday evening, and opened on Tuesday on another server: recorded, and read by a person."""
    with week(tmp_path) as play:
        play.play(pathlib.Path(__file__).with_name("week_in_german.txt").read_text("utf-8"))


# Time passes when the page waits for it. What a search tells is up to the test: how often, with which status, what, and
# after how long. Without a status the server isn't reached, as all of it while it is gone.
CLOCK = """let time = 0;
const ownWait = window.setTimeout, ownFetch = window.fetch;
Object.assign(window, {waits: [], told: [], sent: [], ended: [], said: [], isGone: false});
Date.now = () => time;
window.setTimeout = (call, wait = 0, ...given) => {
  const isLong = wait >= 300 && wait < 60_000;
  time += isLong ? wait : 0;
  if (isLong) waits.push(wait);
  return ownWait(call, isLong ? 0 : wait, ...given);
};
window.fetch = async (path, given = {}) => {
  if (isGone) throw new TypeError();
  if (!path.startsWith("api/search")) return ownFetch(path, given);
  if (given.method === "POST") return Response.json({search: `S${sent.push(JSON.parse(given.body))}`});
  if (given.method === "DELETE") return Response.json({}, {status: ended.push(path) && 200});
  const [[, status, answer, passed = 0]] = told;
  time += passed;
  told[0][0] -= 1;
  if (told[0][0] === 0) told.shift();
  said.push(document.getElementById("message").textContent);
  if (!status) throw new TypeError();
  return Response.json(answer, {status});
};"""


@contextlib.contextmanager
def by_clock(page: Page) -> Iterator[Callable[..., Any]]:
    """The page with a table of three jobs, where time passes like this."""
    own = page.browser.execute_cdp_cmd("Page.addScriptToEvaluateOnNewDocument", {"source": CLOCK})
    try:
        page.open()
        page.paste("job [h];saw;drill\na;1;2\nb;3;4\nc;5;6\n")
        page.wait(lambda: "3 jobs" in page.text("#read"))
        yield page.browser.execute_script
    finally:
        page.browser.execute_cdp_cmd("Page.removeScriptToEvaluateOnNewDocument", own)
        page.browser.refresh()


def test_a_search_survives_what_happens_to_the_server(page: Page) -> None:
    """It is asked for two minutes after each answer. After a restart it goes on from its best order for the time that
    is left, and that order stays when the server is given up."""
    order, gone = ["c", "a", "b"], [4, 0, None, 29_000]
    best = {"state": "searching", "place": 0, "seconds": 2.5, "limit": 10, "order": order, "least": 14,
            "makespan": "15 h", "bound": "14 h"}
    waiting = {"state": "waiting", "place": 1, "seconds": 0, "limit": 7, "makespan": "", "bound": "14 h"}
    with by_clock(page) as run:
        run("told.push(...arguments[0])", [[1, 200, best], gone, [1, 200, best], gone, [1, 404, {"error": "over"}],
                                           [1, 200, waiting], [5, *gone[1:]]])
        page.click("#plan")
        page.wait(lambda: run("return told.length === 0 && !desk.state.search") and page.one("#plan").is_enabled())
        assert run("return desk.state.doc.plan.order") == order
        sent = run("return sent.map(each => [each.order, each.seconds])")
        assert sent == [[None, 10], [order, 8]], "for what is left of 10 s"
        said, silent = run("return said"), "The server doesn't answer. It is asked again."
        assert said == ["", "", *[silent] * 4, "", *[silent] * 5, "", *[silent] * 4]
        assert page.text("#message").startswith("The server doesn't answer.")
        run("told.push([1e9, 200, arguments[0]])", best)
        page.click("#plan")
        page.wait(lambda: run("return desk.state.search?.name === 'S3'"))
        run("window.dispatchEvent(new Event('pagehide'))")
        assert run("return ended") == ["api/search/S3"], "who leaves the page ends the search"
        run("told[0] = [1, 200, arguments[0]]", {**best, "state": "done", "isCut": True, "seconds": 3.6})
        page.wait(lambda: page.text("#message") == "The search was ended after 4 of 10 s, as nobody asked for it.")


def test_what_failed_is_asked_again_less_and_less(page: Page) -> None:
    """And quickly again after an answer."""
    with by_clock(page) as run:
        for place in range(2):
            run("waits = []; isGone = true")
            page.write(page.key("2,2"), f"{place + 7}")
            page.wait(lambda: run("return waits.length > 6"))
            assert run("isGone = false; return waits.slice(0, 7)") == [1000, 2000, 4000, 8000, *[15_000] * 3]
            page.wait(lambda: run("return desk.state.read.shop?.times[0][0]") == place + 7)


# Looks at a list of many rows as it is scrolled, and at what gets the focus there.
LIST = r"""
const faults = [], done = arguments[0];
const later = () => new Promise(next => requestAnimationFrame(() => setTimeout(next)));
const check = (isTrue, ...what) => { if (!isTrue) faults.push(what.join(" ")); };
let told = 0;
(async () => {
  const lists = await import("/static/lists.js"), {control, letters, listIn, made, rowOf} = lists;
  const box = made("div", null, document.body, {className: "list"}), own = () => document.activeElement;
  const list = listIn(box, at => {
    const row = rowOf([`row ${at}`]);
    const onblur = () => { told += !lists.isDrawing; };
    control("input", `k${at}`, "", row.lastChild, {type: "text", value: "old", onblur});
    return row;
  }, () => rowOf(["head"], null, "th"));
  for (const count of [1, 40, 5000]) {
    list.show(count);
    check(Math.abs(box.scrollHeight - 32 * (count + 1)) < 3 && box.firstChild.ariaRowCount === `${count}`, "size");
    for (const top of [0, 1, 383, 385, 416, 3001, 32 * count]) {
      box.scrollTop = top;
      await later();
      const rows = [...box.querySelectorAll("tbody tr[aria-rowindex]")], places = rows.map(row => row.ariaRowIndex - 1);
      const first = Math.floor(box.scrollTop / 32), last = Math.ceil((box.scrollTop + box.clientHeight) / 32) - 2;
      check(places[0] === Math.max(0, first - 12) && places.length < 60
            && places.at(-1) >= Math.min(count - 1, last + 11), "drawn", count, top, places);
      check(rows.every((row, at) => row.offsetTop === 32 * (places[at] + 1)
                                    && row.textContent === `row ${places[at]}`), "places", count, top);
      for (const at of [first - 1, first, first + 1, last - 2, last, last + 1, 4000]) {
        if (at < 0 || at >= count) continue;
        box.scrollTop = top;
        await later();
        const before = box.scrollTop, field = list.reach(at, `k${at}`);
        const [inner, outer] = [field ?? box, box].map(each => each.getBoundingClientRect());
        check(field === own() && inner.top >= outer.top + 32 && inner.bottom <= outer.bottom, "reached", top, at);
        check(at < first + 1 || at > last - 2 || box.scrollTop === before, "stays", top, at);
      }
    }
  }
  const field = list.reach(100, "k100");
  field.value = "new";
  field.setSelectionRange(1, 2);
  box.scrollTop += 5;
  await later();
  check(field.isConnected, "is drawn again");
  const silent = told;
  list.show(5000);
  check(told === silent, "what is typed isn't taken when the list is drawn");
  check([own().value, own().selectionStart, own().selectionEnd].join() === "new,1,2", "keeps what is typed");
  const top = box.scrollTop += 320, before = told;
  await later();
  check(told === before + 1, "what is typed is taken when it is scrolled away");
  check(box.scrollTop === top && own().dataset.key === "k100" && list.reach(7, "none") === null, "jumps");
  list.show(0);
  check(box.hidden, "hidden");
  for (const [number, name] of Object.entries({1: "A", 26: "Z", 27: "AA", 52: "AZ", 53: "BA", 702: "ZZ", 703: "AAA"}))
    check(letters(Number(number)) === name, name);
})().then(() => done(faults), error => done([String(error)]));"""


def test_a_list_of_many_rows(page: Page) -> None:
    """Its rows are where they belong, and what gets the focus is seen."""
    page.open()
    assert page.browser.execute_async_script(LIST) == []


# What a planner would complain of, on the page as it is.
LOOK = r"""
const faults = [], all = selector => [...document.querySelectorAll(selector)].filter(each => each.checkVisibility());
const check = (isTrue, what, each) => isTrue || faults.push([what, each.tagName, each.id, each.textContent]);
const style = (each, name) => getComputedStyle(each)[name], box = each => each.getBoundingClientRect();
const body = document.body, room = document.documentElement.clientWidth;
const over = (text, under) => {
  const [red, green, blue, part = 1] = text.match(/[\d.]+/g).map(Number);
  return [red, green, blue].map((each, at) => part * each + (1 - part) * under[at]);
};
const last = Array(3).fill(matchMedia("(prefers-color-scheme: dark)").matches ? 18 : 255);
const ground = each => each ? over(style(each, "backgroundColor"), ground(each.parentElement)) : last;
const light = colour => colour.map(each => each / 255).reduce((sum, each, at) => sum + [.2126, .7152, .0722][at]
  * (each < .04 ? each / 12.92 : ((each + .055) / 1.055) ** 2.4), .05);
for (const each of all("body *")) {
  const [one, other] = [light(over(style(each, "color"), ground(each))), light(ground(each))];
  if (each.matches("input, textarea") || [...each.childNodes].some(node => node.nodeType === 3 && node.data.trim()))
    check(Math.max(one / other, other / one) > 4.5, "hard to read", each);
  check(box(each).right <= room && box(each).left >= 0 || each.closest("table, .list"), "outside", each);
}
for (const row of all("header, section div:not(.list), #options"))
  [...row.children].filter(each => each.checkVisibility() && box(each).width).forEach((each, at, parts) => {
    const own = box(each), next = parts[at + 1] && box(parts[at + 1]), isBelow = next && next.top >= own.bottom;
    check(!next || (isBelow ? next.top - own.bottom : next.left - own.right) >= 7, "too close", each);
    check(!next || isBelow || Math.abs(own.top + own.bottom - next.top - next.bottom) < 20, "not in line", each);
  });
const most = Math.min(room, 1230), middle = (room - box(body).width) / 2;
// What is seen by these names: where it is, its size or its style, from the least to the most.
for (const [selector, name, least, greatest = least] of [
    ["body", "width", most - 20, most], ["body", "left", middle - 1, middle + 1], ["#language", "left", room / 2, room],
    ["h1, h2, h3", "height", 20, 30], [".list tr[aria-rowindex], .list thead tr", "height", 32],
    [".list, #faults", "height", 0, 361], ["iframe", "height", 400, 500],
    ["section > *:not(table, h3)", "width", .9 * most - 27, most],
    ["#order table", "width", .98 * all("#order")[0]?.clientWidth || 0, 5000],
    ["#table td:first-of-type input", "width", 150, 200], ["#table td:not(:first-of-type) input", "width", 90, 130],
    ["[type=number]", "width", 50, 80], ["#plan, .best td", "fontWeight", "600"],
    ["#table .off input", "opacity", "0.5"], [".number", "textAlign", "right"],
    ["td:not(.number), #faults button", "textAlign", "left"], [".list td", "textOverflow", "ellipsis"],
    ["#table [type=text]", "borderTopStyle", "none"], [".wrong", "outlineStyle", "solid"],
    ["#drop", "borderTopStyle", "dashed"], ["#message", "whiteSpace", "pre-wrap"], ["h2", "borderBottomStyle", "solid"],
    ["td, th", "borderLeftStyle", "solid"], ["body, input, select, button, textarea", "fontSize", "15px"],
    ["input, select, button, textarea", "fontFamily", style(body, "fontFamily")]])
  for (const each of all(selector)) {
    const found = box(each)[name] ?? style(each, name);
    check(found >= least && found <= greatest, `${name} ${found}`, each);
  }
for (const each of all(".held, .moved, .wrong")) check(`${ground(each)}` !== `${ground(body)}`, "not marked", each);
for (const each of all(".list thead th")) check(!style(each, "backgroundColor").includes("a"), "is seen through", each);
for (const each of all("#order .name")) for (const cell of each.parentElement.cells)
  check(box(cell).width <= box(each).width, "wider than the name", cell);
scrollTo(0, 300);
for (const each of all("#message")) check(document.elementFromPoint(room / 2, 5) === each, "scrolled away", each);
for (const each of all(".list thead th")) {
  each.closest(".list").scrollTop = 100;
  check(Math.abs(box(each).top - box(each.closest(".list")).top) < 2, "scrolled away", each);
}
scrollTo(0, 0);
for (const each of all("#order .start")) check(room > 700, "not needed on a phone", each);
return faults;"""


@pytest.mark.parametrize(("wide", "colours"), [(1600, "light"), (1200, "dark"), (390, "light")])
def test_nothing_is_hard_to_read(wide: int, colours: str, page: Page) -> None:
    """On a large screen, in dark colours, and on a phone: before there is a table, with faults, and with a plan."""
    send, run = page.browser.execute_cdp_cmd, page.browser.execute_script
    send("Emulation.setDeviceMetricsOverride", {"width": wide, "height": 500, "deviceScaleFactor": 1,
                                                "mobile": wide < 400})
    send("Emulation.setEmulatedMedia", {"features": [{"name": "prefers-color-scheme", "value": colours}]})
    try:
        page.open("de")
        assert run(LOOK) == []
        page.drop("woche.xlsx", BOOK)
        page.wait(lambda: page.one("#suggest").is_displayed())
        page.click("#suggest")
        page.wait(lambda: page.all(".off"))
        run("desk.say('one\\ntwo')")
        assert run(LOOK) == []
        jobs = (f"J{at};{at * 7 % 50 + 1};{at * 11 % 50 + 1}\n" for at in range(1, 13))
        page.paste("job [min];saw;drill\n" + "".join(jobs))
        page.wait(lambda: "12 Auf" in page.text("#read"))
        for step, seen in ((
                "desk.change(now => desk.steps.changed(now, {plan: {digest: now.read.digest, held: 0, "
                "order: [...now.read.shop.jobs]}}))", ".name"), ("document.querySelector('#keep').click()", ".best"),
                ("desk.change(now => desk.steps.moved(now, 'J6', 0))", ".moved")):
            run(step)
            page.wait(lambda: page.all(f"section {seen}"), step)
        page.press("J2:hold")
        page.wait(lambda: page.all(".held"))
        assert run(LOOK) == []
    finally:
        send("Emulation.clearDeviceMetricsOverride", {})
        send("Emulation.setEmulatedMedia", {"features": []})


def test_a_plan_is_searched_drawn_and_downloaded(page: Page) -> None:
    """By the server. No name runs as a script."""
    page.open()
    shop = LONG["shop"]
    jobs = [SCRIPT, *shop["jobs"][1:]]
    rows = [["job [min]", *shop["machines"]], *([job, *map(str, times)] for job, times in zip(jobs, shop["times"]))]
    page.paste("".join(";".join(row) + "\n" for row in rows))
    page.wait(lambda: "30 jobs" in page.text("#read"))
    seconds = Select(page.one("#seconds"))
    assert [each.get_attribute("value") for each in seconds.options] == ["2", "10", "60", "600"]
    seconds.select_by_value("600")
    page.browser.execute_script("arguments[0].value = '2026-11-30T06:00'; "
                                "arguments[0].dispatchEvent(new Event('change', {bubbles: true}))", page.one("#begin"))
    page.click("#plan")
    page.wait(lambda: re.search(r"so far, no order is below .+; 5\d\d s left$", page.text("#progress")))
    page.click("#end")
    page.wait(lambda: page.one("#plan").is_enabled() and len(page.order()) > 10)
    assert sorted(page.browser.execute_script("return desk.state.doc.plan.order")) == sorted(jobs)
    page.browser.switch_to.frame(page.one("#chart"))
    assert page.one("canvas").size["width"] > 300, "the chart has its script and its style"
    page.browser.switch_to.default_content()
    page.write(page.one("#title"), "../S\u00e4ge 49")
    for kind, start in (("csv", b"\xef\xbb\xbfjob;machine"), ("xlsx", b"PK"), ("zip", b"PK"), ("html", b"<!DOCTYPE"),
                        ("pdf", b"%PDF"), ("txt", b"")):
        path = page.downloads / f"---S\u00e4ge 49.{kind}"
        page.click(f"[data-kind={kind}]")
        page.wait(lambda: path.exists() and path.stat().st_size, f"{path} in {[*page.downloads.iterdir()]}")
        assert path.read_bytes().startswith(start)
    assert "../S\u00e4ge 49" in (page.downloads / "---S\u00e4ge 49.html").read_text("utf-8"), "a file has its title"
    assert path.read_text().splitlines() == page.browser.execute_script("return desk.state.doc.plan.order")
    assert page.logged() == [] and page.browser.title == "Plan a flow shop", "no script of a name has run"


def test_by_the_keyboard_alone(page: Page) -> None:
    """From a pasted table to a changed order, only by Tab, Enter, blanks and letters."""
    page.open()
    page.paste("job [min];saw;drill\na;1;2\nb;3;4\nc;5;6\nd;2;2\n")
    page.wait(lambda: "4 jobs" in page.text("#read"))

    def press(*keys: str) -> str:
        """Presses keys, and returns what has the focus then."""
        webdriver.ActionChains(page.browser).send_keys(*keys).perform()
        return str(page.browser.execute_script("const own = document.activeElement; return own.dataset.key ?? own.id"))

    def tab_to(end: str) -> None:
        assert any(press(Keys.TAB).endswith(end) for _ in range(100)), "the focus doesn't come there"

    tab_to("3,2")
    # Faster than the server reads what is written.
    press("71", Keys.TAB, "73", Keys.TAB, Keys.TAB, "K3", Keys.ENTER)
    page.wait(lambda: press() == "4,1" and page.browser.execute_script(
        "return desk.state.read.shop.times[1].join() + desk.state.read.shop.jobs[2]") == "71,73K3")
    tab_to("plan")
    press(Keys.ENTER)
    page.wait(lambda: len(page.order()) == 4)
    own = page.order()[3]
    tab_to(f"{own}:up")
    for place in (2, 1):
        press(Keys.ENTER)
        page.wait(lambda: page.order()[place] == own)
    tab_to(":hold")
    press(" ")
    page.wait(lambda: page.all("#order tr.held"))
    assert page.logged() == []


def test_the_page_has_the_language_of_the_browser(page: Page) -> None:
    """At first, also where that is of a country."""
    agent = page.browser.execute_script("return navigator.userAgent")
    page.open()
    for language, due in (("de", "de"), ("de-AT", "de"), ("nl", "en"), ("en", "en")):
        page.browser.execute_cdp_cmd("Network.setUserAgentOverride", {"userAgent": agent, "acceptLanguage": language})
        page.browser.execute_script("localStorage.removeItem('language')")
        page.browser.refresh()
        page.wait(lambda: page.one(f"html[lang={due}] #language").get_property("value") == due)
    Select(page.one("#language")).select_by_value("de")
    page.wait(lambda: page.text("h1") == "Flie\u00dffertigung planen")


def test_an_address_without_its_token_says_so(page: Page) -> None:
    """As a bookmark is, before a table is dropped."""
    page.open()
    page.browser.execute_script("sessionStorage.clear()")
    page.browser.get(f"http://127.0.0.1:{page.server.port}/")
    page.wait(lambda: page.text("#message") == "The token is missing or wrong: ask for the whole address of the page.")
