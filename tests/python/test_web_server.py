"""The program pfs-web: its command line, its limits as a server, its end, and its use with a proxy."""
import contextlib
import http.client
import itertools
import json
import pathlib
import re
import signal
import socket
import subprocess
import sys
import time
from collections.abc import Iterator
from typing import Any
from unittest import mock

import pytest
from pfs.web import __main__ as web
from support.needs import tool
from support.plainly import environment
from support.servers import answers, free_port
from support.tools import TOP, output_of, run_main, run_tool, stop, wait_until
from test_web import LONG, PLAN, TOKEN

COMMAND = [sys.executable, "-m", "pfs.web"]


class Server:
    """A server that runs, and its responses."""

    def __init__(self, process: "subprocess.Popen[str]", port: int, printed: str) -> None:
        self.process, self.port, self.printed = process, port, printed
        self.token = printed.rpartition("#")[2].split(" ")[0].strip() or TOKEN

    def ask(self, path: str, body: Any = None, method: str = "", **headers: str) -> tuple[int, Any]:
        with contextlib.closing(http.client.HTTPConnection("127.0.0.1", self.port, timeout=30)) as line:
            line.request(method or ("GET" if body is None else "POST"), path, body and json.dumps(body),
                         {"X-Pfs-Token": self.token, "Content-Type": "application/json", **headers})
            got = line.getresponse()
            text = got.read()
        assert "Server" not in got.headers, "no response names the server"
        is_json = got.headers.get("Content-Type", "").startswith("application/json")
        return got.status, json.loads(text) if is_json else text

    def answer(self, path: str, body: Any = None) -> Any:
        status, found = self.ask(path, body)
        assert status == 200, found
        return found


@contextlib.contextmanager
def served(*words: str, port: int = 0) -> Iterator[Server]:
    port = port or free_port()
    process = subprocess.Popen([*COMMAND, "--no-browser", "--port", str(port), *words], text=True, env=environment(),
                               stdin=subprocess.DEVNULL, stdout=subprocess.PIPE, stderr=subprocess.DEVNULL)
    try:
        assert process.stdout is not None
        printed = process.stdout.readline()
        wait_until(lambda: answers(port), "the server answers")
        yield Server(process, port, printed)
    finally:
        stop(process)


@pytest.fixture(scope="module")
def server() -> Iterator[Server]:
    with served("--searches", "2") as found:
        yield found


@pytest.fixture
def token_file(tmp_path: pathlib.Path) -> pathlib.Path:
    path = tmp_path / "token"
    path.write_text(f"{TOKEN}\n")
    path.chmod(0o600)
    return path


# Its command line

@pytest.mark.parametrize(("words", "said"), [
    *((f"--host 0.0.0.0 {more}".split(), "--host needs --name, by which planners open the page, and --token-file")
      for more in ("", "--name a", "--token-file a")),
    (["--port", "0"], "from 1 to 65,535"), (["--searches", "0"], "from 1 to 256"),
    (["--token-file", "."], ".: other users can read the token: chmod o= ."), (["extra"], "unrecognized arguments: e")])
def test_what_would_be_unsafe_is_rejected(words: list[str], said: str, tmp_path: pathlib.Path) -> None:
    tmp_path.chmod(0o704)
    done = run_main(web.main, ["pfs-web", *words], tmp_path)
    assert (done.status, done.stdout) == (3, "") and done.stderr.startswith("pfs-web: ") and said in done.stderr


def test_a_port_that_is_taken_and_a_missing_file_are_reported(server: Server, tmp_path: pathlib.Path) -> None:
    for words, said in ((["--port", str(server.port)], "Address already in use"),
                        (["--token-file", "none"], "No such file")):
        done = run_tool([*COMMAND, *words], tmp_path, env=environment())
        assert done.status == 4 and said in done.stderr and done.stderr.count("\n") == 1


@pytest.mark.parametrize(("words", "screen", "is_opened"), [
    ([], "DISPLAY", True), ([], "WAYLAND_DISPLAY", True), ([], "", False), (["--no-browser"], "DISPLAY", False),
    (["--token-file", "token"], "DISPLAY", False)])
def test_a_browser_opens_where_there_is_a_screen(words: list[str], screen: str, is_opened: bool,
                                                 token_file: pathlib.Path, monkeypatch: pytest.MonkeyPatch) -> None:
    """Its address is in a file, which other users can't read. The searches end with the server."""
    opened = list[str]()
    monkeypatch.setattr("webbrowser.open", lambda uri: opened.append(pathlib.Path(uri[7:]).read_text()))
    for name in ("signal.signal", "logging.basicConfig", "pfs.web.app.made", "waitress.create_server"):
        monkeypatch.setattr(name, mock.Mock())
    for name in ("DISPLAY", "WAYLAND_DISPLAY"):
        monkeypatch.setenv(name, ":0") if name == screen else monkeypatch.delenv(name, raising=False)
    monkeypatch.setattr("pfs.web.searches.Searches", made := mock.Mock())
    monkeypatch.chdir(token_file.parent)
    assert web.serve(web.words().parse_args([*words, "--port", "1"])) == 0
    assert ["url=http://127.0.0.1:1/#" in text for text in opened] == [True] * is_opened
    made.return_value.end_all.assert_called_once_with()


# Its limits

def test_what_is_too_large_is_refused_before_it_is_read(server: Server) -> None:
    for status, headers in ((413, {"Content-Length": "9437184"}), (413, {"Content-Length": "5000000000000"}),
                            (431, {"X-Long": "a" * 20_000})):
        begun = time.monotonic()
        assert server.ask("/api/read", None, "POST", **headers)[0] == status
        assert time.monotonic() - begun < 1


# What slow connections send first, and then every few seconds: parts of a head and of a body, and no request at all.
SLOW = [(b"GET / HTTP/1.1\r\nHost: a\r\nX-A: ", b"a"), (b"POST / HTTP/1.1\r\nContent-Length: 999\r\n\r\n", b"a"),
        (b"", b"\r\n")]


def is_open(line: socket.socket) -> bool:
    """Whether the server hasn't closed a connection."""
    try:
        return line.recv(1000) != b""
    except BlockingIOError:
        return True
    except ConnectionError:
        return False


@pytest.mark.seconds(40)
def test_slow_connections_keep_nobody_away() -> None:
    """200 of one address and 200 of twenty, which never end their requests: each is closed, and others are answered."""
    with served() as found, contextlib.ExitStack() as lines:
        planner = lines.enter_context(contextlib.closing(http.client.HTTPConnection("127.0.0.1", found.port)))

        def answered() -> socket.socket:
            begun = time.monotonic()
            planner.request("GET", "/")
            assert planner.getresponse().read().startswith(b"<!DOCTYPE") and found.ask("/")[0] == 200
            assert time.monotonic() - begun < 2
            return planner.sock

        def slow(address: str) -> socket.socket:
            line = lines.enter_context(socket.create_connection(("127.0.0.1", found.port), 9, (address, 0)))
            line.setblocking(False)
            return line

        own, begun = answered(), time.monotonic()
        some = [slow("127.0.0.2") for _ in range(200)]
        wait_until(lambda: sum(map(is_open, some)) == 32, "an address has as many as it may")
        some += [slow(f"127.0.0.{3 + at % 20}") for at in range(200)]
        wait_until(lambda: sum(map(is_open, some)) <= 128, "the others are closed")
        for line, (first, _) in zip(some, itertools.cycle(SLOW)):
            with contextlib.suppress(ConnectionError):
                line.sendall(first)
        while any(map(is_open, some)):
            assert time.monotonic() - begun < 40, "they are closed"
            for line, (_, more) in zip(some, itertools.cycle(SLOW)):
                with contextlib.suppress(ConnectionError):
                    line.sendall(more)
            assert answered() is own, "what is answered stays open"
            time.sleep(2)
        assert time.monotonic() - begun > 29, "a request may take its time"


# Its end

@pytest.mark.parametrize("number", [signal.SIGTERM, signal.SIGINT])
def test_a_signal_ends_it_and_its_searches_within_a_second(number: signal.Signals) -> None:
    with served() as found:
        name = found.answer("/api/search", LONG)["search"]
        wait_until(lambda: bool(found.answer(f"/api/search/{name}")["rounds"]), "the search runs")
        found.process.send_signal(number)
        begun = time.monotonic()
        assert found.process.wait(10) == 0 and time.monotonic() - begun < 4


def test_after_it_was_killed_a_new_one_answers_the_same_page(token_file: pathlib.Path) -> None:
    """The document is in the browser: its plan is asked again, and the search is over."""
    words, port = ("--token-file", str(token_file)), free_port()
    with served(*words, port=port) as first:
        name = first.answer("/api/search", LONG)["search"]
        first.process.kill()
        first.process.wait()
    with served(*words, port=port) as second:
        assert second.ask(f"/api/search/{name}")[0] == 404
        assert second.answer("/api/plan", PLAN)["makespan"] == "15.5 h"


# With a proxy

@pytest.mark.parametrize("is_behind", [True, False])
def test_a_planner_has_the_address_that_the_proxy_names(is_behind: bool) -> None:
    """Each has searches of its own. Without a proxy nobody chooses an address. The server's name may have capitals."""
    with served("--name", "Planning.Example", *["--proxy"] * is_behind) as found:
        def status(address: str) -> int:
            return found.ask("/api/search", LONG, Host="PLANNING.example", **{"X-Forwarded-For": address})[0]

        assert [status("192.0.2.1") for _ in range(9)] == [200] * 8 + [429]
        assert [status("192.0.2.2"), status("192.0.2.1")] == [200 if is_behind else 429, 429]


def test_the_recipe_for_nginx_serves_the_page_by_tls(token_file: pathlib.Path, tmp_path: pathlib.Path) -> None:
    """The page on installing names a machine and files, which are others here. It also serves the page below a path."""
    nginx, port = tool("nginx"), free_port()
    output_of([tool("openssl"), "req", "-x509", "-newkey", "rsa:2048", "-nodes", "-keyout", "key.pem", "-out",
               "cert.pem", "-days", "2", "-subj", "/CN=planning.example", "-addext",
               "subjectAltName=DNS:planning.example"], tmp_path)
    name = f"planning.example:{port}"
    with served("--name", name, "--proxy", "--token-file", str(token_file)) as found:
        text, = re.findall(r"```nginx\n(.*?)```", (TOP / "docs" / "INSTALL.md").read_text(), re.DOTALL)
        text = text.replace("8470", str(found.port)).replace("listen 443", f"listen 127.0.0.1:{port}")
        text = re.sub(r"/etc/\S+/(cert|key)\.pem", rf"{tmp_path}/\1.pem", text)
        below, = re.findall(r"    location / .*?\}\n", text, re.DOTALL)
        text = text.replace(below, below + below.replace("location /", "location /planung/").replace(
            f"{found.port};", f"{found.port}/;"))
        temporary = "".join(f"{kind}_temp_path {tmp_path}/{kind}; "
                            for kind in ("client_body", "proxy", "fastcgi", "uwsgi", "scgi"))
        (tmp_path / "conf").write_text(f"daemon off; pid {tmp_path}/pid; error_log {tmp_path}/error; events {{}}\n"
                                       f"http {{ access_log off; {temporary}\n{text}}}\n")
        proxy = subprocess.Popen([nginx, "-c", str(tmp_path / "conf"), "-e", str(tmp_path / "error")])
        try:
            wait_until(lambda: answers(port), "the proxy answers")
            curl = ["curl", "-s", "-w", "\n%{http_code}", "--cacert", "cert.pem", "--resolve", f"{name}:127.0.0.1"]
            address = f"https://{name}"
            own = ["-H", f"X-Pfs-Token: {TOKEN}", "-H", "Content-Type: application/json", "-H", f"Origin: {address}"]
            for path in ("", "/planung"):
                page = output_of([*curl, f"{address}{path}/"], tmp_path)
                links = re.findall('(?:href|src)="([^":]*)"', page)
                assert page.endswith("\n200") and len(links) == 2
                for link in links:
                    assert output_of([*curl, f"{address}{path}/{link}"], tmp_path).endswith("\n200")
                assert output_of([*curl, *own, "-d", '{"rows":[]}', f"{address}{path}/api/read"],
                                 tmp_path).endswith("\n200")
            (tmp_path / "large").write_bytes(b" " * 9 * 2**20)
            assert output_of([*curl, *own, "-d", "@large", f"{address}/api/read"], tmp_path).endswith("\n413")
        finally:
            stop(proxy)


# What systemd doesn't deny the unit, by the names of its analysis.
RIGHTS = {"SystemCallFilter_resources", "SystemCallFilter_privileged", "RootDirectoryOrRootImage", "PrivateMounts",
          "MemoryDenyWriteExecute", "RestrictAddressFamilies_AF_UNIX", "RestrictAddressFamilies_AF_INET_INET6",
          "ProcSubset", "PrivateNetwork", "DeviceAllow", "IPAddressDeny"}


def test_the_unit_is_one_that_systemd_reads_and_has_few_rights(tmp_path: pathlib.Path) -> None:
    """The page on installing writes the files that it reads, and says how much memory it may use."""
    analyze = tool("systemd-analyze")
    unit = tmp_path / "pfs-web.service"
    whole = (TOP / "debian" / "pfs-web.service").read_text()
    text = re.sub("^#.*", "", whole, flags=re.MULTILINE)
    unit.write_text(text.replace("/usr/bin/pfs-web", "/bin/true"))
    done = run_tool([analyze, "verify", "--man=no", unit], tmp_path)
    assert "pfs-web" not in done.stderr, done.stderr
    done = run_tool([analyze, "security", "--no-pager", "--offline=true", "--json=short", unit], tmp_path)
    assert {each["json_field"] for each in json.loads(done.stdout) if not each["set"]} == RIGHTS
    set_to = dict(re.findall("^(\\w+)=(.*)$", text, re.MULTILINE))
    page = (TOP / "docs" / "INSTALL.md").read_text()
    assert set_to["Environment"] == f"HOME=/var/cache/{set_to['CacheDirectory']}", "what it may write"
    assert f"at most {set_to['MemoryMax'].removesuffix('G')} GB of memory" in page
    assert (TOP / "python" / re.sub(r"man:(.*)\((.)\)", r"\1.\2", set_to["Documentation"])).is_file()
    # systemd splits $NAME at blanks, but not ${NAME}.
    options, = re.findall(r'PFS_WEB_OPTIONS=\\"(.*)\\"', whole)
    command, = re.findall("^ExecStart=(.*)", text, re.MULTILINE)
    words = re.sub(r"\$\{(\w+)\}", r"<\1>", command.replace("$PFS_WEB_OPTIONS", options)).split()[1:]
    got, (name,) = web.words().parse_args(words), re.findall("^LoadCredential=(.*):", text, re.MULTILINE)
    assert (got.host, got.name, got.token_file) == ("0.0.0.0", ["planning.example"], f"<CREDENTIALS_DIRECTORY>/{name}")
    files = [set(re.findall(r"/etc/(?:[\w/.-]*token|default/pfs-web)\b", each))
             for each in (text, page)]
    assert files[0] == files[1] and len(files[0]) == 2
