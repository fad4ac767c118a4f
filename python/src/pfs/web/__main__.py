"""The program `pfs-web`, which serves the page for planners."""
from __future__ import annotations

import argparse
import logging
import os
import pathlib
import re
import secrets
import signal
import stat
import sys
import tempfile
import webbrowser

from pfs.base.optional import optional
from pfs.commands.cli import CommandLine, Misused, ShowVersion, number, run

# A shorter token can be guessed.
TOKEN = re.compile(r"[A-Za-z0-9_-]{20,200}")


def words() -> argparse.ArgumentParser:
    """Return the command line."""
    parser = CommandLine(prog="pfs-web", description="Serves a page on which planners plan a table of times.")
    add = parser.add_argument
    add("--version", action=ShowVersion)
    add("--port", type=number(1, 65_535), default=8470, metavar="P", help="the port on which it listens, else 8470")
    add("--host", default="127.0.0.1", metavar="ADDRESS",
        help="the address at which it listens, else this machine alone; another one needs --name and --token-file")
    add("--name", action="append", default=[], metavar="NAME",
        help="a name of this machine in the addresses that planners open; may be given more than once")
    add("--token-file", metavar="FILE",
        help="a file with the token, which other users can't read: 20 to 200 letters, digits, - and _; else a new "
        "one at each start")
    add("--proxy", action="store_true",
        help="requests come from a proxy on this machine, which names the planner's address (X-Forwarded-For)")
    add("--searches", type=number(1, 256), default=max(1, len(os.sched_getaffinity(0)) - 1), metavar="N",
        help="how many searches run at once, else one less than there are processors")
    add("--no-browser", action="store_true", help="open no browser")
    return parser


def token_in(path: str | None) -> str:
    """Return the token of a file, or a new one."""
    if path is None:
        return secrets.token_urlsafe(24)
    if os.stat(path).st_mode & stat.S_IRWXO:
        raise Misused(f"{path}: other users can read the token: chmod o= {path}")
    text = pathlib.Path(path).read_text("utf-8", "replace").strip()
    if not TOKEN.fullmatch(text):
        raise Misused(f"{path}: a token has 20 to 200 letters, digits, - and _")
    return text


def serve(given: argparse.Namespace) -> int:
    """Serve until a signal ends it, and return the exit status."""
    if given.host != "127.0.0.1" and not (given.name and given.token_file):
        raise Misused("--host needs --name, by which planners open the page, and --token-file")
    optional("flask", "pfs-web")
    waitress = optional("waitress", "pfs-web")
    from pfs.web.app import MOST_BODY, made
    from pfs.web.connections import LONGEST, PACE, Connection
    from pfs.web.searches import Searches
    logging.basicConfig(level=logging.INFO, format="%(asctime)s %(message)s")
    searches, token = Searches(given.searches), token_in(given.token_file)
    own = [*given.name, "127.0.0.1", "localhost"]
    # A proxy passes names on without its port.
    hosts = {name.lower() for name in (*given.name, *(f"{name}:{given.port}" for name in own))}
    proxy = {"trusted_proxy": "127.0.0.1", "trusted_proxy_headers": {"x-forwarded-for"}} if given.proxy else {}
    waitress.server.BaseWSGIServer.channel_class = Connection
    server = waitress.create_server(
        made(hosts, token, searches), host=given.host, port=given.port, threads=16, ident=None, connection_limit=200,
        channel_timeout=LONGEST, cleanup_interval=PACE, max_request_body_size=MOST_BODY,
        max_request_header_size=16_384, clear_untrusted_proxy_headers=True, **proxy)
    signal.signal(signal.SIGTERM, signal.default_int_handler)
    address = f"http://{own[0]}:{given.port}/#{token if given.token_file is None else ''}"
    print(address if given.token_file is None else f"{address} and the token in {given.token_file}", flush=True)
    with tempfile.NamedTemporaryFile("w", prefix="pfs-web-", suffix=".html") as file:
        if not given.no_browser and given.token_file is None and os.environ.keys() & {"DISPLAY", "WAYLAND_DISPLAY"}:
            # Other users can read command lines, but not this file.
            print(f'<meta http-equiv="refresh" content="0; url={address}">', file=file, flush=True)
            webbrowser.open(pathlib.Path(file.name).as_uri())
        server.run()
    searches.end_all()
    return 0


def main() -> int:
    """Run the program, and return its exit status."""
    return run("pfs-web", lambda: serve(words().parse_args(sys.argv[1:])))


if __name__ == "__main__":
    sys.exit(main())
