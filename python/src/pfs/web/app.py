"""The server: who may send requests, and the responses. It stores nothing: the browser sends its document with each
request, and a search is forgotten some minutes after nobody asks for it."""
from __future__ import annotations

import binascii
import hmac
import io
import logging
from importlib.resources import files
from typing import Any
from urllib.parse import urlsplit

from flask import Flask, Response, request, send_file
from werkzeug.exceptions import HTTPException

from pfs.base.names import shown
from pfs.base.wording import as_controls
from pfs.schedules.chart import policy_of
from pfs.web import plans
from pfs.web.apart import Apart, Wrong
from pfs.web.searches import Searches

# Bytes of a request.
MOST_BODY = 8 * 2**20
HEADERS = {"X-Content-Type-Options": "nosniff", "Cache-Control": "no-store", "Referrer-Policy": "no-referrer",
           "Cross-Origin-Opener-Policy": "same-origin", "Cross-Origin-Resource-Policy": "same-origin"}
CALLS = {"read": plans.read, "order": plans.order, "plan": plans.told, "rest": plans.rest, "file": plans.file}


def policy() -> str:
    """What the page may do: run its own scripts, and the chart's in a frame that inherits this. Nothing comes from
    elsewhere, and no text becomes a script."""
    style, script = policy_of(files("pfs").joinpath("chart.html").read_text("utf-8")).split("; ")[1:3]
    return (f"default-src 'none'; {script} 'self'; {style} 'self'; connect-src 'self'; img-src data:; "
            "base-uri 'none'; form-action 'none'; frame-ancestors 'none'")


def check(names: set[str], token: str) -> None:
    """Reject a request of others. Pages of other sites can send requests too, also under a name that leads here."""
    if request.host.lower() not in names:
        raise Wrong("The server has another name: see --name.", 421)
    if (request.content_length or 0) > MOST_BODY:
        raise Wrong("The request is too large.", 413)
    if not request.path.startswith("/api/"):
        return
    origin = request.headers.get("Origin")
    if origin is not None and urlsplit(origin).netloc.lower() != request.host.lower() \
            or request.headers.get("Sec-Fetch-Site", "none") not in ("none", "same-origin"):
        raise Wrong("Pages of other sites may not ask.", 403)
    if not hmac.compare_digest(request.headers.get("X-Pfs-Token", "").encode(), token.encode()):
        raise Wrong("The token is missing or wrong: ask for the whole address of the page.", 403)
    if request.method == "POST" and request.mimetype != "application/json":
        raise Wrong("Send JSON.", 415)


def given() -> dict[str, Any]:
    """What a request says."""
    found: dict[str, Any] = plans.field({"body": request.get_json()}, "body", dict, {})
    return found


def failed(error: Exception) -> tuple[dict[str, str], int]:
    """The response to a request that failed. A ValueError of the package says what the planner has to change."""
    if isinstance(error, HTTPException):
        error = Wrong(error.name, error.code or 500)
    elif isinstance(error, (UnicodeError, RecursionError, binascii.Error)):
        error = plans.OTHER_FORM
    elif isinstance(error, MemoryError):
        error = Wrong("the server has too little memory for this", 503)
    elif not isinstance(error, (ValueError, ImportError)):
        logging.exception("a request failed", exc_info=error)
        error = Wrong("the server failed; its log says why", 500)
    status: int = getattr(error, "status", 422)
    if status in (403, 421):
        # What comes after this part may be a secret.
        path = shown("/".join(request.path.split("/")[:3]))
        logging.info("refused: %d %s %s %s", status, request.method, path, request.remote_addr)
    return {"error": as_controls(str(error))}, status


def made(names: set[str], token: str, searches: Searches) -> Flask:
    """The application, for requests to these names with this token."""
    app, apart, headers = Flask(__name__), Apart(), {"Content-Security-Policy": policy(), **HEADERS}
    app.register_error_handler(Exception, failed)
    app.before_request(lambda: check(names, token))
    app.add_url_rule("/", view_func=lambda: app.send_static_file("page.html"))
    app.add_url_rule("/api/search", "add", lambda: searches.add(given(), request.remote_addr or ""), methods=["POST"])
    app.add_url_rule("/api/search/<name>", view_func=searches.told)
    app.add_url_rule("/api/search/<name>", view_func=searches.end, methods=["DELETE"])

    @app.after_request
    def add_headers(answer: Response) -> Response:
        answer.headers.update(headers)
        return answer

    @app.post(f"/api/<any({', '.join(CALLS)}):what>")
    def made_apart(what: str) -> Response | dict[str, Any]:
        found: bytes | dict[str, Any] = apart(CALLS[what], asked := given())
        return found if isinstance(found, dict) else \
            send_file(io.BytesIO(found), download_name=f"plan.{asked['kind']}", as_attachment=True)

    return app
