"""The board over HTTP: each address begins with the token, what is told is JSON, and so is each answer."""
from __future__ import annotations

import re
from collections.abc import Callable
from pathlib import Path
from typing import Any

from flask import Flask, Response, abort, jsonify, request, send_from_directory
from werkzeug.exceptions import HTTPException

from cstn.errors import Busy, Changed, CstnError, Moved, NotKept, OutOfTime, Refused, Unavailable

from cstn.board.guard import HEADERS, MOST_BODY, Asked, Guard
from cstn.board.plans import Board
from cstn.board.reading import Wrong
from cstn.board.words import shown

STATIC = Path(__file__).resolve().parent / "static"
PLAN = re.compile(r"[0-9a-f]{16}")
STATUSES: tuple[tuple[type[Exception], int], ...] = (
    (Wrong, 400), (KeyError, 404), (Moved, 409), (Refused, 409), (NotKept, 507), (Busy, 503), (OutOfTime, 504),
    (Unavailable, 503), (Changed, 500), (CstnError, 500))
WORDS: dict[type[Exception], str] = {
    KeyError: "There is no such plan.",
    Moved: "Another browser has told something since. Look again.",
    NotKept: "The journal could not be written, so nothing was told. Is the disk full?",
    OutOfTime: "The question took too long. Nothing was told.",
}


def make_app(board: Board, guard: Guard) -> Flask:
    """The board as an application."""
    app = Flask("cstn.board", static_folder=None, template_folder=None)
    app.config["MAX_CONTENT_LENGTH"] = MOST_BODY
    app.before_request(lambda: heard(guard))
    app.after_request(with_headers)
    app.register_error_handler(Exception, failed)
    Routes(app, board, guard).add()
    return app


def heard(guard: Guard) -> Response | None:
    """Nothing where a request is heard, else the answer to one that is not."""
    if request.method not in ("GET", "POST"):
        abort(405)
    asked = Asked(request.headers.get("Host", ""), request.headers.get("Origin"), request.headers.get("Sec-Fetch-Site"),
                  request.method != "GET", request.mimetype == "application/json",
                  request.headers.get("Sec-Fetch-Mode") == "navigate")
    if not guard.is_token(request.path.split("/")[1]):
        abort(404)
    why = guard.why_not(asked)
    return None if why is None else error_response(why, 403)


def with_headers(response: Response) -> Response:
    for name, value in HEADERS.items():
        response.headers[name] = value
    return response


def error_response(words: str, status: int) -> Response:
    response = jsonify(error=shown(words))
    response.status_code = status
    return response


def failed(error: Exception) -> Response:
    """The answer after an error: words, and no more of the inside than they say."""
    if isinstance(error, HTTPException):
        status = error.code or 500
        return error_response({404: "There is nothing here.", 413: "That is too long."}.get(status, error.name), status)
    for kind, status in STATUSES:
        if isinstance(error, kind):
            return error_response(WORDS.get(kind, str(error)), status)
    request.environ["wsgi.errors"].write(f"{type(error).__name__}: {error}\n")
    return error_response("The board has a fault. Nothing was told.", 500)


def body() -> dict[str, Any]:
    try:
        data = request.get_json(silent=True)
    except RecursionError as error:
        raise Wrong("that is too deep") from error
    if not isinstance(data, dict):
        raise Wrong("a request is an object of JSON")
    return data


def chosen() -> dict[str, bool]:
    """Which outcomes the picture supposes: `i=true`."""
    return {letter: value == "true" for letter, value in request.args.items() if re.fullmatch("[A-Za-z]", letter)}


class Routes:
    """The addresses of the board."""

    def __init__(self, app: Flask, board: Board, guard: Guard) -> None:
        self.app, self.board, self.guard = app, board, guard

    def add(self) -> None:
        routes: tuple[tuple[str, Callable[..., Response], str], ...] = (
            ("/", self.index, "GET"), ("/static/<name>", self.static, "GET"), ("/api/plans", self.plans, "GET"),
            ("/api/plans", self.begin, "POST"), ("/api/plans/<plan>", self.page, "GET"),
            ("/api/plans/<plan>/tell", self.tell, "POST"), ("/api/plans/<plan>/try", self.what_if, "POST"),
            ("/api/plans/<plan>/attempt", self.attempt, "POST"),
            ("/api/plans/<plan>/correct", self.correct, "POST"), ("/api/plans/<plan>/journal", self.journal, "GET"),
            ("/api/events", self.events, "GET"),
        )
        for path, call, method in routes:
            self.app.add_url_rule("/<token>" + path, f"{method} {path}", self.without_token(call), methods=[method])

    def without_token(self, call: Callable[..., Response]) -> Callable[..., Response]:
        """A call whose token was looked at before, and whose plan has the form of one."""
        def called(token: str, plan: str | None = None, **rest: str) -> Response:
            if plan is None:
                return call(**rest)
            if PLAN.fullmatch(plan) is None:
                raise KeyError(plan)
            return call(plan=plan, **rest)
        return called

    def index(self) -> Response:
        return send_from_directory(STATIC, "index.html")

    def static(self, name: str) -> Response:
        return send_from_directory(STATIC, name)

    def plans(self) -> Response:
        return jsonify(self.board.list())

    def begin(self) -> Response:
        data = body()
        if not isinstance(data.get("document"), str) or not isinstance(data.get("title"), str):
            raise Wrong("a plan has a document and a title")
        return jsonify(id=self.board.begin(data["document"], data["title"]))

    def page(self, plan: str) -> Response:
        return jsonify(self.board.page(plan, chosen()))

    def tell(self, plan: str) -> Response:
        return jsonify(self.board.tell(plan, body()))

    def what_if(self, plan: str) -> Response:
        return jsonify(self.board.what_if(plan, body()))

    def attempt(self, plan: str) -> Response:
        return jsonify(self.board.attempt(plan, body()))

    def correct(self, plan: str) -> Response:
        return jsonify(self.board.correct(plan, body()))

    def journal(self, plan: str) -> Response:
        response = Response(self.board.journal(plan), mimetype="text/plain")
        response.headers["Content-Disposition"] = f'attachment; filename="{plan}.txt"'
        return response

    def events(self) -> Response:
        reader = self.board.news.listen()
        if reader is None:
            return error_response("Too many pages are open: this one asks now and then.", 503)
        gone = request.environ.get("waitress.client_disconnected", lambda: False)
        response = Response(self.board.news.stream(reader, gone), mimetype="text/event-stream")
        response.headers["X-Accel-Buffering"] = "no"
        return response
