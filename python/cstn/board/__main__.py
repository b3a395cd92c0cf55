"""Serves plans as a local web page, for those who carry them out.

    python3 -m cstn.board FILE .. [--tick SECONDS [--start HH:MM] [--by-hand]] [--deadline N] [--journals FOLDER]
                                  [--port N] [--address ADDRESS] [--name HOST ..]

Each FILE is a document. Its address, with a token in it, is printed first.
"""
from __future__ import annotations

import argparse
import contextlib
import os
import secrets
import signal
import sys
import tempfile
from datetime import datetime, timedelta
from pathlib import Path
from types import FrameType

OF_DEBIAN = "/usr"
"""Where the Python is that Debian's packages serve."""
PIP = (f"`{sys.executable} -m pip install flask waitress`; Debian's packages serve /usr/bin/python3 alone, which is "
       "taken if /usr/bin stands first in PATH")

try:
    from waitress.server import create_server
    import flask  # noqa: F401
except ImportError:
    remedy = "`apt-get install python3-flask python3-waitress`" if sys.prefix == OF_DEBIAN else PIP
    sys.exit(f"cstn board: no Flask or no waitress for {sys.executable}: {remedy}")

from cstn.errors import BadDocument, CstnError
from cstn.plan import Plan
from cstn.sqlite import SqliteStore

from cstn.board.guard import MOST_BODY, Guard
from cstn.board.news import MOST
from cstn.board.plans import MOST_TITLE, Board, Document, Timing
from cstn.board.web import make_app

THREADS = MOST + 8
PORT = 8322
TOKEN = 32
"""How many signs a token has at least."""


def arguments() -> argparse.Namespace:
    parser = argparse.ArgumentParser(prog="cstn board", description="Serves plans as a local web page.")
    parser.add_argument("files", nargs="+", metavar="FILE", type=Path, help="a document")
    parser.add_argument("--tick", type=float, metavar="SECONDS", help="how long a tick is: the clock runs by itself")
    parser.add_argument("--start", metavar="HH:MM", help="when tick 0 is: of the days the one nearest to now")
    parser.add_argument("--by-hand", action="store_true", help="time passes as it is told, and not by the wall clock")
    parser.add_argument("--deadline", type=int, metavar="N", help="the deadline of each document, in ticks")
    parser.add_argument("--journals", type=Path, default=default_folder(), metavar="FOLDER", help="where journals are")
    parser.add_argument("--port", type=int, default=PORT)
    parser.add_argument("--address", default="127.0.0.1", help="where to listen: the loopback address, unless told")
    parser.add_argument("--name", action="append", default=[], metavar="HOST", help="a name that browsers ask for")
    return parser.parse_args()


def default_folder() -> Path:
    base = os.environ.get("XDG_STATE_HOME") or os.path.join(os.path.expanduser("~"), ".local", "state")
    return Path(base) / "cstn" / "board"


def timing(told: argparse.Namespace) -> Timing:
    """How time passes. Raises `ValueError`."""
    if told.tick is None:
        if told.start is not None:
            raise ValueError("--start needs --tick")
        return Timing()
    if not 0 < told.tick <= 31_536_000:
        raise ValueError("--tick is a number of seconds above 0")
    start = None if told.start is None else nearest(told.start, datetime.now().astimezone())
    return Timing(told.tick, start, told.by_hand)


def nearest(clock: str, now: datetime) -> datetime:
    """The moment nearest to now at which it is so late."""
    at = datetime.strptime(clock, "%H:%M")
    today = now.replace(hour=at.hour, minute=at.minute, second=0, microsecond=0)
    return min((today + timedelta(days=day) for day in (-1, 0, 1)), key=lambda it: abs(it - now))


def documents(files: list[Path], deadline: int | None) -> dict[str, Document]:
    """The documents by their titles. Raises `BadDocument`, `OSError`, `ValueError`."""
    found: dict[str, Document] = {}
    for file in files:
        title = "".join(it if it.isprintable() else "_" for it in file.stem)[:MOST_TITLE]
        if title in found:
            raise ValueError(f"two documents are called {title}")
        try:
            plan = Plan.load(file, deadline=deadline)
        except BadDocument as error:
            raise ValueError(f"{file}: {error}") from error
        found[title] = Document(title, plan)
    return found


def token_of(folder: Path) -> str:
    """The token of the folder, which stays, so that a page that is open goes on after a restart."""
    file = folder / "token"
    if not file.exists():
        with tempfile.NamedTemporaryFile("w", dir=folder, encoding="ascii") as made:
            made.write(secrets.token_urlsafe(24))
            made.flush()
            os.fsync(made.fileno())
            with contextlib.suppress(FileExistsError):
                os.link(made.name, file)
    token = file.read_text(encoding="ascii").strip()
    if len(token) < TOKEN:
        raise ValueError(f"{file} has no token of {TOKEN} signs: remove it, and another one is made")
    return token


def hosts(address: str, port: int, names: list[str]) -> frozenset[str]:
    """The names under which the board may be asked for: those of `--name` also as they stand, for a server before it.
    Of a board that listens everywhere these count, and those of the machine's own."""
    known = {"127.0.0.1", "localhost", "[::1]", f"[{address}]" if ":" in address else address, *names}
    known -= {"0.0.0.0", "[::]"}
    return frozenset(f"{it}:{port}" for it in known) | frozenset(known if port == 80 else names)


def serve(told: argparse.Namespace) -> None:
    os.umask(0o077)  # Journals and the token are for their owner alone.
    os.makedirs(told.journals, mode=0o700, exist_ok=True)
    found = documents(told.files, told.deadline)
    store = SqliteStore(told.journals / "journals.sqlite")
    board = Board(store, found, timing(told))
    token = token_of(told.journals)
    guard = Guard(token, hosts(told.address, told.port, told.name))
    server = create_server(
        make_app(board, guard), host=told.address, port=told.port, threads=THREADS, ident=None, connection_limit=200,
        channel_timeout=60, max_request_header_size=16384, max_request_body_size=MOST_BODY, channel_request_lookahead=1)
    shown = f"[{told.address}]" if ":" in told.address else told.address
    print(f"http://{shown}:{told.port}/{token}/", flush=True)
    signal.signal(signal.SIGTERM, stop)
    try:
        server.run()
    finally:
        board.close()
        store.close()


def stop(_number: int, _frame: FrameType | None) -> None:
    raise SystemExit(0)


def main() -> None:
    try:
        serve(arguments())
    except (CstnError, OSError, ValueError) as error:
        sys.exit(f"cstn board: {error}")


if __name__ == "__main__":
    main()
