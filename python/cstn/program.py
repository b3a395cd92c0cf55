"""Where the program is, and what it answers to one call."""
from __future__ import annotations

import os
import shutil
import subprocess
import tempfile
from collections.abc import Iterable, Iterator
from contextlib import contextmanager
from functools import lru_cache
from pathlib import Path

from cstn.answers import Verdict, Wide, parse
from cstn.errors import BadDocument, NoProgram, OutOfTime, Unavailable
from cstn.explain.names import harmless
from cstn.refused import why_refused

LINES = "1"
"""The version of the program's lines that this package reads."""
FOLLOW = "follow 1"
"""The version of the lines of `follow`, as a session writes it first."""
CAP, MOST_CAP = 65536, 4194304
"""How many bounds a check may derive: by default, and at most."""
MOST_EXPLAINED = 1_000_000
"""How many bytes a document may have whose refusal is put into words."""
MEANS = "which means: "
SECONDS = 10.0
"""How long a question may take by default."""


def candidates() -> Iterator[Path]:
    """Where a program may be: the environment's, that of this package, the released one beside it, one on the path."""
    if named := os.environ.get("CSTN"):
        yield Path(named)
        return
    here = Path(__file__).resolve().parent
    yield here / "released" / "cstn"
    yield here.parent.parent / "release" / "cstn"
    if found := shutil.which("cstn"):
        yield Path(found)


@lru_cache(maxsize=None)
def find(named: str | None = None) -> str:
    """The path of the program: the one that is named, or that `CSTN` of the environment names, or the first there is.

    Raises `NoProgram` where there is none, or it writes other lines than these.
    """
    for path in [Path(named)] if named else candidates():
        if path.is_file() and os.access(path, os.X_OK):
            version(str(path.absolute()))
            return str(path.absolute())
    raise NoProgram(f"no program at {named}" if named else "no program `cstn`: set CSTN to its path")


def version(program: str) -> int:
    """The number of the program's release. Raises `NoProgram` where its lines are of another version."""
    try:
        said = subprocess.run([program, "--version"], stdin=subprocess.DEVNULL, capture_output=True, timeout=SECONDS,
                              check=False).stdout.decode(errors="replace").split("\n")
    except (OSError, subprocess.TimeoutExpired) as error:
        raise NoProgram(f"{program} cannot be asked for its version: {error}") from error
    if said[1:] != [f"lines {LINES}", ""] or not said[0].startswith("release "):
        raise NoProgram(f"{program} answers {said[0]!r} for its version, not `lines {LINES}`")
    return int(said[0].split(" ")[1])


@contextmanager
def in_memory(document: bytes) -> Iterator[int]:
    """A file in memory with the document, so that no file can change under a process that reads it."""
    if hasattr(os, "memfd_create"):
        file = os.memfd_create("document")
    else:
        file, path = tempfile.mkstemp()
        os.unlink(path)
    try:
        os.truncate(file, 0)
        written = 0
        while written < len(document):
            written += os.write(file, document[written:])
        yield file
    finally:
        os.close(file)


def options(deadline: int | None, cap: int | None) -> list[str]:
    """The words behind FILE."""
    words = [] if deadline is None else ["--deadline", str(deadline)]
    return words if cap is None else [*words, "--cap", str(cap)]


def ask(command: str, document: bytes, words: Iterable[str] = (), *, seconds: float | None = SECONDS,
        program: str | None = None) -> tuple[int, str]:
    """The status and the text of one call of the program over a document. Raises `OutOfTime`, `BadDocument`,
    `Unavailable`, and `NoProgram` where it has no such command."""
    with in_memory(document) as file:
        call = [find(program), command, f"/proc/self/fd/{file}", *words]
        try:
            done = subprocess.run(call, stdin=subprocess.DEVNULL, capture_output=True, timeout=seconds, check=False,
                                  pass_fds=[file])
        except subprocess.TimeoutExpired as error:
            raise OutOfTime(f"no answer to {command} within {seconds} s") from error
        except OSError as error:
            raise Unavailable(f"{call[0]} cannot be started: {error}") from error
    text = done.stdout.decode(errors="replace")
    if done.returncode == 2:
        raise NoProgram(f"the program has no command `{command}`: it is older than this package")
    if done.returncode == 3:
        raise refused_document(text.rstrip("\n"), document)
    if done.returncode not in (0, 1, 4, 10):
        raise Unavailable(f"{command} ended with status {done.returncode}: {text[-200:].strip()}")
    return done.returncode, text


def check(document: bytes, deadline: int | None = None, cap: int = CAP, *, seconds: float | None = SECONDS,
          program: str | None = None) -> Verdict:
    """The verdict on a document as it stands."""
    _, text = ask("check", document, options(deadline, cap), seconds=seconds, program=program)
    try:
        verdict = parse("check", text.split("\n", 1)[0])
    except ValueError as error:
        raise Unavailable(str(error)) from error
    if not isinstance(verdict, Verdict):
        raise Unavailable(f"check was answered {text[:200]!r}")
    return verdict


def cases(document: bytes, deadline: int | None = None, cap: int = CAP, *, seconds: float | None = SECONDS,
          program: str | None = None) -> list[str] | Verdict | Wide:
    """The lines of the tree of a document by cases, or why there is none."""
    _, text = ask("cases", document, options(deadline, cap), seconds=seconds, program=program)
    first, *lines = text.removesuffix("\n").split("\n")
    try:
        answer = parse("cases", first)
    except ValueError as error:
        raise Unavailable(str(error)) from error
    if isinstance(answer, Verdict) and answer.is_yes:
        return lines
    if not isinstance(answer, Verdict | Wide):
        raise Unavailable(f"cases was answered {first[:200]!r}")
    return answer


def refused_document(text: str, document: bytes) -> BadDocument:
    """What the program's line `document ..` or `plan ..` says, with the place as line and column, or as line; and why,
    in words."""
    words = text.split(" ")
    if words[0] == "plan":
        line, code = (int(words[2]), words[3]) if words[1] == "line" else (None, words[1])
        why, shown = why_refused(document, text)
        return BadDocument(code, text, line, None, why, tuple(shown))
    code = words[1] if len(words) > 1 else "?"
    why, shown = why_no_document(document, text)
    if len(words) == 4 and words[2] == "at" and words[3].isdigit():
        before = document[:int(words[3])]
        column = len(before) - (before.rfind(b"\n") + 1) + 1
        return BadDocument(code, text, before.count(b"\n") + 1, column, why, tuple(shown))
    return BadDocument(code, text, None, None, why, tuple(shown))


def why_no_document(document: bytes, answer: str) -> tuple[str, list[str]]:
    """Why the program refuses a document, as `explain` says it: in words, and lines to look at; nothing of a large
    one."""
    from cstn.explain.documents import Reader
    from cstn.explain.refusals import tell_refused
    told = tell_refused(answer, Reader(document)) if len(document) <= MOST_EXPLAINED else []
    means = [it for it in told if it.startswith(MEANS)][:1]
    return "".join(means).removeprefix(MEANS), [harmless(it) for it in told if it not in means]
