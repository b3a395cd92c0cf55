"""Cases as text: documents, the words of a call, and the text that is wanted, many in a file.

A case begins with a line `#### NAME`. Then come its files, each behind a line `<<<< NAME`, the call behind `$$$$`, in
which these names stand for the files and `examples/..` for those of the repository, and behind `>>>> STATUS` what it
writes. A file with the name `-` is the standard input.
"""
import os
import re
import shlex
from collections.abc import Iterator
from dataclasses import dataclass, field
from pathlib import Path

ROOT = Path(__file__).resolve().parents[2]
MARKS = ("#### ", "<<<< ", "$$$$ ", ">>>> ")
LINE = re.compile(r"[^\n]*\n|[^\n]+")


@dataclass
class Case:
    """A call with its files, and how it is to end."""

    name: str
    files: dict[str, str] = field(default_factory=dict)
    words: list[str] = field(default_factory=list)
    status: int = 0
    wanted: str = ""

    def written(self) -> str:
        """The case as it stands in its file."""
        parts = [f"#### {self.name}\n"]
        parts += [f"<<<< {name}\n{guarded(text)}" for name, text in self.files.items()]
        return "".join([*parts, f"$$$$ {shlex.join(self.words)}\n", f">>>> {self.status}\n", guarded(self.wanted)])


def guarded(text: str) -> str:
    """A text as a part of a case: one that does not end a line is ended with a mark."""
    return text if text.endswith("\n") or not text else f"{text}\\\n"


def plain(text: str) -> str:
    return text[:-2] if text.endswith("\\\n") else text


def read_cases(text: str) -> Iterator[Case]:
    """The cases of a file."""
    case, into = None, ""
    parts: list[str] = []

    def close() -> None:
        if case and into == "wanted":
            case.wanted = plain("".join(parts))
        elif case and into:
            case.files[into] = plain("".join(parts))

    for line in LINE.findall(text):
        mark = next((it for it in MARKS if line.startswith(it)), "")
        if not mark:
            parts.append(line)
            continue
        close()
        value, parts, into = line[len(mark) :].rstrip("\n"), [], ""
        if mark == "#### ":
            if case:
                yield case
            case = Case(value)
        elif case and mark == "$$$$ ":
            case.words = shlex.split(value)
        elif case and mark == ">>>> ":
            case.status, into = int(value), "wanted"
        else:
            into = value
    close()
    if case:
        yield case


def placed(case: Case, folder: str) -> list[str]:
    """Writes the files of a case into a folder; the words of its call with their paths."""
    for name, text in case.files.items():
        if name != "-":
            Path(folder, name).write_bytes(text.encode(errors="surrogateescape"))
    return [os.path.join(folder, it) if it in case.files and it != "-" else str(ROOT / it)
            if it.startswith("examples/") else it for it in case.words]
