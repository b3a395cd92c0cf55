"""The two programs that there may be, the one that was built and the released one, and what is noted beside each."""
import hashlib
import os
import subprocess
from typing import NamedTuple

TOP = os.path.dirname(os.path.dirname(os.path.realpath(__file__)))
BUILT = os.path.join(TOP, "crates", "cstn", "out", "cstn")
MADE_FROM = os.path.join(TOP, "crates", "cstn", "out", "made-from")
RELEASED = os.path.join(TOP, "release", "cstn")
PAGE = os.path.join(TOP, "release", "README.md")


class Failed(Exception):
    """Why something was not done."""


class Note(NamedTuple):
    """The checksum of a program's sources, the `rt version` of the kit that made it, and the SHA-256 of its file."""

    sources: str
    kit: str
    program: str

    def lines(self):
        return [f"{word} {value}" for word, value in self._asdict().items()]


def note_in(path):
    """The note in a file, some lines of which begin with the words of one."""
    with open(path, encoding="utf-8") as lines:
        parts = [line.strip().partition(" ") for line in lines]
    found = {word: value for word, _, value in parts if word in Note._fields}
    if len(found) < len(Note._fields):
        raise Failed(f"{os.path.relpath(path, TOP)} does not note what its program was made from")
    return Note(**found)


def sum_of(path):
    with open(path, "rb") as file:
        return hashlib.sha256(file.read()).hexdigest()


def printed(*words):
    """What a command prints, without the end of its last line."""
    try:
        done = subprocess.run(words, cwd=TOP, stdin=subprocess.DEVNULL, stdout=subprocess.PIPE, text=True, check=False)
    except OSError as error:
        raise Failed(f"{words[0]}: {error.strerror}") from error
    if done.returncode or not done.stdout.strip():
        raise Failed(f"`{' '.join(words)}` failed")
    return done.stdout.strip()


def kit_at_hand():
    try:
        return printed("rt", "version")
    except Failed as error:
        raise Failed("`rt`, the command of a kit of Rattle, is not on the PATH") from error


def sources_at_hand():
    try:
        return printed(os.path.join(TOP, "tools", "checksum"))
    except Failed as error:
        raise Failed("the sources cannot be read") from error


def write(path, text):
    """Writes a file as a whole, or leaves it as it was."""
    with open(f"{path}.new", "w", encoding="utf-8") as file:
        file.write(text)
    os.replace(f"{path}.new", path)
