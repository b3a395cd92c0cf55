"""Names and labels as the program's lines have them."""
from __future__ import annotations

from collections.abc import Mapping
from urllib.parse import unquote_to_bytes

Label = Mapping[str, bool]
"""What has to be true and false: letters with their values. The empty one always holds."""


def printed(name: str) -> str:
    """A name as lines have it: bytes up to 32, 127 and `%` are written as `%` and two digits."""
    return "".join(c if c > "\x7f" or "!" <= c <= "~" and c != "%" else f"%{ord(c):02X}" for c in name)


def plain(name: str) -> str:
    """The name that a line's form of it means."""
    return unquote_to_bytes(name.encode()).decode()


def written(label: Label) -> str:
    """A label as lines have it: `-` for the empty one, else as in `p!q`."""
    return "".join(letter if label[letter] else "!" + letter for letter in sorted(label)) or "-"


def literals(text: str) -> dict[str, bool]:
    """The letters of a label in any spelling of documents and lines, each with its value."""
    label, value = {}, True
    for c in text:
        if c in "¬!":
            value = False
        elif c.isascii() and c.isalpha():
            label[c], value = value, True
    return label
