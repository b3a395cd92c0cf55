"""A document cut into the tokens that the checker cuts it into: what of it is passed over, and on which lines things
stand."""
import bisect
import difflib
import functools
import re

from .names import plain, shown
from .shapes import Data

USED = {"graph": ("Deadline",), "node": ("Obs", "Reaction", "Label"), "edge": ("Type", "LabeledValues")}
PLACES = {"graphml": ("graph", "key"), "graph": ("node", "edge", "data"), "node": ("data",), "edge": ("data",)}
MOST_BYTES = 8388608
LONGEST_ID = 64

SPACE = rb"[ \t\r\n]"
NAME = rb"[A-Za-z_\x80-\xff][A-Za-z0-9_.:\x80-\xff-]*+"
VALUE = rb"""(?:"([^"<]*+)"|'([^'<]*+)')"""
ATTRIBUTE = re.compile(SPACE + rb"++(" + NAME + rb")" + SPACE + rb"*+=" + SPACE + rb"*+" + VALUE)
TOKEN = re.compile(rb"<!--.*?-->|</(?P<end>" + NAME + rb")" + SPACE + rb"*+>|(?P<text>[^<]++)|<(?P<start>"
                   + NAME + rb")(?P<more>(?:" + ATTRIBUTE.pattern + rb")*+)" + SPACE + rb"*+(?P<closed>/?)>", re.S)


def attributes(text: bytes) -> dict[str, str]:
    """The attributes at the start of a text, by their names, up to the first that is none."""
    found: dict[str, str] = {}
    at = 0
    while token := ATTRIBUTE.match(text, at):
        value = (token[2] or token[3] or b"").decode(errors="replace")
        found.setdefault(token[1].decode(errors="replace"), plain(value))
        at = token.end()
    return found


@functools.lru_cache(maxsize=None)
def near(word: str, words: tuple[str, ...]) -> str | None:
    """One of these words that this one may have been meant for, or none."""
    if len(word) > LONGEST_ID:
        return None
    found = difflib.get_close_matches(word.lower(), [it.lower() for it in words], 1, 0.7)
    return next(it for it in words if it.lower() == found[0]) if found else None


def meant(word: str | None, words: tuple[str, ...]) -> str:
    found = near(word or "", words)
    return f"; did you mean {found}?" if found else ""


class Element:
    """An element that has begun: its name where it counts, and else nothing."""

    def __init__(self, kind: str, name: str, place: int, more: dict[str, str]) -> None:
        self.kind, self.name, self.place, self.attributes = kind, name, place, more
        self.key: str | None = None
        self.texts: list[bytes] = []
        self.data: dict[str, str] = {}


class Reader:
    """Walks a document, notes what the checker passes over, each with its line, and keeps the line of each constraint.

    It goes as far as there are tokens that stand in one another as they should; `unclosed` is what was not closed.
    """

    def __init__(self, text: bytes) -> None:
        self.text, self.breaks = text, [it.start() for it in re.finditer(b"\n", text)]
        self.rows: list[int] = []
        self.notes: list[tuple[int, str]] = []
        self.lines: dict[tuple[str | None, str], int] = {}
        self.nodes: dict[str | None, int] = {}
        self.observers: list[tuple[str, int]] = []
        self.keys: list[tuple[int, int, str | None]] = []
        self.open: list[Element] = []
        self.unclosed = ""
        self.stopped: int | None = None
        self.walk()

    def line(self, place: int) -> int:
        """The number of the line of a byte."""
        return bisect.bisect_left(self.breaks, place) + 1

    def row(self, number: int) -> bytes:
        """The bytes of a line."""
        first = self.breaks[number - 2] + 1 if number > 1 else 0
        return self.text[first : self.breaks[number - 1] if number <= len(self.breaks) else len(self.text)]

    def walk(self) -> None:
        at = 3 if self.text.startswith(b"\xef\xbb\xbf") else 0
        if self.text.startswith(b"<?xml", at):
            end = self.text.find(b"?>", at)
            at = end + 2 if end >= 0 else len(self.text)
        while at < len(self.text):
            token = TOKEN.match(self.text, at)
            if not token or not self.take(token, at):
                self.stop(at)
                return
            at = token.end()
        if self.open:
            self.stop(at)

    def stop(self, at: int) -> None:
        self.stopped = at
        if self.open and (at == len(self.text) or self.text.startswith(b"</", at)):
            self.unclosed = f"{shown(self.open[-1].name)} of line {self.line(self.open[-1].place)}"

    def take(self, token: re.Match[bytes], at: int) -> bool:
        """Takes a token; whether an end tag is that of what has begun last."""
        if token["text"] is not None and self.open and self.open[-1].key:
            self.open[-1].texts.append(token["text"])
        elif token["start"] is not None:
            self.start(token["start"].decode(errors="replace"), attributes(token["more"]), at)
        if token["end"] is not None and (not self.open or self.open[-1].name != token["end"].decode(errors="replace")):
            return False
        if token["end"] is not None or token["start"] is not None and token["closed"]:
            self.end(self.open.pop())
        return True

    def note(self, what: str, place: int) -> None:
        self.notes.append((self.line(place), what))

    def start(self, name: str, more: dict[str, str], place: int) -> None:
        above = self.open[-1].kind if self.open else ""
        counts = not self.open or name in PLACES.get(above, ())
        element = Element(name if counts else "", name, place, more)
        self.open.append(element)
        if above in PLACES and not counts:
            self.note(f"the element {shown(name)} in {above} is passed over{meant(name, PLACES[above])}", place)
        elif name == "data" and above in USED:
            self.start_data(element, above)
        elif counts and name == "node":
            self.nodes.setdefault(more.get("id"), place)
            self.lines.setdefault((more.get("id"), "id"), self.line(place))

    def start_data(self, element: Element, above: str) -> None:
        key, owner = element.attributes.get("key"), self.open[-2]
        self.keys.append((owner.place, element.place, key))
        if key not in USED[above]:
            told = f"the key {shown(key)}" if key is not None else "no key"
            self.note(f"data with {told} in {above} is passed over{meant(key, USED[above])}", element.place)
            return
        element.key = key
        if above == "node":
            self.lines.setdefault((owner.attributes.get("id"), key), self.line(element.place))

    def end(self, element: Element) -> None:
        if element.kind == "data" and element.key:
            above = self.open[-1]
            above.data[element.key] = plain(b"".join(element.texts).decode(errors="replace")).strip(" \t\r\n")
            if element.key == "Obs":
                self.observers.append((above.data["Obs"], self.line(element.place)))
        elif element.kind == "edge":
            self.end_edge(element)

    def end_edge(self, edge: Element) -> None:
        ends = " to ".join(shown(edge.attributes.get(it, "nothing")) for it in ("source", "target"))
        values = edge.data.get("LabeledValues", "")
        if edge.data.get("Type") in ("derived", "internal"):
            self.note(f"the edge from {ends} is of type {edge.data['Type']}, and is passed over", edge.place)
        elif not values.strip("{} ,\t\r\n"):
            self.note(f"the edge from {ends} has no values, and gives no constraint", edge.place)
        else:
            self.rows += [self.line(edge.place)] * values.count("(")


def tell_passed_over(reader: Reader, refused: bool) -> tuple[list[Data], list[str]]:
    """What of the document is passed over, each with its line, and whether the start was added, as data and words."""
    notes, lines = sorted(reader.notes, key=lambda it: ("did you mean" not in it[1], it)), []
    if reader.stopped is not None:
        lines.append(f"(what was passed over is told up to line {reader.line(reader.stopped)})")
    if "Z" not in reader.nodes and not refused:
        lines.append("Z, the start, was added, since no node has this name: nothing ties it to the others but what "
                     "the constraints below say of Z." + (" There is a node z." if "z" in reader.nodes else ""))
    return [{"line": line, "says": what} for line, what in notes], lines + folded(notes)


def folded(notes: list[tuple[int, str]]) -> list[str]:
    """Each note with its line; one that comes again is said once, with how often, unless a key may be mistyped."""
    found: dict[tuple[str, int | None], list[int]] = {}
    for line, what in notes:
        found.setdefault((what, line if "did you mean" in what else None), []).append(line)
    return [(f"line {each[0]}: " if len(each) == 1 else f"lines {each[0]} to {each[-1]}, {len(each)} times: ") + what
            for (what, _), each in found.items()]
