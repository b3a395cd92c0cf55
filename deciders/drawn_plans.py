"""Drawn networks and texts: what a network says in sentences is a plan of it, and a text is a plan or is refused."""
from random import Random

from documents import Network, Point, fault
from sentences import KEYWORDS, spelled

NAMES = ("X", "Y", "S", "T", "T.end", "Log book", 'a"b', '"', "#1", "50%", "%20", "5", "1..2", "-3", "A\tB", "end",
         "of", "Zürich", "p", "damage", "é" * 32, "\x01" * 64, "x" * 64, " ", "Z ", "a#b", "<&>'", "\x7f", "10:00", "…", "𝔸")
LETTERS = "pqrdAz"
WORDS = ("damage", "harm", "d2", "x-y", "later_on")


# Networks.


def drawn_label(draw: Random, letters: list[str], most: int) -> dict[str, bool]:
    return {letter: draw.random() < 0.5 for letter in draw.sample(letters, min(len(letters), draw.randrange(most + 1)))}


def drawn_points(draw: Random) -> list[Point]:
    """Time-points, of which some observe, and have labels of what was observed before them."""
    names = ["Z", *draw.sample(NAMES, draw.randrange(8))]
    letters = draw.sample(LETTERS, draw.randrange(len(LETTERS)))
    points, seen = [], []
    for name in names:
        letter = letters.pop() if letters and draw.random() < 0.5 else None
        label = drawn_label(draw, seen, 2) if name != "Z" and draw.random() < 0.4 else {}
        points.append(Point(name, letter, draw.choice((1, 1, 5, 1000)) if letter else 1, label))
        seen += letter or ""
    return points


def drawn_value(draw: Random) -> int:
    return draw.choice((0, 0, 1, 5, -5, -1, draw.randrange(-20, 21), 10**9, -(10**9)))


def drawn_constraints(draw: Random, points: list[Point]) -> list[tuple[int, int, int, dict[str, bool]]]:
    """Constraints, of which many stand behind one that says at least of what they say at most."""
    seen, found = [point.observes for point in points if point.observes], []
    for _ in range(draw.randrange(12)):
        source, target, value = draw.randrange(len(points)), draw.randrange(len(points)), drawn_value(draw)
        label = drawn_label(draw, seen, 3) if draw.random() < 0.3 else {}
        found.append((source, target, value, label))
        if draw.random() < 0.6:
            back = draw.choice((-value, -value + 1, -value - 1, abs(value), drawn_value(draw)))
            other = label if draw.random() < 0.9 else drawn_label(draw, seen, 3)
            found.append((target, source, max(-(10**9), min(back, 10**9)), other))
    return found


def drawn_network(draw: Random) -> Network:
    """A network that is accepted."""
    while True:
        points = drawn_points(draw)
        network = Network(draw.choice((0, 5, 360, 1_000_000)), points, drawn_constraints(draw, points))
        if not fault(network):
            return network


# Texts.


class Text:
    """Draws lines of a plan whose names and words stand for something, more often than not."""

    def __init__(self, draw: Random):
        self.draw = draw
        names, letters = draw.sample(NAMES, 6), draw.sample(LETTERS, len(LETTERS))
        self.tasks = [names.pop() for _ in range(draw.randrange(3))]
        self.steps = names[:draw.randrange(1, 5)]
        self.letters = [letters.pop() for _ in range(draw.randrange(3))]
        self.words = {word: letters.pop() for word in draw.sample(WORDS, draw.randrange(3))}

    def one(self, *choices):
        return self.draw.choice(choices)

    def often(self, chance: float) -> bool:
        return self.draw.random() < chance

    def name(self) -> str:
        if self.often(0.01):
            return spelled(self.draw.choice(NAMES))
        return spelled(self.draw.choice([*self.steps, *self.tasks, "Z"]))

    def point(self) -> str:
        if self.often(0.25) and self.tasks:
            return f"{self.one('end', 'start')} of {spelled(self.draw.choice(self.tasks))}"
        return f"end of {self.name()}" if self.often(0.01) else self.name()

    def proposition(self) -> str:
        known = [*self.letters, *self.words, *self.words.values()]
        return self.draw.choice([*LETTERS, *WORDS] if self.often(0.02) or not known else known)

    def label(self, chance: float) -> str:
        if not self.often(chance if self.letters or self.words else chance / 20):
            return ""
        words = [self.proposition() for _ in range(self.one(1, 1, 1, 2))]
        words = words if self.often(0.05) else sorted(set(words))
        return " if " + " and ".join(self.one("", "not ") + word for word in words)

    def refs(self) -> str:
        return " and ".join(self.ref() for _ in range(self.one(1, 1, 1, 2, 3)))

    def ref(self) -> str:
        return f"result of {self.proposition()}" if self.often(0.2) and (self.letters or self.words) else self.point()

    def time(self) -> str:
        clock = f"{self.draw.randrange(26)}:{self.draw.randrange(60):02}"
        large, wrong = ["1000000000"], ["1000000001", "18446744073709551616", "05", "5:5"]
        return self.one("0", "5", str(self.draw.randrange(99)), clock, "06:00", *large * self.often(0.1),
                        *wrong * self.often(0.01))

    def span(self) -> str:
        return self.one("", "", "", "-") + self.time()

    def range(self) -> str:
        low, high = sorted((self.draw.randrange(30), self.draw.randrange(30)), reverse=self.often(0.02))
        between = f"{self.time()}..{self.time()}" if self.often(0.1) else f"0:{low + 10}..0:{high + 30}"
        return self.one(self.time(), f"{low}..{high}", f"{low}..", self.span(), f"-{high + 1}..{low}",
                        f"{self.span()}..", between)

    def observes(self, told: str) -> str:
        reaction = self.one("1", "5", "0:10", "1000", *["0", "1001"] * self.often(0.05))
        return f" observes {told}" + (f" after {reaction}" if self.often(0.4) else "")

    def steps_told(self) -> list[str]:
        told = [*self.letters, *(f"{word} as {letter}" for word, letter in self.words.items())]
        self.draw.shuffle(told)
        lines = []
        for name in self.draw.sample(names := [*self.steps, *self.tasks, *["Z"] * self.often(0.2)], len(names)):
            seen = self.observes(told.pop()) if told and self.often(0.9) else ""
            task = name in self.tasks and self.often(0.98)
            label = self.label(0.02 if seen or name == "Z" else 0.2)
            lines.append((f"task {spelled(name)} {self.range()}" if task else f"step {spelled(name)}") + seen + label)
        return lines

    def line(self) -> str:
        says = self.one(f"at {self.range()}", f"by {self.time()}", f"{self.range()} after {self.refs()}",
                        f"by {self.span()} after {self.refs()}", f"within {self.time()} after {self.refs()}",
                        f"after {self.refs()}", f"with {self.refs()}")
        return f"{self.point()} {says}{self.label(0.3)}"

    def lines(self) -> list[str]:
        lines = [*self.steps_told(), *(self.line() for _ in range(self.draw.randrange(8)))]
        lines += [f"deadline {self.one('99', '360', '10:00', self.time())}"] * self.often(0.97)
        lines += [f"start {self.draw.randrange(25)}:00"] * self.often(0.2)
        if self.often(0.5):
            self.draw.shuffle(lines)
        return lines


def damaged(draw: Random, lines: list[str]) -> list[str]:
    """The lines with a word, or a line, too much, too little or another."""
    place = draw.randrange(len(lines))
    words, tokens = lines[place].split(" "), [*KEYWORDS, "X", "5", "..30", "p", "#", '"', "damage", ""]
    at, how = draw.randrange(len(words)), draw.randrange(7)
    if how == 0:
        del words[at]
    elif how == 1:
        words.insert(at, draw.choice(tokens))
    elif how == 2:
        words[at] = draw.choice(tokens)
    elif how == 3:
        words = words[:at]
    elif how == 4:
        words[at:at + 1] = [words[at], words[at]]
    elif how == 5:
        return [*lines, lines[place]]
    else:
        text = lines[place]
        cut, sign = draw.randrange(len(text) + 1), draw.choice('ab1 .:-#"%,\t\r\0é')
        return [*lines[:place], text[:cut] + sign + text[cut + draw.randrange(2):], *lines[place + 1:]]
    return [*lines[:place], " ".join(words), *lines[place + 1:]]


def drawn_text(draw: Random) -> bytes:
    """A text, which is damaged in three cases of ten."""
    lines = Text(draw).lines()
    while lines and draw.random() < 0.3:
        lines = damaged(draw, lines)
    space, end = draw.choice((" ", " ", "\t", "  ")), draw.choice(("\n", "\n", "\r\n", "   # so\n"))
    text = end.join(line if '"' in line else line.replace(" ", space) for line in lines) + draw.choice(("", end))
    data = text.encode()
    if draw.random() < 0.02 and data:
        place = draw.randrange(len(data))
        data = data[:place] + bytes([draw.randrange(128, 256)]) + data[place + 1:]
    return data if draw.random() < 0.98 else drawn_bytes(draw)


def drawn_bytes(draw: Random) -> bytes:
    """Bytes of any kind, most of them such as plans have."""
    signs = b' \n\n\t"#.:-0159XYpq%' + b"step if and at by after task of end "
    return bytes(draw.choice(signs) if draw.random() < 0.98 else draw.randrange(256) for _ in range(draw.randrange(80)))
