"""What is asked of the program of a document, and how much: what helps beside the answer is asked only as far as it is
cheap."""
import collections
import contextlib
import os
import pathlib
import re
import stat
import subprocess
import sys
import tempfile
from collections.abc import Iterable, Iterator

from ..errors import NoProgram
from ..program import find
from ..said import Said
from .documents import MOST_BYTES
from .names import typed
from .networks import Network, literals, plain_copy, written
from .refutations import Refutation, missing_ticks, steps_of
from .shapes import Data, Marks, Tree
from .stopped import Stopped
from .tries import CHECKS_OF_A_LIMIT, MOST_LIMITS, Live
from .trees import tree_of

LAUNCHER = pathlib.Path(__file__).resolve().parents[3] / "cstn"
GREATEST_DEADLINE = 1000000
GREATEST_VALUE = 1000000000
GREATEST_CAP = 65536
MOST_TRIED = 50000

# A second of checks at worst: their number times the bounds that each derives, times the constraints that end at one
# time-point; or times the pairs of bounds that are looked at for each, which are no more than its letters have labels.
CHAINS, PAIRS = 10**7, 4 * 10**11


@contextlib.contextmanager
def kept(text: str | bytes) -> Iterator[str]:
    """The path of a file with this text, which is removed afterwards."""
    with contextlib.ExitStack() as stack:
        try:
            file = stack.enter_context(tempfile.NamedTemporaryFile("wb"))
            file.write(text if isinstance(text, bytes) else text.encode())
            file.flush()
        except OSError as error:
            raise Stopped(2, f"no temporary file can be written: {error}") from error
        yield file.name


@contextlib.contextmanager
def read_once(path: str) -> Iterator[tuple[bytes, str]]:
    """What FILE has, and a path by which the program reads the same: of a pipe that of a copy. Nothing where it cannot
    be read; what is longer than any document is cut."""
    try:
        with open(path, "rb") as file:
            text, is_file = file.read(MOST_BYTES + 1), stat.S_ISREG(os.fstat(file.fileno()).st_mode)
    except OSError:
        text, is_file = b"", True
    if is_file:
        yield text, path
        return
    with kept(text) as copy:
        yield text, copy


def read_text(path: str, called: str) -> str:
    """The text of a file, or of the standard input for `-`."""
    try:
        with open(0 if path == "-" else path, "rb") as file:
            return file.read().decode()
    except (OSError, ValueError) as error:
        raise Stopped(2, f"{called} cannot be read: {error}") from error


def program() -> str:
    """The program: the one that CSTN names, else the one that `./cstn` takes, or builds. The script says why there is
    none. Where there is no script beside the package, it is the one that the package finds."""
    if "CSTN" in os.environ:
        return os.environ["CSTN"]
    if not LAUNCHER.is_file():
        try:
            return find()
        except NoProgram as error:
            raise Stopped(2, str(error)) from error
    found = subprocess.run([LAUNCHER, "--program"], stdout=subprocess.PIPE, check=False)
    if found.returncode:
        sys.exit(found.returncode)
    return os.fsdecode(found.stdout.removesuffix(b"\n"))


class Asked:
    """The program, a document, and its network once that was read."""

    net: Network

    def __init__(self, path: str, option: list[str]) -> None:
        self.program, self.path, self.option = program(), path, option
        self.source, self.saved = b"", ""
        self.said: Said | None = None
        self.longest: str | None = None

    def answer(self, *words: str, live: str = "") -> tuple[int, str]:
        """The status of a call of the program, and what it writes."""
        try:
            done = subprocess.run([self.program, *words], input=live.encode(), stdout=subprocess.PIPE, check=False)
        except OSError as error:
            raise Stopped(2, f"the program cannot be started: {error}") from error
        return done.returncode, done.stdout.decode(errors="replace")

    def answer_at(self, command: str, *more: str, cap: Iterable[str] = (), live: str = "") -> tuple[int, str]:
        """What a command says of the document with the deadline of its network."""
        return self.answer(command, self.path, *more, "--deadline", str(self.net.deadline), *cap, live=live)

    def answer_plain(self, command: str, *more: str, cap: Iterable[str] = ()) -> tuple[int, str]:
        """What a command says of the document; where it has labels on time-points and the command takes none, of its
        plain copy."""
        if not self.net.labels:
            return self.answer_at(command, *more, cap=cap)
        with kept(plain_copy(self.net)) as copy:
            return self.answer(command, copy, *more, *cap)

    def cap(self, checks: int) -> list[str]:
        """How many bounds each of some checks may derive, so that all of them take a second or two at worst."""
        ends, letters = collections.Counter[str](), set[str]()
        for _, _, target, _, label in self.net.lowered:
            ends[target] += int(target != "Z")
            letters |= literals(label).keys()
        by_labels = PAIRS // (checks * max(1, len(letters)) * 16 ** len(letters))
        by_pairs = max(by_labels, int((PAIRS / checks) ** (1 / 3)))
        most = min(by_pairs, CHAINS // (checks * max(1, *ends.values(), 1)), GREATEST_CAP)
        return ["--cap", str(max(1, most))]

    def replayed(self, text: str) -> str:
        """What `replay` says of the steps of a text, unless it accepts them, or has none."""
        steps = steps_of(text)
        with kept("".join(f"{line}\n" for line in [f"no {len(steps)}", *steps])) as proof:
            said = self.answer_at("replay", proof)[1].strip() if steps else ""
        return "" if said == "accepted" else said

    def later(self) -> int:
        """A deadline of four times the one at hand."""
        return min(GREATEST_DEADLINE, max(1000, 4 * self.net.deadline))

    def later_for(self, values: dict[int, int]) -> int | None:
        """That later deadline where the deadline limits as much as one of these limits, by their ids, or as one from
        the start on; else none."""
        limits = [*values.values(), *(most for source, _, most, _ in self.net.constraints if source == "Z")]
        deadline = self.net.deadline
        return self.later() if any(it >= deadline for it in limits) and self.later() > deadline else None

    def missing(self, refutation: Refutation) -> tuple[Data, list[str]]:
        """How many ticks are missing for a yes, by `tight` with that later deadline, as data and in words."""
        later = self.later()
        said = self.answer("tight", self.path, "--deadline", str(later), *self.cap(1))[1]
        return missing_ticks(self.net.deadline, said, later, refutation.advice())

    def beyond(self, found: list[tuple[str, Marks]]) -> list[bool | None] | None:
        """Whether each of these time-points can come after the deadline, each in its case, if only the deadline were
        later: by `follow`, yes, no or not known; or none where that is much to try."""
        deadline, first = self.net.deadline, len(self.net.constraints)
        if len(found) * first > MOST_TRIED or self.later() <= deadline:
            return None
        lines = [f"deadline {self.later()}"]
        for at, (name, case) in enumerate(found):
            label = written(case).replace("¬", "!") or "-"
            lines += [f"add {typed(name)} Z -{deadline + 1} {label}", "now 0", f"remove {first + at}"]
        live = "".join(f"{line}\n" for line in lines)
        said = self.answer_at("follow", cap=self.cap(len(found) + 2), live=live)[1].split("\n")[3:]
        told = [said[3 * at + 1].split(" ")[0] if said[3 * at : 3 * at + 1] == [f"added {first + at}"] else ""
                for at in range(len(found))]
        return [{"yes": True, "no": False}.get(it) for it in told]

    def live(self, text: str, lines: list[str], now: int, limits: int) -> Live:
        """A session over a document that was told these lines, to be asked for so many limits, twelve at most."""
        words = [self.program, "follow", text, "--deadline", str(self.net.deadline)]
        return Live([*words, *self.cap(CHECKS_OF_A_LIMIT * min(max(1, limits), MOST_LIMITS) + len(lines))], lines, now)

    def is_canonical(self) -> bool:
        """Whether the document stands as `save` and `rest` write one."""
        return self.said is None and self.source == self.saved.encode()

    def tree(self) -> Tree | None:
        """The tree of a plan as data, or none where there is none."""
        status, text = self.answer_plain("tree")
        return None if status else tree_of(self.net, text.split("\n")[1:-1])


def with_values(text: str, values: dict[int, int]) -> str:
    """A canonical document with other values of some constraints, by their ids, which all stay."""
    rows = text.split("\n")
    places = [at for at, row in enumerate(rows) if row.startswith("<edge ")]
    for number, value in values.items():
        rows[places[number]] = re.sub(r"\{\(-?\d+, ", f"{{({value}, ", rows[places[number]])
    return "\n".join(rows)


def ids_of(constraints: list[Data]) -> set[int]:
    """The ids of constraints of the document that a refutation uses, as data; those for a label have none."""
    return {it["constraint"] for it in constraints} - {None}


def without(text: str, numbers: Iterable[int]) -> str:
    """A canonical document in which these constraints limit nothing; all ids stay."""
    return with_values(text, dict.fromkeys(numbers, GREATEST_VALUE))
