"""A document that was read: its steps, its limits, and what they say."""
from __future__ import annotations

import hashlib
import re
from collections.abc import Iterable, Sequence
from dataclasses import dataclass
from functools import cached_property
from pathlib import Path
from typing import Self

from cstn import program as programs
from cstn.answers import Can, Verdict, Wide
from cstn.errors import OutOfTime, TooMany, Unavailable, WrongType
from cstn.names import Label, literals
from cstn.said import Said, said
from cstn.sentences import sentences
from cstn.ways import Way, ways

ENTITY = re.compile(r"&(amp|lt|gt|quot|#\d+);")
ENTITIES = {"amp": "&", "lt": "<", "gt": ">", "quot": '"'}
NODE = re.compile(r'<node id="([^"]*)"')
EDGE = re.compile(r'<edge source="([^"]*)" target="([^"]*)">.*\{\((-?\d+), ([^)]*)\)\}')
DATA = re.compile(r'<data key="(\w+)">([^<]*)</data>')
WORD = re.compile(r"^<!-- ([A-Za-z]): ([A-Za-z][A-Za-z0-9_-]{1,63}) -->$", re.M)
MOST_BYTES = 8_388_608


@dataclass(frozen=True)
class Step:
    """A time-point: its name as in the document, what it observes and after how many ticks that is known, and where it
    is executed."""

    name: str
    observes: str | None
    reaction: int
    label: Label
    says: str = ""


@dataclass(frozen=True)
class Limit:
    """`target` comes at most `most` ticks after `source`, where `label` holds: below 0, `source` comes at least that
    many after `target`. `says` is the sentence beside it in the document."""

    id: int
    source: str
    target: str
    most: int
    label: Label
    says: str = ""

    def in_words(self) -> str:
        """What the limit says: its sentence, or one made of its parts."""
        if self.says:
            return self.says
        if self.target == "Z" and self.most <= 0:
            return f"{self.source} at {-self.most} or later"
        if self.source == "Z" and self.most >= 0:
            return f"{self.target} at {self.most} or earlier"
        if self.most < 0:
            return f"{self.source} at least {-self.most} after {self.target}"
        return f"{self.target} at most {self.most} after {self.source}"


@dataclass(frozen=True)
class Plan:
    """A document whose form was accepted. The bytes are kept; no file is opened twice."""

    document: bytes
    asked_deadline: int | None
    steps: tuple[Step, ...]
    limits: tuple[Limit, ...]
    deadline: int
    digest: str
    """The SHA-256 of what was understood: of the canonical document, deadline included."""
    program: str | None = None

    @classmethod
    def read(cls, document: bytes | str, *, deadline: int | None = None, program: str | None = None) -> Self:
        """Reads a document, from its bytes or its text. Raises `BadDocument`, `NoProgram`, `Unavailable`, and
        `WrongType` for anything else: a file is read by `load`."""
        document = in_bytes(document)
        _, text = programs.ask("save", document, programs.options(deadline, None), program=program)
        steps, limits, found = understood(text, document)
        return cls(document, deadline, steps, limits, found, hashlib.sha256(text.encode()).hexdigest(), program)

    @classmethod
    def of_sentences(cls, text: bytes | str, *, deadline: int | None = None, program: str | None = None) -> Self:
        """Reads a plan in sentences: its document is the one that the program writes of it, with the line of each
        limit and the word for each letter in comments. Raises what `read` does."""
        text = in_bytes(text)
        _, document = programs.ask("plan", text, programs.options(deadline, None), program=program)
        beside = with_comments(document, said(text)).encode()
        return cls.read(beside if len(beside) <= MOST_BYTES else document.encode(), deadline=deadline, program=program)

    @classmethod
    def load(cls, path: str | Path, *, deadline: int | None = None, program: str | None = None) -> Self:
        """Reads the document of a file, or its plan in sentences if its name ends in `.plan`."""
        read = cls.of_sentences if Path(path).suffix == ".plan" else cls.read
        return read(Path(path).read_bytes(), deadline=deadline, program=program)

    def check(self, *, cap: int = programs.CAP, seconds: float | None = programs.SECONDS) -> Verdict:
        """Whether the plan can be carried out, whatever is observed. Raises `OutOfTime`."""
        return programs.check(self.document, self.asked_deadline, cap, seconds=seconds, program=self.program)

    def cases(self, *, cap: int = programs.CAP, seconds: float | None = programs.SECONDS) -> tuple[Way, ...]:
        """How the plan goes on from its start, by case, each step at its least moment; nothing after a "no". Raises
        `TooMany` where there are too many cases, `OutOfTime`, and `NoProgram` where the program is too old."""
        answer = programs.cases(self.document, self.asked_deadline, cap, seconds=seconds, program=self.program)
        if isinstance(answer, Wide):
            raise TooMany("wide", f"{answer.letters} outcomes make too many cases")
        if isinstance(answer, Verdict):
            if answer.can is Can.UNKNOWN:
                raise OutOfTime(f"not known within {answer.bounds} bounds")
            return ()
        return tuple(ways(iter(answer), {}, {}))

    def saved(self, changed: Iterable[Limit] = (), deadline: int | None = None) -> bytes:
        """The canonical document, as `save` writes it: with some limits in place of those of their ids, and a deadline
        of its own."""
        instead = {limit.id: limit for limit in changed}
        limits = [instead.get(limit.id, limit) for limit in self.limits]
        return canonical(self.steps, limits, self.deadline if deadline is None else deadline)

    def steps_with(self, further: Iterable[str]) -> tuple[Step, ...]:
        """Its steps, and behind them such as were put in: in every case, and without an outcome."""
        return (*self.steps, *(Step(name, None, 1, {}) for name in further))

    @cached_property
    def by_name(self) -> dict[str, Step]:
        return {step.name: step for step in self.steps}

    @cached_property
    def words(self) -> dict[str, str]:
        """The word for each letter that has one in the document, by a comment, as `<!-- i: infection -->`."""
        return dict(WORD.findall(self.document.decode(errors="replace")))

    @cached_property
    def observers(self) -> dict[str, Step]:
        """For each letter the step that observes it."""
        return {step.observes: step for step in self.steps if step.observes}

    @cached_property
    def document_digest(self) -> str:
        """The SHA-256 of the document's bytes."""
        return hashlib.sha256(self.document).hexdigest()

    def letters_of(self, step: str) -> tuple[str, ...]:
        """The letters that have to be known before a step with a label is executed, those of its observers too."""
        found: dict[str, None] = {}
        left = list(self.by_name[step].label)
        while left:
            letter = left.pop(0)
            if letter not in found:
                found[letter] = None
                left += self.observers[letter].label
        return tuple(found)


def in_bytes(text: bytes | str) -> bytes:
    """A text as it stands in a file. Raises `WrongType`."""
    if isinstance(text, str):
        return text.encode(errors="surrogateescape")
    if not isinstance(text, bytes | bytearray | memoryview):
        raise WrongType(f"a document is bytes or a text, and not {text!r}")
    return bytes(text)


def with_comments(document: str, found: Said) -> str:
    """The document of a plan in sentences with the line of each constraint, and the word for each letter, above it."""
    says, lines = iter(found.says), []
    for line in document.split("\n"):
        letter = dict(DATA.findall(line)).get("Obs", "") if NODE.match(line) else ""
        if letter in found.words and "--" not in found.words[letter]:
            lines.append(f"<!-- {letter}: {found.words[letter]} -->")
        elif line.startswith("<edge "):
            lines.append(f"<!-- {next(says).replace('--', '- -')} -->")
        lines.append(line)
    return "\n".join(lines)


def understood(text: str, document: bytes) -> tuple[tuple[Step, ...], tuple[Limit, ...], int]:
    """The steps, limits and deadline of a canonical document, with the sentences of the one that was read."""
    steps: list[Step] = []
    limits: list[Limit] = []
    deadline = None
    for line in text.split("\n"):
        if (node := NODE.match(line)) is not None:
            data = dict(DATA.findall(line))
            steps.append(Step(plain(node[1]), data.get("Obs"), int(data.get("Reaction", 1)),
                              literals(data.get("Label", ""))))
        elif (edge := EDGE.match(line)) is not None:
            limits.append(Limit(len(limits), plain(edge[1]), plain(edge[2]), int(edge[3]), literals(edge[4])))
        elif (data_line := DATA.match(line)) is not None:
            deadline = int(data_line[2])
    if deadline is None:
        raise Unavailable("what `save` wrote has no deadline")
    return tuple(steps), with_sentences(limits, sentences(document)), deadline


def with_sentences(limits: Sequence[Limit], said: Sequence[tuple[str, str, int, str]]) -> tuple[Limit, ...]:
    """The limits with their sentences, if these are of the same limits, one by one; else without."""
    if [(it.source, it.target, it.most) for it in limits] != [it[:3] for it in said]:
        return tuple(limits)
    return tuple(Limit(it.id, it.source, it.target, it.most, it.label, says[3]) for it, says in zip(limits, said))


def plain(name: str) -> str:
    """A name without the references of a canonical document."""
    return ENTITY.sub(lambda found: ENTITIES.get(found[1]) or chr(int(found[1][1:])), name)


def canonical(steps: Iterable[Step], limits: Iterable[Limit], deadline: int) -> bytes:
    """A document in the one form that `save` writes."""
    lines = ['<?xml version="1.0" encoding="UTF-8"?>', "<graphml>", '<graph edgedefault="directed">',
             data_of("Deadline", str(deadline))]
    for step in steps:
        data = data_of("Obs", step.observes or "")
        data += data_of("Reaction", str(step.reaction) if step.observes and step.reaction > 1 else "")
        data += data_of("Label", spelled(step.label))
        lines.append(f'<node id="{quoted(step.name)}"' + (f">{data}</node>" if data else "/>"))
    for limit in limits:
        values = f"{{({limit.most}, {spelled(limit.label) or '⊡'})}}"
        data = data_of("Type", "requirement") + data_of("LabeledValues", values)
        lines.append(f'<edge source="{quoted(limit.source)}" target="{quoted(limit.target)}">{data}</edge>')
    return "".join(line + "\n" for line in [*lines, "</graph>", "</graphml>"]).encode()


def data_of(key: str, value: str) -> str:
    return f'<data key="{key}">{value}</data>' if value else ""


def spelled(label: Label) -> str:
    """A label as documents have it."""
    return "".join(letter if label[letter] else "¬" + letter for letter in sorted(label))


def quoted(name: str) -> str:
    """A name as a canonical document has it."""
    references = {character: f"&{entity};" for entity, character in ENTITIES.items()}
    return "".join(references.get(c) or (f"&#{ord(c)};" if ord(c) < 32 or ord(c) == 127 else c) for c in name)
