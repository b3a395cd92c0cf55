"""What is known of a plan that is carried out, as far as lines and answers tell it."""
from __future__ import annotations

from dataclasses import dataclass, field, replace

from cstn.answers import Answer, Edited, Forgiven
from cstn.clock import Clock
from cstn.events import Add, AddStep, Change, Deadline, Did, Event, Expect, Forgive, NotBefore, Now, Saw
from cstn.plan import Limit, Plan


@dataclass(frozen=True)
class Seen:
    """An outcome that was told, and when it came."""

    value: bool
    at: int


@dataclass
class State:
    """What was done and seen, what is expected, and the limits as they are now. Moments are ticks."""

    plan: Plan
    now: int = 0
    deadline: int = 0
    done: dict[str, int] = field(default_factory=dict)
    seen: dict[str, Seen] = field(default_factory=dict)
    expected: dict[str, int] = field(default_factory=dict)
    ready: dict[str, int] = field(default_factory=dict)
    """Steps that are not done, each with the moment before which it cannot be."""
    further: list[str] = field(default_factory=list)
    """The steps that were put in."""
    limits: dict[int, Limit] = field(default_factory=dict)
    lines: list[str] = field(default_factory=list)
    """The lines that were taken, in the order in which they were."""
    clock: Clock | None = None

    @classmethod
    def of(cls, plan: Plan, clock: Clock | None = None) -> State:
        state = cls(plan, deadline=plan.deadline, limits={limit.id: limit for limit in plan.limits}, clock=clock)
        state.done["Z"] = 0
        return state

    def time(self, tick: int) -> str:
        """A moment for a person: a time where there is a clock."""
        return str(tick) if self.clock is None else self.clock.shown(tick)

    def outcome(self, letter: str) -> str:
        """An outcome for a person: its word, if it has one, and its letter."""
        word = self.plan.words.get(letter)
        return letter if word is None else f"{word} ({letter})"

    def copy(self) -> State:
        """The same, for who goes on from here."""
        return replace(self, done=dict(self.done), seen=dict(self.seen), expected=dict(self.expected),
                       ready=dict(self.ready), further=list(self.further), limits=dict(self.limits),
                       lines=list(self.lines))

    def take(self, event: Event, line: str, answer: Answer) -> None:
        """Records an event whose moment is a tick, which the program has taken."""
        self.lines.append(line)
        match event:
            case Did(step, int(at)):
                self.done[step], self.now = at, max(self.now, at)
                self.ready.pop(step, None)
            case Saw(letter, value, int(at)):
                self.seen[letter], self.now = Seen(value, at), max(self.now, at)
            case Expect(letter, int(at)):
                self.expected[letter] = at
            case NotBefore(step, 0):
                self.ready.pop(step, None)
            case NotBefore(step, int(at)):
                self.ready[step] = at
            case AddStep(step):
                self.further.append(step)
            case Now(int(at)):
                self.now = max(self.now, at)
            case Deadline(int(at)):
                self.deadline = at
            case Add(source, target, most, label, says) if isinstance(answer, Edited):
                self.limits[answer.number] = Limit(answer.number, source, target, most, label, says)
            case Change(number, None):
                self.limits.pop(number, None)
            case Forgive() if isinstance(answer, Forgiven):
                for number in answer.ids:
                    self.limits.pop(number, None)
            case Change(number, int(most)):
                self.limits[number] = replace(self.limits[number], most=most)

    def is_left_out(self, step: str) -> bool:
        """Whether what was seen rules a step out."""
        if step in self.further:
            return False
        labels = [self.plan.by_name[step].label,
                  *(self.plan.observers[letter].label for letter in self.plan.letters_of(step))]
        return any(letter in self.seen and self.seen[letter].value != value
                   for label in labels for letter, value in label.items())

    def left(self) -> list[str]:
        """The steps that were neither done nor ruled out, in the order of the document."""
        return [name for name in (*(step.name for step in self.plan.steps), *self.further)
                if name not in self.done and not self.is_left_out(name)]

    def awaited(self) -> dict[str, int]:
        """The letters whose observer was done and whose outcome was not told, each with the moment at which it is
        expected."""
        return {letter: self.expected.get(letter, self.done[step.name] + step.reaction)
                for letter, step in self.plan.observers.items()
                if step.name in self.done and letter not in self.seen}
