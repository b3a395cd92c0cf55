"""A refutation in words: the constraints that its steps use, each once, and then the steps."""
import functools
import re

from .names import printed, shown
from .networks import Network, constraint, literals, ticks, where
from .shapes import Data
from .spoken import Spoken

STEP = re.compile(r"\d+ (base|chain|wait) ")
LONGEST_TURN = 24


def steps_of(text: str) -> list[str]:
    """The lines of the first refutation in a text, or none; a line `no LOAD` without steps behind it is a verdict
    alone."""
    lines = text.split("\n")
    heads = (at for at, line in enumerate(lines[:-1]) if re.fullmatch(r"no \d+", line) and STEP.match(lines[at + 1]))
    found = []
    for line in lines[next(heads, len(lines)) + 1 :]:
        if not STEP.match(line):
            break
        found.append(line)
    return found


def dropped(letter: str, labels: list[str]) -> str:
    """The value that a letter is taken to have where a step drops it, in words, or nothing where no label has it."""
    marks = [sign for label in labels for sign, found in re.findall(r"([¬!?]?)([A-Za-z])", label) if found == letter]
    if not marks:
        return ""
    return "true" if "" in marks else "false" if set(marks) & {"¬", "!"} else "not known yet"


def premises(line: str) -> list[int]:
    """The steps that a step names."""
    parts = line.split(" ")
    return [int(it) for it in (parts[3:4] if parts[1] == "chain" else parts[2:4] if parts[1] == "wait" else [])]


def turns(steps: list[str]) -> list[int]:
    """For each step the length of a turn where it repeats, with greater moments, the one a turn before it, for three
    turns and more; else 0."""
    shapes = []
    for number, line in enumerate(steps):
        parts = line.split(" ")
        back = [number - it for it in premises(line)]
        shapes.append((parts[1], parts[2] if parts[1] == "chain" else "", parts[-3], parts[-1], *back))
    found = [0] * len(steps)
    for length in range(1, LONGEST_TURN + 1):
        if 0 not in found[3 * length :]:
            break
        run, first = 0, 0
        for at in range(length, len(steps)):
            run = run + 1 if shapes[at] == shapes[at - length] else 0
            first = first if run > 1 else at + length
            if run >= 3 * length and not found[at]:
                for turn in range(first, at + 1):
                    found[turn] = found[turn] or length
                first = at + 1
    return found


class Refutation:
    """The steps of a text, read by the network that they are to refute."""

    def __init__(self, net: Network, text: str) -> None:
        self.net, self.constraints, self.steps = net, net.lowered, steps_of(text)
        self.bounds: dict[int, tuple[str, int, str]] = {}
        self.used: set[int | str] = set()
        self.last: tuple[str, int, str] = ("Z", 0, "-")
        self.done: dict[str, int] = net.awaited or {}

    @functools.cached_property
    def turns(self) -> list[int]:
        return turns(self.steps)

    def numbers(self) -> list[int]:
        """The constraints that the steps use, by their places in the network without labels."""
        return sorted(it for it in self.used if isinstance(it, int))

    def called(self, number: int, with_line: bool = False) -> str:
        """A constraint by its id in the document, or by the label that it stands for."""
        if number >= len(self.constraints):
            return f"constraint {number}, which FILE lacks"
        own, source, target, _, label = self.constraints[number]
        if own is not None:
            return f"constraint {self.net.called(own) if with_line else own}"
        asks = f", which asks for {Spoken.letter(self.net.observed[target])}" if len(literals(label)) > 1 else ""
        return f"the label of {shown(source)}{asks}"

    def beside(self, number: int) -> str:
        """What is to be said beside a constraint for a label: who asks and who tells, each with its line, and what can
        be done."""
        net, (own, source, target, *_) = self.net, self.constraints[number]
        if own is not None:
            return ""
        letter, name = Spoken.letter(net.observed[target]), shown(target)
        if target in self.done:
            return (f": the outcome of {letter} is awaited until {self.until(target)} ({name} was done). "
                    "What may help: an earlier `await`, or its value by `saw`")
        left = f"; if `rest` wrote FILE and {name} was done, an earlier `await`, or its value by `saw`"
        is_left = net.is_canonical and target in net.pins
        shorter = f", a shorter reaction of {name}" if net.reaction(target) > 1 else ""
        return (f" (no constraint of FILE: {net.told_at(source, 'Label')} waits for its label, and "
                f"{net.told_at(target, 'Obs')} tells {letter}; what may help is another label{shorter}, or an earlier "
                f"{name}, if the other constraints let it{left if is_left else ''})")

    def says(self, number: int) -> str:
        """A constraint that the steps use, in words."""
        return f"{self.called(number, True)}: {self.constraint(number)}{self.beside(number)}"

    def constraint(self, number: int) -> str:
        """What a constraint says; where it waits for an outcome whose observer was done, until when."""
        own, source, target, most, label = self.constraints[number]
        if own is None and target in self.done:
            return constraint(source, "Z", -self.done[target], label)
        return constraint(source, target, most, label)

    def until(self, name: str) -> str:
        """Until when the outcome of an observer is awaited that was done, in words."""
        return "after the deadline" if self.done[name] > self.net.deadline else Spoken.moment(self.done[name])

    def is_of_what_was_done(self, used: str | int) -> bool:
        """Whether what steps use, an observer or a constraint, rests on the moment of an observer that was done."""
        if isinstance(used, str):
            return used in self.done
        return self.constraints[used][0] is None and self.constraints[used][2] in self.done

    def advice(self) -> str:
        """What may be done about the steps, in words."""
        if self.net.awaited is None:
            return "change a constraint that the steps use, or shorten a reaction"
        self.in_words(None)
        waits = any(map(self.is_of_what_was_done, self.used))
        return "change a constraint that the steps use" + (", or `await` an earlier moment" if waits else "")

    def uses(self) -> list[Data]:
        """Each constraint and each reaction of more than a tick that the steps use, as data."""
        found = []
        for number in self.numbers():
            own, source, target, most, label = self.constraints[number]
            line = self.net.rows[own] if own is not None and self.net.has_rows() else None
            found.append({"constraint": own, "line": line, "for_label_of": source if own is None else None,
                          "from": source, "to": target, "at_most": most, "label": label,
                          "says": self.constraint(number)})
        return found

    def reactions(self) -> list[str]:
        return [name for name in self.net.names if name in self.used and self.net.reaction(name) > 1]

    def uses_in_words(self) -> list[str]:
        """Each constraint and each reaction of more than a tick that the steps use, in words."""
        lines = [self.says(number) for number in self.numbers()]
        for name in self.reactions():
            letter, says = Spoken.letter(self.net.observed[name]), shown(name)
            uses = f"the reaction of {says}: {letter} is known {ticks(self.net.reaction(name))} after it"
            if name in self.done:
                uses = f"that the outcome of {letter} is awaited until {self.until(name)} ({says} was done)"
            lines.append(f"They use {uses}.")
        return lines

    def unknown_to(self, name: str, letter: str | None, label: str, labels: list[str]) -> str:
        """That a bound on an observer counts in every case of what it observes, where these labels have the letter and
        its own has not."""
        if not letter or letter in label or not dropped(letter, labels):
            return ""
        return f" (in every case of {Spoken.letter(letter)}, which {shown(name)} does not know yet)"

    def step(self, number: int) -> str:
        """A step in words; what it bounds and what it uses is kept."""
        net, parts = self.net, self.steps[number].split(" ")
        rule, (name, least, label) = parts[1], parts[-3:]
        name = printed(name)
        self.last = self.bounds[number] = (name, int(least), label)
        says, letter = f"{shown(name)} at {Spoken.moment(int(least))} or later{where(label)}", net.observed.get(name)
        if rule == "base":
            was_done = "it was done, and stands early in what `rest` wrote"
            return f"{says}: {was_done if name in self.done else 'nothing is executed before 0'}"
        premise = self.bounds[int(parts[3])]
        if rule == "chain":
            by = int(parts[2])
            own = self.constraints[by][-1] if by < len(self.constraints) else ""
            self.used.add(by)
            unknown = self.unknown_to(name, letter, label, [own, premise[2]])
            return f"{says}{unknown}: from {parts[3]} by {self.called(by)}"
        seen, _, beside_seen = self.bounds[int(parts[2])]
        unknown = self.unknown_to(name, letter, label, [beside_seen, premise[2]])
        return f"{says}{unknown}: from {parts[3]} and {parts[2]}: {self.wait(seen, name, premise)}"

    def wait(self, seen: str, name: str, premise: tuple[str, int, str]) -> str:
        """Why a time-point waits for what an observer tells, in words."""
        net, says = self.net, shown(name)
        self.used.add(seen)
        value = dropped(net.observed.get(seen, ""), [premise[2]])
        until = f"waits as if {Spoken.letter(net.observed[seen])} were {value}" if value else "has to wait"
        known = f"is known {ticks(net.reaction(seen))} after it"
        if seen in self.done:
            known = f"is awaited until {self.until(seen)}"
        return f"what {shown(seen)} tells {known}; until then {says} {until}"

    def in_words(self, wrong: int | None) -> list[str]:
        """Each step in words, turns that repeat once, and which is wrong."""
        words, left = [], 0
        for number, line in enumerate(self.steps):
            if any(it >= number for it in premises(line)):
                words.append(f"{number}: {line} (this step names one that does not stand before it)")
                break
            says = self.step(number)
            if self.turns[number] and number + 1 < len(self.steps) and number != wrong:
                left += 1
                continue
            if left:
                turn = self.turns[number - 1]
                words.append(f"(then {left} steps: the last {turn} again and again, with greater moments)")
            left = 0
            words.append(f"{number}: {says}" + (self.fault(number) if number == wrong else ""))
        return words

    def fault(self, number: int) -> str:
        """What is to be said beside a step that `replay` names."""
        parts = self.steps[number].split(" ")
        if parts[1] == "chain" and int(parts[2]) >= len(self.constraints):
            return ""
        last = ", or it does and refutes nothing" if number + 1 == len(self.steps) else ""
        return f" (this step does not follow by its rule{last})"


def missing_ticks(deadline: int, tight: str, tried: int, advice: str) -> tuple[Data, list[str]]:
    """How many ticks a plan lacks by what `tight` answers with a later deadline, or else what may be done, as data and
    in words."""
    least, full = re.match(r"least (\d+)\n", tight), re.match(r"full (\d+)\n", tight)
    if least and int(least[1]) > deadline:
        lacks = int(least[1]) - deadline
        return {"missing": lacks, "least": int(least[1])}, [
            f"{ticks(lacks)} {'is' if lacks == 1 else 'are'} missing: with the deadline {Spoken.moment(int(least[1]))} "
            "the plan can be carried out, and with none before it."]
    if re.match(r"no \d+\n", tight):
        return {"missing": None, "none_up_to": tried}, [f"No deadline up to {Spoken.moment(tried)} would do: {advice}."]
    return {"missing": None}, [
        f"How many ticks are missing is not told: with the deadline {Spoken.moment(tried)} more than {full[1]} bounds "
        "are derived. `tight` tells it, and may take long."] if full else []


def accepted_no(refutation: Refutation, text: str, missing: tuple[Data, list[str]]) -> tuple[Data, list[str]]:
    """A refutation that `replay` accepts, as data and in words: what is missing, what is used, each once, and the
    steps."""
    net, steps = refutation.net, refutation.in_words(None)
    lacks, lines = missing
    numbers = refutation.numbers()
    blamed = text.startswith(f"conflict {' '.join(str(number) for number in numbers)}\n")
    head = "The steps below use these constraints:"
    if blamed:
        head = (f"These cannot be met together by the deadline {Spoken.moment(net.deadline)}; with any one of them "
                "less, so says `conflict`, the others can:")
    lines = [*lines, head, *refutation.uses_in_words()]
    if blamed:
        lines.append("There may be other such sets: check again after each change. The steps that refute this one:")
    name, _, label = refutation.last
    end = "the start is at 0" if name == "Z" else f"the deadline is {Spoken.moment(net.limit(name))}"
    lines += [*steps, f"But {end}, so no plan can be carried out{where(label)}."]
    if any(refutation.turns) and not lacks:
        lines.append("The turns go on until they meet the deadline or a constraint. If `tight` with a larger "
                     f"deadline says no too, none helps: {refutation.advice()}.")
    data = {"answer": "no", "deadline": net.deadline, "each_needed": blamed, **lacks, "constraints": refutation.uses(),
            "reactions": refutation.reactions(), "steps": steps, "where": label.strip("-")}
    return data, lines


EDITED = ("PROOF is of another document, or of edits: write these into a copy of FILE, check that, and explain its "
          "no, or tell the edits to `follow`, keep what `rest` writes as NEW, and call `./cstn explain --conflict "
          "NEW`.")
ANOTHER = ("Say the `--deadline N` of the check, if it had one; of a no of `edit`, write the edits into a copy of "
           "FILE first; of one of `follow`, name as FILE what `rest` wrote.")


def rejected_no(refutation: Refutation, replay: str) -> tuple[Data, list[str]]:
    """A refutation that `replay` does not accept, as data and in words."""
    net, steps = refutation.net, refutation.steps
    form, wrong = re.fullmatch(r"script (\d+)", replay), re.fullmatch(r"rejected (\d+)", replay)
    if not wrong:
        lines = [f"This is no refutation of FILE: `replay` says {replay}."]
        if form:
            lines = ["This is no refutation of FILE: a step has a name that FILE lacks, or is not of its form.",
                     "".join(steps[int(form[1]) - 2 : int(form[1]) - 1])]
        return {"answer": "rejected", "replay": replay, "says": lines}, lines
    words = refutation.in_words(int(wrong[1]))
    edited = any(it >= len(refutation.constraints) for it in refutation.numbers())
    lines = [*words, f"But these steps do not refute FILE with the deadline {net.deadline}: `replay` says {replay}. "
                     f"{EDITED if edited else ANOTHER}"]
    return {"answer": "rejected", "replay": replay, "deadline": net.deadline, "says": lines}, lines
