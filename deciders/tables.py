#!/usr/bin/env -S python3 -B
"""A second opinion on a document, from the definitions alone: the least moments of each time-point in each case.

    deciders/tables.py FILE [--deadline N]     writes `yes` and the moments by case, status 0, or `no`, status 1

It shares nothing with the program: the document is read by Python's own reader, or, where it is called so, by that of tools/replay,
which refuses what `check` refuses, status 3. The moments are the least ones with which every constraint in force is met, nobody knows
an outcome before its reaction is over, and who does not know which of two cases it is does the same in both. Where the origin would
be above 0, or a moment above the greatest deadline, no plan exists.

Before it says yes it holds the moments against the definition of a strategy (`faults`), and a yes rests on that alone. A no
rests on how they were raised; tools/replay judges a no by its steps. Time goes with the square of the cases: 2^k for k letters.
"""
import argparse
import importlib.machinery
import importlib.util
import itertools
import os
import re
import sys
import xml.etree.ElementTree

GREATEST = 1000000
READER = os.path.join(os.path.dirname(os.path.dirname(os.path.abspath(__file__))), "tools", "replay")


def literals(label):
    return {letter: not sign for sign, letter in re.findall(r"([¬!]?)\s*([A-Za-z])", label)}


def signs_of(marks):
    return {letter: {"yes": True, "no": False}[mark] for letter, mark in marks.items()}


def holds(label, case):
    return all(case.get(letter) == value for letter, value in label.items())


class Tables:
    """The cases of a document, by the outcomes that are observed in them, and the least moments in each."""

    def __init__(self, path):
        root = xml.etree.ElementTree.parse(path).getroot()
        for element in root.iter():
            element.tag = element.tag.split("}")[-1]
        graph = root.find("graph")
        self.names, self.labels, self.observers, self.reactions = [], {}, {}, {}
        for node in graph.findall("node"):
            data = {it.get("key"): (it.text or "").strip() for it in node.findall("data")}
            name = node.get("id")
            self.names.append(name)
            self.labels[name] = literals(data.get("Label", ""))
            if data.get("Obs"):
                self.observers[data["Obs"]], self.reactions[data["Obs"]] = name, int(data.get("Reaction") or 1)
        self.constraints = []
        for edge in graph.findall("edge"):
            data = {it.get("key"): (it.text or "").strip() for it in edge.findall("data")}
            if data.get("Type") in ("derived", "internal"):
                continue
            for value, label in re.findall(r"\((-?\d+),([^)]*)\)", data.get("LabeledValues", "")):
                self.constraints.append((edge.get("source"), edge.get("target"), int(value), literals(label)))
        self.cases = [case for case in self.cases_of({}, sorted(self.observers))]

    @classmethod
    def of(cls, network):
        """The same of a network of tools/replay."""
        made = cls.__new__(cls)
        made.names, made.observers = list(network.labels), network.observers
        made.labels = {name: signs_of(label) for name, label in network.labels.items()}
        made.reactions = {letter: network.reactions[name] for letter, name in network.observers.items()}
        made.constraints = [(*rest, signs_of(label)) for *rest, label in network.constraints]
        made.cases = list(made.cases_of({}, sorted(made.observers)))
        return made

    def is_executed(self, name, case):
        """The label of a time-point holds in a case, and the observers of its letters are executed."""
        return holds(self.labels[name], case) and all(self.is_executed(self.observers[letter], case) for letter in self.labels[name])

    def cases_of(self, case, letters):
        """The cases that go on from one: an outcome for each letter whose observer is executed in it."""
        for letter in letters:
            if set(self.labels[self.observers[letter]]) & set(letters):
                continue
            rest = [it for it in letters if it != letter]
            if not self.is_executed(self.observers[letter], case):
                yield from self.cases_of(case, rest)
            else:
                for value in (True, False):
                    yield from self.cases_of({**case, letter: value}, rest)
            return
        yield case

    def in_force(self, case, constraints):
        """The constraints in force in a case, and that who has a label waits until each letter of it is known."""
        found = [(source, target, most) for source, target, most, label in constraints
                 if self.holds_with_ends(source, target, label, case)]
        for name in self.names:
            if self.is_executed(name, case):
                found += [(name, self.observers[letter], -self.reactions[letter]) for letter in self.letters(name)]
        return found

    def letters(self, name):
        """The letters of the label of a time-point, with those of the observers of them."""
        return set(self.labels[name]).union(*(self.letters(self.observers[letter]) for letter in self.labels[name]))

    def moments(self, constraints=None, greatest=GREATEST):
        """The least moments of the time-points in each case, or none where one would be above the greatest."""
        constraints = self.constraints if constraints is None else constraints
        force = [self.in_force(case, constraints) for case in self.cases]
        tables = [{name: 0 for name in self.names if self.is_executed(name, case)} for case in self.cases]
        grew = True
        while grew:
            grew = any([chained(table, mine, greatest) for table, mine in zip(tables, force)])
            grew = self.waited(tables) or grew
            if any(table.get("Z", 0) > 0 or max(table.values()) > greatest for table in tables):
                return None
        return tables

    def faults(self, tables, deadline):
        """Why the moments are no strategy by this deadline, as docs/theorems.md has it: its limits, what it meets, dynamic."""
        for case, mine in zip(self.cases, tables):
            if mine.keys() != {name for name in self.names if self.is_executed(name, case)}:
                yield f"in {case} other time-points are executed"
                continue
            yield from (f"in {case} {name} is at {moment}" for name, moment in mine.items()
                        if not 0 <= moment <= (0 if name == "Z" else deadline))
            yield from (f"in {case} {target} is more than {most} after {source}" for source, target, most, label in self.constraints
                        if self.holds_with_ends(source, target, label, case) and mine[target] - mine[source] > most)
            for other, theirs in zip(self.cases, tables):
                for name, moment in mine.items():
                    known = (it for it in case if mine[self.observers[it]] + self.reactions[it] <= moment)
                    if all(other.get(it, case[it]) == case[it] for it in known) and theirs.get(name) != moment:
                        yield f"{name} is at {moment} in {case}, and not in {other}, which is not told apart yet"

    def holds_with_ends(self, source, target, label, case):
        """The label of a constraint and those of its ends hold in a case, with those of the observers of all their letters."""
        named = (source, target, *(self.observers[letter] for letter in label))
        return holds(label, case) and all(self.is_executed(it, case) for it in named)

    def waited(self, tables):
        """Raises the moments of those who do not know yet that it is another case, in which they are later; whether any rose."""
        grew = False
        for one, other in itertools.permutations(range(len(tables)), 2):
            case, mine, theirs = self.cases[one], tables[one], tables[other]
            differ = [letter for letter in case.keys() & self.cases[other].keys() if case[letter] != self.cases[other][letter]]
            known = min(mine[self.observers[letter]] + self.reactions[letter] for letter in differ)
            for name, moment in mine.items():
                least = min(theirs.get(name, 0), known)
                if least > moment:
                    mine[name], grew = least, True
        return grew


def chained(table, force, greatest):
    """Raises the moments of one case until all its constraints are met, or one is too late; whether any rose."""
    grew, grows = False, True
    while grows:
        grows = False
        for source, target, most in force:
            if table[target] - most > table[source]:
                table[source], grows = table[target] - most, True
                if table[source] > greatest or table.get("Z", 0) > 0:
                    return True
        grew = grew or grows
    return grew


def least_deadline(tables):
    """The least deadline with which a plan exists, or none where none does."""
    return None if tables is None else max(max(table.values()) for table in tables)


def shown(case, table):
    """A case and its moments, as one line."""
    outcomes = " ".join(letter if value else f"not {letter}" for letter, value in case.items()) or "always"
    return f"{outcomes}: " + ", ".join(f"{name} {moment}" for name, moment in sorted(table.items(), key=lambda it: it[1]))


def main():
    words = argparse.ArgumentParser(description=__doc__.split("\n")[0])
    words.add_argument("file")
    words.add_argument("--deadline", type=int)
    given = words.parse_args()
    loader = importlib.machinery.SourceFileLoader("replay", READER)
    reader = importlib.util.module_from_spec(importlib.util.spec_from_loader("replay", loader))
    loader.exec_module(reader)
    try:
        with open(given.file, "rb") as file:
            network = reader.network_of(file.read(), given.deadline)
    except reader.Ended as ended:
        print(f"tables: {ended}", file=sys.stderr)
        return ended.status
    read = Tables.of(network)
    tables = read.moments(greatest=network.deadline)
    if tables is None:
        print("no")
        return 1
    wrong = list(read.faults(tables, network.deadline))
    print("\n".join(wrong or ["yes", *map(shown, read.cases, tables)]))
    return 2 if wrong else 0


if __name__ == "__main__":
    sys.exit(main())
