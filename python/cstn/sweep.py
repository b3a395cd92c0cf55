"""Many plans, or many variants of one, checked by the workers of any executor of `concurrent.futures`.

    with ProcessPoolExecutor() as executor:
        for outcome in sweep(variants(plan, deadlines=range(300, 400, 10)), executor, progress=Bar()):
            print(outcome.name, outcome.verdict)

Dask's `distributed` gives such an executor for workers on other machines: `Client(..).get_executor()`. The package has
to be installed there, and the program with it.
"""
from __future__ import annotations

import sys
from collections import deque
from collections.abc import Callable, Iterable, Iterator, Sequence, Sized
from concurrent.futures import Executor, Future
from dataclasses import dataclass, replace

from cstn import program as programs
from cstn.answers import Verdict
from cstn.errors import CstnError
from cstn.plan import Limit, Plan

Progress = Callable[[int, int | None, "Outcome"], None]
"""Called with how many are done, of how many if that is known, and the last outcome."""


@dataclass(frozen=True)
class Variant:
    """A document to be checked, and how it is called: a site, a length, a deadline."""

    name: str
    document: bytes
    deadline: int | None = None

    @classmethod
    def of(cls, plan: Plan, name: str) -> Variant:
        return cls(name, plan.document, plan.asked_deadline)


@dataclass(frozen=True)
class Outcome:
    """The verdict on a variant, or why there is none."""

    name: str
    verdict: Verdict | None
    error: CstnError | None = None


@dataclass(frozen=True)
class Range:
    """How long it takes from one step to another, in ticks, where a label holds: by two limits."""

    at_least: Limit
    at_most: Limit

    @property
    def says(self) -> str:
        return f"{self.at_most.source} to {self.at_most.target}"

    @property
    def is_task(self) -> bool:
        """Whether it is the length of a task of a plan in sentences."""
        return self.at_least.says.startswith("task ")


def ranges(plan: Plan) -> list[Range]:
    """The lengths that a plan chooses: "at least" and "at most" between the same steps with the same label."""
    found = []
    leasts = {(it.target, it.source, tuple(sorted(it.label.items()))): it for it in plan.limits if it.most < 0}
    for limit in plan.limits:
        least = leasts.get((limit.source, limit.target, tuple(sorted(limit.label.items()))))
        if least is not None and -least.most < limit.most:
            found.append(Range(least, limit))
    return found


def at_shortest(it: Range) -> list[Limit]:
    return [replace(it.at_most, most=-it.at_least.most)]


def at_longest(it: Range) -> list[Limit]:
    return [replace(it.at_least, most=-it.at_most.most)]


def variants(plan: Plan, *, deadlines: Sequence[int] = (), one_by_one: bool = True,
             site: str = "") -> Iterator[Variant]:
    """A plan as it stands, with all its lengths at their shortest, all at their longest, those of its tasks alone at
    their longest (where other ranges would stretch too), and each length alone; all of it by each deadline. `site`
    stands before each name, where plans of several sites are checked together."""
    changes = list(changes_of_lengths(plan, one_by_one))
    for deadline in deadlines or [plan.deadline]:
        for name, limits in changes:
            before, behind = f"{site}: " if site else "", f", by {deadline}" if deadlines else ""
            yield Variant(before + name + behind, plan.saved(limits, deadline))


def changes_of_lengths(plan: Plan, one_by_one: bool) -> Iterator[tuple[str, list[Limit]]]:
    """The limits that make each variant of a plan's lengths, by its name."""
    found = ranges(plan)
    yield "as planned", []
    if found:
        yield "all at their shortest", [it for one in found for it in at_shortest(one)]
        yield "all at their longest", [it for one in found for it in at_longest(one)]
        tasks = [it for one in found if one.is_task for it in at_longest(one)]
        if 0 < len(tasks) < len(found):
            yield "tasks at their longest", tasks
    for one in found if one_by_one and len(found) > 1 else []:
        yield f"{one.says} at its shortest, {-one.at_least.most}", at_shortest(one)
        yield f"{one.says} at its longest, {one.at_most.most}", at_longest(one)


def check_variant(variant: Variant, cap: int, seconds: float | None, program: str | None) -> Outcome:
    """Checks one variant; this is what a worker does."""
    try:
        verdict = programs.check(variant.document, variant.deadline, cap, seconds=seconds, program=program)
        return Outcome(variant.name, verdict)
    except CstnError as error:
        return Outcome(variant.name, None, error)


def sweep(found: Iterable[Variant], executor: Executor, *, cap: int = programs.CAP,
          seconds: float | None = programs.SECONDS, program: str | None = None, ahead: int = 256,
          progress: Progress | None = None) -> Iterator[Outcome]:
    """The outcomes of variants, in their order. At most `ahead` are with the executor at once.

    A variant that is refused, or takes too long, is an outcome with an error; what the executor raises is raised.
    """
    total = len(found) if isinstance(found, Sized) else None
    running: deque[Future[Outcome]] = deque()
    done = 0
    left = iter(found)
    try:
        while True:
            while len(running) < ahead and (variant := next(left, None)) is not None:
                running.append(executor.submit(check_variant, variant, cap, seconds, program))
            if not running:
                return
            outcome = running.popleft().result()
            done += 1
            if progress is not None:
                progress(done, total, outcome)
            yield outcome
    finally:
        for future in running:
            future.cancel()


class Bar:
    """A progress bar on a stream, with how many were no yes."""

    def __init__(self, width: int = 30) -> None:
        self.width, self.others = width, 0

    def __call__(self, done: int, total: int | None, outcome: Outcome) -> None:
        self.others += outcome.verdict is None or not outcome.verdict.is_yes
        if total:
            filled = self.width * done // total
            text = f"[{'#' * filled}{'.' * (self.width - filled)}] {done} of {total}"
        else:
            text = f"{done} done"
        sys.stderr.write(f"\r{text}, {self.others} no yes" + ("\n" if done == total else ""))
        sys.stderr.flush()
