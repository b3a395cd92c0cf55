"""The same for `asyncio`: each call runs in a thread, so that the loop goes on meanwhile.

    async with AsyncFollower(Follower(plan, journal)) as follower:
        await follower.did("Sample", 5)

A call that is cancelled runs to its end, or to its time limit; whether its event was kept then, its key tells.
"""
from __future__ import annotations

import asyncio
from collections.abc import Callable, Iterable
from concurrent.futures import Executor
from functools import partial
from typing import ParamSpec, Self, TypeVar

from cstn.answers import Done, Next, Verdict
from cstn.clock import Clock
from cstn.errors import Refused
from cstn.events import Event, Moment
from cstn.follower import Follower, Receipt, Trial
from cstn.host import Host
from cstn.outlook import Late, Outlook, WayOut
from cstn.plan import Plan
from cstn.session import Telling
from cstn.ways import Way

Arguments = ParamSpec("Arguments")
Found = TypeVar("Found")


class Threads:
    """Runs calls in the threads of an executor, or in those of the loop."""

    def __init__(self, executor: Executor | None = None) -> None:
        self.executor = executor

    async def run(self, call: Callable[Arguments, Found], *args: Arguments.args, **words: Arguments.kwargs) -> Found:
        return await asyncio.get_running_loop().run_in_executor(self.executor, partial(call, *args, **words))


class AsyncFollower:
    """A `Follower` whose calls are awaited."""

    def __init__(self, follower: Follower, executor: Executor | None = None) -> None:
        self.follower, self.threads = follower, Threads(executor)

    async def tell(self, event: Event, *, wait: bool = True, keep: bool = False, expect: int | None = None) -> Receipt:
        return await self.threads.run(self.follower.tell, event, wait=wait, keep=keep, expect=expect)

    async def tell_all(self, events: Iterable[Event]) -> list[Receipt | Refused]:
        return await self.threads.run(self.follower.tell_all, list(events))

    async def did(self, step: str, at: Moment, key: str | None = None) -> Receipt:
        return await self.threads.run(self.follower.did, step, at, key)

    async def saw(self, letter: str, value: bool, at: Moment, key: str | None = None) -> Receipt:
        return await self.threads.run(self.follower.saw, letter, value, at, key)

    async def now(self, at: Moment) -> Receipt:
        return await self.threads.run(self.follower.now, at)

    async def not_before(self, step: str, at: Moment, key: str | None = None) -> Receipt:
        return await self.threads.run(self.follower.not_before, step, at, key)

    async def add_step(self, step: str, key: str | None = None) -> Receipt:
        return await self.threads.run(self.follower.add_step, step, key)

    async def forgive(self, key: str | None = None) -> Receipt:
        return await self.threads.run(self.follower.forgive, key)

    async def correct(self, key: str, instead: Event | None = None, *, expect: int | None = None,
                      own_key: str | None = None) -> Receipt:
        return await self.threads.run(self.follower.correct, key, instead, expect=expect, own_key=own_key)

    async def verdict(self) -> Verdict:
        return await self.threads.run(self.follower.verdict)

    async def next(self) -> Next | Done | Verdict:
        return await self.threads.run(self.follower.next)

    async def by(self, step: str) -> int | None:
        return await self.threads.run(self.follower.by, step)

    async def outlook(self, *, latest: bool = True) -> Outlook:
        return await self.threads.run(self.follower.outlook, latest=latest)

    async def blame(self) -> tuple[int, ...] | None:
        return await self.threads.run(self.follower.blame)

    async def blamed_sets(self) -> tuple[tuple[int, ...], ...]:
        return await self.threads.run(self.follower.blamed_sets)

    async def ways_out(self, *, seconds: float = 60.0) -> tuple[WayOut, ...]:
        return await self.threads.run(self.follower.ways_out, seconds=seconds)

    async def give_way(self, limit: int) -> WayOut | None:
        return await self.threads.run(self.follower.give_way, limit)

    async def least_deadline(self) -> int | None:
        return await self.threads.run(self.follower.least_deadline)

    async def until(self) -> int | None:
        return await self.threads.run(self.follower.until)

    async def latest(self) -> dict[str, int]:
        return await self.threads.run(self.follower.latest)

    async def late(self, letter: str) -> Late:
        return await self.threads.run(self.follower.late, letter)

    async def attempt(self, event: Event, *, now: Moment | None = None) -> Verdict:
        return await self.threads.run(self.follower.attempt, event, now=now)

    async def use_cap(self, cap: int) -> Verdict:
        return await self.threads.run(self.follower.use_cap, cap)

    async def cases(self) -> tuple[Way, ...]:
        return await self.threads.run(self.follower.cases)

    async def digest(self) -> str:
        return await self.threads.run(self.follower.digest)

    async def rest(self) -> bytes:
        return await self.threads.run(self.follower.rest)

    async def lines(self) -> tuple[str, ...]:
        return await self.threads.run(self.follower.lines)

    async def history(self) -> tuple[Telling, ...]:
        return await self.threads.run(self.follower.history)

    async def what_if(self) -> AsyncTrial:
        """A copy, to be used with `async with`."""
        return AsyncTrial(await self.threads.run(self.follower.what_if), self.threads.executor)

    async def close(self) -> None:
        await self.threads.run(self.follower.close)

    async def __aenter__(self) -> Self:
        return self

    async def __aexit__(self, *_: object) -> None:
        await self.close()


class AsyncTrial(AsyncFollower):
    """A `Trial` whose calls are awaited."""

    def __init__(self, trial: Trial, executor: Executor | None = None) -> None:
        super().__init__(trial, executor)
        self.trial = trial

    async def mark(self) -> int:
        return await self.threads.run(self.trial.mark)

    async def back(self) -> int:
        return await self.threads.run(self.trial.back)


class AsyncHost:
    """A `Host` whose calls are awaited."""

    def __init__(self, host: Host, executor: Executor | None = None) -> None:
        self.host, self.threads = host, Threads(executor)

    async def plans(self) -> list[str]:
        return await self.threads.run(self.host.plans)

    async def create(self, name: str, plan: Plan, clock: Clock | None = None) -> AsyncFollower:
        return AsyncFollower(await self.threads.run(self.host.create, name, plan, clock), self.threads.executor)

    async def follower(self, name: str) -> AsyncFollower:
        return AsyncFollower(await self.threads.run(self.host.follower, name), self.threads.executor)

    async def due(self, at: int | None = None, *, of: Iterable[str] | None = None) -> list[tuple[str, Next | Verdict]]:
        return await self.threads.run(self.host.due, at, of=of)

    async def close(self) -> None:
        await self.threads.run(self.host.close)
