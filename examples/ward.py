#!/usr/bin/env python3
"""A service over the package, to be copied: patients whose messages come late, twice, in any order, and wrong.

    examples/ward.py          CSTN of the environment names the program; without it the released one is taken

It takes the messages below, is killed in the middle, gets all of them again, and ends with a report.
"""
import json
import os
import signal
import sqlite3
import subprocess
import sys
import tempfile
from datetime import datetime
from zoneinfo import ZoneInfo

TOP = os.path.dirname(os.path.dirname(os.path.realpath(__file__)))
sys.path.insert(0, os.path.join(TOP, "python"))
from cstn import (Can, Change, Clock, Contradicts, Did, Done, Expect, Host, Moved, Next, Plan,  # noqa: E402
                  Refused, Saw, SqliteStore, Unknown)

PATHWAY = Plan.load(os.path.join(TOP, "examples", "clinical-pathway.plan"))
TABLES = """
create table if not exists desk(plan text, key text, message text, why text, primary key(plan, key));
create table if not exists ended(plan text primary key);
"""


def event_of(message):
    """The event of a message; None of an empty one, which stands in place of what is to be left out."""
    key, at = message.get("key"), message.get("at") and datetime.fromisoformat(message["at"])
    letters = {word: letter for letter, word in PATHWAY.words.items()}
    match message.get("is"):
        case "did":
            return Did(message["step"], at, key)
        case "saw":
            return Saw(letters[message["result"]], message["value"], at, key)
        case "expect":
            return Expect(letters[message["result"]], at, key)
        case "change":
            return Change(message["limit"], message["most"], key)
    return None


class Ward:
    """The package keeps what was told. This keeps what could not be, as a correction that is there before its event."""

    def __init__(self, path):
        self.host = Host(SqliteStore(path))          # make it behind a fork, one in each process
        self.desk = sqlite3.connect(path, isolation_level=None)
        self.desk.executescript(TABLES)

    def begin(self, plan, start):
        try:
            self.host.create(plan, PATHWAY, Clock(start))
        except Moved:
            pass                                     # the sender said it twice

    def take(self, plan, message):
        """Tells a message; what cannot be told yet lies on the desk, and is tried again after each that can."""
        try:
            said = self.told(plan, message)
        except (Contradicts, Unknown) as error:
            self.desk.execute("insert or replace into desk values(?, ?, ?, ?)",
                              (plan, message["key"], json.dumps(message), str(error)))
            return f"on the desk: {error}"
        while self.one_more(plan):
            pass
        return said

    def told(self, plan, message):
        follower = self.host.follower(plan)
        if "corrects" not in message:
            receipt = follower.tell(event_of(message), keep=True)
        else:
            receipt = follower.correct(message["corrects"], event_of(message["instead"]), own_key=message["key"])
        if isinstance(follower.next(), Done):
            self.desk.execute("insert or ignore into ended values(?)", (plan,))
        says = [f"{receipt.verdict}", *["told before"] * receipt.again]
        says += [f"waits for {what}" for what in (*receipt.waits_for.steps, *receipt.waits_for.letters)]
        says += [f"to be looked at: {key}" for key in receipt.fallen]
        return ", ".join([*says, *(f"so now {key}" for key in receipt.taken)])

    def one_more(self, plan):
        """Whether something from the desk could be told."""
        for key, text in self.desk.execute("select key, message from desk where plan = ?", (plan,)).fetchall():
            try:
                self.told(plan, json.loads(text))
            except Refused:
                continue
            self.clear(plan, key)
            return True
        return False

    def clear(self, plan, key):
        self.desk.execute("delete from desk where plan = ? and key = ?", (plan, key))

    def due(self, at=None):
        """What is to be done now, of the plans that have not ended."""
        ended = {plan for plan, in self.desk.execute("select plan from ended")}
        return self.host.due(at, of=[plan for plan in self.host.plans() if plan not in ended])

    def report(self):
        """A line for each plan: how it stands, what is next, or which sentences cannot be kept, and what would do."""
        for plan in self.host.plans():
            follower = self.host.follower(plan)
            outlook, clock = follower.outlook(latest=False), follower.clock
            says = [f"{plan}: {outlook.verdict}, {len(outlook.done)} done"]
            if isinstance(outlook.next, Next):
                what = [*outlook.next.do, *(f"result of {PATHWAY.words[letter]}" for letter in outlook.next.wait)]
                says.append(f"next {', '.join(what)} at {clock.time_of(outlook.next.at):%H:%M}")
            if outlook.verdict.can is Can.NO:
                says += [f"{way.limit.says!r}: {way.would_do} in place of {way.is_now}"
                         for way in follower.ways_out() if way.limit and way.would_do is not None]
            says += [f"changed: {it.event.id} to {it.event.most}" for it in follower.history()
                     if isinstance(it.event, Change)]
            says += [f"to be looked at: {it.event.key}, since {it.why}" for it in outlook.fallen]
            says += [f"on the desk: {why}" for why, in
                     self.desk.execute("select why from desk where plan = ?", (plan,))]
            yield "; ".join(says)


def did(key, time, step):
    return {"key": key, "is": "did", "step": step, "at": f"2026-03-02T{time}+01:00"}


def saw(key, time, value):
    return {"key": key, "is": "saw", "result": "infection", "value": value, "at": f"2026-03-02T{time}+01:00"}


MESSAGES = [
    ("ann", saw("lab 1", "08:50", False)),              # too early: it waits for its sample
    ("ann", did("ward 1", "08:10", "Sample")),
    ("ann", did("ward 1", "08:10", "Sample")),          # twice
    ("bob", did("ward 2", "08:51", "Sample")),          # wrong: it was at 08:15
    ("bob", saw("lab 2", "08:40", True)),               # right, but the wrong one stands against it
    ("bob", {"key": "desk 1", "corrects": "ward 2", "instead": did(None, "08:15", "Sample")}),
    ("cid", {"key": "desk 2", "corrects": "ward 3", "instead": did(None, "08:05", "Sample")}),
    ("cid", did("ward 3", "08:50", "Sample")),          # behind its correction
    ("cid", saw("lab 3", "09:05", True)),
    ("cid", did("ward 7", "08:07", "Sample")),          # another says that it was then
    ("cid", did("ward 4", "09:45", "Antibiotic")),      # 100 minutes after the sample, and not 90
    ("ann", did("ward 5", "09:40", "Review")),
    ("ann", did("ward 6", "10:00", "Discharge")),
]


def work(path, killed_after=None):
    ward = Ward(path)
    for plan in ("ann", "bob", "cid"):
        ward.begin(plan, datetime(2026, 3, 2, 8, tzinfo=ZoneInfo("Europe/Paris")))
    for place, (plan, message) in enumerate(MESSAGES):
        if place == killed_after:
            os.kill(os.getpid(), signal.SIGKILL)
        print(f"{plan}, {message['key']}: {ward.take(plan, message)}", flush=True)
    return ward


def main():
    with tempfile.TemporaryDirectory() as folder:
        path = os.path.join(folder, "ward.db")
        subprocess.run([sys.executable, "-B", os.path.realpath(__file__), path], check=False)
        print("killed, and all is sent again")
        ward = work(path)
        print(*ward.report(), sep="\n")
        way = next(it for it in ward.host.follower("cid").ways_out() if it.would_do is not None)
        change = {"key": "desk 3", "is": "change", "limit": way.limit.id, "most": way.would_do}
        print("let it be:", ward.take("cid", change))
        print(*ward.report(), sep="\n")
        print("due at 240:", [plan for plan, _ in ward.due(240)])


if __name__ == "__main__":
    if len(sys.argv) > 1:
        work(sys.argv[1], killed_after=6)
    else:
        main()
