"""Plans with observations, checked and carried out by the proved program `cstn`.

    from cstn import Follower, Plan, SqliteStore

    plan = Plan.load("examples/clinical-pathway.graphml")
    store = SqliteStore("ward.db")
    with Follower(plan, store.journal("patient 12")) as follower:
        follower.did("Sample", 5)
        print(follower.outlook())

Moments are ticks, or aware datetimes with a `Clock`. Each name below has a docstring with its arguments and errors:
`help(cstn.Follower)`.

- A plan: `Plan.load(path)` reads a document, or a plan in sentences; `Plan.read` and `Plan.of_sentences` take bytes or
  a text. It has `Step`s and `Limit`s, and `check()` answers a `Verdict`: YES, NO, or UNKNOWN at its cap.
- What happens: `Did`, `Saw`, `Expect`, `NotBefore` and `Now` are facts, `Add`, `AddStep`, `Change`, `Deadline` and
  `Forgive` edits. With a `key`, the sender's own, an event that is told twice counts once.
- Carrying it out: a `Follower` over a plan and a journal. `tell` (or `did`, `saw`, `now`) answers a `Receipt` once the
  event is kept; `correct` puts another event in its place. `next`, `verdict`, `by`, `until` and `late` ask one thing,
  `outlook` all that a screen shows. After a "no", `blame` and `blamed_sets` name limits, `ways_out`, `give_way` and
  `least_deadline` numbers that would do, and `forgive` goes on without the limits that were broken. `attempt` is the
  verdict if an event were told, `what_if` a copy for trials, `cases` how it goes on in each case, `rest` a document of
  what is left, `digest` says which plan it is, and `history` has what was told.
- Many plans: a `Host` over a store. `SqliteStore` comes with it, `cstn.postgres.PostgresStore` is for many machines; a
  `Journal` of your own has two calls. `cstn.aio` has the same for `asyncio`, `cstn.sweep` checks many variants.
- What goes wrong is a `CstnError`. `Refused` is about the event: `Unknown`, `NotYet`, `Contradicts`, `OutOfRange`,
  `TooMany`, `WrongType`. `BadDocument` is about the document, `Moved` and `Busy` about another client, `NotKept` and
  `Changed` about the journal, `OutOfTime` and `Unavailable` about the process, `NoProgram` about the installation.

The program is looked for in the variable CSTN, in this package, in a checkout beside it, and on the path.
"""
from cstn.answers import Can, Done, Next, Verdict
from cstn.clock import Clock
from cstn.errors import (BadDocument, Busy, Changed, Contradicts, CstnError, Moved, NoProgram, NotKept, NotYet,
                         OutOfRange, OutOfTime, Refused, TooMany, Unavailable, Unknown, WaitsFor, WrongType)
from cstn.events import Add, AddStep, Change, Deadline, Did, Event, Expect, Forgive, NotBefore, Now, Saw
from cstn.follower import Follower, Receipt, Trial
from cstn.host import Host
from cstn.journal import Journal, MemoryJournal, Store
from cstn.outlook import Awaited, Fallen, Late, Outlook, Waiting, WayOut
from cstn.plan import Limit, Plan, Step
from cstn.session import Standing, Telling
from cstn.sqlite import SqliteJournal, SqliteStore
from cstn.state import Seen
from cstn.ways import Way

__all__ = [
    "Add", "AddStep", "Awaited", "BadDocument", "Busy", "Can", "Change", "Changed", "Clock", "Contradicts",
    "CstnError", "Deadline", "Did", "Done", "Event", "Expect", "Fallen", "Follower", "Forgive", "Host", "Journal",
    "Late", "Limit", "MemoryJournal", "Moved", "Next", "NoProgram", "NotBefore", "NotKept", "NotYet", "Now",
    "OutOfRange", "OutOfTime", "Outlook", "Plan", "Receipt", "Refused", "Saw", "Seen", "SqliteJournal",
    "SqliteStore", "Standing", "Step", "Store", "Telling", "TooMany", "Trial", "Unavailable", "Unknown", "Verdict",
    "Waiting", "WaitsFor", "Way", "WayOut", "WrongType"]
