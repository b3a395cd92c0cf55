"""Facts in any order and twice, refusals as types, corrections, what-if, and how far something has to give way."""
import os
import tempfile
import unittest
from collections.abc import Callable
from datetime import datetime, timedelta, timezone
from typing import Any

from cstn import (Add, Can, Change, Changed, Clock, Contradicts, Deadline, Did, Done, Event, Expect, Follower, Forgive,
                  Host, Late, MemoryJournal, Moved, Next, NotYet, Now, OutOfRange, OutOfTime, Plan, Receipt, Refused,
                  Saw, Seen, SqliteStore, Standing, TooMany, Unknown, WaitsFor, WrongType)
from cstn.answers import Refusal
from cstn.events import KINDS, Moment, from_data
from cstn.names import printed
from cstn.session import Limits, Session
from tests.support import CLINIC, EMERGENCY, STROKE, TOP, answers, answers_to, drawn, reads_plans

REFUSED: list[tuple[Event, type[Refused], str]] = [
    (Did("Nobody", 3), Unknown, "F3"),
    (Did("Sample\nnow 90", 3), Unknown, "F3"),
    (Did("Sam\udc80ple", 3), Refused, "line"),
    (Did("", 3), Refused, "line"),
    (Did("X" * 5000, 3), Refused, "line"),
    (Did("Sample", 1000001), OutOfRange, "F2"),
    (Did("Sample", -1), OutOfRange, "clock"),
    (Did("Sample", 6), Contradicts, "F4"),
    (Did("Antibiotic", 40), Contradicts, "F5"),
    (Saw("q", True, 5), Unknown, "F6"),
    (Saw("i true\nnow 9", True, 5), Refused, "line"),
    (Saw("ii", True, 5), Refused, "line"),
    (Saw("i", True, 30), Contradicts, "F7"),
    (Saw("i", False, 31), Contradicts, "F7"),
    (Saw("i", False, 1000001), OutOfRange, "F2"),
    (Add("Z", "Nobody", 5), Unknown, "S7"),
    (Add("Z", "Sample", 5, {"q": True}), Unknown, "S5"),
    (Add("Z", "Sample", 10**9 + 1), OutOfRange, "S3"),
    (Add("Z", "Sample", 10**12), Refused, "line"),
    (Change(99, 5), Unknown, "S2"),
    (Change(99, None), Unknown, "S2"),
    (Change(-1, 5), Refused, "line"),
    (Deadline(1000001), Refused, "line"),
    (Did("Review", 90, "#9"), Refused, "key"),
    (Did("Review", 90, ""), Refused, "key"),
    (Saw("infection", True, 5), Refused, "line"),
    (Did("Review", 90, "\udc80"), Refused, "key"),
    (Add("Z", "Sample", 9, {}, "\udc80"), Refused, "line"),
    (Did("Review", 90, "sample"), Contradicts, "key"),
]
MOMENT = "a moment is a whole tick or a datetime, and not "
WRONG: list[tuple[dict[str, Any], str]] = [
    ({"is": "did", "step": 5, "at": 3}, "a step is named by a text, and not 5"),
    ({"is": "did", "step": None, "at": 3}, "a step is named by a text, and not None"),
    ({"is": "did", "step": b"Sample", "at": 3}, "a step is named by a text, and not b'Sample'"),
    ({"is": "did", "step": "Sample", "at": "5"}, MOMENT + "'5'"),
    ({"is": "did", "step": "Sample", "at": 5.0}, MOMENT + "5.0"),
    ({"is": "did", "step": "Sample", "at": None}, MOMENT + "None"),
    ({"is": "did", "step": "Sample", "at": True}, MOMENT + "True"),
    ({"is": "did", "step": "Sample", "at": 5, "key": 7}, "a key is a text, and not 7"),
    *(({"is": "saw", "letter": "i", "value": value, "at": 80}, f"an outcome is True or False, and not {value!r}")
      for value in ("false", "", None, 0, 1)),
    ({"is": "saw", "letter": 5, "value": True, "at": 80}, "a letter is a text, and not 5"),
    ({"is": "expect", "letter": "i", "at": []}, MOMENT + "[]"),
    ({"is": "now", "at": "now"}, MOMENT + "'now'"),
    ({"is": "deadline", "at": 1.5}, MOMENT + "1.5"),
    ({"is": "change", "id": "2", "most": 5}, "the id of a limit is a whole number, and not '2'"),
    ({"is": "change", "id": 2, "most": "5"}, "the value of a limit is a whole number, and not '5'"),
    ({"is": "add", "source": "Z", "target": "Sample", "most": None}, "a limit that is added has a value"),
    ({"is": "add", "source": "Z", "target": "Sample", "most": 5, "label": "i"},
     "a label has True or False for each letter, and not 'i'"),
    ({"is": "add", "source": "Z", "target": "Sample", "most": 5, "label": {"i": 1}},
     "a label has True or False for each letter, and not {'i': 1}"),
    ({"is": "add", "source": "Z", "target": "Sample", "most": 5, "says": 5}, "a sentence is a text, and not 5"),
]


class Followers(unittest.TestCase):
    def follower(self, plan: Plan = CLINIC, **words: object) -> Follower:
        follower = Follower(plan, MemoryJournal(), **words)  # type: ignore[arg-type]
        self.addCleanup(follower.close)
        return follower

    def test_a_plan_to_its_end(self) -> None:
        follower = self.follower()
        self.assertEqual(follower.next(), Next(0, ("Sample",)))
        follower.did("Sample", 5)
        self.assertEqual(follower.saw("i", True, 45).verdict.can, Can.YES)
        self.assertEqual(follower.by("Antibiotic"), 95)
        for step, at in (("Antibiotic", 91), ("Review", 211), ("Discharge", 221)):
            follower.did(step, at)
        self.assertEqual((follower.next(), follower.version), (Done(), 6))
        outlook = follower.outlook()
        self.assertEqual((outlook.now, outlook.seen, outlook.latest), (221, {"i": Seen(True, 45)}, {}))

    def test_what_comes_too_soon_waits(self) -> None:
        follower = self.follower()
        receipt = follower.did("Antibiotic", 91, "a")
        self.assertEqual(receipt.waits_for, WaitsFor(letters=("i",)))
        self.assertEqual(follower.saw("i", True, 45, "r").waits_for, WaitsFor(steps=("Sample",)))
        self.assertEqual([it.event.key for it in follower.outlook().waiting], ["a", "r"])
        receipt = follower.did("Sample", 5, "s")
        self.assertEqual((receipt.waits_for, receipt.taken), (WaitsFor(), ("a", "r")))
        self.assertEqual(follower.next(), Next(211, ("Review",)))
        self.assertEqual(follower.outlook().waiting, ())

    def test_what_may_not_wait_is_refused(self) -> None:
        follower = self.follower()
        with self.assertRaises(NotYet) as caught:
            follower.tell(Saw("i", True, 45), wait=False)
        self.assertEqual((caught.exception.waits_for.steps, follower.version), (("Sample",), 0))

    def test_what_waited_may_fall(self) -> None:
        follower = self.follower()
        follower.did("Antibiotic", 91, "a")
        follower.did("Sample", 5)
        self.assertEqual(follower.saw("i", False, 45).fallen, ("a",))
        again = follower.did("Antibiotic", 91, "a")
        self.assertEqual((again.again, again.fallen, again.waits_for), (True, ("a",), WaitsFor()))
        self.assertIn("rules Antibiotic out", follower.outlook().fallen[0].why)
        self.assertEqual(follower.outlook().left_out, ("Antibiotic",))

    def test_what_is_told_twice_counts_once(self) -> None:
        follower = self.follower()
        follower.tell(Add("Z", "Discharge", 300, key="limit"))
        self.assertTrue(follower.tell(Add("Z", "Discharge", 300, key="limit")).again)
        follower.did("Sample", 5, "one")
        self.assertTrue(follower.did("Sample", 5, "one").again)
        self.assertTrue(follower.did("Sample", 5, "another sender").again)
        follower.now(9)
        self.assertTrue(follower.now(7).again)
        follower.saw("i", True, 45)
        self.assertTrue(follower.saw("i", True, 45).again)
        self.assertTrue(follower.tell(Expect("i", 50)).again)
        self.assertEqual((follower.version, len(follower.outlook().limits)), (6, 9))

    def test_each_sender_s_key_is_kept(self) -> None:
        follower = self.follower()
        follower.did("Sample", 5, "ward 3")
        again = follower.did("Sample", 5, "lab 7")
        self.assertEqual((again.again, again.key, again.version), (True, "lab 7", 3))
        self.assertRaises(Contradicts, follower.did, "Sample", 6, "lab 7")
        self.assertEqual([(it.event.key, it.standing) for it in follower.history()],
                         [("ward 3", Standing.TAKEN), ("lab 7", Standing.KNOWN)])
        self.assertEqual(follower.correct("ward 3", Did("Sample", 6)).fallen, ("lab 7",))
        self.assertEqual(follower.correct("lab 7").fallen, ())
        self.assertEqual((follower.outlook().done["Sample"], follower.outlook().fallen), (6, ()))
        follower.release()
        self.assertEqual(follower.outlook().done["Sample"], 6)

    def test_what_is_refused_changes_nothing(self) -> None:
        follower = self.follower()
        follower.did("Sample", 5, "sample")
        follower.saw("i", False, 30)
        before = follower.outlook()
        for event, error, code in REFUSED:
            with self.subTest(event=event):
                with self.assertRaises(error) as caught:
                    follower.tell(event)
                self.assertEqual((type(caught.exception), caught.exception.code), (error, code))
                self.assertEqual(follower.outlook(), before)
        self.assertEqual((follower.restarts, follower.version), (0, 3))

    def test_what_stands_against_it_is_told(self) -> None:
        follower = self.follower()
        follower.did("Sample", 5, "ward 3")
        facts: list[tuple[Event, int | bool | None, str | None]] = [
            (Did("Sample", 6), 5, "ward 3"), (Saw("i", True, 4), 5, "ward 3"), (Did("Z", 1), 0, None)]
        self.check_contradictions(follower, facts)
        follower.saw("i", True, 45)
        self.check_contradictions(follower, [(Saw("i", False, 45), True, "#3")])

    def test_what_is_excluded_is_kept(self) -> None:
        follower = self.follower()
        follower.did("Sample", 51, "ward 2")
        kept = follower.tell(Saw("i", True, 40, "lab 2"), keep=True)
        self.assertEqual((kept.again, kept.fallen, kept.version), (False, ("lab 2",), 3))
        self.assertEqual(follower.outlook().fallen[0].why, "i came at 40, and Sample was done only at 51")
        self.assertEqual(follower.tell(Saw("i", True, 40, "lab 2"), keep=True).fallen, ("lab 2",))
        again = Follower(CLINIC, MemoryJournal([text for _, text in follower.journal.read()]))
        self.addCleanup(again.close)
        self.assertEqual([it.event.key for it in again.outlook().fallen], ["lab 2"])
        self.assertEqual(follower.correct("ward 2", Did("Sample", 15)).taken, ("lab 2",))
        self.assertEqual(dict(follower.outlook().seen), {"i": Seen(True, 40)})

    def test_what_is_kept_is_corrected(self) -> None:
        follower = self.follower()
        follower.did("Sample", 15)
        follower.tell(Saw("i", True, 4, "lab 2"), keep=True)
        self.assertEqual(follower.correct("lab 2", Saw("i", True, 40)).fallen, ())
        self.assertEqual(dict(follower.outlook().seen), {"i": Seen(True, 40)})
        with self.assertRaises(Contradicts):
            follower.tell(Saw("i", False, 40, "lab 2"), keep=True)

    def check_contradictions(self, follower: Follower,
                             facts: list[tuple[Event, int | bool | None, str | None]]) -> None:
        for event, recorded, key in facts:
            with self.assertRaises(Contradicts) as caught:
                follower.tell(event)
            self.assertEqual((caught.exception.recorded, caught.exception.with_key), (recorded, key))

    def test_what_no_line_can_say_is_told(self) -> None:
        follower = self.follower()
        events: list[tuple[Event, str]] = [
            (Saw("infection", True, 5), "a letter is one of A to Z, a to z: 'infection'"),
            (Change(2, 10**10), "10000000000 is no value of a limit: these are from -1000000000 to 1000000000"),
            (Add("Z", "Sample", -10**9 - 1),
             "-1000000001 is no value of a limit: these are from -1000000000 to 1000000000"),
            (Deadline(10**8), "a deadline is at most 1000000, and not 100000000"),
            (Did("samples", 5), "no step is named 'samples', but one 'Sample'"),
            (Did("Lunch", 5), "no step is named 'Lunch'"),
            (Expect("ä", 5), "a letter is one of A to Z, a to z: 'ä'"),
            (Did("Sample", 5, ""), "a key is a text that is not empty and does not begin with #: ''")]
        for event, says in events:
            with self.assertRaises(Refused) as caught:
                follower.tell(event)
            self.assertEqual(str(caught.exception), says)

    @unittest.skipUnless(reads_plans(), "the program reads no plans in sentences")
    def test_a_word_is_no_letter(self) -> None:
        follower = self.follower(Plan.load(TOP.parent / "examples" / "clinical-pathway.plan"))
        with self.assertRaisesRegex(Refused, "a letter is one of A to Z, a to z: 'infection' is the word for i"):
            follower.saw("infection", True, 5)

    def test_times_are_refused_as_times(self) -> None:
        clock = Clock(datetime.now(timezone.utc) - timedelta(minutes=30))
        follower = self.follower(clock=clock)
        refused: list[tuple[Moment, str]] = [
            (clock.time_of(-5), f"{clock.time_of(-5)} is before the plan's start, {clock.origin}"),
            (clock.time_of(90), f"{clock.time_of(90)} is in the future: it is {clock.time_of(30)}, or a clock is wrong"),
            (90, "90 is in the future: it is 30, or a clock is wrong")]
        for at, says in refused:
            with self.assertRaises(OutOfRange) as caught:
                follower.did("Sample", at)
            self.assertEqual(str(caught.exception), says)
        follower.did("Sample", 20)
        with self.assertRaises(Contradicts) as excluded:
            follower.saw("i", True, 10)
        came, done = clock.shown(10), clock.shown(20)
        self.assertEqual(str(excluded.exception), f"i came at {came}, and Sample was done only at {done}")

    def test_there_is_no_room(self) -> None:
        plan = Plan.read(CLINIC.saved([]).replace(b"{(15, ", b"{" + b"(15, \xe2\x8a\xa1)," * 16375 + b"(15, "))
        follower = self.follower(plan)
        self.assertRaises(TooMany, follower.tell, Add("Z", "Sample", 9))

    def test_many_at_once(self) -> None:
        found = self.follower().tell_all([Did("Sample", 5), Did("Sample", 6), Saw("i", True, 45)])
        self.assertEqual([isinstance(it, Refused) for it in found], [False, True, False])

    def test_versions(self) -> None:
        follower = self.follower()
        follower.did("Sample", 5)
        self.assertRaises(Moved, follower.tell, Now(9), expect=1)
        self.assertEqual(follower.tell(Now(9), expect=2).version, 3)

    def test_an_edit(self) -> None:
        follower = self.follower()
        receipt = follower.tell(Add("Discharge", "Z", -300, {"i": True}, "not before the bus"))
        self.assertEqual(receipt.added, 8)
        follower.tell(Change(8, -310))
        self.assertEqual(follower.outlook().limits[8].most, -310)
        self.assertEqual(follower.outlook().limits[8].says, "not before the bus")
        follower.tell(Change(8, None))
        follower.tell(Deadline(190))
        outlook = follower.outlook()
        self.assertEqual((8 in outlook.limits, outlook.deadline, outlook.verdict.can), (False, 190, Can.NO))

    def test_how_far_something_has_to_give_way(self) -> None:
        follower = self.follower()
        follower.did("Sample", 5)
        self.assertEqual((follower.blame(), follower.ways_out()), (None, ()))
        self.assertEqual(follower.late("i"), Late("i", 95, False))
        follower.tell(Expect("i", 97))
        self.assertEqual(follower.blame(), (2,))
        self.assertEqual(len(follower.ways_out(seconds=0)), 1)
        ways = follower.ways_out()
        self.assertEqual([(way.is_now, way.would_do) for way in ways], [(90, 92), (360, None), (97, 95)])
        self.assertEqual((ways[0].limit and ways[0].limit.id, ways[1].is_deadline, ways[2].letter), (2, True, "i"))
        follower.now(96)
        self.assertEqual(follower.late("i"), Late("i", None, False))
        self.assertRaises(Refused, follower.late, "q")
        follower.tell(Deadline(50))
        self.assertEqual(follower.verdict().can, Can.NO)

    def test_more_than_one_thing_has_to_give_way(self) -> None:
        follower = self.follower()
        self.assertEqual(follower.blamed_sets(), ())
        follower.tell_all([Did("Sample", 20), Saw("i", True, 45), Did("Antibiotic", 112), Did("Review", 240)])
        self.assertEqual([way.would_do for way in follower.ways_out()], [None, None])
        self.assertEqual(follower.blamed_sets(), ((2,), (0,)))
        for number in (0, 2):
            follower.tell(Change(number, None))
        self.assertEqual(follower.verdict().can, Can.YES)
        follower.tell(Deadline(100))
        self.assertEqual(follower.blamed_sets(), ())

    def test_a_part_that_comes_late(self) -> None:
        follower = self.follower()
        follower.tell_all([Did("Sample", 5), Saw("i", True, 45), Add("Antibiotic", "Z", -120)])
        ways = [(way.limit.id if way.limit else None, way.added, way.would_do) for way in follower.ways_out()]
        self.assertEqual(ways, [(2, False, 115), (8, True, -95), (None, False, None)])

    def test_a_deadline_that_would_do(self) -> None:
        follower = self.follower(Plan.read(CLINIC.document, deadline=190))
        follower.tell(Change(7, None))
        self.assertEqual([(way.is_deadline, way.would_do) for way in follower.ways_out()][-1], (True, 195))

    def test_what_is_asked_of_a_yes(self) -> None:
        follower = self.follower()
        self.assertEqual((follower.until(), follower.least_deadline(), follower.give_way(2)), (15, 195, None))
        follower.did("Sample", 5)
        self.assertEqual((follower.until(), follower.outlook().until), (95, 95))
        self.assertEqual(follower.latest(), {"Antibiotic": 95, "Review": 125, "Discharge": 360})
        self.assertEqual(follower.latest(), follower.outlook().latest)
        self.assertIsNone(follower.outlook(latest=False).until)
        self.assertRaises(Unknown, follower.give_way, 99)
        self.assertRaises(NotYet, self.follower().late, "i")
        follower.saw("i", False, 9)
        self.assertRaises(Contradicts, follower.late, "i")
        follower.tell_all([Did("Review", 85), Did("Discharge", 95)])
        self.assertEqual((follower.until(), follower.latest(), follower.least_deadline()), (None, {}, 95))

    def test_what_is_asked_of_a_no(self) -> None:
        follower = self.follower(Plan.read(CLINIC.document, deadline=180))
        found = [(way and (way.is_now, way.would_do)) for way in map(follower.give_way, (3, 7))]
        self.assertEqual(found, [(-120, -105), (360, None)])
        self.assertEqual((follower.least_deadline(), follower.until(), follower.latest()), (195, None, {}))
        follower.tell(Change(1, None))
        ways = [(way.is_deadline, way.would_do) for way in follower.ways_out()]
        self.assertEqual(ways, [(False, -110), (False, 0), (True, 190)])

    def test_an_outcome_that_nothing_needs_and_one_of_the_start(self) -> None:
        nodes = '<graphml><graph><node id="Z"><data key="Obs">p</data><data key="Reaction">10</data></node>' \
            '<node id="A"/><data key="Deadline">5000</data>'
        edges = "".join(f'<edge source="{a}" target="{b}"><data key="LabeledValues">{{({most}, {label})}}</data></edge>'
                        for a, b, most, label in (("Z", "A", 3000, "p"), ("A", "Z", -2000, "")))
        follower = self.follower(Plan.read(f"{nodes}{edges}</graph></graphml>"))
        self.assertEqual(follower.late("p"), Late("p", 1000, False))
        follower = self.follower(STROKE)
        follower.did("Scan", 3)
        self.assertEqual(follower.late("b"), Late("b", None, True))

    def test_an_attempt(self) -> None:
        follower = self.follower()
        follower.did("Sample", 5)
        attempts: list[tuple[Event, int | None, Can]] = [
            (Expect("i", 95), None, Can.YES), (Expect("i", 96), None, Can.NO), (Change(2, 20), None, Can.NO),
            (Deadline(194), None, Can.NO), (Forgive(), None, Can.YES), (Did("Sample", 5), None, Can.YES),
            (Saw("i", True, 60), 95, Can.YES), (Saw("i", True, 60), 96, Can.NO), (Did("Sample", 5), 96, Can.NO)]
        for event, now, can in attempts:
            with self.subTest(event=event, now=now):
                self.assertIs(follower.attempt(event, now=now).can, can)
        for step, error in (("Antibiotic", NotYet), ("Sample", Contradicts), ("Nobody", Unknown)):
            for moment in (None, 60):
                with self.subTest(step=step, now=moment), self.assertRaises(error):
                    follower.attempt(Did(step, 9), now=moment)
        self.assertEqual((follower.lines(), len(list(follower.journal.read()))), (("did 5 Sample",), 2))
        self.assertEqual(follower.outlook(latest=False).now, 5)

    def test_what_is_broken_is_forgiven(self) -> None:
        follower = self.follower()
        self.assertEqual(follower.forgive("nothing").forgiven, ())
        follower.tell_all([Did("Sample", 5, "s"), Saw("i", True, 45), Did("Antibiotic", 112, "a")])
        receipt = follower.forgive("k")
        self.assertEqual((receipt.forgiven, receipt.verdict.can, receipt.again), ((2,), Can.YES, False))
        self.assertNotIn(2, follower.outlook().limits)
        self.assertEqual((follower.forgive("k").again, follower.forgive("k").forgiven), (True, (2,)))
        follower.release()
        self.assertEqual((follower.verdict().can, follower.lines()[-1]), (Can.YES, "forgive"))
        follower.correct("a", Did("Antibiotic", 90))
        self.assertIn(2, follower.outlook().limits)
        follower.correct("a", Did("Antibiotic", 112))
        follower.correct("k")
        self.assertEqual((follower.verdict().can, follower.blame()), (Can.NO, (2,)))

    def test_a_journal_that_forgave_something_else(self) -> None:
        follower = self.follower()
        follower.tell_all([Did("Sample", 20), Forgive()])
        journal = follower.journal
        assert isinstance(journal, MemoryJournal)
        journal.entries[-1] = journal.entries[-1].replace("forgiven 0", "forgiven 1")
        other = Follower(CLINIC, MemoryJournal(journal.entries))
        self.addCleanup(other.close)
        self.assertRaises(Changed, other.verdict)

    def test_marks(self) -> None:
        follower = self.follower()
        follower.tell_all([Did("Sample", 5), Saw("i", True, 45)])
        with follower.what_if() as trial:
            self.assertRaises(Refused, trial.back)
            self.assertEqual((trial.mark(), trial.did("Antibiotic", 112).verdict.can), (1, Can.NO))
            self.assertEqual((trial.mark(), trial.forgive().verdict.can, trial.use_cap(4).can), (2, Can.YES, Can.YES))
            self.assertEqual((trial.back(), trial.verdict().can, trial.blame()), (1, Can.NO, (2,)))
            process = trial.session and trial.session.child.process
            self.assertEqual((trial.blamed_sets(), len(trial.ways_out())), (((2,),), 2))
            self.assertIs(process, trial.session and trial.session.child.process)
            trial.release()
            self.assertEqual((trial.back(), trial.verdict().can, trial.lines()), (0, Can.YES, follower.lines()))
            self.assertEqual([trial.mark() for _ in range(8)], [1, 2, 3, 4, 5, 6, 7, 8])
            self.assertRaises(TooMany, trial.mark)
            trial.did("Antibiotic", 112)
            self.assertEqual((trial.blame(), trial.back()), ((2,), 7))
            self.assertEqual((trial.next(), len(trial.history())), (Next(70, ("Antibiotic",)), 2))
        self.assertEqual(len(follower.history()), 2)

    def test_another_cap(self) -> None:
        follower = self.follower()
        process = follower.verdict() and follower.session and follower.session.child.process
        self.assertEqual(follower.use_cap(9).can, Can.YES)
        self.assertGreater(follower.allowed.cap, 9)
        self.assertIs(process, follower.session and follower.session.child.process)
        for cap in (0, 4194305):
            self.assertRaises(OutOfRange, follower.use_cap, cap)
        small = Follower(CLINIC, MemoryJournal(), cap=2, most_cap=2)
        self.addCleanup(small.close)
        for question in (small.until, small.least_deadline):
            self.assertRaises(OutOfTime, question)
        self.assertEqual((small.latest(), small.use_cap(99).can), ({}, Can.YES))

    def test_what_if(self) -> None:
        follower = self.follower()
        follower.did("Sample", 5)
        with follower.what_if() as trial:
            trial.saw("i", True, 45)
            with trial.what_if() as deeper:
                deeper.did("Antibiotic", 112)
                self.assertEqual(deeper.verdict().can, Can.NO)
            self.assertEqual(trial.next(), Next(70, ("Antibiotic",)))
        self.assertEqual((follower.next(), follower.version), (Next(65, (), ("i",)), 2))

    def test_a_step_that_is_named_wait(self) -> None:
        plan = Plan.read(b'<graphml><graph><data key="Deadline">9</data><node id="A"><data key="Obs">i</data></node>'
                         b'<node id="wait"/><node id="i"/></graph></graphml>')
        follower = self.follower(plan)
        self.assertEqual(follower.next(), Next(0, ("A", "wait", "i")))
        follower.tell_all([Did("wait", 0), Did("i", 0), Did("A", 0)])
        self.assertEqual(follower.next(), Next(1, (), ("i",)))

    def test_steps_of_one_moment_stand_in_their_order(self) -> None:
        follower = self.follower(Plan.of_sentences(
            "deadline 9\nstep Last\nstep Log\nstep First\nstep A\nstep B\nLast after Log\nLog after First\nA with B\n"))
        self.assertEqual(follower.next(), Next(0, ("First", "A", "B", "Log", "Last")))
        follower.did("First", 0)
        self.assertEqual(follower.next(), Next(0, ("Log", "A", "B", "Last")))

    def test_the_lines_that_bring_it_back(self) -> None:
        follower = self.follower()
        follower.tell_all([Saw("i", True, 45), Did("Sample", 5), Now(50)])
        self.assertEqual(follower.lines(), ("did 5 Sample", "saw 45 i true", "now 50"))

    def test_what_is_left(self) -> None:
        follower = self.follower()
        follower.did("Sample", 5)
        self.assertNotIn("Sample", Plan.read(follower.rest()).limits)

    def test_the_clock(self) -> None:
        origin = datetime.now(timezone.utc) - timedelta(minutes=50)
        follower = self.follower(clock=Clock(origin))
        self.assertRaises(OutOfRange, follower.did, "Sample", 300)
        self.assertRaises(OutOfRange, follower.now, origin + timedelta(hours=9))
        self.assertRaises(OutOfRange, follower.did, "Sample", origin - timedelta(seconds=1))
        self.assertRaises(TypeError, follower.did, "Sample", datetime(2026, 11, 30))
        follower.did("Sample", origin + timedelta(minutes=5, seconds=59))
        self.assertEqual(follower.outlook().done["Sample"], 5)
        again = Follower(CLINIC, follower.journal)
        self.addCleanup(again.close)
        again.did("Sample", origin + timedelta(minutes=5))
        self.assertEqual(again.clock, follower.clock)
        self.assertRaises(TypeError, self.follower().did, "Sample", origin)

    def test_events_of_other_types(self) -> None:
        for data, says in WRONG:
            with self.subTest(data=data):
                kind, values = KINDS[str(data["is"])], {name: it for name, it in data.items() if name != "is"}
                with self.assertRaises(WrongType) as caught:
                    kind(**values)
                self.assertEqual((str(caught.exception), caught.exception.code), (says, "type"))
                self.assertRaises(ValueError, from_data, data)

    def test_calls_with_other_types(self) -> None:
        follower = self.follower()
        follower.did("Sample", 5, "s")
        wrong: Any = follower
        calls: list[Callable[[], object]] = [
            lambda: wrong.tell("did 5 Sample"), lambda: wrong.tell(None), lambda: wrong.did(None, 5),
            lambda: wrong.did("Sample", "5"), lambda: wrong.by(5), lambda: wrong.by(None),
            lambda: wrong.correct("s", "did 6 Sample"), lambda: wrong.correct("s", 6, own_key="c")]
        read: list[Callable[[Any], object]] = [Plan.read, Plan.of_sentences]
        maker: Any = Follower
        clock: Any = Clock
        folder = tempfile.TemporaryDirectory()
        self.addCleanup(folder.cleanup)
        host: Any = Host(SqliteStore(os.path.join(folder.name, "ward.db")))
        self.addCleanup(host.close)
        calls += [lambda: maker("examples/x.graphml", MemoryJournal()), lambda: maker(CLINIC.document, MemoryJournal()),
                  lambda: clock("22:00"), lambda: clock(datetime(2026, 11, 30)), lambda: host.create("ward", "x"),
                  lambda: clock(datetime.now(timezone.utc), 60), lambda: host.create(5, CLINIC)]
        for call in calls:
            self.assertRaises(WrongType, call)
        for one in read:
            for document in (None, 5, CLINIC, [b"<graphml/>"]):
                self.assertRaises(WrongType, one, document)
        self.assertEqual([type(it) for it in wrong.tell_all(["did 5 Sample", Now(9)])], [WrongType, Receipt])
        self.assertEqual(follower.version, 3)


class Corrections(unittest.TestCase):
    def setUp(self) -> None:
        self.follower = Follower(CLINIC, MemoryJournal())
        self.addCleanup(self.follower.close)
        self.follower.tell_all([Did("Sample", 5, "s"), Saw("i", True, 45, "r"), Add("Z", "Discharge", 350, key="l"),
                                Did("Antibiotic", 70, "a")])

    def same_when_told_anew(self) -> None:
        again = Follower(CLINIC, MemoryJournal(getattr(self.follower.journal, "entries")))
        self.addCleanup(again.close)
        self.assertEqual(again.outlook(), self.follower.outlook())
        self.assertEqual(again.history(), self.follower.history())

    def test_another_moment(self) -> None:
        receipt = self.follower.correct("s", Did("Sample", 7))
        self.assertEqual((receipt.fallen, self.follower.outlook().done["Sample"]), ((), 7))
        self.same_when_told_anew()

    def test_a_moment_that_later_facts_exclude(self) -> None:
        receipt = self.follower.correct("s", Did("Sample", 50))
        self.assertEqual(receipt.fallen, ("r",))
        self.assertEqual([it.event.key for it in self.follower.outlook().waiting], ["a"])
        self.same_when_told_anew()
        self.assertEqual(self.follower.saw("i", True, 60, "r2").taken, ("a",))
        self.same_when_told_anew()
        self.assertEqual(self.follower.correct("s", Did("Sample", 5)).fallen, ("r2",))
        self.same_when_told_anew()

    def test_left_out(self) -> None:
        self.follower.correct("a")
        self.assertEqual(self.follower.next(), Next(70, ("Antibiotic",)))
        self.assertTrue(self.follower.did("Antibiotic", 70, "a").again)
        self.same_when_told_anew()

    def test_what_is_no_correction(self) -> None:
        before = self.follower.outlook()
        for key, instead, error in (("x", None, Unknown), ("", None, Unknown), ("l", None, Refused),
                                    ("a", Add("Z", "Review", 9), Refused),
                                    ("a", Did("Nobody", 9), Refused), ("a", Did("Sample", 70), Refused),
                                    ("a", Deadline(300), Refused), ("r", Did("Review", 90), Refused),
                                    ("s", Now(9), Refused)):
            with self.subTest(key=key, instead=instead):
                self.assertRaises(error, self.follower.correct, key, instead)
                self.assertEqual(self.follower.outlook(), before)

    def test_told_twice(self) -> None:
        self.follower.correct("s", Did("Sample", 7), own_key="c1")
        self.follower.correct("s", Did("Sample", 9), own_key="c2")
        again = self.follower.correct("s", Did("Sample", 7), own_key="c1", expect=1)
        self.assertEqual((again.again, again.version, self.follower.outlook().done["Sample"]), (True, 7, 9))
        for key, instead in (("s", Did("Sample", 8)), ("s", None), ("a", Did("Antibiotic", 70))):
            with self.assertRaises(Contradicts) as caught:
                self.follower.correct(key, instead, own_key="c1")
            self.assertEqual((caught.exception.code, caught.exception.with_key), ("key", "c1"))
        for own_key in ("", "#3", "\udc80"):
            self.assertRaises(Refused, self.follower.correct, "s", None, own_key=own_key)
        self.same_when_told_anew()
        again_read = Follower(CLINIC, self.follower.journal)
        self.addCleanup(again_read.close)
        self.assertTrue(again_read.correct("s", Did("Sample", 9), own_key="c2").again)

    def test_of_a_fact_that_waits(self) -> None:
        follower = Follower(CLINIC, MemoryJournal())
        self.addCleanup(follower.close)
        follower.saw("i", True, 4, "r")
        follower.correct("r", Saw("i", True, 45))
        follower.did("Sample", 5)
        self.assertEqual(follower.outlook().seen["i"].at, 45)

    def test_of_a_time_that_has_passed(self) -> None:
        self.follower.tell(Now(80, "n"))
        self.follower.now(90)
        self.assertEqual(self.follower.correct("n", Now(85)).fallen, ())
        self.assertEqual(self.follower.outlook().now, 90)
        self.same_when_told_anew()

    def test_history(self) -> None:
        self.follower.correct("a", Did("Antibiotic", 72))
        self.assertEqual([(it.event.key, it.standing.value) for it in self.follower.history()],
                         [(key, "taken") for key in "srla"])


class Journals(unittest.TestCase):
    def test_of_another_document(self) -> None:
        journal = MemoryJournal()
        with Follower(CLINIC, journal) as follower:
            follower.did("Sample", 5)
        for plan in (EMERGENCY, Plan.read(CLINIC.document, deadline=350),
                     Plan.read(CLINIC.document.replace(b"(90, i)", b"(70, i)"))):
            self.assertRaises(Changed, Follower(plan, journal).next)
        with Follower(Plan.read(CLINIC.document.replace(b"<!-- Nobody", b"<!-- No one")), journal) as same:
            self.assertEqual(same.next(), Next(65, (), ("i",)))

    def test_of_another_clock(self) -> None:
        journal, origin = MemoryJournal(), datetime(2026, 11, 30, 22, tzinfo=timezone.utc)
        with Follower(CLINIC, journal, clock=Clock(origin), ahead=None) as follower:
            follower.did("Sample", 5)
        elsewhere = Clock(origin.astimezone(timezone(timedelta(hours=2))))
        with Follower(CLINIC, journal, clock=elsewhere) as same:
            self.assertEqual(same.next(), Next(65, (), ("i",)))
        for other in (Clock(origin + timedelta(minutes=1)), Clock(origin, timedelta(seconds=30))):
            self.assertRaises(Changed, Follower(CLINIC, journal, clock=other).next)

    def test_that_are_none(self) -> None:
        for entries in (["garbage"], ["{}"], ["[]"], ['{"head":{"lines":"follow 2"}}'], ['{"tell":{},"answer":""}'],
                        ['{"tell":{"is":"did","step":"Sample","at":5,"key":"s"},"answer":"yes 1","when":""}']):
            with self.subTest(entries=entries):
                self.assertRaises(Changed, Follower(CLINIC, MemoryJournal(entries)).next)

    def test_times_in_a_row_are_told_once(self) -> None:
        journal = MemoryJournal()
        with Follower(CLINIC, journal) as follower:
            for at in range(60):
                follower.now(at)
            outlook = follower.outlook()
        with Follower(CLINIC, journal) as again:
            self.assertEqual(again.outlook(), outlook)
            assert again.session is not None
            self.assertEqual(again.session.state.lines, ["now 59"])


class RuledOut(unittest.TestCase):
    """Which steps an outcome rules out is reckoned here as the program answers it."""

    def test_as_the_program_says(self) -> None:
        for number in range(6):
            patient = drawn(number)
            session = Session(patient.plan, Limits())
            self.addCleanup(session.close)
            for event in patient.truth:
                session.tell(event)
                for step in patient.plan.steps:
                    answer = session.child.ask(f"by {printed(step.name)}")
                    is_out = isinstance(answer, Refusal) and answer.code == "F5"
                    self.assertEqual(session.state.is_left_out(step.name), is_out, (number, event, step.name))


class Drawn(unittest.TestCase):
    """Facts late, twice and out of order give what they give in the order of time."""

    def test_patients(self) -> None:
        for number in range(24):
            patient = drawn(number)
            journal = MemoryJournal()
            with self.subTest(number=number), Follower(patient.plan, journal, most_cap=0) as follower:
                for event in patient.messages:
                    follower.tell(event)
                self.assertEqual({it.event for it in follower.history()}, set(patient.truth))
                self.assertEqual(follower.outlook(latest=False).waiting, ())
                with follower.copied() as (child, state):
                    told = answers(child, patient.plan)
                truth = Follower(patient.plan, MemoryJournal())
                truth.tell_all(patient.truth)
                with truth.copied() as (child, _):
                    self.assertEqual(told, answers(child, patient.plan))
                truth.close()
                follower.release()
                self.assertEqual(follower.outlook(latest=False).done, state.done)
                self.assertEqual(answers_to(patient.plan, state.lines), told)


if __name__ == "__main__":
    unittest.main()
