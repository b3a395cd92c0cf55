"""Names, labels, lines and answers."""
import unittest
from datetime import datetime, timedelta, timezone, tzinfo

from cstn.answers import (Blame, Can, Delay, Digest, Done, Edited, Forgiven, Idle, Least, Marks, Next, Raised, Refusal,
                          Stepped, Until, Verdict, Wide, parse)
from cstn.clock import Clock
from cstn.events import (Add, AddStep, Change, Deadline, Did, Event, Expect, Forgive, NotBefore, Now, Saw, from_data,
                         line_of, to_data)
from cstn.names import literals, plain, printed, written

ANSWERS = [
    ("did 5 A", "yes 17", Verdict(Can.YES, 17)),
    ("now 5", "full 65536", Verdict(Can.UNKNOWN, 65536)),
    ("next", "no 4", Verdict(Can.NO, 4)),
    ("next", "done", Done()),
    ("next", "next 70 do A B%20C wait ij", Next(70, ("A", "B C"), ("i", "j"))),
    ("next", "next 65 wait i", Next(65, (), ("i",))),
    ("next", "next 1 do do wait", Next(1, ("do", "wait"), ())),
    ("by A%20B", "by 95 A%20B", Until("A B", 95)),
    ("blame", "blame", Blame(())),
    ("blame", "blame 2 5", Blame((2, 5))),
    ("add A B 5 -", "added 8", Edited(8)),
    ("remove 8", "removed 8", Edited(8)),
    ("deadline 9", "deadline 9", Edited(9)),
    ("until", "until 95", Idle(95)),
    ("until", "done", Done()),
    ("until", "no 14", Verdict(Can.NO, 14)),
    ("late i", "late 95 i", Delay("i", 95)),
    ("late i", "late none i", Delay("i", None)),
    ("raise 2", "raise 2 95", Raised(2, 95)),
    ("raise 3", "raise 3 -105", Raised(3, -105)),
    ("raise 4", "raise 4 none", Raised(4, None)),
    ("raise 4", "yes 17", Verdict(Can.YES, 17)),
    ("least", "least 195", Least(195)),
    ("least", "least none", Least(None)),
    ("forgive", "forgiven 2 5", Forgiven((2, 5))),
    ("forgive", "forgiven", Forgiven(())),
    ("cap 9", "full 9", Verdict(Can.UNKNOWN, 9)),
    ("verdict", "yes 17", Verdict(Can.YES, 17)),
    ("step A%20B", "step A%20B", Stepped("A B")),
    ("digest", "digest " + 64 * "a", Digest(64 * "a")),
    ("cases", "wide 17", Wide(17)),
    ("cases", "no 14", Verdict(Can.NO, 14)),
    ("mark", "mark 1", Marks(1)),
    ("back", "back 0", Marks(0)),
    ("back", "refused M2", Refusal("M2", ())),
    ("try change 2 95", "yes 20", Verdict(Can.YES, 20)),
    ("try did 6 A", "refused F4 A 2", Refusal("F4", ("A", "2"))),
    ("did 6 A", "refused F4 A 2", Refusal("F4", ("A", "2"))),
    ("did 6 \u00a0", "refused F3 \u00a0", Refusal("F3", ("\u00a0",))),
    ("remove 9", "refused S2 9", Refusal("S2", ("9",))),
    ("", "refused line 17", Refusal("line", ("17",))),
]
NONE = [("did 5 A", "added 8"), ("by A", "by 95 B"), ("next", "next x"), ("add A B 5 -", "yes 5"), ("did 5 A", ""),
        ("did 5 A", "yes"), ("did 5 A", "yes -1"), ("did 5 A", "refused F9 A"), ("blame", "blame x"), ("by A", "by 5"),
        ("until", "until"), ("until", "until none"), ("until", "late 5 i"), ("late i", "late 5 j"),
        ("late i", "late -5 i"), ("raise 2", "raise 3 95"), ("raise 2", "raise 2"), ("least", "least -1"),
        ("forgive", "forgiven x"), ("forgive", "yes 5"), ("mark", "yes 5"), ("step A", "step B"),
        ("digest", "digest a"), ("digest", "yes 5"), ("cases", "at 0 Z"), ("mark", "mark"), ("back", "mark 1"), ("cap 9", "cap 9")]
EVENTS: list[tuple[Event, str]] = [
    (Did("A B", 5, "k"), "did 5 A%20B"),
    (Saw("i", False, 5, "k"), "saw 5 i false"),
    (Expect("i", 9, "k"), "await 9 i"),
    (Now(9, "k"), "now 9"),
    (Add("Z", "A\n", -5, {"q": False, "p": True}, "because", "k"), "add Z A%0A -5 p!q"),
    (Add("Z", "A", 5), "add Z A 5 -"),
    (Change(3, None, "k"), "remove 3"),
    (Change(3, -90, "k"), "change 3 -90"),
    (Deadline(90), "deadline 90"),
    (Forgive("k"), "forgive"),
    (NotBefore("A B", 80, "k"), "expect 80 A%20B"),
    (AddStep("A B", "k"), "step A%20B"),
]


class PutBack(tzinfo):
    """A time zone whose clocks are put back from 3 to 2 on 25 October 2026."""

    def utcoffset(self, when: datetime | None) -> timedelta:
        return timedelta(hours=1) + self.dst(when)

    def dst(self, when: datetime | None) -> timedelta:
        is_summer = when is not None and when.replace(tzinfo=None) < datetime(2026, 10, 25, 3)
        return timedelta(hours=1 if is_summer else 0)

    def tzname(self, when: datetime | None) -> str:
        return "there"


class Lines(unittest.TestCase):
    def test_names_come_back(self) -> None:
        names = ["".join(map(chr, range(1, 65))), "".join(map(chr, range(65, 129))), "é 100%", "\u2028\u0085", "%41"]
        for name in names:
            with self.subTest(name=name):
                self.assertEqual(plain(printed(name)), name)
                self.assertNotRegex(printed(name), "[\x00-\x20\x7f]")

    def test_labels(self) -> None:
        self.assertEqual(written({}), "-")
        self.assertEqual(written({"q": False, "p": True}), "p!q")
        for text in ("p!q", "¬q p", "p¬ q", "!qp"):
            self.assertEqual(literals(text), {"p": True, "q": False})

    def test_answers(self) -> None:
        for line, text, answer in ANSWERS:
            with self.subTest(line=line, text=text):
                self.assertEqual(parse(line, text), answer)

    def test_what_is_no_answer(self) -> None:
        for line, text in NONE:
            with self.subTest(line=line, text=text), self.assertRaises(ValueError):
                parse(line, text)

    def test_events(self) -> None:
        for event, line in EVENTS:
            with self.subTest(line=line):
                self.assertEqual(line_of(event), line)
                self.assertEqual(from_data(to_data(event)), event)

    def test_what_is_no_event(self) -> None:
        none: list[dict[str, object]] = [{}, {"is": "x"}, {"is": "did"}, {"is": "did", "step": "A", "at": 5, "more": 1}]
        for data in none:
            with self.subTest(data=data), self.assertRaises(ValueError):
                from_data(data)

    def test_clock(self) -> None:
        clock = Clock(datetime(2026, 11, 30, 22, tzinfo=timezone.utc), timedelta(seconds=30))
        self.assertEqual(clock.tick_of(clock.origin + timedelta(seconds=59)), 1)
        self.assertEqual(clock.tick_of(clock.origin - timedelta(seconds=1)), -1)
        self.assertEqual(clock.time_of(4), datetime(2026, 11, 30, 22, 2, tzinfo=timezone.utc))
        self.assertRaises(TypeError, clock.tick_of, datetime(2026, 11, 30))
        self.assertRaises(TypeError, Clock, datetime(2026, 11, 30))
        self.assertRaises(ValueError, Clock, clock.origin, timedelta(0))

    def test_a_night_in_which_clocks_are_put_back(self) -> None:
        clock = Clock(datetime(2026, 10, 24, 22, tzinfo=PutBack()))
        morning = datetime(2026, 10, 25, 6, tzinfo=clock.origin.tzinfo)
        self.assertEqual((clock.tick_of(morning), clock.tick_of(morning.astimezone(timezone.utc))), (540, 540))
        self.assertEqual(clock.time_of(540).isoformat(), "2026-10-25T06:00:00+01:00")
