"""The board without a browser: who is heard, what is read, and what a page is given."""
import importlib.util
import subprocess
import sys
import tempfile
import unittest
from dataclasses import replace
from datetime import datetime, timedelta, timezone
from pathlib import Path
from typing import Any
from unittest import mock

from cstn import (Add, AddStep, Change, Contradicts, Deadline, Did, Event, Expect, Follower, Forgive, MemoryJournal, Moved,
                  NotBefore, Now, OutOfRange, OutOfTime, Saw, SqliteStore)
from cstn.board.guard import Asked, Guard
from cstn.board.news import MOST, News
from cstn.board.plans import Board, Document, Timing
from cstn.board.reading import Wrong, event_of, key_of
from cstn.board.words import is_least, limit_parts, shown, told
from cstn.plan import Limit
from tests.support import CLINIC, lacks

SERVED = all(importlib.util.find_spec(name) for name in ("flask", "waitress"))
HOST = "127.0.0.1:8322"
OWN = f"http://{HOST}"

HEARD = [
    ("its own page", Asked(HOST, OWN, "same-origin", True, True), True),
    ("a page that is opened", Asked(HOST, None, "none", False, False), True),
    ("a program that asks", Asked(HOST, None, None, False, False), True),
    ("a link to it", Asked(HOST, None, "cross-site", False, False, True), True),
    ("its own page behind a server with TLS", Asked("ward.example", "https://ward.example", "same-origin", True, True),
     True),
    ("a form of another site", Asked(HOST, None, "cross-site", True, True, True), False),
    ("another host", Asked("evil.example", OWN, None, False, False), False),
    ("a host with another port", Asked("127.0.0.1:1", None, None, False, False), False),
    ("another origin", Asked(HOST, "http://evil.example", None, False, False), False),
    ("no origin, but it tells", Asked(HOST, None, None, True, True), False),
    ("an origin that is hidden", Asked(HOST, "null", None, True, True), False),
    ("another site, by the browser", Asked(HOST, None, "cross-site", False, False), False),
    ("a form", Asked(HOST, OWN, "same-origin", True, False), False),
]

READ: list[tuple[dict[str, Any], Event | None]] = [
    ({"kind": "did", "step": 1, "at": 5}, Did("Sample", 5)),
    ({"kind": "saw", "letter": "i", "value": False, "at": 5}, Saw("i", False, 5)),
    ({"kind": "await", "letter": "i", "at": 90}, Expect("i", 90)),
    ({"kind": "now", "at": 0}, Now(0)),
    ({"kind": "not_before", "step": 2, "at": 80}, NotBefore("Antibiotic", 80)),
    ({"kind": "step", "name": " Call "}, AddStep("Call")), ({"kind": "did", "step": 5, "at": 5}, Did("Call", 5)),
    ({"kind": "add", "step": 5, "from": 2, "bound": "least", "value": 30}, Add("Call", "Antibiotic", -30)),
    ({"kind": "step", "name": " "}, None), ({"kind": "step", "name": "x" * 81}, None),
    ({"kind": "step", "name": "a\nb"}, None), ({"kind": "step", "name": 5}, None), ({"kind": "step"}, None),
    ({"kind": "not_before", "step": 6, "at": 80}, None), ({"kind": "not_before", "step": 2, "at": -1}, None),
    ({"kind": "deadline", "at": 400}, Deadline(400)),
    ({"kind": "change", "limit": 2, "value": 107}, Change(2, 107)),
    ({"kind": "change", "limit": 1, "value": 60}, Change(1, -60)),
    ({"kind": "remove", "limit": 2}, Change(2, None)), ({"kind": "forgive"}, Forgive()),
    ({"kind": "add", "step": 2, "from": 1, "bound": "least", "value": 70}, Add("Antibiotic", "Sample", -70)),
    ({"kind": "add", "step": 2, "from": 1, "bound": "most", "value": 70}, Add("Sample", "Antibiotic", 70)),
    ({}, None), ({"kind": None}, None), ({"kind": "did", "step": 6, "at": 5}, None),
    ({"kind": "did", "step": 1, "at": True}, None), ({"kind": "did", "step": 1, "at": 1000001}, None),
    ({"kind": "saw", "letter": "q", "value": True, "at": 5}, None),
    ({"kind": "saw", "letter": ["i"], "value": True, "at": 5}, None),
    ({"kind": "saw", "letter": "i", "value": 1, "at": 5}, None), ({"kind": "change", "limit": 99, "value": 1}, None),
    ({"kind": "add", "step": 2, "from": 1, "bound": "", "value": 70}, None),
]

SAID = [
    (Limit(0, "Sample", "Antibiotic", 90, {"i": True}), "Antibiotic at most 90 after Sample, if i"),
    (Limit(0, "Antibiotic", "Sample", -65, {}), "Antibiotic at least 65 after Sample"),
    (Limit(0, "B", "A", 0, {}), "B not before A"),
    (Limit(0, "Z", "Sample", 15, {}), "Sample at 15 or earlier"),
    (Limit(0, "Sample", "Z", -10, {"i": False, "s": True}), "Sample at 10 or later, if not i and s"),
]

LONG = ("ways_out", "blame", "blamed_sets", "by", "late", "until", "forgive")

ATTEMPTS = [
    ({"kind": "did", "step": 1, "at": 15}, {"verdict": "yes", "waits": [], "why": ""}),
    ({"kind": "did", "step": 1, "at": 16}, {"verdict": "no", "waits": [], "why": ""}),
    ({"kind": "did", "step": 2, "at": 16}, {"verdict": None, "waits": ["i"], "why": ""}),
    ({"kind": "saw", "letter": "i", "value": True, "at": 9}, {"verdict": None, "waits": ["Sample"], "why": ""}),
    ({"kind": "deadline", "at": 1000}, {"verdict": "yes", "waits": [], "why": ""}),
    ({"kind": "did", "step": 0, "at": 5}, {"verdict": None, "waits": [], "why": "Z was done at 0"})]


class Boards(unittest.TestCase):
    def setUp(self) -> None:
        self.folder = tempfile.TemporaryDirectory()
        self.addCleanup(self.folder.cleanup)

    def board(self, timing: Timing = Timing()) -> Board:
        store = SqliteStore(Path(self.folder.name) / "journals")
        self.addCleanup(store.close)
        board = Board(store, {"ward": Document("ward", CLINIC)}, timing)
        self.addCleanup(board.close)
        return board

    def test_who_is_heard(self) -> None:
        guard = Guard("token", frozenset({HOST, "ward.example"}))
        for name, asked, heard in HEARD:
            self.assertEqual(guard.why_not(asked) is None, heard, name)
        for token in ("", "tokem", "tokenn", "tökén"):
            self.assertFalse(guard.is_token(token))
        self.assertTrue(guard.is_token("token"))

    def test_what_is_read(self) -> None:
        with Follower(CLINIC, MemoryJournal()) as follower:
            outlook = replace(follower.outlook(latest=False), further=("Call",))
        for data, wanted in READ:
            try:
                found = event_of(data, CLINIC, outlook)
            except Wrong:
                found = None
            self.assertEqual(found, wanted, data)
        for key in ("", "short", "x" * 65, "#2345678", "abcdefg\n", None, 12345678):
            self.assertRaises(Wrong, key_of, {"key": key})

    def test_words(self) -> None:
        for limit, words in SAID:
            parts = limit_parts(limit, is_least(limit), limit.most)
            self.assertEqual("".join(str(value) for part in parts for value in part.values()), words)
        limit, spoken = SAID[0][0], {"i": "infection"}
        self.assertEqual(limit_parts(limit, False, 90, spoken)[-1], {"text": ", if infection"})
        self.assertEqual(told(Saw("i", True, 5), {}, spoken), [{"name": "infection (i)"}, {"text": " is true"}])
        self.assertEqual(shown("a\n\u202eb\x85é"), "a%0A%E2%80%AEb%C2%85é")

    def test_news(self) -> None:
        news = News()
        readers = [news.listen() for _ in range(MOST)]
        self.assertIsNone(news.listen())
        news.say("plan")
        self.assertTrue(readers[0] is not None and readers[0].get(timeout=60) == "plan")
        assert readers[0] is not None
        stream = news.stream(readers[0], lambda: False)
        self.assertEqual(next(stream), b"retry: 1000\n\n")
        news.say("next")
        self.assertEqual(next(stream), b"event: changed\ndata: next\n\n")
        stream.close()  # type: ignore[attr-defined]
        self.assertIsNotNone(news.listen())

    def test_a_late_result(self) -> None:
        board = self.board()
        plan = next(iter(board.titles()))
        for at, event in enumerate(({"kind": "did", "step": 1, "at": 5}, {"kind": "now", "at": 65})):
            board.tell(plan, event | {"key": f"abcdefg{at}"})
        late = {"kind": "await", "letter": "i", "at": 120}
        self.assertEqual(board.what_if(plan, late)["verdict"], "no")
        self.assertEqual(board.page(plan, {})["results"][0]["until"], 95)
        board.tell(plan, late | {"key": "abcdefgh"})
        self.assertTrue(board.tell(plan, late | {"key": "abcdefgh"})["again"])
        page = board.page(plan, {})
        self.assertEqual((page["verdict"], page["blame"]["limits"]), ("no", [{"id": 2, "needed": 115}]))
        board.tell(plan, {"kind": "change", "limit": 2, "value": 115, "key": "abcdefgi"})
        moments = [it["planned"] for it in board.page(plan, {"i": True})["steps"]]
        self.assertEqual(moments, [None, None, 120, 240, 250])
        self.assertEqual(board.page(plan, {"i": False})["steps"][2]["planned"], None)
        self.assertEqual(board.journal(plan), "did 5 Sample\nnow 65\nawait 120 i\nchange 2 115\n")

    def test_what_would_fit(self) -> None:
        board = self.board()
        plan = next(iter(board.titles()))
        for event, wanted in ATTEMPTS:
            with self.subTest(event=event):
                self.assertEqual(board.attempt(plan, event), wanted)
        self.assertEqual((board.page(plan, {})["history"], board.page(plan, {})["until"]), ([], 15))

    def test_what_would_fit_is_not_asked_where_that_takes_long(self) -> None:
        board = self.board()
        plan = next(iter(board.titles()))
        nothing: dict[str, Any] = {"verdict": None, "waits": [], "why": ""}
        event = ATTEMPTS[0][0]
        with mock.patch.object(Follower, "attempt", side_effect=OutOfTime("too long")) as attempt, \
                mock.patch("cstn.board.plans.LONGEST_ATTEMPT", -1):
            self.assertEqual([board.attempt(plan, event) for _ in range(3)], [nothing] * 3)
            self.assertEqual(attempt.call_count, 1)
        self.assertEqual(board.attempt(plan, event), nothing)
        board.tell(plan, event | {"key": "abcdefgh"})
        self.assertEqual(board.attempt(plan, event)["verdict"], "yes")

    def test_what_would_fit_by_the_clock(self) -> None:
        board = self.board(Timing(60, datetime.now(timezone.utc) - timedelta(seconds=1201), by_hand=False))
        plan = next(iter(board.titles()))
        self.assertEqual(board.attempt(plan, {"kind": "deadline", "at": 900})["verdict"], "no")
        self.assertEqual(board.attempt(plan, {"kind": "did", "step": 1, "at": 15})["verdict"], "yes")
        self.assertIn("in the future", board.attempt(plan, {"kind": "did", "step": 1, "at": 150})["why"])

    def test_what_is_broken(self) -> None:
        board = self.board()
        plan = next(iter(board.titles()))
        facts: list[dict[str, Any]] = [
            {"kind": "did", "step": 1, "at": 5}, {"kind": "saw", "letter": "i", "value": True, "at": 45}]
        for at, event in enumerate(facts):
            board.tell(plan, event | {"key": f"abcdefg{at}"})
        self.assertEqual((board.page(plan, {})["until"], board.page(plan, {})["blame"]), (95, None))
        board.tell(plan, {"kind": "did", "step": 2, "at": 112, "key": "abcdefg2"})
        page = board.page(plan, {})
        self.assertEqual((page["until"], page["blame"]["forgive"]["verdict"]), (None, "yes"))
        self.assertEqual(page["blame"]["forgive"]["limits"], [page["limits"][2]["parts"]])
        board.tell(plan, {"kind": "forgive", "key": "abcdefg3"})
        page = board.page(plan, {})
        self.assertEqual((page["verdict"], page["limits"][2]["state"]), ("yes", "removed"))
        self.assertEqual(page["history"][-1]["parts"][0], {"text": "given up, since broken: "})
        self.assertEqual(board.journal(plan).split("\n")[-2], "forgive")

    def test_a_result_that_is_too_late(self) -> None:
        board = self.board()
        plan = next(iter(board.titles()))
        facts = ({"kind": "did", "step": 1, "at": 5}, {"kind": "await", "letter": "i", "at": 100})
        for at, event in enumerate(facts):
            board.tell(plan, event | {"key": f"abcdefg{at}"})
        blame = board.page(plan, {})["blame"]
        wanted = [{"letter": "i", "word": "i", "expected": 100, "needed": 95}]
        self.assertEqual((blame["results"], blame["forgive"]), (wanted, None))

    @unittest.skipIf(lacks("expect 80 Antibiotic"), "the program has no line `expect`")
    def test_what_cannot_come_before(self) -> None:
        board = self.board()
        plan = next(iter(board.titles()))
        board.tell(plan, {"kind": "did", "step": 1, "at": 5, "key": "abcdefg0"})
        wait = {"kind": "not_before", "step": 2, "at": 96}
        self.assertEqual((board.attempt(plan, wait)["verdict"], board.what_if(plan, wait)["verdict"]), ("no", "no"))
        board.tell(plan, wait | {"at": 80, "key": "abcdefg1"})
        page = board.page(plan, {})
        self.assertEqual([page["steps"][2][it] for it in ("ready", "planned", "by")], [80, 80, 95])
        self.assertEqual(page["history"][-1]["event"], {"kind": "not_before", "step": 2, "at": 80})
        board.correct(plan, {"version": page["version"], "of": "abcdefg1", "instead": wait})
        page = board.page(plan, {})
        self.assertEqual((page["verdict"], page["blame"]["limits"]), ("no", [{"id": 2, "needed": 91}]))
        board.tell(plan, {"kind": "not_before", "step": 2, "at": 0, "key": "abcdefg2"})
        page = board.page(plan, {})
        self.assertEqual((page["verdict"], page["steps"][2]["ready"]), ("yes", None))
        self.assertEqual(board.journal(plan), "did 5 Sample\nexpect 96 Antibiotic\nexpect 0 Antibiotic\n")
        self.assertRaises(Contradicts, board.tell, plan, wait | {"step": 1, "key": "abcdefg3"})

    @unittest.skipIf(lacks("step Call"), "the program has no line `step`")
    def test_a_further_step(self) -> None:
        board = self.board()
        plan = next(iter(board.titles()))
        told: list[dict[str, Any]] = [
            {"kind": "did", "step": 1, "at": 5}, {"kind": "step", "name": "Call"},
            {"kind": "add", "step": 5, "from": 1, "bound": "least", "value": 30}]
        for at, event in enumerate(told):
            board.tell(plan, event | {"key": f"abcdefg{at}"})
        step = board.page(plan, {})["steps"][5]
        wanted = {"shown": "Call", "further": True, "state": "open", "planned": 35, "ready": None}
        self.assertEqual({it: step[it] for it in wanted}, wanted)
        self.assertRaises(Contradicts, board.tell, plan, told[1] | {"key": "abcdefg3"})
        board.tell(plan, {"kind": "did", "step": 5, "at": 36, "key": "abcdefg4"})
        page = board.page(plan, {})
        self.assertEqual((page["verdict"], page["steps"][5]["at"]), ("yes", 36))
        self.assertEqual([it["event"] for it in page["history"] if it["event"]][-1], {"kind": "did", "step": 5, "at": 36})
        self.assertEqual(board.journal(plan).split("\n")[1:4], ["step Call", "add Call Sample -30 -", "did 36 Call"])

    def test_a_correction_of_what_was_seen_before(self) -> None:
        board = self.board()
        plan = next(iter(board.titles()))
        board.tell(plan, {"kind": "did", "step": 1, "at": 5, "key": "abcdefgh"})
        page = board.page(plan, {})
        seen = {"of": "abcdefgh", "version": page["version"]}
        board.correct(plan, seen | {"instead": {"kind": "did", "step": 1, "at": 7}})
        self.assertEqual(board.page(plan, {})["steps"][1]["at"], 7)
        self.assertRaises(Moved, board.correct, plan, seen | {"instead": None})

    def test_a_fact_of_two_browsers_counts_once(self) -> None:
        board = self.board()
        plan = next(iter(board.titles()))
        for key in ("browser1", "browser2", "browser2"):
            board.tell(plan, {"kind": "did", "step": 1, "at": 5, "key": key})
        page = board.page(plan, {})
        self.assertEqual([it["standing"] for it in page["history"]], ["taken", "known"])
        for key in ("browser1", "browser2"):
            board.correct(plan, {"version": board.page(plan, {})["version"], "of": key, "instead": None})
        self.assertEqual((board.page(plan, {})["history"], board.page(plan, {})["steps"][1]["state"]), ([], "open"))

    def test_clocks(self) -> None:
        begun = datetime.now(timezone.utc) - timedelta(seconds=601)
        board = self.board(Timing(60, begun, by_hand=False))
        plan = next(iter(board.titles()))
        page = board.page(plan, {})
        self.assertEqual((page["now"], page["clock"]["running"]), (10, True))
        self.assertEqual([(it["name"], it["by"]) for it in page["late"]], [("Sample", 10)])
        self.assertEqual(page["history"], [])
        self.assertRaises(OutOfRange, board.tell, plan, {"kind": "did", "step": 1, "at": 90, "key": "abcdefgh"})

    def test_what_is_not_found_in_time_is_not_shown(self) -> None:
        board = self.board()
        plan = next(iter(board.titles()))
        for at, event in enumerate(({"kind": "did", "step": 1, "at": 5}, {"kind": "await", "letter": "i", "at": 120})):
            board.tell(plan, event | {"key": f"abcdefg{at}"})
        too_long = {name: mock.Mock(side_effect=OutOfTime("too long")) for name in LONG}
        with mock.patch.multiple(Follower, **too_long):
            page = board.page(plan, {})
        self.assertEqual((page["verdict"], page["blame"], page["next"], len(page["history"])), ("no", None, None, 2))

    def test_a_clock_that_ran_on_for_weeks(self) -> None:
        board = self.board(Timing(1, datetime.now(timezone.utc) - timedelta(days=20), by_hand=False))
        page = board.page(next(iter(board.titles())), {})
        self.assertEqual((page["now"], page["verdict"]), (1_000_000, "no"))

    def test_a_clock_begins_with_what_has_begun(self) -> None:
        for tick in (1, 60, 90, 3600):
            clock = Timing(tick).clock()
            assert clock is not None
            self.assertEqual((clock.origin.microsecond, clock.origin.second if tick % 60 == 0 else 0), (0, 0))
            self.assertLess(clock.origin, datetime.now(timezone.utc))
        self.assertIsNone(Timing().clock())

    def test_plans_are_found_again(self) -> None:
        board = self.board()
        made = board.begin("ward", "bed 7")
        board.tell(made, {"kind": "did", "step": 1, "at": 5, "key": "abcdefgh"})
        for title in ("bed 7", "", " ", "x" * 81, "a\nb"):
            self.assertRaises(Wrong, board.begin, "ward", title)
        again = self.board()
        self.assertEqual(sorted(again.titles().values()), ["bed 7", "ward"])
        self.assertEqual(again.page(made, {})["steps"][1]["at"], 5)

    @unittest.skipUnless(SERVED, "needs python3-flask and python3-waitress")
    def test_how_it_is_started(self) -> None:
        from cstn.board.__main__ import documents, hosts, token_of
        folder = Path(self.folder.name)
        token = token_of(folder)
        self.assertEqual((token_of(folder), len(token), [it.name for it in folder.iterdir()]), (token, 32, ["token"]))
        (folder / "token").write_text("")
        self.assertRaises(ValueError, token_of, folder)
        self.assertEqual(hosts("0.0.0.0", 8322, ["ward.example"]), {
            "127.0.0.1:8322", "localhost:8322", "[::1]:8322", "ward.example:8322", "ward.example"})
        files = [folder / "bed 1.graphml", folder / "bed 2.graphml"]
        for file in files:
            file.write_bytes(CLINIC.document)
        self.assertEqual(list(documents(files, None)), ["bed 1", "bed 2"])
        self.assertRaises(ValueError, documents, [files[0], files[0]], None)

    def test_what_is_missing_is_said_of_the_python_at_hand(self) -> None:
        for prefix, says in (("/usr", "apt-get install python3-flask"), ("/opt/python", "-m pip install flask")):
            code = f"import sys; sys.prefix = '{prefix}'; sys.modules['waitress'] = None; import cstn.board.__main__"
            done = subprocess.run([sys.executable, "-c", code], capture_output=True, text=True, check=False)
            self.assertEqual((done.returncode, says in done.stderr), (1, True), done.stderr)


if __name__ == "__main__":
    unittest.main()
