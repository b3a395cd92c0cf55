"""Lines that not every program has, `expect`, `step` and `digest`, and its command `cases`: by a stand-in that answers
as one that has them, and, where the program has them, by the program."""
import asyncio
import contextlib
import io
import os
import unittest
from dataclasses import replace
from pathlib import Path
from unittest import mock

from cstn import (Add, AddStep, Can, Contradicts, CstnError, Did, Follower, MemoryJournal, Next, NoProgram, NotBefore,
                  OutOfRange, OutOfTime, Refused, Saw, TooMany, Unavailable, Unknown, Way)
from cstn.aio import AsyncFollower
from cstn.explain.command import run
from cstn.program import find
from tests.support import CLINIC, EXAMPLES, Folder, lacks

TREE = ["ask i", "at 70 Antibiotic", "at 190 Review", "at 200 Discharge", "done", "at 85 Review", "at 95 Discharge",
        "done"]
WAYS = (Way({"i": True}, {"Antibiotic": 70, "Review": 190, "Discharge": 200}),
        Way({"i": False}, {"Review": 85, "Discharge": 95}))
ANSWERS = {
    "did 5 Sample": "yes 17", "expect 80 Antibiotic": "yes 18", "expect 0 Antibiotic": "yes 17",
    "expect 9 Sample": "refused F4 Sample 5", "expect 9 Nobody": "refused F3 Nobody",
    "expect 1000001 Review": "refused F2 1000001", "step Call": "step Call", "step Review": "refused S8 Review",
    "step Z": "refused F4 Z 0", "step More": "refused S9", "saw 45 i false": "yes 9",
    "expect 90 Antibiotic": "refused F5 Antibiotic", "digest": "digest " + CLINIC.digest, "verdict": "yes 17",
    "rest": "<graphml>\\n</graphml>", "cases": "\\n".join(["yes 17", "at 0 Z", "at 5 Sample", *TREE])}
STAND_IN = """
answers = {}
if sys.argv[1] == "cases":
    print(answers["cases"])
    sys.exit(2 if answers["cases"] == "words" else 0)
print("follow 1\\nyes 16", flush=True)
for line in sys.stdin: print(answers[line[:-1]], flush=True)
"""


def lacks_cases() -> bool:
    """Whether the program has no command `cases`."""
    try:
        return CLINIC.cases() == ()
    except NoProgram:
        return True


class Coming(Folder):
    def follower(self, answers: dict[str, str] | None = None) -> Follower:
        """A follower over a stand-in, or over the program."""
        text = answers and STAND_IN.format("{" + ", ".join(f"'{it}': '{said}'" for it, said in answers.items()) + "}")
        plan = replace(CLINIC, program=self.script(text)) if text else CLINIC
        follower = Follower(plan, MemoryJournal())
        self.addCleanup(follower.close)
        follower.did("Sample", 5)
        return follower

    def test_what_is_told(self) -> None:
        follower = self.follower(ANSWERS)
        self.assertIs(follower.not_before("Antibiotic", 80).verdict.can, Can.YES)
        follower.add_step("Call", "k")
        self.assertTrue(follower.add_step("Call", "k").again)
        state = follower.asked(lambda session: session.state)
        self.assertEqual((state.ready, state.further, state.left()[-1]), ({"Antibiotic": 80}, ["Call"], "Call"))
        self.assertEqual(follower.lines(), ("did 5 Sample", "expect 80 Antibiotic", "step Call"))
        follower.release()
        self.assertEqual(follower.not_before("Antibiotic", 0).version, 5)
        self.assertEqual(follower.asked(lambda session: session.state.ready), {})
        for instead in (None, AddStep("Call")):
            self.assertRaises(Refused, follower.correct, "k", instead)

    def test_what_is_refused(self) -> None:
        follower = self.follower(ANSWERS)
        for event, error in ((NotBefore("Sample", 9), Contradicts), (NotBefore("Nobody", 9), Unknown),
                             (NotBefore("Review", 1000001), OutOfRange), (AddStep("Review"), Contradicts),
                             (AddStep("Z"), Contradicts), (AddStep("More"), TooMany)):
            with self.subTest(event=event):
                self.assertRaises(error, follower.tell, event)
        follower.saw("i", False, 45)
        with self.assertRaises(Contradicts) as caught:
            follower.not_before("Antibiotic", 90)
        self.assertIn("rules Antibiotic out", str(caught.exception))

    def test_what_is_asked(self) -> None:
        follower = self.follower(ANSWERS)
        self.assertEqual((follower.digest(), follower.cases()), (CLINIC.digest, WAYS))
        self.assertEqual(self.follower(ANSWERS | {"cases": "no 14"}).cases(), ())
        self.assertRaises(TooMany, self.follower(ANSWERS | {"cases": "wide 17"}).cases)
        for tree in ("yes 9\\nask i\\nat 5 A\\ndone", "yes 9\\nhello", "yes 9", "hello"):
            self.assertRaises(Unavailable, self.follower(ANSWERS | {"cases": tree}).cases)
        full = self.follower(ANSWERS | {"cases": "full 3", "cap 131072": "full 3"})
        full.most_cap = full.allowed.cap
        self.assertRaises(OutOfTime, full.cases)

    def test_a_program_that_lacks_them(self) -> None:
        refused = {line: "refused line 2" for line in ("expect 80 Antibiotic", "step Call", "digest")}
        refused["cases"] = "words"
        for ask in (lambda it: it.not_before("Antibiotic", 80), lambda it: it.add_step("Call"), Follower.digest,
                    Follower.cases):
            follower = self.follower(ANSWERS | refused)
            with self.assertRaises(NoProgram) as caught:
                ask(follower)
            self.assertIn("older than this package", str(caught.exception))
            self.assertEqual(len(list(follower.journal.read())), 2)

    def test_the_cases_of_a_plan(self) -> None:
        tree = "\\n".join(TREE)
        trials: list[tuple[str, int, tuple[Way, ...] | type[CstnError]]] = [
            (f"yes 17\\n{tree}", 0, WAYS), ("no 3\\n0 base Z 0 -", 1, ()), ("full 3", 4, OutOfTime),
            ("wide 17", 10, TooMany), ("words", 2, NoProgram), ("hello", 0, Unavailable),
            ("yes 5\\nhello", 0, Unavailable)]
        for said, status, wanted in trials:
            plan = replace(CLINIC, program=self.script(f"print('{said}')\nsys.exit({status})"))
            with self.subTest(said=said):
                if isinstance(wanted, tuple):
                    self.assertEqual(plan.cases(), wanted)
                else:
                    self.assertRaises(wanted, plan.cases)

    def test_what_cases_wrote_explained(self) -> None:
        path, text = EXAMPLES / "clinical-pathway.graphml", "yes 17\\n" + "\\n".join(TREE)
        other = f"if sys.argv[1] != 'cases':\n    os.execv('{find()}', ['{find()}', *sys.argv[1:]])\nprint('{text}')"
        proof = Path(self.folder) / "proof"
        proof.write_text(text.replace("\\n", "\n") + "\n")
        out = io.TextIOWrapper(io.BytesIO(), encoding="utf-8", write_through=True)
        with mock.patch.dict(os.environ, {"CSTN": self.script(other)}), contextlib.redirect_stdout(out):
            self.assertEqual(run([str(path), str(proof), "--only"]), 0)
        assert isinstance(out.buffer, io.BytesIO)
        self.assertIn("If i is true:\n  at 70: Antibiotic\n", out.buffer.getvalue().decode())

    def test_asyncio(self) -> None:
        async def run() -> None:
            async with AsyncFollower(self.follower(ANSWERS)) as follower:
                assert (await follower.not_before("Antibiotic", 80)).verdict.is_yes
                assert (await follower.add_step("Call")).version == 4
                assert await follower.digest() == CLINIC.digest and await follower.cases() == WAYS

        asyncio.run(run())

    @unittest.skipIf(lacks("expect 80 Antibiotic"), "the program has no line `expect`")
    def test_expect(self) -> None:
        follower = self.follower()
        follower.not_before("Antibiotic", 80)
        outlook = follower.outlook()
        self.assertEqual((outlook.ready, outlook.latest["Antibiotic"]), ({"Antibiotic": 80}, 95))
        self.assertIs(follower.attempt(NotBefore("Antibiotic", 96)).can, Can.NO)
        follower.saw("i", True, 45)
        self.assertEqual(follower.next(), Next(80, ("Antibiotic",)))
        self.assertRaises(Contradicts, follower.not_before, "Sample", 9)
        follower.did("Antibiotic", 80)
        self.assertEqual(follower.outlook().ready, {})

    @unittest.skipIf(lacks("step Call"), "the program has no line `step`")
    def test_a_further_step(self) -> None:
        follower = self.follower()
        follower.tell_all([Saw("i", True, 45), Did("Antibiotic", 80), AddStep("Call", "k")])
        self.assertRaises(Contradicts, follower.add_step, "Review")
        self.assertEqual(follower.tell(Add("Call", "Antibiotic", -30)).added, 8)
        self.assertEqual((follower.next(), follower.outlook().further), (Next(110, ("Call",)), ("Call",)))
        follower.release()
        self.assertIs(follower.did("Call", 110).verdict.can, Can.YES)
        self.assertRaises(Unknown, follower.did, "Calls", 110)

    @unittest.skipIf(lacks("digest"), "the program has no line `digest`")
    def test_a_digest(self) -> None:
        follower = self.follower()
        self.assertEqual(follower.digest(), CLINIC.digest)
        follower.tell(Add("Z", "Review", 300))
        self.assertNotEqual(follower.digest(), CLINIC.digest)

    @unittest.skipIf(lacks_cases(), "the program has no command `cases`")
    def test_how_a_plan_goes(self) -> None:
        begun = {"Z": 0, "Sample": 0}
        self.assertEqual(CLINIC.cases(), (
            Way({"i": True}, {**begun, "Antibiotic": 65, "Review": 185, "Discharge": 195}),
            Way({"i": False}, {**begun, "Review": 80, "Discharge": 90})))
        self.assertEqual(replace(CLINIC, asked_deadline=194).cases(), ())

    @unittest.skipIf(lacks_cases(), "the program has no command `cases`")
    def test_how_it_goes_on(self) -> None:
        follower = self.follower()
        self.assertEqual(follower.cases(), WAYS)
        follower.saw("i", True, 60)
        self.assertEqual(follower.cases(), (Way({}, {"Antibiotic": 70, "Review": 190, "Discharge": 200}),))
        follower.did("Antibiotic", 112)
        self.assertEqual(follower.cases(), ())


if __name__ == "__main__":
    unittest.main()
