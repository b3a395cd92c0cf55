"""Documents, the program, and questions to it without a session."""
import os
import unittest
from pathlib import Path
from unittest import mock

from cstn import BadDocument, Can, NoProgram, OutOfTime, Plan, Unavailable, program
from tests.support import CLINIC, EMERGENCY, EXAMPLES, Folder, reads_plans

HOSTILE = '<script>alert("1")</script>&\'%20 ¬\u2028'
BAD_SENTENCE = """plan line 2 word 3: here may stand observes, if, or nothing more; a name with a space stands in quotes
  step Log book # a
           ^^^^"""
NAMES = [HOSTILE, "\u0007\u001b[31m".replace("\u0007", "é"), "".join(map(chr, range(33, 97)))]


def document(*names: str) -> bytes:
    escaped = ["".join(f"&#{ord(c)};" for c in name) for name in names]
    nodes = "".join(f'<node id="{name}"/>' for name in escaped)
    edges = "".join(f'<edge source="Z" target="{name}"><data key="LabeledValues">{{(9, ⊡)}}</data></edge>'
                    for name in escaped)
    return f'<graphml><graph><data key="Deadline">9</data><node id="Z"/>{nodes}{edges}</graph></graphml>'.encode()


class Documents(Folder):
    def test_what_is_written_is_what_save_writes(self) -> None:
        for path in sorted(EXAMPLES.glob("*.graphml")):
            with self.subTest(path=path.name):
                deadline = 48 if path.name == "insurance-claim.graphml" else None
                plan = Plan.load(path, deadline=deadline)
                saved = program.ask("save", plan.document, program.options(deadline, None))[1]
                self.assertEqual(plan.saved().decode(), saved)
                self.assertEqual(Plan.read(plan.saved()).digest, plan.digest)

    def test_names_of_every_kind(self) -> None:
        names = [name[:60] for name in NAMES if len(name.encode()) <= 64]
        plan = Plan.read(document(*names))
        self.assertEqual([step.name for step in plan.steps], ["Z", *names])
        self.assertEqual(Plan.read(plan.saved()).digest, plan.digest)

    @unittest.skipUnless(reads_plans(), "the program reads no plans in sentences")
    def test_plans_in_sentences_mean_their_documents(self) -> None:
        for path in sorted(EXAMPLES.glob("*.plan")):
            with self.subTest(path=path.name):
                deadline = 48 if path.name == "insurance-claim.plan" else None
                document = Plan.load(path.with_suffix(".graphml"), deadline=deadline)
                self.assertEqual(Plan.load(path).digest, document.digest)
        self.assertEqual(Plan.load(EXAMPLES / "clinical-pathway.plan").limits[2].says,
                         "Antibiotic 65..90 after Sample if infection")
        odd = Plan.of_sentences(b'deadline 9\nstep "a --> b" observes not-so as n\n"a --> b" at 2..5 # x\n'
                                b"step P observes p\nP after \"a --> b\" and Z and Z and Z and Z if p\n")
        again = Plan.read(odd.document, deadline=9)
        self.assertEqual([it.says for it in again.limits], [it.says for it in odd.limits])
        self.assertEqual([it.says for it in again.limits][1:3], ['"a - -> b" at 2..5',
                                                                 'P after "a - -> b" and Z and Z and Z and Z if p'])
        self.assertEqual((again.words, CLINIC.words, again.digest), ({"n": "not-so"}, {}, odd.digest))
        self.assertEqual(Plan.load(EXAMPLES / "clinical-pathway.plan").words, {"i": "infection"})
        with self.assertRaises(BadDocument) as caught:
            Plan.of_sentences("deadline 9\nstep Log book # a\n")
        self.assertEqual(str(caught.exception), BAD_SENTENCE)
        self.assertEqual((caught.exception.code, caught.exception.line), ("word", 2))

    def test_a_text_is_read_as_its_bytes(self) -> None:
        self.assertEqual(Plan.read(CLINIC.document.decode()), CLINIC)
        self.assertRaises(BadDocument, Plan.read, "examples/clinical-pathway.graphml")
        self.assertRaises(BadDocument, Plan.read, "\udcff")

    def test_sentences_are_those_above_the_edges(self) -> None:
        self.assertEqual(CLINIC.limits[0].says, "The sample is taken within 15 minutes.")
        self.assertEqual(CLINIC.limits[2].says, CLINIC.limits[1].says)
        self.assertTrue(all(limit.in_words() for limit in EMERGENCY.limits))

    def test_a_refused_document_says_where(self) -> None:
        with self.assertRaises(BadDocument) as caught:
            Plan.read(CLINIC.document[:900])
        self.assertEqual((caught.exception.code, caught.exception.says), ("X2", "document X2 at 900"))
        self.assertEqual(caught.exception.why, "a tag, a text, or an attribute is not of its form or not allowed "
                         "there, is missing, or comes twice")
        self.assertIn("not closed before that", str(caught.exception))
        self.assertEqual(caught.exception.line, CLINIC.document[:900].count(b"\n") + 1)
        with self.assertRaises(BadDocument) as caught:
            Plan.load(EXAMPLES / "insurance-claim.graphml")
        self.assertEqual((caught.exception.code, caught.exception.line), ("X9", None))

    def test_a_check(self) -> None:
        self.assertTrue(CLINIC.check().is_yes)
        self.assertIs(Plan.load(EXAMPLES / "mission.graphml", deadline=80).check().can, Can.NO)
        self.assertIs(EMERGENCY.check(cap=20).can, Can.UNKNOWN)

    def test_letters_of_a_step(self) -> None:
        self.assertEqual(CLINIC.letters_of("Antibiotic"), ("i",))
        nested = [step for step in EMERGENCY.steps if len(EMERGENCY.letters_of(step.name)) > 1]
        self.assertTrue(nested)

    def test_the_program_is_found(self) -> None:
        self.assertTrue(Path(program.find()).is_file())
        self.assertRaises(NoProgram, program.find, "/nowhere/cstn")
        other = os.path.join(self.folder, "other")
        Path(other).write_text("#!/bin/sh\nprintf 'release 9\\nlines 2\\n'\n")
        os.chmod(other, 0o755)
        self.assertRaises(NoProgram, program.find, other)
        with mock.patch.dict(os.environ, CSTN="/nowhere/cstn"):
            program.find.cache_clear()
            self.assertRaises(NoProgram, program.find)
        program.find.cache_clear()

    def test_a_question_has_a_time_limit(self) -> None:
        self.assertRaises(OutOfTime, program.check, CLINIC.document, seconds=0.3, program=self.script("time.sleep(60)"))
        self.assertRaises(Unavailable, program.check, CLINIC.document, program=self.script("print('hello')"))
        self.assertRaises(Unavailable, program.check, CLINIC.document, program=self.script("sys.exit(7)"))


if __name__ == "__main__":
    unittest.main()
