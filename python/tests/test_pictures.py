"""Pictures: the same document gives the same bytes, no two words lie over each other, and all steps are there."""
import re
import shutil
import tempfile
import unittest
from html.parser import HTMLParser
from pathlib import Path
from unittest import mock
from xml.etree import ElementTree

from cstn.draw.command import main
from cstn.draw.svg import width
from cstn.explain.stopped import Stopped
from cstn.program import find

EXAMPLES = Path(__file__).resolve().parents[2] / "examples"
SVG = "{http://www.w3.org/2000/svg}"
HAS_GRAPHVIZ = shutil.which("dot") is not None
PATHWAY, EMERGENCY, NIGHT = (str(EXAMPLES / f"{it}.graphml") for it in (
    "clinical-pathway", "emergency-department", "night"))


def night(letters: int, steps: int) -> str:
    """A document with some independent observations and, for each, some steps that wait for its outcome."""
    parts = ['<graphml><graph><data key="Deadline">900</data><node id="Z"/>']
    edges = []
    for at in range(letters):
        letter = chr(97 + at)
        parts.append(f'<node id="See{at}"><data key="Obs">{letter}</data><data key="Reaction">{5 + at}</data></node>')
        for step in range(steps):
            name, before = f"Step{at}of{step}", f"Step{at}of{step - 1}" if step else f"See{at}"
            label = f'<data key="Label">{"" if step % 2 else "¬"}{letter}</data>' if step < 2 else ""
            parts.append(f'<node id="{name}">{label}</node>')
            edges.append(f'<edge source="{name}" target="{before if step > 2 else f"See{at}"}">'
                         f'<data key="LabeledValues">{{({-7 - at}, ⊡)}}</data></edge>')
    return "\n".join([*parts, *edges, "</graph></graphml>"])


def boxes(text: str) -> list[tuple[float, float, float, float, str]]:
    """Each text of a picture with its left, top, right and bottom."""
    found: list[tuple[float, float, float, float, str]] = []
    walk(ElementTree.fromstring(text), 0.0, 0.0, found)
    return found


def walk(part: ElementTree.Element, x: float, y: float, found: list[tuple[float, float, float, float, str]]) -> None:
    move = re.fullmatch(r"translate\(([-\d.]+) ([-\d.]+)\)", part.get("transform", ""))
    if move:
        x, y = x + float(move[1]), y + float(move[2])
    if part.tag == f"{SVG}text":
        size, says = float(part.get("font-size", 12)), part.text or ""
        wide = width(says, size, part.get("font-weight") == "bold")
        left = x + float(part.get("x", 0)) - {"middle": wide / 2, "end": wide}.get(part.get("text-anchor", ""), 0)
        base = y + float(part.get("y", 0))
        found.append((left, base - 0.72 * size, left + wide, base + 0.18 * size, says))
    for inner in part:
        walk(inner, x, y, found)


class Pictures(unittest.TestCase):
    """What is drawn of the examples, and of a large plan."""

    def setUp(self) -> None:
        named = mock.patch.dict("os.environ", {"CSTN": find()})
        named.start()
        self.addCleanup(named.stop)

    def check(self, words: list[str], names: list[str]) -> str:
        text = main(words)
        self.assertEqual(text, main(words), "the same document, the same bytes")
        found = boxes(text)
        for at, one in enumerate(found):
            for other in found[at + 1 :]:
                lies = one[0] < other[2] and other[0] < one[2] and one[1] < other[3] and other[1] < one[3]
                self.assertFalse(lies, f"{one} lies over {other}")
        wide = float(ElementTree.fromstring(text).get("width", 0))
        self.assertLessEqual(max(it[2] for it in found), wide)
        said = {it[4] for it in found}
        self.assertEqual([name for name in names if name not in said], [])
        return text

    def test_cases(self) -> None:
        self.check(["cases", PATHWAY], ["Sample", "Antibiotic", "65, until 90"])
        self.check(["cases", EMERGENCY, "--start", "22:00"], ["HandOver", "Leave"])
        tasks = ["--tasks", str(EXAMPLES / "night.tasks")]
        self.check(["cases", NIGHT, "--case", "latest", "--start", "22:00", *tasks], ["Asking the maker", "ToolCheck"])

    def test_sessions(self) -> None:
        with tempfile.NamedTemporaryFile("w", encoding="utf-8") as file:
            file.write("did 5 Sample\nsaw 40 i true\nnow 100\n")
            file.flush()
            self.check(["now", PATHWAY, file.name], ["now 100", "Antibiotic", "100, until 230"])
            file.seek(0)
            file.truncate()
            file.write("did 14 Docked LogBegin\ndid 18 PowerOn CabinBegin\ndid 26 Safe WheelInsp\nsaw 31 w true\n")
            file.flush()
            self.check(["now", NIGHT, file.name, "--start", "22:00"], ["now 22:31", "WheelInsp", "22:26"])

    @unittest.skipUnless(HAS_GRAPHVIZ, "Graphviz is not here")
    def test_networks(self) -> None:
        self.check(["network", PATHWAY], ["Sample", "Antibiotic", "65 to 90", "i true", "by 360"])
        self.check(["network", NIGHT], ["Docked", "LeakTest", "tells l 20 ticks later", "15 to 90"])
        self.check(["network", EMERGENCY, "--start", "08:00"], ["Troponin", "tells t 50 min later", "by 12:00"])
        self.assertIn("120 or more", self.check(["network", PATHWAY, "--deadline", "100"], ["Review"]))

    @unittest.skipUnless(HAS_GRAPHVIZ, "Graphviz is not here")
    def test_a_no_is_red(self) -> None:
        text = self.check(["network", str(EXAMPLES / "mission.graphml"), "--deadline", "80"], ["Drill"])
        blamed = re.findall(r'<g class="arrow blamed">\n<title>([^<]*)', text)
        self.assertEqual(len(blamed), 4)
        self.assertNotIn("blamed", main(["network", PATHWAY]))

    def test_many_cases_and_steps(self) -> None:
        with tempfile.NamedTemporaryFile("w", suffix=".graphml", encoding="utf-8") as file:
            file.write(night(6, 32))
            file.flush()
            text = self.check(["cases", file.name, "--case", "latest"], ["See5", "Step5of31"])
            self.assertNotIn("left out", text)
            text = main(["cases", file.name])
            self.assertIn("How long each step can wait is left out", text)
            self.assertEqual(text.count('class="case"'), 64)
            file.seek(0)
            file.write(night(7, 8))
            file.truncate()
            file.flush()
            text = main(["cases", file.name])
            self.assertEqual(text.count('class="case"'), 64)
            self.assertIn("64 of 128 cases are left out", text)

    def test_too_many_cases(self) -> None:
        with tempfile.NamedTemporaryFile("w", suffix=".graphml", encoding="utf-8") as file:
            file.write(night(12, 3))
            file.flush()
            with self.assertRaisesRegex(Stopped, "up to 4096 cases"):
                main(["cases", file.name])
            text = self.check(["cases", file.name, "--case", "a!c"], ["Step0of1", "Step1of0", "Step2of0"])
            self.assertIn("a true, b false, c false", text)
            self.assertNotIn("Step0of0", text)

    @unittest.skipUnless(HAS_GRAPHVIZ, "Graphviz is not here")
    def test_page(self) -> None:
        text = main(["--html", EMERGENCY])
        self.assertEqual(text, main(["--html", EMERGENCY]))
        found: dict[str, int] = {}

        class Reader(HTMLParser):
            def handle_starttag(self, tag: str, attrs: list[tuple[str, str | None]]) -> None:
                found[tag] = found.get(tag, 0) + 1
                refers = [value for key, value in attrs if key in ("src", "href") or key.startswith("on")]
                assert all(it and it.startswith("#") for it in refers), refers
                assert "style" not in dict(attrs)

        Reader().feed(text)
        self.assertEqual((found["section"], found["option"], found["script"], found["style"]), (7, 7, 1, 1))

    @unittest.skipUnless(HAS_GRAPHVIZ, "Graphviz is not here")
    def test_a_page_has_the_cases_that_are_wanted_or_left(self) -> None:
        text = main(["--html", PATHWAY, "--case", "!i"])
        self.assertEqual(text.count('<section class="case"'), 1)
        self.assertIn('id="case-2"', text)
        self.assertIn("1 of 2 cases is here", text)
        with tempfile.NamedTemporaryFile("w", encoding="utf-8") as file:
            file.write("did 5 Sample\n")
            file.flush()
            self.assertEqual(main(["--html", PATHWAY, file.name]).count('<section class="case"'), 2)
            file.write("saw 40 i true\n")
            file.flush()
            text = main(["--html", PATHWAY, file.name])
            self.assertEqual(text.count('<section class="case"'), 1)
            self.assertIn('id="case-1"', text)
        with self.assertRaisesRegex(Stopped, "there is no such case"):
            main(["--html", PATHWAY, "--case", "7"])


if __name__ == "__main__":
    unittest.main()
