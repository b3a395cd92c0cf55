"""What `explain` and `draw` write of documents, word for word: the cases of the folders `explain` and `draw`.

With CSTN_WRITE=1 in the environment the files are written anew by what is written now: look at what changed.
"""
import contextlib
import io
import os
import tempfile
import unittest
from collections.abc import Callable, Iterator
from pathlib import Path
from unittest import mock

from cstn.draw.command import run as run_draw
from cstn.errors import NoProgram
from cstn.explain.asking import program
from cstn.explain.command import run as run_explain
from cstn.explain.stopped import Stopped
from cstn.program import find

from .cases import Case, placed, read_cases
from .support import reads_plans

HERE = Path(__file__).resolve().parent


def called(run: Callable[[list[str]], int], case: Case) -> tuple[int, str]:
    """How the call of a case ends, and what it writes."""
    with tempfile.TemporaryDirectory() as folder, given(case) as live:
        words, out = placed(case, folder), io.TextIOWrapper(io.BytesIO(), encoding="utf-8", write_through=True)
        with open(live, encoding="utf-8", errors="surrogateescape") as typed, mock.patch("sys.stdin", typed), \
                contextlib.redirect_stdout(out), contextlib.redirect_stderr(out), \
                mock.patch.dict(os.environ, {"CSTN": find()}), mock.patch("os.dup2"):
            status = run([live if it == "-" else it for it in words])
        text = out.buffer.getvalue().decode() if isinstance(out.buffer, io.BytesIO) else ""
    return status, text.replace(folder + os.sep, "").replace(live, "-")


@contextlib.contextmanager
def given(case: Case) -> Iterator[str]:
    """A file in place of the standard input of a case."""
    with tempfile.NamedTemporaryFile("wb") as file:
        file.write(case.files.get("-", "").encode())
        file.flush()
        yield file.name


class Written(unittest.TestCase):
    """The cases of both folders."""

    maxDiff = None

    def check(self, folder: str, run: Callable[[list[str]], int]) -> None:
        for path in sorted((HERE / folder).glob("*.txt")):
            if path.name == "plans.txt" and not reads_plans():
                continue
            cases = list(read_cases(path.read_bytes().decode(errors="surrogateescape")))
            found = [called(run, case) for case in cases]
            if os.environ.get("CSTN_WRITE"):
                for case, (status, text) in zip(cases, found):
                    case.status, case.wanted = status, text
                text = "".join(case.written() for case in cases)
                path.write_bytes(text.encode(errors="surrogateescape"))
            for case, (status, text) in zip(cases, found):
                with self.subTest(file=path.name, case=case.name):
                    self.assertEqual((status, text), (case.status, case.wanted))

    def test_explain(self) -> None:
        self.check("explain", run_explain)

    def test_draw(self) -> None:
        self.check("draw", run_draw)

    def test_the_program_without_a_launcher_is_the_package_s(self) -> None:
        with mock.patch.dict(os.environ), mock.patch("cstn.explain.asking.LAUNCHER", Path("/nowhere/cstn")):
            os.environ.pop("CSTN", None)
            self.assertEqual(program(), find())
            with mock.patch("cstn.explain.asking.find", side_effect=NoProgram("none")):
                self.assertRaisesRegex(Stopped, "none", program)


if __name__ == "__main__":
    unittest.main()
