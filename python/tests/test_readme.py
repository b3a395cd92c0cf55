"""What the README shows, and the page on services, runs as it says."""
import contextlib
import io
import os
import re
import subprocess
import sys
import unittest
from pathlib import Path

from cstn import Plan, program

from tests.support import TOP, Folder, lacks, reads_plans

WARD = """\
ann, lab 1: yes, waits for Sample
ann, ward 1: yes, so now lab 1
ann, ward 1: yes, told before
bob, ward 2: no
bob, lab 2: no, to be looked at: lab 2
bob, desk 1: yes, so now lab 2
killed, and all is sent again
ann, lab 1: yes, told before
ann, ward 1: yes, told before
ann, ward 1: yes, told before
bob, ward 2: yes, told before
bob, lab 2: yes, told before
bob, desk 1: yes, told before
cid, desk 2: on the desk: no event has the key 'ward 3'
cid, ward 3: no
cid, lab 3: yes
cid, ward 7: yes, to be looked at: ward 7
cid, ward 4: no
ann, ward 5: yes
ann, ward 6: yes
ann: yes, 4 done
bob: yes, 2 done; next Antibiotic at 09:20
cid: no, 3 done; 'Antibiotic 65..90 after Sample if infection': 100 in place of 90; to be looked \
at: ward 7, since Sample was done at 2026-03-02 08:05+01:00
let it be: yes
ann: yes, 4 done
bob: yes, 2 done; next Antibiotic at 09:20
cid: yes, 3 done; next Review at 11:45; changed: 2 to 100; to be looked at: ward 7, since Sample \
was done at 2026-03-02 08:05+01:00
due at 240: ['bob', 'cid']
"""


class Pages(Folder):
    def check(self, page: Path, kept: str, pieces: int = 1) -> None:
        """The first pieces of Python of a page print what stands behind calls; `kept` is the file that they leave."""
        code = "".join(re.findall(r"```python\n(.*?)```", page.read_text(), re.DOTALL)[:pieces])
        wanted = [comment.split(": ")[0].strip() for comment in re.findall(r"print\(.*# (.*)", code)]
        for name, path in ((kept, os.path.join(self.folder, kept)), ("examples/", f"{TOP.parent}/examples/"),
                           ("release/cstn", program.find())):
            code = code.replace(f'"{name}', f'"{path}')
        said = io.StringIO()
        with contextlib.redirect_stdout(said):
            exec(compile(code, str(page), "exec"), {})  # It is the page's own code.
        self.assertEqual(said.getvalue().split("\n")[:-1], wanted)
        self.assertEqual(Path(self.folder, kept).exists(), True)

    @unittest.skipUnless(reads_plans(), "the program reads no plans in sentences")
    def test_the_first_examples_of_the_readme(self) -> None:
        self.check(TOP / "README.md", "ward.db", 2)

    @unittest.skipIf(lacks("digest"), "the program has no line `digest`")
    def test_the_client_of_the_page_on_services(self) -> None:
        self.check(TOP.parent / "docs" / "service.md", "patient-12")
        digest = Plan.load(TOP.parent / "examples" / "clinical-pathway.graphml").digest
        self.assertEqual(Path(self.folder, "patient-12").read_text(),
                         f"digest {digest}\ndid 10 Sample\nsaw 80 i true\n")

    @unittest.skipUnless(reads_plans(), "the program reads no plans in sentences")
    def test_the_ward_of_the_examples(self) -> None:
        done = subprocess.run([sys.executable, "-B", str(TOP.parent / "examples" / "ward.py")], text=True,
                              env=os.environ | {"CSTN": program.find()}, capture_output=True, timeout=60, check=False)
        self.assertEqual((done.returncode, done.stdout, done.stderr), (0, WARD, ""))


if __name__ == "__main__":
    unittest.main()
