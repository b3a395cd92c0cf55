"""One process of `follow`, with a time limit for each answer."""
from __future__ import annotations

import os
import re
import select
import subprocess
import time
import weakref
from typing import NoReturn

from cstn import program as programs
from cstn.answers import Answer, Can, Marks, Refusal, Until, Verdict, Wide, is_taken, parse
from cstn.errors import NoProgram, OutOfTime, Unavailable

LONGEST_LINE = 4096
LONGEST_ANSWER = 200000
LAST = re.compile(r"memory|read fault|words|script .*|unfinished .*")
"""What the program writes last, where it ends."""
NEWER = re.compile(r"verdict|until|late [A-Za-z]|raise \d+|least|forgive|cap \d+|mark|back|digest|"
                   r"expect \d+ [^ ]+|step [^ ]+")
"""Lines that only an older program refuses as being of no form."""


class Child:
    """A session over the bytes of a document. Not for several threads at once.

    An answer that doesn't come in time, or is of no form that belongs to its line, ends the process: `OutOfTime`,
    `Unavailable`. So does the end of the process. The time limit is for the usual cap; with a larger one it grows.
    """

    def __init__(self, document: bytes, deadline: int | None = None, *, cap: int = programs.CAP,
                 seconds: float = programs.SECONDS, program: str | None = None) -> None:
        self.usual, self.program = seconds, program
        self.limit(cap)
        self.buffer = b""
        with programs.in_memory(document) as file:
            words = [programs.find(program), "follow", f"/proc/self/fd/{file}", *programs.options(deadline, cap)]
            try:
                self.process = subprocess.Popen(words, stdin=subprocess.PIPE, stdout=subprocess.PIPE, bufsize=0,
                                                stderr=subprocess.DEVNULL, pass_fds=[file], start_new_session=True)
            except OSError as error:
                raise Unavailable(f"{words[0]} cannot be started: {error}") from error
        assert self.process.stdin is not None and self.process.stdout is not None
        self.into, self.out = self.process.stdin.fileno(), self.process.stdout.fileno()
        self.poll = select.poll()
        self.poll.register(self.out, select.POLLIN)
        self.finalizer = weakref.finalize(self, end, self.process)
        self.first = self.begin(document)

    def begin(self, document: bytes) -> Verdict:
        """Reads the version of the session and the verdict on the plan as it stands."""
        first = self.line()
        if first.startswith("document "):
            self.close()
            raise programs.refused_document(first, document)
        if first != programs.FOLLOW:
            self.fail(f"no session: {first[:200]!r}")
        verdict = self.parsed("check", self.line())
        if not isinstance(verdict, Verdict):
            self.fail(f"no session: {verdict}")
        return verdict

    def line(self) -> str:
        """The next line that the program writes."""
        until = time.monotonic() + self.seconds
        while b"\n" not in self.buffer:
            if not self.poll.poll(max(0.0, until - time.monotonic()) * 1000):
                self.close()
                raise OutOfTime(f"no answer within {self.seconds:g} s")
            piece = os.read(self.out, 65536)
            self.buffer += piece
            if not piece or len(self.buffer) > LONGEST_ANSWER + 65536:
                self.fail(f"it ended, or wrote no line: {self.buffer[:200]!r}")
        line, _, self.buffer = self.buffer.partition(b"\n")
        text = line.decode(errors="replace")
        if LAST.fullmatch(text):
            self.fail(f"it ended: {text}")
        return text

    def write(self, line: str) -> None:
        data = line.encode() + b"\n"
        if b"\n" in data[:-1] or len(data) > LONGEST_LINE + 1:
            raise ValueError("no line can say this")
        if not self.finalizer.alive:
            raise Unavailable("the process was ended")
        try:
            os.write(self.into, data)
        except BrokenPipeError:
            pass  # What it wrote last has the reason.

    def ask(self, line: str) -> Answer:
        """The answer to a line. After a "no", of `check` the verdict alone: its refutation is read and passed over."""
        return self.ask_text(line)[1]

    def ask_text(self, line: str) -> tuple[str, Answer]:
        """The answer to a line, also as the program wrote it."""
        self.write(line)
        text = self.line()
        answer = self.parsed(line, text)
        if isinstance(answer, Refusal) and answer.code == "line" and NEWER.fullmatch(line):
            self.close()
            raise NoProgram(f"the program has no line `{line.split(' ')[0]}`: it is older than this package")
        if line == "check" and isinstance(answer, Verdict) and answer.can is Can.NO:
            while self.line() != "end":
                pass
        return text, answer

    def rest(self) -> bytes:
        """The document of what is left."""
        self.write("rest")
        lines = [self.line()]
        while lines[0].startswith("<") and lines[-1] != "</graphml>":
            lines.append(self.line())
        if lines[-1] != "</graphml>":
            self.fail(f"rest was answered {lines[0][:200]!r}")
        return "".join(line + "\n" for line in lines).encode()

    def verdict(self) -> Verdict:
        """The verdict as it stands, also after an edit, without a refutation."""
        answer = self.ask("verdict")
        assert isinstance(answer, Verdict)
        return answer

    def all_until(self) -> dict[str, int] | Verdict:
        """Until when each step that is left can wait, one at a time; the verdict after a "no", and where it is
        unknown."""
        self.write("by")
        found: dict[str, int] = {}
        while (text := self.line()) != "end":
            answer = self.parsed(f"by {text.rsplit(' ', 1)[-1]}" if text.startswith("by ") else "by", text)
            if not isinstance(answer, Until):
                return answer if isinstance(answer, Verdict) else self.fail(f"by was answered {text[:200]!r}")
            found[answer.step] = answer.at
        return found

    def cases(self) -> list[str] | Verdict | Wide:
        """The lines of a tree that says how the plan goes on, by case: of the command `cases` over what is left. After
        a "no" and where it is unknown the verdict."""
        return programs.cases(self.rest(), None, self.cap, seconds=self.seconds, program=self.program)

    def mark(self) -> bool:
        """Sets a mark, to which `back` leads back; not where eight are set."""
        return isinstance(self.ask("mark"), Marks)

    def back(self) -> bool:
        """Leads back to where the last mark was set; not where none is."""
        return isinstance(self.ask("back"), Marks)

    def limit(self, cap: int) -> None:
        """Notes the cap that it has, and the time limit of an answer: a larger cap takes more."""
        self.cap = cap
        self.seconds = self.usual * float(max(1.0, cap / programs.CAP) ** 1.5)

    def use_cap(self, cap: int) -> Verdict:
        """Goes on with another cap, as if it had been begun with that."""
        self.limit(cap)
        answer = self.ask(f"cap {cap}")
        assert isinstance(answer, Verdict)
        return answer

    def tells(self, line: str) -> bool:
        """Whether a fact or an edit is taken."""
        return is_taken(self.ask(line))

    def parsed(self, line: str, text: str) -> Answer:
        try:
            return parse(line, text)
        except ValueError as error:
            self.close()
            raise Unavailable(str(error)) from error

    def fail(self, reason: str) -> NoReturn:
        """Ends the process, and raises why."""
        try:
            status = self.process.wait(0.5)
        except subprocess.TimeoutExpired:
            status = None
        self.close()
        raise Unavailable(reason if status is None else f"{reason}, status {status}")

    @property
    def is_alive(self) -> bool:
        return self.process.poll() is None

    def close(self) -> None:
        """Ends the process."""
        self.finalizer()


def end(process: subprocess.Popen[bytes]) -> None:
    process.kill()
    process.wait()
    for stream in (process.stdin, process.stdout):
        if stream is not None:
            stream.close()
