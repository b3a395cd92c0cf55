"""A session with `follow` as people have one: typed with times of the clock, words and names, and answered in words."""
import contextlib
import copy
import io
import re
import subprocess
import sys
import time
from collections.abc import Iterator
from pathlib import Path
from typing import IO

from .asking import MOST_TRIED, Asked
from .briefs import VERDICTS, tell_brief
from .following import ANSWER, NEVER, RECORDED, Heard, placed, tell_answer
from .names import harmless, printed
from .reasons import why_refused
from .sessions import TOO_MUCH, tell_stuck, tell_told_again
from .shapes import Data
from .spoken import Spoken
from .tries import CHECKS_OF_A_LIMIT, MOST_LIMITS
from .trees import branch_of, tree_in_words
from .typed import in_lines

QUESTIONS = ("verdict", "next", "by", "until", "least", "check", "blame", "rest", "digest")
"""Questions of one word."""
LAST = {"check": "end", "rest": "</graphml>", "by": "end", "cases": "end"}
"""The last line of an answer that may have more than one."""
ONE = {"check": ("yes ", "full ", "refused "), "rest": ("refused ",), "by": ("yes ", "no ", "full ", "refused "),
       "cases": ("no ", "full ", "wide ", "refused ")}
"""How an answer to such a line begins that has one line alone."""
MOST_NAMED = 6
"""How many steps are named that can wait equally long."""
MOST_SECONDS, CHECKS_OF_A_STEP = 2.0, 5
"""How long may be asked for what no line asks for, and how many checks a step takes for that, as a rule."""
WAITS = re.compile(r"by (?P<by>\d+) (?P<name>[^ ]+)|late (?P<late>\d+) (?P<of>[A-Za-z])")
EDITED = ("added", "changed", "removed", "forgiven", "step", "deadline", "back")
WHAT_IS_LEFT = "What is left, as a document: keep it in a file. Its ids are its own, and none of this session."


class Talk:
    """A session over a document: what was heard of it so far, and the program that answers."""

    def __init__(self, asked: Asked) -> None:
        self.asked, self.heard = asked, Heard()
        self.no: list[str] = []
        words = [asked.program, "follow", asked.path, "--deadline", str(asked.net.deadline)]
        self.child = subprocess.Popen(words, stdin=subprocess.PIPE, stdout=subprocess.PIPE)
        assert self.child.stdin and self.child.stdout
        self.into: IO[bytes] = self.child.stdin
        self.out: IO[bytes] = self.child.stdout
        self.dearest = 0.0
        """What the dearest check took so far, in seconds of the processor."""

    def read(self) -> str:
        return self.out.readline().decode(errors="replace").rstrip("\n")

    def spent(self) -> float:
        """What the program took so far, in seconds of the processor."""
        try:
            return int(Path(f"/proc/{self.child.pid}/schedstat").read_text("utf-8").split(" ")[0]) / 1e9
        except (OSError, ValueError):
            return time.monotonic()

    def ask(self, line: str) -> list[str]:
        """The lines of the answer to a line."""
        begun = self.spent() if RECORDED.match(line) or line == "verdict" else None
        answer = self.answer(line)
        if begun is not None:
            self.dearest = max(self.dearest, self.spent() - begun)
        return answer

    def answer(self, line: str) -> list[str]:
        """The lines of the answer to a line, whatever it takes."""
        self.into.write(f"{line}\n".encode(errors="surrogateescape"))
        self.into.flush()
        answer, last = [self.read()], LAST.get(line.removeprefix("try "))
        one = ONE[line.removeprefix("try ")] if last else ()
        if last is None or answer[0].startswith(one):
            return answer
        while answer[-1] not in (last, ""):
            answer.append(self.read())
        return answer

    def tried(self, heard: Heard, numbers: list[int]) -> tuple[Data, list[str]]:
        """By how much what is to blame would have to give way, unless that is much to try."""
        checks = CHECKS_OF_A_LIMIT * min(len(numbers), MOST_LIMITS) + len(heard.journal)
        if not numbers or checks * len(self.asked.net.constraints) > MOST_TRIED:
            return {}, [TOO_MUCH] if numbers else []
        return tell_told_again(self.asked, heard, numbers)

    def said(self, answer: str, line: str = "") -> list[str]:
        """An answer of one line in words, as it stands where there are none for it."""
        found = ANSWER.fullmatch(answer)
        if answer == "done":
            return ["All is done."]
        told = tell_answer(self.asked.net, found, self.heard, self.tried) if found else \
            tell_brief(self.asked.net, line, answer, self.heard)
        says: list[str] = told["says"] if told else [answer]
        return says

    def after(self, verdict: str) -> list[str]:
        """A verdict in words, and what is next, or what is to blame; of a no that stays what is new of it alone."""
        word = verdict.split(" ")[0]
        if word == "full":
            return self.said(verdict)
        answer, before = self.ask("next" if word == "yes" else "blame")[0], self.no
        says = self.said(answer)
        if word == "yes":
            self.no = []
            return [VERDICTS[word], *says, *self.tightest(answer)]
        says += self.meanwhile(answer)
        self.no, numbers = [answer, *says], answer.split(" ")[1:]
        if before[:1] != [answer] or not numbers:
            return [VERDICTS[word], *says]
        limits = f"limit{'s' if len(numbers) > 1 else ''}: {', '.join(numbers)}"
        return [f"Still no, for the same {limits} (`blame` tells all of it).", *(it for it in says if it not in before)]

    @contextlib.contextmanager
    def aside(self, checks: int) -> Iterator[bool]:
        """Whether so many checks may be asked for aside, by what the dearest one took so far; then all is as before."""
        is_set = checks * self.dearest <= MOST_SECONDS and self.ask("mark")[0].startswith("mark ")
        yield is_set
        if is_set:
            self.ask("back")

    def tightest(self, following: str) -> list[str]:
        """What of all that is left can wait least."""
        net, heard = self.asked.net, self.heard
        letters = [it for it, name in net.observers.items() if name in heard.done and it not in heard.known]
        with self.aside(CHECKS_OF_A_STEP * (len(net.names) + len(letters))) as is_set:
            answers = self.ask("by") + [self.ask(f"late {it}")[0] for it in letters] if is_set else []
        found = [WAITS.fullmatch(it) for it in answers]
        waits = [(int(it["by"] or it["late"]), it) for it in found if it and (it["by"] or it["late"]) != str(NEVER)]
        least = min((at for at, _ in waits), default=None)
        if least is None or not following.startswith("next "):
            return []
        names = [placed(net, printed(it["name"]))[1] if it["name"] else f"the outcome of {Spoken.letter(it['of'])}"
                 for at, it in waits if at == least]
        names = [*names[:MOST_NAMED], f"{len(names) - MOST_NAMED} more"] if len(names) > MOST_NAMED + 1 else names
        return [f"{' and '.join(names)} can wait least: until {Spoken.moment(least)}."]

    def meanwhile(self, blame: str) -> list[str]:
        """What would be next if all limits that are to blame were let go, one set after another."""
        gone: list[str] = []
        with self.aside(2 * len(self.asked.net.constraints)) as is_set:
            answer = blame if is_set else ""
            while re.fullmatch(r"blame( \d+)+", answer) and len(gone) < MOST_LIMITS:
                numbers = answer.split(" ")[1:]
                gone += numbers
                for number in numbers:
                    self.ask(f"remove {number}")
                answer = self.ask("blame")[0]
            answer = self.ask("next")[0] if answer.startswith("yes ") else ""
        if not gone or not answer.startswith("next "):
            return []
        says = self.said(answer)
        return [f"If {' and '.join(sorted(gone, key=int))} were let go: {says[0]}", *says[1:]]

    def turn(self, typed: str) -> list[str]:
        """What is said to a line that was typed."""
        net = self.asked.net
        line = in_lines(typed, self.heard.now, Spoken.clock, self.heard.from_start(net), net.limit_rows())
        inner = line.removeprefix("try ")
        if inner != line and (RECORDED.match(inner) or inner in QUESTIONS):
            return self.supposed(inner)
        answer = self.ask(line)
        refused = self.refused(line, answer[0])
        self.heard.take(line, answer[0])
        if refused:
            return refused
        if answer[0].split(" ")[0] in EDITED:
            return [*self.said(answer[0]), *self.after(self.ask("verdict")[0])]
        if len(answer) == 1 and answer[0].startswith(("yes ", "no ", "full ")):
            return self.after(answer[0])
        if line == "by" and answer[-1] == "end":
            return [says for each in answer[:-1] for says in self.said(each)]
        if line == "check" and answer[-1] == "end":
            return self.stuck("".join(f"{it}\n" for it in answer[:-1]))
        if line == "cases" and answer[-1] == "end":
            return [VERDICTS["yes"], *tree_in_words(branch_of(self.asked.net, iter(answer[1:-1]), self.heard.known))]
        return self.said(answer[0]) if len(answer) == 1 else [WHAT_IS_LEFT, *answer] if line == "rest" else answer

    def refused(self, line: str, answer: str) -> list[str]:
        """Why a line is refused, if it is."""
        reason = why_refused(self.asked.net, line, answer, self.heard)
        return [f"{answer if ' line ' not in answer else 'refused'}: {reason}"] if reason else []

    def supposed(self, line: str) -> list[str]:
        """What would be said to a line, after which all is as before."""
        if not self.ask("mark")[0].startswith("mark "):
            tried, answer = f"try {line}", self.ask(f"try {line}")
            return self.refused(tried, answer[0]) or (self.said(answer[0], tried) if len(answer) == 1 else answer)
        heard, no = copy.deepcopy(self.heard), self.no
        says = self.turn(line)
        self.ask("back")
        self.heard, self.no = heard, no
        return [f"If `{line}` were told:", *says] if RECORDED.match(line) else says

    def stuck(self, steps: str) -> list[str]:
        """The steps of a `check` in words, over what is left."""
        rest = "".join(f"{it}\n" for it in self.ask("rest"))
        return tell_stuck(self.asked.net, steps, rest, set(self.heard.done))[1]

    def end(self) -> tuple[int, list[str]]:
        """The status with which the session ends, and its last line in words."""
        self.into.close()
        last = self.out.read().decode(errors="replace").rstrip("\n")
        self.out.close()
        return self.child.wait(), self.said(last) if last else []


def talk(asked: Asked, typed: Iterator[str]) -> int:
    """Answers what is typed, line by line, until there is no more."""
    if isinstance(typed, io.TextIOWrapper):
        typed.reconfigure(errors="surrogateescape")
    session = Talk(asked)
    Spoken.takes_words = True
    version, verdict = session.read(), session.read()
    session.dearest = session.spent()
    say(session.after(verdict) if version.startswith("follow ") else [version])
    try:
        for line in typed:
            if line.strip():
                say(session.turn(line.rstrip("\r\n")))
    except (BrokenPipeError, KeyboardInterrupt):
        pass
    status, lines = session.end()
    say(lines)
    return status


def say(lines: list[str]) -> None:
    print("".join(f"{harmless(line)}\n" for line in lines), end="", flush=True)
    sys.stdout.flush()
