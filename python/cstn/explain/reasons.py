"""Why `follow` refuses a line, in words."""
from __future__ import annotations

import re
from typing import TYPE_CHECKING

from .documents import near
from .names import printed, shown
from .networks import Network
from .spoken import Spoken

if TYPE_CHECKING:
    from .following import Heard

MOST, MOST_OF_ORIGIN = 1000000, 1000
FORMS = {
    "did": "did T NAME ..", "saw": "saw T LETTER true, or false", "now": "now T", "await": "await T LETTER",
    "expect": "expect T NAME", "add": "add FROM TO W LABEL, where LABEL is - if there is none", "remove": "remove ID",
    "change": "change ID W", "deadline": "deadline N", "by": "by, or by NAME", "late": "late LETTER",
    "raise": "raise ID", "step": "step NAME", "cap": "cap N, from 1 to 4194304", "try": "try LINE"}
NEWER = re.compile(r"(?:cap|raise) \d+|step [^ ]+|expect \d+ [^ ]+|late [A-Za-z]|mark|back|forgive|least|"
                   r"digest|until|verdict")
"""Lines that not every program has."""
LETTERS = {"saw": (1, 3), "await": (1, 2), "late": (0, 1)}
"""Lines with a letter: its place behind the verb, and how many words stand there."""
REASONS = {
    "F8": "the plan has no room for what this adds", "S1": "there is no room for another constraint: remove one first",
    "S3": "a value is from -1000000000 to 1000000000", "S4": "the label has a mark that is none",
    "S6": "1000000 edits were made, and no more are taken", "S9": "a plan has at most 1024 steps, with Z",
    "M1": "8 marks are set already", "M2": "no mark is set"}
NOT_TRIED = re.compile("^try (?!try |mark$|back$)")
"""What stands before a line that may be tried."""
REFUSED = re.compile(r"refused (F[1-8]|S[1-9]|M[12]|line)(?: (.+))?")


def why_refused(net: Network, line: str, answer: str, heard: Heard) -> str:
    """Why a line was refused; `line` is empty where it is not known. Nothing of an answer that refuses nothing."""
    found, line = REFUSED.fullmatch(answer), NOT_TRIED.sub("", line)
    says = reason(net, line, found[1], (found[2] or "").split(" "), heard) if found else ""
    return says + ("" if not says or says.endswith("?") else ".")


def reason(net: Network, line: str, code: str, words: list[str], heard: Heard) -> str:
    """Why a line was refused, by the code of the refusal and what stands behind it."""
    name = printed(words[0])
    if code == "line":
        return no_line(net, line)
    if code == "F1":
        return f"it is {said(words[0])} already, and time does not go back"
    if code == "F2":
        return no_moment(net, line, int(words[0]), heard)
    if code in ("F3", "S7"):
        if end := ended(net, line, name):
            return f"no step is called {name}: write {end}"
        close = near(name, tuple(net.names))
        return f"no step is called {shown(name)}" + (f"; did you mean {shown(close)}?" if close else "")
    if code == "F4":
        return f"{shown(name)} was done at {said(words[-1])}" if name != "Z" else "Z is the start"
    if code == "F5":
        return undecided(net, name, heard)
    if code == "F6":
        return unobserved(net, words[0], heard)
    if code == "F7":
        return f"{Spoken.letter(words[0])} was told before, and is {words[-1]}"
    if code == "S2":
        return f"no limit has the id {words[0]}, or it was removed"
    if code == "S5":
        return f"no step observes {words[0]}"
    if code == "S8":
        return f"there is a step {shown(name)} already"
    return REASONS[code]


def said(moment: str) -> str:
    return Spoken.moment(int(moment)) if moment.isdigit() else moment


def ended(net: Network, line: str, name: str) -> str:
    """How the step is written that a line calls the start or the end of another, as a plan in sentences may; nothing
    where it does not."""
    found = re.search(rf" {name} of ([^ ]+)", line) if name in ("start", "end") else None
    meant = printed(found[1]) + (".end" if name == "end" else "") if found else ""
    return shown(meant) if meant in net.places else ""


def unknown(net: Network, word: str) -> str:
    """That nobody observes what a word names, and which word may have been meant: a similar one, or that of a step
    that the word names."""
    says, words = f"no step observes {word}", {Spoken.word(it): it for it in net.observers}
    steps = {name.removesuffix(".end"): name for name in net.observed}
    step = near(word, tuple(steps))
    if close := near(word, tuple(words)):
        return f"{says}; did you mean {shown(close)}?"
    if step:
        return f"{says}; did you mean {Spoken.word(net.observed[steps[step]])}, which {shown(steps[step])} observes?"
    return f"{says}; what is observed is {', '.join(map(Spoken.letter, net.observers))}" if words else says


def no_line(net: Network, line: str) -> str:
    """Why a line is of no form, as far as its verb tells."""
    verb, *words = line.split(" ")
    if verb == "try" and words:
        return f"`try` takes no line `{words[0]}`"
    if words and re.fullmatch(r"\d{1,3}:[0-5]\d", words[0]):
        return f"{words[0]} is before the start" if Spoken.clock.start is not None else f"{words[0]} is no moment"
    if verb in ("change", "remove", "raise") and words[:1] == ["line"] and "".join(words[1:2]).isdecimal():
        return on_line(net, int(words[1]))
    place, count = LETTERS.get(verb, (0, 0))
    if words and len(words) == count and words[0].isdecimal() == (place > 0) and len(words[place]) > 1:
        return unknown(net, words[place])
    far = re.search(r" (start|end) of [^ ]+", line)
    if far and (end := ended(net, line, far[1])):
        return f"write {end} in place of {far[0].strip()}"
    if NEWER.fullmatch(line):
        return f"this program has no line `{verb}`"
    form = FORMS.get(verb)
    if form is None:
        return "no line begins so" if line else "a line is of no form"
    return f"this line is of the form `{form}`" + (", with ticks or H:MM for T" if " T" in form else "")


def on_line(net: Network, line: int) -> str:
    """Why a line does not name a limit."""
    found = [str(number) for number, row in enumerate(net.limit_rows()) if row == line]
    return f"on line {line} stand {' and '.join(found)}: say which" if found else f"no limit stands on line {line}"


def no_moment(net: Network, line: str, moment: int, heard: Heard) -> str:
    """Why a moment can't be told."""
    verb, *words = line.split(" ")
    if moment > MOST:
        return f"a moment is at most {MOST}"
    letter = words[1] if len(words) > 1 else ""
    observer = net.observers.get(letter, "")
    if verb == "saw" and observer in heard.done:
        return f"{shown(observer)}, which observes it, was done only at {Spoken.moment(heard.done[observer])}"
    if verb == "await" and observer:
        if observer == "Z" and moment > MOST_OF_ORIGIN:
            return f"what the start observes is known {MOST_OF_ORIGIN} ticks later at most"
        return f"an outcome is expected after {shown(observer)} was done, and not before now, " \
            f"{Spoken.moment(heard.now)}"
    return "this moment can't be told"


def undecided(net: Network, name: str, heard: Heard) -> str:
    """Why a step can't be done: what was told rules it out, or some outcomes of its label are missing."""
    marks = net.executed.get(name, {})
    if any(letter in heard.known and heard.known[letter] != value for letter, value in marks.items()):
        return f"what was told rules {shown(name)} out"
    left = [Spoken.letter(letter) for letter in sorted(marks) if letter not in heard.known]
    return f"{shown(name)} waits for the outcome of {' and of '.join(left)}, which was not told" if left else \
        f"what was told does not say that {shown(name)} is needed"


def unobserved(net: Network, letter: str, heard: Heard) -> str:
    """Why an outcome can't be told: nobody observes it, or who does was not done."""
    observer = net.observers.get(letter)
    if observer is None:
        return f"no step observes {letter}"
    marks = net.executed.get(observer, {})
    if any(it in heard.known and heard.known[it] != value for it, value in marks.items()):
        return f"what was told rules {shown(observer)} out, which observes {Spoken.letter(letter)}"
    return f"{shown(observer)}, which observes {Spoken.letter(letter)}, was not done"
