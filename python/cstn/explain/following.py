"""Answers of `follow` in words, with the lines of the document: what is next, until when a step can wait, how late an
outcome may be, what is to blame."""
import bisect
import copy
import functools
import re
from collections.abc import Callable, Iterator
from typing import Any

from .briefs import EDITS, VERDICT, is_asked, is_brief, tell_brief
from .names import printed, shown
from .networks import Network, constraint, counts_where, ticks
from .reasons import why_refused
from .shapes import Data, Marks
from .spoken import Spoken
from .trees import branch_of, tree_in_words

# The answers that are put into words.
ANSWER = re.compile(r"next (?P<next>[0-9]{1,10})(?: do (?P<do>[^ ]+(?: [^ ]+)*?))?(?: wait (?P<wait>[A-Za-z]+))?|"
                    r"by (?P<by>[0-9]{1,10}) (?P<name>[^ ]+)|blame(?P<blame>(?: [0-9]{1,10})*)|"
                    r"until (?P<until>[0-9]{1,10})|late (?P<late>[0-9]{1,10}|none) (?P<of>[A-Za-z])|"
                    r"raise (?P<raise>[0-9]{1,10}) (?P<to>-?[0-9]{1,10}|none)|least (?P<least>[0-9]{1,10}|none)|"
                    r"forgiven(?P<forgiven>(?: [0-9]{1,10})*)|step (?P<step>[^ ]+)")

# Lines that are typed, alone or behind `> `, those that an answer may be too, and answers of one line.
TYPED = re.compile(r"> .*|(did|saw|now|await|expect|add|remove|change|try|cap) .*|by (?!\d+ [^ ]).*|late [^ ]+|"
                   r"raise (?:line )?\d+|by|next|check|rest|until|verdict|least|forgive|mark|back|cases|digest")
EITHER = re.compile(r"blame|deadline \d+|step [^ ]+")
ANSWERED = re.compile(r"(yes|no|full|added|removed|changed|deadline|until|mark|back|unfinished) [0-9]{1,10}|refused .*|"
                      r"(next|by) [0-9]{1,10} .*|blame( [0-9]{1,10})*|late ([0-9]{1,10}|none) [A-Za-z]|done|"
                      r"raise \d{1,10} (-?\d{1,10}|none)|least (\d{1,10}|none)|forgiven( \d{1,10})*|step [^ ]+|"
                      r"digest [0-9a-f]{64}|wide \d{1,2}")
RECORDED = re.compile("(did|saw|now|await|expect|add|remove|change|deadline|step|cap) |forgive$")
"""Lines that tell or change something, if they are not refused."""
FACT = re.compile(r"(?P<kind>did|saw|now|await) (?P<moment>[0-9]{1,10})(?: (?P<rest>[^ ]+(?: [^ ]+)*))?")
EDIT = re.compile(r"change (?P<number>[0-9]{1,10}) (?P<value>-?[0-9]{1,10})|deadline (?P<deadline>[0-9]{1,10})|"
                  r"add [^ ]+ [^ ]+ (?P<added>-?[0-9]{1,10}) .*")
NEVER = 1_000_000
"""What `until` and `late` answer if time, or the outcome, makes no difference."""
ALL_DONE: Data = {"answer": "done", "says": ["All is done."]}
UNPAIRED = "The typed lines do not stand each before its answer, and are not used."

# What `check` writes after a no, and how what `rest` writes begins and ends.
STEPS = re.compile(r"^no [0-9]{1,10}\n(?:\d+ (?:base|chain|wait) .*\n)+", re.M)
TREE = re.compile(r"^yes [0-9]{1,10}\n((?:(?:at [0-9]|ask [A-Za-z]).*\n|done\n)+)end$", re.M)
"""What `cases` writes after a yes."""
REST, LAST = re.compile(r"^<\?xml ", re.M), "\n</graphml>\n"


def is_answer(text: str) -> bool:
    """Whether a word is an answer that names something of the document."""
    return bool(ANSWER.fullmatch(text))


def as_session(word: str) -> str:
    """A session of which a word is the answer to be told, if it is one; else nothing."""
    if word.startswith("step "):
        return f"follow 1\n> {word}\n{word}\n" if is_answer(word) else ""
    if is_answer(word):
        return f"{word}\n"
    if VERDICT.fullmatch(word):
        return f"follow 1\n> verdict\n{word}\n"
    is_refused = word.startswith("refused ") and ANSWERED.fullmatch(word)
    return f"follow 1\n{word}\n" if is_refused or word == "done" or is_brief(word) else ""


def is_followed(text: str) -> bool:
    """Whether a text is what `follow` wrote, from its start or from such an answer on."""
    first = text.split("\n")[0]
    return bool(re.match(r"follow \d+\n", text) or is_answer(first) and not first.startswith("step "))


def is_typed(text: str) -> bool:
    """Whether a text begins with a line that is typed into a session, or with the call behind `$ `."""
    line = text.split("\n")[0]
    return bool(re.match(r"\$ |(?:> )?(?:(?:did|saw|now|await|expect) \d+\b|late [^ ]+$|"
                         r"(?:add|remove|change|deadline|by|try) [^ ]|raise (?:line )?\d+$|cap \d+$|"
                         r"(?:by|next|check|rest|until|verdict|forgive|mark|cases)$)", line))


def not_typed(text: str) -> tuple[int, str] | None:
    """The first line, by its number and words, that is none to be typed, of a text of such lines alone."""
    return next(((at, line) for at, line in enumerate(text.split("\n"), 1)
                 if line.strip() and not TYPED.fullmatch(line) and not EITHER.fullmatch(line)), None)


def rests(text: str) -> list[tuple[int, int]]:
    """Where the documents stand that `rest` wrote, each with its first place and its last."""
    found, at = [], 0
    while begun := REST.search(text, at):
        end = text.find(LAST, begun.end())
        if end < 0:
            break
        at = end + len(LAST)
        found.append((begun.start(), at))
    return found


def lacking(net: Network, answer: re.Match[str], further: set[str]) -> list[str]:
    """What an answer names that the document, with further steps, lacks, in words."""
    names = [printed(name) for name in (answer["do"] or answer["name"] or "").split(" ") if name]
    lacks = [f"no time-point {shown(name)}" for name in names if name not in net.places.keys() | further]
    letters = answer["wait"] or answer["of"] or ""
    return lacks + [f"nobody who observes {letter}" for letter in letters if letter not in net.observers]


def placed(net: Network, name: str) -> tuple[Data, str]:
    """A time-point with its line in the document, as data and in words."""
    line = net.lines.get((name, "id"))
    return {"name": name, "line": line}, f"{shown(name)} (line {line})" if line else shown(name)


Limit = tuple[str, str, int, str]


class Heard:
    """What typed lines tell so far: what was done when, at what moment each outcome was last awaited, what is known,
    how late it is, and the edits. Refused lines tell nothing."""

    def __init__(self) -> None:
        self.typed, self.now = False, 0
        self.done: dict[str, int] = {}
        self.awaited: dict[str, int] = {}
        self.known: Marks = {}
        self.values: dict[int, int] = {}
        self.added: dict[int, Limit] = {}
        self.changed: set[int] = set()
        self.deadline: int | None = None
        self.further: set[str] = set()
        self.journal: list[str] = []
        self.marks: list[dict[str, Any]] = []

    def take(self, line: str, answer: str) -> None:
        """Hears a typed line, or none, with its answer."""
        fact, edit, to = FACT.fullmatch(line), EDIT.fullmatch(line), re.fullmatch(r"(?:added|(changed)) (\d+)", answer)
        self.typed = self.typed or bool(line)
        if to and to[1]:
            self.changed.add(int(to[2]))
        if answer.startswith("refused"):
            return
        if line == "mark":
            self.marks.append(copy.deepcopy({key: it for key, it in vars(self).items() if key != "marks"}))
        elif line == "back" and self.marks:
            vars(self).update(self.marks.pop())
        if RECORDED.match(line):
            self.journal.append(line)
        if line.startswith("step "):
            self.further.add(printed(line.removeprefix("step ")))
        if fact:
            self.take_fact(fact["kind"], int(fact["moment"]), (fact["rest"] or "").split(" "))
        if edit and edit["deadline"]:
            self.deadline = int(edit["deadline"])
        elif edit and to:
            self.values[int(to[2])] = int(edit["value"] or edit["added"])
        if edit and to and edit["added"]:
            _, source, target, value, label = line.split(" ")
            self.added[int(to[2])] = printed(source), printed(target), int(value), "" if label == "-" else label

    def from_start(self, net: Network) -> set[int]:
        """The ids of the limits that count from the start, of the document and of those put in."""
        return net.from_start | {number for number, (source, target, most, _) in self.added.items()
                                 if source != target and (target if most < 0 else source) == "Z"}

    def limit(self, net: Network, number: int) -> Limit | None:
        """A limit as it is now, or none where the document lacks it and no line put it in."""
        limit = net.constraints[number] if number < len(net.constraints) else self.added.get(number)
        return limit and (*limit[:2], self.values.get(number, limit[2]), limit[3])

    def is_late(self, number: int) -> bool:
        """Whether an edit has put in that something comes no earlier than some moment: what happened, and no limit."""
        return number in self.added and self.added[number][1] == "Z" and self.added[number][2] < 0

    def take_fact(self, kind: str, moment: int, words: list[str]) -> None:
        if kind == "await":
            self.awaited.update(dict.fromkeys(filter(None, words), moment))
            return
        self.now = max(self.now, moment)
        if kind == "did":
            self.done.update({"Z": 0, **dict.fromkeys(map(printed, words), moment)})
        elif kind == "saw" and len(words) == 2:
            self.known[words[0]] = words[1] == "true"


def told_of(net: Network, name: str, heard: Heard) -> str:
    """Since when the outcome that a time-point observes is awaited, in words, and what to do if it should be here."""
    letter, reaction = net.observed[name], net.reaction(name)
    moment = heard.awaited.get(letter, heard.done[name] + reaction if name in heard.done else None)
    says = f", and its reaction is {ticks(reaction)}"
    if letter in heard.awaited:
        at = heard.awaited[letter]
        says = f"; it was last awaited at {Spoken.moment(at)} (`{Spoken.awaited(at, letter, heard.now)}`)"
    if not heard.typed:
        return says + ", unless `await` told another moment"
    is_late = moment is not None and heard.now >= moment
    return says + (", so it should be here now: say `saw`, or `await` a later moment" if is_late else "")


def tell_next(net: Network, answer: re.Match[str], heard: Heard) -> Data:
    """What is to be executed at the next moment and what is awaited at it, as data and in words."""
    moment, says, awaited = answer["next"], [], []
    named = {printed(name): 0 for name in (answer["do"] or "").split(" ") if name}
    points = [placed(net, name) for name in net.in_order(named)]
    if points:
        names = " and ".join(words for _, words in points)
        says.append(f"At {Spoken.moment(int(moment))} {names} {'is' if len(points) == 1 else 'are'} to be executed.")
    for letter in answer["wait"] or "":
        point, words = placed(net, net.observers[letter])
        told = told_of(net, point["name"], heard)
        says.append(f"At {Spoken.moment(int(moment))} the outcome of {Spoken.letter(letter)} is awaited: {words} "
                    f"observes it{told}.")
        awaited.append({"letter": letter, "observer": point["name"], "line": point["line"]})
    do = [point for point, _ in points]
    return {"answer": "next", "moment": int(moment), "do": do, "wait": awaited, "says": says}


def tell_by(net: Network, answer: re.Match[str]) -> Data:
    """Until when a time-point can wait, as data and in words."""
    point, words = placed(net, printed(answer["name"]))
    says = [f"{words} can wait until {Spoken.moment(int(answer['by']))}, and no longer."]
    return {"answer": "by", "moment": int(answer["by"]), **point, "says": says}


def tell_raise(net: Network, answer: re.Match[str], heard: Heard) -> Data:
    """By how much a limit would have to give way, as data and in words."""
    number, to = int(answer["raise"]), None if answer["to"] == "none" else int(answer["to"])
    own = heard.values.get(number, net.constraints[number][2] if number < len(net.constraints) else None)
    says = f"{blamed(net, number, heard)}. "
    if to is None:
        says += "If all else stays, no greater value would do."
    else:
        values = [Spoken.moment(abs(it)) if number in net.from_start else str(abs(it))
                  for it in (to, own) if it is not None]
        least = "at least " if to < 0 or (own or 0) < 0 else ""
        says += f"If all else stays, {least}{' in place of '.join(values)} would do."
    return {"answer": "raise", "constraint": number, "least": to, "says": [says]}


def tell_least(answer: re.Match[str]) -> Data:
    """The least deadline, as data and in words."""
    least = None if answer["least"] == "none" else int(answer["least"])
    says = f"No deadline up to {NEVER} would do."
    if least is not None:
        says = f"With the deadline {Spoken.moment(least)} what is left can be carried out, and with none before it."
    return {"answer": "least", "least": least, "says": [says]}


def tell_forgiven(net: Network, answer: re.Match[str], heard: Heard) -> Data:
    """The constraints that were given up, as data and in words."""
    numbers = [int(it) for it in answer["forgiven"].split()]
    head = "What was done has broken these, and they are given up:" if numbers else "What was done has broken nothing."
    return {"answer": "forgiven", "constraints": numbers, "says": [head, *(blamed(net, it, heard) for it in numbers)]}


def tell_further(answer: re.Match[str], heard: Heard) -> Data:
    """A step that was put in, as data and in words."""
    name = printed(answer["step"])
    says = f"{shown(name)} is a further step, which nothing ties to the others yet."
    return {"answer": "step", "name": name, "says": [says]}


def tell_until(answer: re.Match[str]) -> Data:
    """Until when nothing need happen, as data and in words."""
    moment = int(answer["until"])
    says = f"If nothing happens before, what is left can be carried out until {Spoken.moment(moment)}, and no longer."
    if moment == NEVER:
        says = "Nothing is left but outcomes, so time changes nothing."
    return {"answer": "until", "moment": moment, "says": [says]}


def tell_late(net: Network, answer: re.Match[str]) -> Data:
    """Until when an outcome may be late, as data and in words."""
    point, words = placed(net, net.observers[answer["of"]])
    letter, moment = Spoken.letter(answer["of"]), None if answer["late"] == "none" else int(answer["late"])
    says = f"The outcome of {letter}, which {words} observes, "
    if moment is None:
        says += "comes too late, whenever it comes."
    elif moment == NEVER:
        says += "may as well not come."
    else:
        says += f"may come as late as {Spoken.moment(moment)}, and no later."
    return {"answer": "late", "letter": answer["of"], "moment": moment, "observer": point["name"], "says": [says]}


def blamed(net: Network, number: int, heard: Heard) -> str:
    """A constraint that is to blame, in words."""
    limit = heard.limit(net, number)
    if number >= len(net.constraints):
        if not limit:
            return f"{number}: a constraint that FILE lacks, so an edit has added it"
        says = f"{number}: {constraint(*limit)}, put in by `add`"
        return says + (": what was told to come so late, and no limit of the plan" if heard.is_late(number) else "")
    now = f"now {constraint(*limit)}" if limit and number in heard.values else "an edit has changed it"
    edited = f", as FILE has it; {now}" if number in heard.changed else ""
    return f"{net.called(number)}: {constraint(*net.constraints[number])}{counts_where(net, number)}{edited}"


def untold(net: Network, numbers: list[int], heard: Heard) -> list[str]:
    """The steps of constraints of which nothing was told, and whose labels hold by what was told, in words; where it
    is known what was done."""
    ends = {name for number in numbers if number < len(net.constraints) for name in net.constraints[number][:2]}
    left = sorted(ends - heard.done.keys(), key=net.places.__getitem__) if heard.done else []
    names = ", ".join(shown(name) for name in left if net.is_executed(name, heard.known))
    says = f"Of their steps nothing was told of {names}: if one was done, tell it, with its moment, by `did`."
    return [says] if names else []


Tried = Callable[[Heard, list[int]], tuple[Data, list[str]]]


def tell_blame(net: Network, answer: re.Match[str], heard: Heard, tried: Tried) -> Data:
    """The constraints that are to blame, by the lines of the document, as data and in words; some were changed by
    edits.

    `tried` says how far a limit would have to give way, as data and in words.
    """
    numbers, known = [int(number) for number in answer["blame"].split()], net.data["constraints"]
    head = "After what has happened these cannot be met together; with any one of them less the others can:"
    if not numbers:
        head = ("No constraint is to blame: what has happened leaves nothing even without them, as after the "
                "deadline, or if a label cannot be known by then.")
    elif len(numbers) == 1:
        head = "After what has happened this cannot be met:"
    limits, more = tried(heard, numbers)
    says = [head, *(blamed(net, number, heard) for number in numbers), *more, *untold(net, numbers, heard)]
    named = [known[it] if it < len(known) else {"id": it, "line": None} for it in numbers]
    return {"answer": "blame", "constraints": named, **limits, "says": says}


def tell_answer(net: Network, answer: re.Match[str], heard: Heard, tried: Tried) -> Data:
    """An answer as data and in words."""
    if answer["next"]:
        return tell_next(net, answer, heard)
    if answer["until"]:
        return tell_until(answer)
    if answer["late"]:
        return tell_late(net, answer)
    if answer["raise"]:
        return tell_raise(net, answer, heard)
    if answer["least"]:
        return tell_least(answer)
    if answer["forgiven"] is not None:
        return tell_forgiven(net, answer, heard)
    if answer["step"]:
        return tell_further(answer, heard)
    return tell_by(net, answer) if answer["by"] else tell_blame(net, answer, heard, tried)


def stuck(text: str) -> Iterator[tuple[str, str, set[str]]]:
    """Each refutation that `check` wrote, the document that `rest` wrote behind it, or none, and what was done."""
    documents, (turns, _), heard = rests(text), turns_of(text), Heard()
    breaks, begun = [it.start() for it in re.finditer("\n", text)], [it for it, _ in documents]
    left = iter([*turns, (len(breaks) + 1, "", "")])
    at, line, answer = next(left)
    for found in STEPS.finditer(text):
        while at < bisect.bisect_left(breaks, found.start()):
            heard.take(line, answer)
            at, line, answer = next(left)
        place = bisect.bisect_left(begun, found.end())
        rest = text[slice(*documents[place])] if place < len(documents) else ""
        yield found[0], rest, set(heard.done)


def awaited(net: Network, own: Network, done: set[str]) -> dict[str, int]:
    """For each observer that was done before `rest` wrote a document, the moment until which it has the outcome
    awaited.

    Where the lines that were typed are not at hand, an observer was done where `rest` gave it another reaction, or its
    moment.
    """
    found = {}
    for name in net.observed:
        moment, is_other = net.pins.get(name), net.reaction(name) != own.reaction(name) or name not in own.pins
        if moment is not None and (name in done or is_other):
            found[name] = moment + net.reaction(name)
    return found


def answers_alone(text: str) -> list[str]:
    """A session without the steps and the documents in it, which leave as many empty lines, by its lines."""
    parts, at = [], 0
    for first, last in rests(text):
        parts += [text[at:first], "\n" * text.count("\n", first, last)]
        at = last
    bare = "".join([*parts, text[at:]])
    for several in (STEPS, TREE):
        bare = several.sub(lambda it: it[0].split("\n")[0] + "\n" * it[0].count("\n"), bare)
    return [line.rstrip(" \t\r") for line in bare.split("\n")]


def turns_of(text: str) -> tuple[list[tuple[int, str, str]], bool]:
    """Each answer of a session with its place and the typed line before it, or none, and whether all typed lines stand
    so; where not, none of them is taken."""
    lines, has_rest = answers_alone(text), bool(rests(text))
    if not any(TYPED.fullmatch(line) for line in lines):
        return [(at, "", line) for at, line in enumerate(lines) if ANSWERED.fullmatch(line)], True
    turns, asked, paired, more = [], None, True, False
    begun = 1 + bool(re.match(r"follow \d", text))
    for at, line in enumerate(lines):
        either = EITHER.fullmatch(line)
        if TYPED.fullmatch(line) or either and asked is None and at >= begun:
            paired, asked = paired and asked is None, line.removeprefix("> ")
        elif ANSWERED.fullmatch(line):
            more = more and line.startswith("by ")
            paired = paired and bool(asked is not None or more or at < begun or re.match("done$|unfinished ", line))
            turns.append((at, asked or "", line))
            more, asked = more or asked in ("by", "try by"), None
        elif asked in ("rest", "try rest") and line == "" and has_rest:
            asked = None
    return turns if paired else [(at, "", line) for at, _, line in turns if line != "blame"], paired


def tell_followed(net: Network, text: str,
                  tried: Callable[[int, Heard, list[int]], tuple[Data, list[str]]]) -> tuple[int, Data, list[str]]:
    """The answers of a text that `follow` wrote: the status, data and lines."""
    told: list[Data] = []
    says, lacks, heard, before = list[str](), list[str](), Heard(), ""
    trees = {text.count("\n", 0, it.start()): it[1].split("\n")[:-1] for it in TREE.finditer(text)}
    turns, paired = turns_of(text)
    for at, typed, line in turns:
        answer = ANSWER.fullmatch(line)
        if answer:
            lacks += lacking(net, answer, heard.further)
        if reason := why_refused(net, typed, line, heard):
            told.append({"answer": "refused", "line": typed, "refusal": line, "says": [reason]})
            says.append(f"{f'{typed}: ' if typed else ''}{line}: {reason}")
        if line == "done" and told[-1:] != [ALL_DONE]:
            told.append(ALL_DONE)
            says += [f"done: {it}" for it in ALL_DONE["says"]]
        if answer and not lacks:
            told.append(tell_answer(net, answer, heard, functools.partial(tried, at)))
            says += [f"{line}: {told[-1]['says'][0]}", *told[-1]["says"][1:]]
        heard.take(typed, line)
        word, is_first = line.split(" ")[0], at == 1 and text.startswith("follow ") and not typed
        is_new = not VERDICT.fullmatch(line) or not is_first and (is_asked(typed) or before not in ("", word))
        if is_new and (brief := tell_brief(net, typed, line, heard)):
            told.append({**brief, "line": typed} if typed else brief)
            head = f"{typed}: " if typed else ""
            says += [f"{head}{'' if word in EDITS else f'{line}: '}{brief['says'][0]}", *brief["says"][1:]]
        if at in trees:
            tree = branch_of(net, iter(trees[at]), heard.known)
            told.append({"answer": "cases", "tree": tree})
            says += tree_in_words(tree)
        before = word if VERDICT.fullmatch(line) and not typed.startswith("try ") else "" if word == "back" else before
    if lacks:
        says = [f"These answers are of another document: FILE has {' and '.join(sorted(set(lacks)))}."]
        return 1, {"answer": "rejected", "says": says}, says
    unpaired = {} if paired else {"says": [UNPAIRED]}
    return 0, {"answer": "follow", "answers": told, **unpaired}, [*unpaired.get("says", []), *says]
