"""Says in words what a document means to the checker, what of it was passed over, why it is refused, and what a no, a
tree or `follow` says.

    ./cstn explain FILE [PROOF [--only]] [--deadline N] [--json]
    ./cstn explain --tree FILE [--deadline N] [--json]         --conflict, --tight and --float likewise
    ./cstn explain --step NAME FILE [--deadline N] [--json]
    ./cstn explain --longest [--tree | --conflict | --tight | --float | --step NAME] FILE [--tasks TASKS] ..
    ./cstn explain --follow FILE [--deadline N]

With --start HH:MM moments are times too: tick 0 is then, and a tick is a minute, or the seconds of --tick SECONDS.
PROOF is what a no wrote, of `check`, `run`, `closed`, `tree`, `conflict` or `tight`, or the tree of a yes, or what
`follow` wrote; or it is `-`, the standard input; or one answer of `follow`, as 'blame 2 5'. With --only nothing of the
network is listed before it, but what of FILE was passed over. docs/commands.md says under `./cstn explain` what each
form tells, and how it ends.

FILE may be a plan in sentences, if its name ends in .plan: then constraints are named by its lines, and letters by its
words. What is typed into a session, or to --follow, may have times as 22:14, those words, names in quotes, and limits
by their lines, as `change line 7 95`.

A reading aid: it is not proved, reads the document and the text alone, and changes nothing. What the network is, it
takes from what `./cstn save FILE` writes (or the program that CSTN names); what was passed over, it finds in FILE
itself; a no is told as `replay` judges it, and a tree where `treecheck` accepts it.
"""
import contextlib
import io
import json
import os
import re
import sys

from .asking import Asked, kept, read_once, read_text, with_values
from .conflicts import tell_sets
from .documents import Reader, tell_passed_over
from .following import as_session, is_followed, is_typed
from .live import talk
from .looks import looks
from .names import harmless, harmless_data
from .networks import Network, network_in_words, ticks
from .plans import Told, is_plan, take_plan
from .proofs import tell_judged_tree, tell_refutation
from .refusals import tell_refused
from .sessions import answered, tell_session
from .shapes import Data
from .spoken import Clock, Spoken, read_clock
from .steps import tell_float, tell_step
from .stopped import Stopped
from .tasks import lengths, read_tasks, tasks_of, tasks_said
from .trees import MOST_IN_WORDS, size

IDS_OF_REST = ("If `rest` wrote FILE, the ids and lines below are its own. Never type them into the session: look a "
               "limit up by its words in `./cstn explain` of the document that was followed, and `change` the id "
               "there.")
LEAST = re.compile(r"least (\d{1,7})\n(?=.)")
"""How what `tight` wrote begins; `follow` answers with such a line alone."""
ASKED = ("--tree", "--conflict", "--tight", "--float", "--step", "--follow")


def tell_proof(asked: Asked, text: str) -> tuple[int, Data, list[str]]:
    """What a text says that was written after a yes or a no, or by `follow`: the status, data and lines. Of what
    `tight` wrote, it begins with the least deadline."""
    least = LEAST.match(text)
    if least:
        at = Spoken.moment(int(least[1]))
        lines = [f"With the deadline {at} the plan can be carried out, and with none before it."]
        if least[1] == "0":
            return 0, {"answer": "least", "least": 0}, lines
        asked.net.deadline = int(least[1]) - 1
        status, data, more = tell_refutation(asked, text, True)
        lines.append(f"With the deadline {Spoken.moment(asked.net.deadline)}:")
        return status, {"least": int(least[1]), **data}, [*lines, *more]
    if is_typed(text):
        told = answered(asked, text)
        text, Spoken.takes_words = told or text, bool(told)
    if is_followed(text):
        return tell_session(asked, text)
    if re.match(r"yes \d+\n(at |ask |done)", text):
        return tell_judged_tree(asked, text)
    return tell_refutation(asked, text, False)


def tell_tight(asked: Asked) -> tuple[int, Data, list[str]]:
    """The least deadline with which the plan can be carried out, up to the one that was said, or up to four times that
    of the document."""
    own, status, over = asked.net.deadline, 4, ""
    if not asked.option:
        asked.net.deadline = asked.later()
        status, text = asked.answer_at("tight", cap=asked.cap(1))
        over = (f"Up to {Spoken.moment(asked.net.deadline)} it is not told, since that may take long: `tight` with it "
                "tells it.")
    if status > 1:
        asked.net.deadline = own
        status, text = asked.answer_at("tight")
    if status > 1:
        return status, {"answer": text.split("\n")[0]}, text.rstrip("\n").split("\n")
    if status:
        most = asked.net.deadline
        told, data, lines = tell_refutation(asked, text, True)
        head = f"With no deadline up to {Spoken.moment(most)} can the plan be carried out."
        more = [over] if over and most == own else []
        return told or status, {**data, "none_up_to": most}, [head, *more, *lines]
    told, data, lines = tell_proof(asked, text)
    if data["least"] > own:
        data["missing"] = data["least"] - own
        are = "is" if data["missing"] == 1 else "are"
        lines.insert(1, f"{ticks(data['missing'])} {are} missing: the deadline of FILE is {Spoken.moment(own)}.")
    return told, data, lines


def tell_tree(asked: Asked) -> tuple[int, Data, list[str]]:
    """The whole plan in words, or a no, or that the plan is too large for words."""
    if size(asked.net) > MOST_IN_WORDS:
        status, text = asked.answer_at("check")
        if not status:
            letters = len(asked.net.observers)
            lines = [f"The plan can be carried out, and has up to {1 << letters} ways, by {letters} outcomes, which "
                     "are too many for words: `./cstn cases FILE` writes them."]
            return 10, {"answer": f"wide {letters}", "says": lines}, lines
    else:
        status, text = asked.answer_plain("tree")
    if status > 1:
        return status, {"answer": text.split("\n")[0]}, text.rstrip("\n").split("\n")
    told, data, lines = tell_proof(asked, text)
    return told or status, data, lines


def tell_conflict(asked: Asked) -> tuple[int, Data, list[str]]:
    """What the document is answered by `conflict`: a yes, or a set that is to blame."""
    status, text = asked.answer_plain("conflict")
    if not status:
        lines = [f"The plan can be carried out by {Spoken.moment(asked.net.deadline)}; nothing is to blame."]
        return 0, {"answer": text.strip(), "says": lines}, lines
    if status != 1:
        return status, {"answer": text.split("\n")[0]}, text.rstrip("\n").split("\n")
    told, data, lines = tell_proof(asked, text)
    if data.get("each_needed"):
        tell_sets(asked, data, lines)
    if asked.net.is_canonical:
        lines.insert(0, IDS_OF_REST)
    return told or status, data, lines


def tell_verdict(asked: Asked) -> tuple[str, list[str]]:
    """Whether the plan can be carried out, as the program says it and in words, unless that takes too many bounds."""
    said = asked.answer_at("check", cap=asked.cap(1))[1].split("\n")[0]
    by = f"by its deadline, {Spoken.moment(asked.net.deadline)}"
    if said.startswith("yes"):
        return said, [f"Yes: the plan can be carried out {by}, whatever is observed."]
    if said.startswith("no"):
        return said, [f"No: the plan cannot be carried out {by}. Why, tells `./cstn explain --conflict FILE`."]
    return said, [f"Whether the plan can be carried out {by}, is not told, since it takes many bounds: "
                  "`./cstn check FILE` tells it."]


def tell_document(asked: Asked, reader: Reader) -> tuple[Data, list[str]]:
    """What was passed over of a document, what its network says, and what is worth a second look."""
    net = asked.net
    passed, lines = tell_passed_over(reader, False)
    verdict, head = tell_verdict(asked)
    data: Data = {"verdict": verdict, "passed_over": passed, **net.data}
    lines = [*head, *lines, *network_in_words(net)]
    for key, found, words in looks(asked, verdict):
        data[key] = found
        lines += words
    return data, lines


def tell_alone(reader: Reader) -> tuple[Data, list[str]]:
    """What was passed over of a document, without its network."""
    passed, lines = tell_passed_over(reader, False)
    return {"passed_over": passed}, lines


def tell_refusal(saved: str, status: int, reader: Reader) -> tuple[int, Data, list[str]]:
    """Why a document is refused, with the lines in question."""
    passed, lines = tell_passed_over(reader, True) if not saved.startswith("document X2") else ([], [])
    says = tell_refused(saved, reader)
    return status, {"answer": saved.strip(), "passed_over": passed, "says": says}, [*lines, saved.strip(), *says]


def taken_out(words: list[str], name: str) -> tuple[list[str], list[str]]:
    """An option with its value, where it is there, and the other words."""
    if name not in words:
        return [], words
    at = words.index(name)
    return words[at : at + 2], words[:at] + words[at + 2 :]


def longest_of(words: list[str]) -> tuple[str | None, list[str]]:
    """Whether tasks are to take their longest: then the file that names them, or nothing; and the words without it."""
    tasks, words = taken_out(words, "--tasks")
    if "--longest" not in words:
        if tasks:
            raise Stopped(2, "--tasks goes with --longest.")
        return None, words
    return "".join(tasks[1:]), [it for it in words if it != "--longest"]


def clock_of(words: list[str]) -> tuple[Clock, list[str]]:
    """The clock by which moments are said, and the words without its options."""
    start, words = taken_out(words, "--start")
    tick, words = taken_out(words, "--tick")
    return read_clock(*(" ".join(it[1:]) or "none" if it else None for it in (start, tick))), words


def take_longest(asked: Asked, files: contextlib.ExitStack, path: str | None) -> tuple[Data, list[str]]:
    """Puts a document in the place of FILE in which each task takes its longest, as a file among these; as data and in
    words, which these are."""
    net = asked.net
    named = read_tasks(net, read_text(path, "TASKS")) if path else None
    tasks = named if named is not None else tasks_said(asked.said) if asked.said else tasks_of(net)
    found = lengths(net, tasks)
    asked.saved = with_values(asked.saved, {it.id: -it.most for it in found})
    asked.net, asked.path = Network(asked.saved), files.enter_context(kept(asked.saved))
    asked.net.rows, asked.net.lines = net.rows, net.lines
    asked.net.says, asked.net.is_canonical = net.says, net.is_canonical
    lines = [f"With each task at its longest: {', '.join(it.says() for it in found)}."]
    if not found:
        lines = ["No task has a longest length that is more than its least" +
                 ("." if tasks else ": no two steps are named as a task, so say --tasks TASKS, as for `./cstn draw`.")]
    return {"longest": [{"task": it.task.name, "constraint": it.id, "least": it.least, "most": it.most}
                        for it in found]}, lines


def tell_longest(asked: Asked) -> tuple[int, Data, list[str]]:
    """Whether the plan can be carried out as it stands now, and if not, what is to blame."""
    said, head = tell_verdict(asked)
    if not said.startswith("no"):
        return 0 if said.startswith("yes") else 4, {"answer": said, "says": head}, head
    return tell_conflict(asked)


def parsed(words: list[str]) -> tuple[str, list[str], list[str], bool, bool]:
    """What is asked for, the further words, the option, whether without the network, and whether as data."""
    asked, alone, as_data = "", "--only" in words, "--json" in words
    option, words = taken_out([it for it in words if it not in ("--only", "--json")], "--deadline")
    if option and not re.fullmatch("[0-9]{1,7}", "".join(option[1:])):
        raise Stopped(2, "N is a number from 0 to 1000000, in ticks")
    if words[:1] and words[0] in ASKED:
        asked, words = words[0][2:], words[1:]
    if asked == "step":
        asked, words = f"step {''.join(words[:1])}", words[1:]
    if alone and (asked or len(words) == 1 and not words[0].startswith("-")):
        raise Stopped(2, "--only goes with PROOF, ANSWER or SESSION.")
    is_form = 1 + alone <= len(words) <= (1 if asked else 2) and not (as_data and asked == "follow")
    if not is_form or any(it.startswith("-") and it != "-" for it in words):
        raise Stopped(2, __doc__.strip())
    return asked, words, option, alone, as_data


def text_of(words: list[str]) -> str | None:
    """The text of PROOF, or none where none is named."""
    if len(words) < 2:
        return None
    if words[1] != "-" and (session := as_session(words[1])) and not os.path.exists(words[1]):
        return session
    return read_text(words[1], "PROOF")


def told_of(asked: Asked, command: str) -> tuple[int, Data, list[str]]:
    """What is asked of the program over a document."""
    if command.startswith("step "):
        return tell_step(asked, command.removeprefix("step "))
    forms = {"tight": tell_tight, "tree": tell_tree, "conflict": tell_conflict, "float": tell_float,
             "longest": tell_longest}
    return forms[command](asked)


def tell(asked: Asked, command: str, text: str | None, alone: bool) -> tuple[int, Data, list[str]]:
    """The status, the data and the lines that are the answer over a document."""
    status, saved = asked.answer("save", asked.path, *asked.option)
    if status not in (0, 3):
        return status, {"answer": saved.strip()}, saved.rstrip("\n").split("\n") if saved else []
    reader = Reader(asked.source)
    if status:
        return tell_refusal(saved, status, reader)
    asked.saved, asked.net = saved, Network(saved)
    found = asked.said or reader
    asked.net.rows, asked.net.lines = found.rows, found.lines
    asked.net.says = asked.said.says if asked.said else []
    asked.net.is_canonical = asked.is_canonical()
    if asked.longest is not None:
        with contextlib.ExitStack() as files:
            longest, head = take_longest(asked, files, asked.longest)
            status, data, lines = told_of(asked, command or "longest")
        return status, {**data, **longest}, [*head, *lines]
    if command == "follow":
        return talk(asked, sys.stdin), {}, []
    if command:
        return told_of(asked, command)
    data, lines = tell_alone(reader) if alone else tell_document(asked, reader)
    data = {"answer": "document", **data}
    if text is None:
        return 0, data, lines
    status, proof, more = tell_proof(asked, text)
    return status, {**data, "proof": proof}, [*lines, *([""] if lines else []), *more]


def main(words: list[str]) -> int:
    Spoken.clock, words = clock_of(words)
    Spoken.words, Spoken.takes_words = {}, False
    longest, words = longest_of(words)
    command, words, option, alone, as_data = parsed(words)
    if longest is not None and (command == "follow" or len(words) > 1):
        raise Stopped(2, __doc__.strip())
    text = text_of(words)
    least = LEAST.match(text or "")
    if least and least[1] != "0":
        option = ["--deadline", str(int(least[1]) - 1)]
    with contextlib.ExitStack() as files:
        source, path = files.enter_context(read_once(words[0]))
        asked = Asked(path, option)
        asked.source, asked.longest = source, longest
        refused: Told | None = take_plan(asked, files) if is_plan(words[0]) else None
        status, data, lines = refused or tell(asked, command, text, alone)
    if as_data:
        print(harmless_data(json.dumps(data, ensure_ascii=sys.stdout.encoding.lower() != "utf-8", indent=1)))
    else:
        print("".join(f"{harmless(line)}\n" for line in lines), end="")
    sys.stdout.flush()
    return status


def run(words: list[str]) -> int:
    """Calls the command by its words, and answers the status with which it ends."""
    if isinstance(sys.stdout, io.TextIOWrapper):
        sys.stdout.reconfigure(errors="backslashreplace")
    try:
        return main(words)
    except Stopped as stopped:
        print(stopped, file=sys.stderr)
        return stopped.status
    except BrokenPipeError:
        os.dup2(os.open(os.devnull, os.O_WRONLY), 1)
        return 1
