"""What `follow` wrote, in words: its answers by the lines of the document, and what is left by the document that
`rest` wrote."""
import re

from .asking import MOST_TRIED, Asked, kept
from .conflicts import tell_giving_way
from .following import Heard, awaited, blamed, not_typed, rests, stuck, tell_followed
from .networks import Network, ticks
from .refutations import Refutation, accepted_no
from .shapes import Data
from .spoken import Spoken
from .tries import CHECKS_OF_A_LIMIT, MOST_LIMITS, Live, awaiting, blamed_without, giving_way
from .typed import all_in_lines

MOST_TOLD = 12
NO_REST = ("The steps after `{}` are of what was left then. Ask `rest` right after that `check`, before anything else "
           "is told, and give the session with what it writes; or keep that document, from `<?xml` on, in a file "
           "REST, these steps from `{}` on in a file STEPS, and call ./cstn explain REST STEPS.")
TOO_MUCH = ("By how much is not tried, since that is much in so large a plan or session: ask `./cstn explain "
            "--conflict` of what `rest` writes. Its ids are not those of this session: look limits up by their words.")
ANOTHER = ("This session is not of FILE with the deadline {}: it begins with `{}`, and `check` says {}. Its ids and "
           "moments are of the document that was followed: name that one, not what `rest` wrote, and the "
           "`--deadline N` that it had.")
NO_ANSWER = "There is no answer that is put into words, as that to `next`, `by` or `blame`, and no step of `check`."
SEVERAL = ("by", "check", "rest", "cases")
"""Questions that are answered in several lines."""
MAY_BE_REST = ("FILE may be what `rest` wrote. Then these are other constraints: ids of `blame` are of the document "
               "that was followed, so name that one.")


def tell_stuck(own: Network, steps: str, rest: str, done: set[str]) -> tuple[Data, list[str]]:
    """The steps of a `check` of `follow`, over what `rest` wrote behind it, as data and in words; or what is missing
    for that."""
    head = steps.split("\n")[0]
    with kept(rest) as path:
        asked = Asked(path, [])
        if rest:
            asked.net = Network(rest)
        if not rest or asked.replayed(steps):
            return {"answer": "none", "says": [NO_REST.format(head, head)]}, [NO_REST.format(head, head)]
        asked.net.awaited = awaited(asked.net, own, done)
        refutation = Refutation(asked.net, steps)
        data, lines = accepted_no(refutation, steps, asked.missing(refutation))
    if any(it["from"] == it["to"] and it["at_most"] < 0 for it in data["constraints"]):
        lines.append("What was done breaks a limit by itself: `blame` names it.")
    return data, [f"{head}: what is left cannot be carried out. These ids are of the document that `rest` wrote "
                  "behind it, and not of FILE.", *lines]


def tell_told_again(asked: Asked, heard: Heard, numbers: list[int]) -> tuple[Data, list[str]]:
    """How far each limit that is to blame would have to give way, and each wait be shorter, by a session that is told
    the same lines, as data and in words."""
    known, deadline = asked.net.constraints, heard.deadline if heard.deadline is not None else asked.net.deadline
    values = {it: heard.values.get(it, known[it][2] if it < len(known) else 0) for it in numbers
              if not heard.is_late(it)}
    with asked.live(asked.path, heard.journal, heard.now, len(values) + len(heard.awaited)) as live:
        said = live.is_met(f"now {heard.now}")
        if said is None:
            return {}, [TOO_MUCH]
        if said:
            return {}, []
        limits, lines, vain = giving_way(live, values, deadline, asked.later_for(values), heard.from_start(asked.net))
        others = blamed_without(live, vain, values[vain]) if vain is not None else []
        if others:
            lines += [f"Without {vain} these cannot be met together either:" if len(others) > 1 else
                      f"Without {vain} this cannot be met either:", *(blamed(asked.net, it, heard) for it in others)]
        waits, more = awaiting(live, heard)
    return {"limits": limits, "waits": waits}, lines + more


def tell_left(rest: str) -> tuple[Data, list[str]]:
    """How far the limits of what `rest` wrote behind a blame would have to give way, in its own ids, as data and in
    words."""
    with kept(rest) as path:
        asked = Asked(path, [])
        asked.saved, asked.net = rest, Network(rest)
        status, text = asked.answer_plain("conflict", cap=asked.cap(len(asked.net.constraints) + 2))
        refutation = Refutation(asked.net, text) if status == 1 and not asked.replayed(text) else None
        if not refutation:
            return {}, []
        refutation.in_words(None)
        limits, lines, _ = tell_giving_way(asked, refutation.uses(), [])
        missed = [f"A limit was missed by {ticks(-it['at_most'])}."
                  for it in refutation.uses() if it["from"] == it["to"] and it["at_most"] < 0]
    if lines:
        lines.insert(0, "By how much, in the ids and values of what `rest` wrote behind it; raise W of FILE's by the "
                        "difference:")
    return {"limits_left": limits}, missed + lines


def documents_by_line(text: str) -> dict[int, str]:
    """The documents that `rest` wrote, by the lines at which they begin."""
    found, line, at = {}, 0, 0
    for first, last in rests(text):
        line += text.count("\n", at, first)
        found[line], at = text[first:last], first
    return found


class HowFar:
    """By how much what is to blame was missed, of the last answers, as long as that is not much for all of them; each
    but the last leaves as much for that one."""

    def __init__(self, asked: Asked, text: str) -> None:
        self.asked, self.spent, self.documents = asked, 0, documents_by_line(text)
        self.early = len(re.findall(r"^blame \d", text, re.M)) - MOST_TOLD

    def tell(self, at: int, heard: Heard, numbers: list[int]) -> tuple[Data, list[str]]:
        """By the typed lines, or else by what `rest` wrote right behind the answer on this line, as data and words."""
        rest = None if heard.typed else self.documents.get(at + 1)
        if not numbers:
            return {}, []
        self.early -= 1
        if not heard.typed and not rest:
            return {}, []
        if self.early >= 0:
            return {}, [f"By how much is told of the last {MOST_TOLD} answers of `blame` alone."]
        checks = CHECKS_OF_A_LIMIT * min(len(numbers), MOST_LIMITS) + len(heard.journal)
        costs, is_last = checks * len(self.asked.net.constraints), self.early == -MOST_TOLD
        if self.spent + costs * (1 if is_last else 2) > MOST_TRIED:
            return {}, [TOO_MUCH]
        self.spent += costs
        return tell_left(rest) if rest else tell_told_again(self.asked, heard, numbers)


def answered(asked: Asked, text: str) -> str:
    """Typed lines alone with the answers that `follow` gives to them, where they ask for none with what is next and
    what is to blame; or nothing where they are not such lines. Those with answers of several lines are left out."""
    if not_typed(text) or text.startswith("> "):
        return ""
    lines = [line for line in text.split("\n") if line.strip() and line.removeprefix("try ") not in SEVERAL]
    lines += [] if any(re.match("(next|by|blame|until|late)", line) for line in lines) else ["next", "blame"]
    with Live([asked.program, "follow", asked.path, "--deadline", str(asked.net.deadline)], [], 0) as live:
        told = all_in_lines(asked.net, lines, Spoken.clock, live.say)
        end = live.end()
    turns = [*(f"> {line}\n{answer}\n" for line, answer in told), "done\n" if end == "done" else ""]
    return "".join([*(f"{line}\n" for line in live.begun), *turns]) if all(answer for _, answer in told) else ""


def tell_session(asked: Asked, text: str) -> tuple[int, Data, list[str]]:
    """What `follow` answered: its answers by the lines of the document, and the steps of each `check` over what was
    left then."""
    begun = re.match(r"follow \d+\n((?:yes|no) \d+)\n", text)
    verdict = asked.answer_at("check")[1].split("\n")[0] if begun else ""
    if begun and verdict != begun[1] and not verdict.startswith("full"):
        lines = [ANOTHER.format(asked.net.deadline, begun[1], verdict)]
        return 1, {"answer": "rejected", "says": lines}, lines
    status, data, lines = tell_followed(asked.net, text, HowFar(asked, text).tell)
    if not status:
        all_stuck = list(stuck(text))
        found = [tell_stuck(asked.net, *it) for it in all_stuck[-MOST_TOLD:]]
        data["steps"] = [it for it, _ in found]
        if len(all_stuck) > MOST_TOLD:
            lines.append(f"Of {len(all_stuck)} refutations the last {MOST_TOLD} are told.")
        lines = sum((more for _, more in found), lines) or [NO_ANSWER]
    if not begun and asked.is_canonical() and re.search(r"^blame \d", text, re.M):
        lines.append(MAY_BE_REST)
    return status, data, lines
