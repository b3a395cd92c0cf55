"""How far a session has come: what was done and told, what is blamed after a no, and the cases of what is left."""
import re
from dataclasses import dataclass, field

from ..explain.asking import Asked, kept
from ..explain.cases import Case, ask_latest, cases_of
from ..explain.following import Heard
from ..explain.names import printed
from ..explain.networks import Network
from ..explain.spoken import Clock
from ..explain.stopped import Stopped
from ..explain.trees import MOST_IN_WORDS, size
from ..explain.tries import Live
from ..explain.typed import all_in_lines, has_moments
from .chains import Link, chain_of

# After a no so many sets of limits are let go, one after another, to tell what is left without them.
MOST_SETS = 12
LINE = re.compile(r"(?:> )?((?:did|saw|now|await|expect|add|remove|change|deadline|step|cap) .*|forgive|mark|back)")


@dataclass
class Session:
    """A session as it stands now. After a no, `blamed` and `let_go` are the constraints without which the cases are
    what is left; without any case it is known of none."""

    heard: Heard
    verdict: str
    next: str
    told: dict[str, int] = field(default_factory=dict)
    blamed: list[int] = field(default_factory=list)
    let_go: list[int] = field(default_factory=list)
    left: Network | None = None
    cases: list[Case] = field(default_factory=list)
    chains: list[list[Link]] = field(default_factory=list)


def lines_of(text: str) -> list[str]:
    """The typed lines of a session that tell or change something, with or without the answers between them."""
    rows = text.removesuffix("\n").split("\n")
    is_answered = any(row.startswith("> ") for row in rows)
    found = (LINE.fullmatch(row) for row in rows if row.startswith("> ") or not is_answered)
    return [it[1] for it in found if it]


def read_session(asked: Asked, text: str, clock: Clock) -> Session:
    """Tells the program the lines of a session again, and asks what is left. Refused lines tell nothing. After a no,
    what is left is asked for without the limits that are to blame, one set after another."""
    lines = told_lines(asked, lines_of(text), clock)
    if not lines:
        raise Stopped(2, "SESSION has no line that tells `follow` something, as `did 5 Sample`")
    session = tell_again(asked, lines)
    found = session
    for _ in range(MOST_SETS):
        if not found.blamed:
            break
        lines += [f"remove {it}" for it in found.blamed]
        found = tell_again(asked, lines)
        session.let_go += found.blamed
    session.left, session.cases, session.chains = found.left, found.cases, found.chains
    if not session.cases:
        done = session.heard.done
        session.cases, session.chains = [Case(session.heard.known, {"Z": 0, **done}, session.told)], [[]]
    return session


def told_lines(asked: Asked, lines: list[str], clock: Clock) -> list[str]:
    """The lines as `follow` takes them; it is asked only where that hangs on its answers."""
    if not has_moments(lines):
        return [line for line, _ in all_in_lines(asked.net, lines, clock, lambda _: "")]
    with Live([asked.program, "follow", asked.path, "--deadline", str(asked.net.deadline)], [], 0) as live:
        return [line for line, _ in all_in_lines(asked.net, lines, clock, live.say)]


def tell_again(asked: Asked, lines: list[str]) -> Session:
    """A session that is told some lines, with what the program says behind them."""
    live = "".join(f"{line}\n" for line in [*lines, "next", "blame", "rest"])
    status, said = asked.answer_at("follow", live=live)
    answers = said.split("\n")
    if not said.startswith("follow ") or len(answers) < len(lines) + 4:
        raise Stopped(status or 1, f"the session cannot be told again: {answers[0]}")
    heard, told, verdict = Heard(), dict[str, int](), answers[1]
    marked: list[dict[str, int]] = []
    for line, answer in zip(lines, answers[2:]):
        heard.take(line, answer)
        saw = re.fullmatch(r"saw (\d+) (.) (?:true|false)", line)
        if saw and not answer.startswith("refused"):
            told[saw[2]] = int(saw[1])
        if answer.startswith("mark "):
            marked.append(dict(told))
        elif answer.startswith("back "):
            told = marked.pop()
        verdict = answer if re.match(r"(yes|no|full) \d", answer) else verdict
    behind = answers[2 + len(lines) :]
    session = Session(heard, verdict_after(behind, verdict), behind[0], told)
    names = re.fullmatch(r"blame((?: \d+)*)", behind[1])
    if names:
        session.blamed = [int(it) for it in names[1].split()]
    else:
        read_left(asked, session, said[said.find("<?xml ") : said.rfind("</graphml>\n") + len("</graphml>\n")])
    return session


def verdict_after(behind: list[str], verdict: str) -> str:
    """The verdict on what is left, after edits too, by what `next` and `blame` answer."""
    if re.match(r"(yes|no|full) \d", behind[1]):
        return behind[1]
    return "no" if behind[1].startswith("blame") else verdict


def read_left(asked: Asked, session: Session, rest: str) -> None:
    """The cases of what is left, each with what was done before it."""
    with kept(rest) as path:
        left = Asked(path, [])
        left.saved, left.net = rest, Network(rest)
        session.left = left.net
        if size(left.net) > MOST_IN_WORDS:
            return
        cases = cases_of(left.net, left.tree() or [])
        ask_latest(left, cases)
    done = session.heard.done
    session.chains = [[link for link in chain_of(left.net, case) if link.name not in done] for case in cases]
    session.cases = [joined(session, case) for case in cases]


def joined(session: Session, case: Case) -> Case:
    """A case of what is left, together with what was done and told."""
    done, known = session.heard.done, session.heard.known
    latest = {name: moment for name, moment in case.latest.items() if name not in done}
    return Case({**known, **case.outcomes}, {**case.moments, **done}, {**session.told, **case.known}, latest)


def next_in_words(session: Session) -> tuple[int | None, list[str], str]:
    """The next moment, the steps that are to be executed at it, and the letters that are awaited then."""
    found = re.fullmatch(r"next (\d+)(?: do ([^ ]+(?: [^ ]+)*?))?(?: wait ([A-Za-z]+))?", session.next)
    if not found:
        return None, [], ""
    return int(found[1]), [printed(it) for it in (found[2] or "").split(" ") if it], found[3] or ""
