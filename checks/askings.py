"""Further questions to a plan that is carried out, which checks/asking holds: worked sessions, and states that are drawn.

The sessions stand in askings.txt. Each answer of theirs that is about moments is the decider's too; the program, where it has all
lines, says each to the byte. Lines that it lacks it refuses by their number.
"""
import hashlib
import os
import random
import re

from asking import Asking, session, some_table, whole_tree
from continuations import Constraint, History, Plan, drawn_plan, least_table
from runs import TOP, case, check, compact, run
from tables import Tables

TABLE = os.path.join(TOP, "checks", "askings.txt")
PROBED = {"verdict": "verdict", "until": "until", "late": "late p", "raise": "raise 0", "least": "least", "by": "by", "try": "try now 0", "mark": "mark",
          "back": "back", "cap": "cap 65536", "expect": "expect 0 X", "forgive": "forgive", "step": "step Y", "cases": "cases", "digest": "digest"}
OLDER = ("did", "saw", "now", "await", "add", "remove", "change", "deadline")
CHANGES = ("mark", "back", "cap", "expect", "forgive", "step")
ANSWERED = {"until": "until", "late": "late", "raise": "raise", "least": "least", "by": "by", "mark": "mark", "back": "back", "forgive": "forgiven",
            "step": "step"}
SMALL = compact(["Z", "P:p", "X"], ["X->Z -2"], '<data key="Deadline">9</data>')
PLANS = 400


def lines_had(folder):
    """The further lines that the program has."""
    path = folder.put("small", SMALL)
    return [verb for verb, line in PROBED.items() if b"\nrefused line 1\n" not in run(["follow", path], line + "\n")[1]]


def read_table():
    """The sessions, each with its name, its source, the opening, its turns and its end; and the trees, with their words and status."""
    sessions, trees = [], []
    with open(TABLE, encoding="utf-8") as file:
        for block in file.read().strip("\n").split("\n\n"):
            head, *rows = block.split("\n")
            kind, name = head.split(": ", 1)
            if kind == "tree":
                words, status = name.rsplit(", status ", 1)
                trees.append((words.split(" "), int(status), rows))
            else:
                source, *said = rows
                opening, *turns = "\n".join(said).split("\n> ")
                *turns, last = [turn.split("\n") for turn in turns]
                end, status = last[-1].rsplit(", status ", 1)
                turns = [(line, answer) for line, *answer in [*turns, last[:-2]]]
                sessions.append((name, source, opening.split("\n"), turns, (end, int(status))))
    return sessions, trees


def plan_of(path, deadline):
    """The plan of a document, with a deadline of its own, or with the document's."""
    read = Tables(path)
    with open(path, encoding="utf-8") as file:
        own = re.search(r'<data key="Deadline">(\d+)<', file.read())
    constraints = {number: Constraint(*it) for number, it in enumerate(read.constraints)}
    return Plan(int(deadline or own[1]), read.labels, read.observers, read.reactions, constraints)


def source_of(folder, source):
    """The words that name a document, and its plan."""
    kind, rest = source.split(": ", 1)
    if kind == "file":
        name, *more = rest.split(" ")
        path = os.path.join(TOP, "examples", name)
        return [path, *more], plan_of(path, more[1] if more else None)
    nodes, *edges, deadline = rest.split("; ")
    path = folder.put("small", compact(nodes.split(" "), edges, f'<data key="Deadline">{deadline}</data>'))
    return [path], plan_of(path, None)


def shown(line, answer):
    """What of an answer is about moments: of a verdict its word, of a refutation the verdict."""
    said = answer[:1] if line in ("check", "now") else answer
    return [it.split(" ")[0] if re.fullmatch(r"(?:yes|no|full) \d+", it) else it for it in said]


def is_about_moments(answer):
    return not answer[0].startswith("full ")


def worked_by_tables(folder):
    """Each answer of the worked sessions and trees that is about moments, by the decider."""
    sessions, trees = read_table()
    for name, source, opening, turns, end in sessions:
        asking = Asking(source_of(folder, source)[1])
        found, wanted = [[asking.verdict()]], [shown("now", opening[1:])]
        for line, answer in turns:
            told = asking.told(line)
            if is_about_moments(answer):
                found.append([line, *told])
                wanted.append([line, *shown(line, answer)])
        check(f"{name}, by tables", [*found, asking.end()], [*wanted, end])
    for (name, *more), _, rows in trees:
        found = whole_tree(plan_of(os.path.join(TOP, "examples", name), more[1] if more[:1] == ["--deadline"] else None))
        if is_about_moments(rows):
            check(f"the tree of {name} {more}, by tables", ["yes", *found] if found else ["no"], shown("", rows) if found else shown("check", rows))


def as_program(had, turns):
    """The turns of a session that a program with these lines can go through, and what it answers to those that it lacks."""
    for count, (line, answer) in enumerate(turns, 1):
        verb, tried = line.split(" ")[0], line.removeprefix("try ").split(" ")[0]
        lacks = {it for it in (verb, tried) if it in PROBED and it not in had and (it != "by" or line == "by")}
        if verb in lacks and verb in CHANGES:
            return
        yield line, [f"refused line {count}"] if lacks else answer


def worked_by_program(folder):
    """The worked sessions, and the trees, as the program says them."""
    had, (sessions, trees) = lines_had(folder), read_table()
    for name, source, opening, turns, (end, status) in sessions:
        words, said = source_of(folder, source)[0], list(as_program(had, turns))
        live = "".join(f"{line}\n" for line, _ in said)
        wanted = "".join(f"{it}\n" for it in [*opening, *(row for _, answer in said for row in answer)])
        if len(said) == len(turns):
            case(name, ["follow", *words], status, f"{wanted}{end}\n", live)
        else:
            check(f"{name}, up to line {len(said)}", run(["follow", *words], live)[1].decode().rpartition("\n")[0].rpartition("\n")[0] + "\n", wanted)
    for (name, *more), status, rows in trees if has_cases() else []:
        case(f"the tree of {name} {more}", ["cases", os.path.join(TOP, "examples", name), *more], status, "".join(f"{row}\n" for row in rows))


def digests(folder):
    """A plan is told by the SHA-256 of what `save` writes, before an edit and after it, and whatever has happened."""
    if "digest" not in lines_had(folder):
        return
    for name, source, _, _, _ in read_table()[0]:
        words, _ = source_of(folder, source)
        wanted = hashlib.sha256(run(["save", *words])[1]).hexdigest()
        said = run(["follow", *words], "digest\nnow 1\ndeadline 999\ndeadline 1000\ndigest\n")[1].decode().split("\n")
        after = hashlib.sha256(run(["save", words[0], "--deadline", "1000"])[1]).hexdigest()
        check(f"{name}, its digests", [line for line in said if line.startswith("digest ")], [f"digest {wanted}", f"digest {after}"])


def has_cases():
    """Whether the program has the command `cases`."""
    return run(["cases", os.path.join(TOP, "examples", "stroke.graphml")])[1] != b"words\n"


def small_plan(draw):
    """A plan of which all tables can be written down, and a history of it."""
    while True:
        plan = drawn_plan(draw)
        plan.deadline = draw.randint(1, 4)
        if sum(name != "Z" for name in plan.labels) * len(plan.observers) <= 8:
            asking = Asking(plan)
            for _ in range(draw.randint(0, 4)):
                asking.told(drawn_fact(draw, asking))
            return asking.plan, asking.history


def drawn_fact(draw, asking):
    """A fact near now, of whomever."""
    name, letter = draw.choice(sorted(asking.plan.labels)), draw.choice(sorted(asking.plan.observers))
    at = asking.history.now + draw.choice((-1, 0, 0, 0, 1, 1, 2))
    return draw.choice((f"did {at} {name}", f"did {at} {name}", f"saw {at} {letter} {draw.choice(('true', 'false'))}", f"now {at}", f"await {at + 1} {letter}",
                        f"expect {at + 1} {name}"))


def all_tables(_):
    """That the least moments tell whether some table continues a history, of plans of which all tables are tried."""
    came = set()
    for number in range(PLANS):
        plan, history = small_plan(random.Random(f"tables {number}"))
        by_moments = least_table(plan, history) is not None
        came.add(by_moments)
        check(f"some table of small plan {number}", by_moments, some_table(plan, history))
    check("answers over all tables", came, {True, False})


def answers_of(lines, wrote):
    """The answers to lines, of `by` and `cases` with all of their lines."""
    left = wrote.split("\n")[:-1]
    for line in lines:
        many = line in ("by", "cases", "try by", "try cases") and left and left[0].startswith(("by ", "yes ", "end"))
        size = left.index("end") + 1 if many and "end" in left else 1
        yield left[:size]
        left = left[size:]
    yield left


def drawn_session(folder, had, number):
    """Compares the answers of a drawn session. How many states it came to, and what came."""
    document, turns, (last, status), states = session(random.Random(f"asking {number}"), [*OLDER, *had])
    lines = [line for line, _ in turns]
    ended, wrote = run(["follow", folder.put("drawn", document)], "".join(f"{line}\n" for line in lines))
    opening, first, *answers, end = answers_of(["follow", "now", *lines], wrote.decode())
    wrong = [(line, found, wanted) for (line, wanted), found in zip(turns, answers) if shown(line, found) != shown(line, wanted)
             and not (wanted == ["least none"] and found[0].startswith("full "))]
    check(f"drawn session {number}", (opening, len(first), wrong, ended, end), (["follow 1"], 1, [], status, [last]))
    return states, [found[0] for found in answers if found]


def drawn(states):
    """A table of so many drawn states."""
    def drawn_states(folder):
        had, number, left, came = lines_had(folder), 0, states, set()
        lacking = [verb for verb in PROBED if verb not in had] + ([] if has_cases() else ["the command cases"])
        if lacking:
            print(f"asking: the program has no {', '.join(lacking)}: passed over")
        while left > 0:
            count, said = drawn_session(folder, had, number)
            came |= {it.split(" ")[0] for it in said}
            left, number = left - count, number + 1
        check("answers of each kind to what is drawn", sorted({"yes", "no", "refused", *(ANSWERED.get(verb, "yes") for verb in had)} - came), [])
        print(f"asking: {states - left} drawn states in {number} sessions")

    return drawn_states
