"""A plan by its steps: what each waits for, what waits for it, when it comes, and how long it can wait."""
from .asking import Asked
from .cases import Case, ask_latest, cases_of, latest_of_all
from .names import printed, shown
from .networks import Network, constraint, counts_where, literals, ticks, where
from .shapes import Data
from .spoken import Spoken
from .stopped import Stopped
from .trees import MOST_IN_WORDS, size

MOST_GROUPS = 12
NO_MOMENTS = "When it comes is not told, since {}."
TOO_MUCH = "How long {} can wait in each case is not told, since {}."
MUCH = "that is too much to ask"
OVER_ALL = "Before anything has happened, {} can wait until {}, whatever is observed."
FLOAT = "How long each step can wait, if all before it comes as planned, and what comes after makes up for it:"
OF_ALL = "Until when each can wait before anything has happened, whatever is observed:"


def told_cases(asked: Asked) -> tuple[list[Case], str, bool]:
    """The cases with how long each step can wait in each, or why they are not told; and whether it was told how long
    each can wait."""
    if size(asked.net) > MOST_IN_WORDS:
        return [], f"the plan has up to {1 << len(asked.net.observers)} cases", False
    tree = asked.tree()
    if tree is None:
        return [], "there is no plan: it is a no, or too much to check", False
    cases = cases_of(asked.net, tree)
    return cases, "", ask_latest(asked, cases)


def instead_of_cases(asked: Asked, name: str, why: str) -> list[str]:
    """Until when a step can wait over all cases, where it is not told of each, in words."""
    latest = latest_of_all(asked).get(name)
    return [TOO_MUCH.format("it", why)] + ([OVER_ALL.format("it", Spoken.moment(latest))] if latest is not None else [])


def moments_of(cases: list[Case], name: str) -> list[Data]:
    """When a step comes and until when it can wait, each with the cases that have it so, in the order of moments."""
    found: dict[tuple[int, int | None], list[Case]] = {}
    for case in cases:
        if name in case.moments:
            found.setdefault((case.moments[name], case.latest.get(name)), []).append(case)
    return [{"at": at, "until": until, "cases": [case.label for case in each]}
            for (at, until), each in sorted(found.items(), key=lambda it: (it[0][0], it[0][1] or 0))]


def first_moments(net: Network, cases: list[Case]) -> dict[str, int]:
    """The least moment of each step in some cases, and 0 where it is in none."""
    return {name: min((it.moments[name] for it in cases if name in it.moments), default=0) for name in net.names}


def when(groups: list[Data]) -> list[str]:
    """When a step comes, in words."""
    lines = []
    for it in groups[:MOST_GROUPS]:
        says = f"at {Spoken.moment(it['at'])}"
        if it["until"] is not None:
            left = it["until"] - it["at"]
            until = Spoken.moment(it["until"])
            says += f", and it can wait until {until}, {ticks(left)} more" if left else ", and it cannot wait"
        if len(groups) > 1:
            count = len(it["cases"])
            says += f" ({count} cases, for example{where(it['cases'][0])[1:]})" if count > 1 else \
                f" ({where(it['cases'][0])[2:]})"
        lines.append(says)
    more = len(groups) - MOST_GROUPS
    return [*lines, f"and {more} more"] if more > 0 else lines


def soonest(groups: list[Data]) -> list[str]:
    """In words the least moment by which a step can be had in every case, where it comes at several. No plan has a step
    earlier in a case than this one."""
    moments = sorted({it["at"] for it in groups})
    if len(moments) < 2:
        return []
    return [f"Wherever it is executed, it can be had by {Spoken.moment(moments[-1])}, and by no earlier moment."]


def tied(net: Network, numbers: list[int]) -> list[str]:
    """Some constraints in words."""
    return [f"{net.called(it)}: {constraint(*net.constraints[it])}{counts_where(net, it)}" for it in numbers]


def waits_of(net: Network, name: str) -> list[str]:
    """The outcomes that the label of a step asks for."""
    found = [(letter, net.observers[letter], value) for letter, value in literals(net.labels.get(name, "")).items()]
    return [f"its label: {Spoken.letter(letter)} is to be {str(value).lower()}, and is known "
            f"{ticks(net.reaction(observer))} after {shown(observer)}" for letter, observer, value in found]


def waiting_for(net: Network, name: str) -> list[str]:
    """The steps whose labels ask for what a step observes."""
    letter = net.observed.get(name)
    names = [shown(other) for other in net.names if letter and letter in net.executed[other]]
    if len(names) < 2:
        return [f"the label of {it}, which asks for {Spoken.letter(letter or '')}" for it in names]
    return [f"the labels of {', '.join(names)}, which ask for {Spoken.letter(letter or '')}"]


def tell_step(asked: Asked, called: str) -> tuple[int, Data, list[str]]:
    """What a step waits for, what waits for it, what limits it, when it comes, and how long it can wait."""
    net, name = asked.net, called if called in asked.net.places else printed(called)
    if name not in net.places:
        raise Stopped(1, f"FILE has no time-point {shown(name)}")
    sides: dict[str, list[int]] = {"waits": [], "waited_for": [], "limits": []}
    for number in net.ties[name]:
        source, target, most, _ = net.constraints[number]
        side = "limits" if most > 0 or source == target else "waits" if source == name else "waited_for"
        sides[side].append(number)
    cases, why, has_latest = told_cases(asked)
    groups, label = moments_of(cases, name), net.labels.get(name, "")
    letter = net.observed.get(name)
    told = f" It tells {Spoken.letter(letter)}, which is known {ticks(net.reaction(name))} later." if letter else ""
    lines = [f"{net.told_at(name, 'id')} is executed {'only' + where(label)[1:] if label else 'in every case'}.{told}",
             *(f"It comes {it}." for it in when(groups)), *soonest(groups)]
    lines += [NO_MOMENTS.format(why)] if why else []
    if name != "Z" and not has_latest:
        more = instead_of_cases(asked, name, MUCH)
        lines += more[1:] if why else more
    for head, words in (("It waits for:", tied(net, sides["waits"]) + waits_of(net, name)),
                        ("What waits for it:", tied(net, sides["waited_for"]) + waiting_for(net, name)),
                        ("What is to come some ticks after at most:", tied(net, sides["limits"]))):
        lines += [head, *(f"  {it}" for it in words or ["nothing"])]
    return 0, {"answer": "step", "name": name, "moments": groups if cases else None, **sides}, lines


def tell_float(asked: Asked) -> tuple[int, Data, list[str]]:
    """When each step comes, and how long it can wait where all before it came as planned. Where that is not told of
    each case, until when each can wait over all of them."""
    net, (cases, why, has_latest) = asked.net, told_cases(asked)
    over_all = {} if has_latest else latest_of_all(asked)
    if not cases and not over_all:
        return 1, {"answer": "float", "steps": None}, [f"How long each step can wait is not told, since {why}."]
    lines = [FLOAT] if has_latest else [TOO_MUCH.format("each step", why or MUCH), *([OF_ALL] if over_all else [])]
    steps = []
    for name in net.in_order(first_moments(net, cases)):
        groups = moments_of(cases, name)
        if name == "Z" or not groups and name not in over_all:
            continue
        until = [f"until {Spoken.moment(over_all[name])}"] if name in over_all else []
        lines.append(f"{shown(name)}: {'; '.join([*([spread(groups)] if groups else []), *until])}")
        steps.append({"name": name, "moments": groups, "until": over_all.get(name)})
    return 0, {"answer": "float", "steps": steps}, lines


def spread(groups: list[Data]) -> str:
    """The moments of a step and how long it can wait, from the least to the most."""
    moments = sorted({it["at"] for it in groups})
    lefts = sorted({it["until"] - it["at"] for it in groups if it["until"] is not None})
    says = f"at {Spoken.moment(moments[0])}" + (f" to {Spoken.moment(moments[-1])}" if len(moments) > 1 else "")
    if not lefts:
        return says
    tightest = min((it for it in groups if it["until"] is not None), key=lambda it: int(it["until"] - it["at"]))
    left = f"{ticks(lefts[0])}, until {Spoken.moment(tightest['until'])}"
    if len(lefts) == 1:
        return f"{says}; {left}" if len(groups) == 1 else f"{says}; {ticks(lefts[0])} in each case"
    return f"{says}; {left}{where(tightest['cases'][0])}; up to {ticks(lefts[-1])} in others"
