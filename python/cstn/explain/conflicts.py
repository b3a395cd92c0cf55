"""Beside a conflict set: how far its limits would have to give way, a second set, and one that is left without a
limit."""
from .asking import Asked, ids_of, kept, without
from .networks import Network, plain_copy
from .refutations import Refutation
from .shapes import Data
from .spoken import Spoken
from .tries import instead, least_values, untried


def tell_giving_way(asked: Asked, constraints: list[Data],
                    others: list[Data]) -> tuple[list[Data], list[str], tuple[int, str] | None]:
    """How far each limit of a conflict set, twelve at most, would have to give way alone, as data and in words,
    with another set mended.

    Behind them the first limit without which there is still a no, with the document that has this one and the other
    set mended, or none.
    """
    found, lines, vain, text = [], [], None, without(asked.saved, ids_of(others) - ids_of(constraints))
    values = {it["constraint"]: it["at_most"] for it in constraints
              if it["constraint"] is not None and (it["at_most"] > 0 or it["from"] != it["to"])}
    with kept(text) as copy, asked.live(copy, [], 0, sum(it != 0 for it in values.values())) as live:
        for it in least_values(live, values, asked.net.deadline, asked.later_for(values)):
            found.append(it.data())
            says = instead(it, asked.net.deadline, it.number in asked.net.from_start)
            lines.append(f"constraint {asked.net.called(it.number)}: {says}")
            if it.said is False and not vain and not it.is_later and it.value > 0:
                vain = it.number, without(text, {it.number})
    if lines:
        lines += untried(values)
        mended = ", and the other set is mended" if others else ""
        lines.insert(0, f"If one of these limits alone gives way{mended}, the nearest value with which the plan can "
                        "be carried out:")
    return found, lines, vain


UNTOLD = ["Whether there is another set is not told, since that takes too many bounds: mend this one, and ask again."]


def refuted_set(asked: Asked, text: str, deadline: int) -> tuple[Refutation | None, list[str]]:
    """What refutes the conflict set of a document with a deadline, and nothing; or none where there is no such set, or
    where `replay` does not take it of FILE, and perhaps that this is not known, in words."""
    net, own = Network(text), asked.net.deadline
    net.deadline = asked.net.deadline = deadline
    with kept(plain_copy(net)) as copy:
        status, said = asked.answer("conflict", copy, *asked.cap(len(net.constraints) + 2))
    refutation = Refutation(asked.net, said) if status == 1 and not asked.replayed(said) else None
    asked.net.deadline = own
    if refutation:
        refutation.in_words(None)
    return refutation, UNTOLD if status > 1 else []


def tell_second_set(asked: Asked, first: list[Data], none_up_to: int | None) -> tuple[Data | None, list[str]]:
    """A second conflict set, as data and in words, without its limits: the one with a deadline that mends none, or one
    that shares no constraint with the first; or none."""
    less = "; with any one of them less the others can be met:"
    head = f"A second set, which shares no constraint with the first, cannot be met together either{less}"
    tries: list[tuple[str, int | None, str]] = [(without(asked.saved, ids_of(first)), None, head)]
    if none_up_to:
        head = f"A second set, for which no deadline up to {Spoken.moment(none_up_to)} would do{less}"
        tries.insert(0, (asked.saved, none_up_to, head))
    for text, deadline, head in tries:
        refutation, untold = refuted_set(asked, text, deadline or asked.net.deadline)
        if refutation and refutation.uses() != first:
            data = {"constraints": refutation.uses(), "reactions": refutation.reactions(), "none_up_to": deadline}
            return data, [head, *refutation.uses_in_words()]
    return None, untold


def tell_set_without(asked: Asked, limit: int, text: str) -> tuple[Data | None, list[str]]:
    """The conflict set of a document without a limit, as data and in words, or none."""
    refutation, untold = refuted_set(asked, text, asked.net.deadline)
    if not refutation:
        return None, untold
    head = (f"Another set, without constraint {asked.net.called(limit)}, cannot be met together either; with any one "
            "of them less the others can be met:")
    data = {"without": limit, "constraints": refutation.uses(), "reactions": refutation.reactions()}
    return data, [head, *refutation.uses_in_words()]


def tell_sets(asked: Asked, data: Data, lines: list[str]) -> None:
    """Adds to a conflict set how far its limits would have to give way, a second set, and one that is left without a
    limit, before the steps of the first."""
    first = data["constraints"]
    second, more = tell_second_set(asked, first, data.get("none_up_to"))
    data["limits"], limits, vain = tell_giving_way(asked, first, second["constraints"] if second else [])
    if second:
        second["limits"], giving, other = tell_giving_way(asked, second["constraints"], first)
        more, vain = more + giving, vain or other
    data["second_set"] = second
    data["set_without"], third = tell_set_without(asked, *vain) if vain else (None, [])
    at = next(at for at, line in enumerate(lines) if line.startswith("There may be other such sets"))
    if second:
        lines[at] = lines[at].replace("refute this one", "refute the first")
    if second and second["none_up_to"]:
        lines[0] = (f"No deadline up to {Spoken.moment(second['none_up_to'])} would do: a later one may mend the first "
                    "set below, and not the second.")
    lines[at:at] = [*limits, *more, *third]
