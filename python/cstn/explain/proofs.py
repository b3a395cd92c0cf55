"""What a no or a tree says of a document, where `replay` or `treecheck` accepts it; else where it breaks."""
import re

from .asking import Asked, ids_of, kept, without
from .following import is_typed, not_typed
from .names import cut
from .refutations import Refutation, accepted_no, rejected_no
from .shapes import Data
from .spoken import Spoken
from .trees import tree_in_words, tree_of, what_breaks

TYPED_FIRST = ("PROOF begins with a line that is typed. What is put into words is what `follow` wrote, from its line "
               "`follow 1` on: leave out what stands above that. Lines that are typed alone are told again, if "
               "`follow` takes each of them.")
RETURNS = "PROOF has lines that end with CR and LF, and in each text that the program writes they end with LF alone."


def is_mended(asked: Asked, constraints: list[Data], deadline: int) -> bool:
    """Whether a later deadline mends a no that stands on these constraints alone."""
    others = set(range(len(asked.net.constraints))) - ids_of(constraints)
    with kept(without(asked.saved, others)) as copy:
        return asked.answer("check", copy, "--deadline", str(deadline), *asked.cap(1))[0] == 0


def why_none(text: str) -> str:
    """Why a text has no refutation, in words."""
    if "\r\n" in text:
        return RETURNS
    if re.match(r"yes \d", text):
        return "PROOF is a yes: there is no no to explain."
    if not is_typed(text):
        return "PROOF has no refutation: no line `no LOAD` with steps after it."
    other = not_typed(text)
    return TYPED_FIRST + (f" Line {other[0]} is none of these: {cut(other[1])}" if other else "")


def tell_refutation(asked: Asked, text: str, of_tight: bool) -> tuple[int, Data, list[str]]:
    """The steps of a refutation, and what they use in all, by the ids of the document; or why they are none."""
    refutation = Refutation(asked.net, text)
    if not refutation.steps:
        lines = [why_none(text)]
        return 1, {"answer": "none", "says": lines}, lines
    replay = asked.replayed(text)
    if replay:
        return 1, *rejected_no(refutation, replay)
    data, lines = accepted_no(refutation, text, ({}, []) if of_tight else asked.missing(refutation))
    if data.get("none_up_to") and is_mended(asked, data["constraints"], data["none_up_to"]):
        most = Spoken.moment(data["none_up_to"])
        lines[0] = (f"No deadline up to {most} would do, and yet one would mend what these steps use: "
                    "there is a second cause, which `./cstn explain --conflict FILE` names.")
    return 0, data, lines


def tell_judged_tree(asked: Asked, text: str) -> tuple[int, Data, list[str]]:
    """A tree in words, where `treecheck` accepts it of the document, or `cases` writes the same; else what `treecheck`
    says, and the line."""
    if asked.net.labels and asked.answer_at("cases")[1] == text:
        tree = tree_of(asked.net, text.split("\n")[1:-1])
        return 0, {"answer": "cases", "deadline": asked.net.deadline, "tree": tree}, tree_in_words(tree)
    with kept(text) as proof:
        said = asked.answer_plain("treecheck", proof)[1].strip()
    if said == "accepted":
        tree = tree_of(asked.net, text.split("\n")[1:-1])
        return 0, {"answer": "tree", "deadline": asked.net.deadline, "tree": tree}, tree_in_words(tree)
    if said.startswith("script"):
        lines = [f"PROOF is no tree of FILE: `treecheck` says {said}, the first line that is not of its form, is "
                 "missing, or has a name that FILE lacks."]
    else:
        lines = [f"This is no plan of FILE with the deadline {asked.net.deadline}: `treecheck` says {said}. Say the "
                 "`--deadline N` of the check, if it had one."]
    number, rows = int((re.findall(r"\d+", said) or ["0"])[0]), text.split("\n")
    if 0 < number <= len(rows):
        lines.append(f"line {number} of PROOF: {rows[number - 1] or '(nothing)'}")
    if said.startswith("rejected"):
        lines += what_breaks(asked.net, rows, number)
    return 1, {"answer": "rejected", "treecheck": said, "says": lines}, lines
