"""What is made to take long, which checks/hostile calls: each is to be answered in ten seconds of the processor.

A check that looked at each pair of repeated bounds with each bound, or at all constraints for each step, would take
minutes.
"""
import resource

from dear import dear
from forged import LETTERS, apart_bounds, bounds_of_one, crowded_tree, repeated_bounds, scattered_steps
from runs import BAD, GOOD, case, check, compact

OBSERVERS = [f"P{letter}:{letter}" for letter in LETTERS]


def spent():
    """The seconds of the processor that all processes took which have ended."""
    used = resource.getrusage(resource.RUSAGE_CHILDREN)
    return used.ru_utime + used.ru_stime


def timed(name, words, status, wrote):
    begun = spent()
    case(name, words, status, wrote)
    check(f"{name}, in ten seconds", spent() - begun < 10, True)


def costs(folder):
    for table in (dear_bounds, dear_steps, dear_trees, dear_documents):
        table(folder)


def dear_bounds(folder):
    free = folder.put("free", compact(["Z", *OBSERVERS, "X"], []))
    repeated = repeated_bounds(20000)
    for name, text, status, wrote in (
        ("60,000 repeated bounds", repeated, GOOD, "accepted"),
        ("60,000 repeated bounds, a wait missing", repeated[:-4] + "0 -\n", BAD, "rejected wait 52 20052"),
        ("60,000 bounds of one time-point, the greatest last", bounds_of_one(range(60000)), GOOD, "accepted"),
        ("60,000 bounds of one time-point, the greatest first", bounds_of_one(range(59999, -1, -1)), GOOD, "accepted"),
        ("2,000 bounds of which none dominates another", apart_bounds(650), GOOD, "accepted"),
    ):
        timed(name, ["closedcheck", free, folder.put("p", text), "--deadline", "1000000"], status, wrote + "\n")


def dear_steps(folder):
    many, steps = folder.put("many", compact(["Z", "X"], ["X->Z -5"] * 16384)), scattered_steps(100000)
    for name, text, status, wrote in (
        ("100,001 steps over 16,384 constraints", steps, GOOD, "accepted"),
        ("100,001 steps, the last forged", steps[:-4] + "4 -\n", BAD, "rejected 100000"),
    ):
        timed(name, ["replay", many, folder.put("p", text), "--deadline", "4"], status, wrote + "\n")


def dear_trees(folder):
    crowded, tree = folder.put("crowded", compact(["Z", *OBSERVERS, "X"], ["Z->X 9"] * 16384)), crowded_tree(12)
    for name, text, status, wrote in (
        ("4,096 branches with 16,384 constraints each", tree, GOOD, "accepted"),
        ("4,096 branches, the last forged", tree[: tree.rindex("at")] + "at 10 X\ndone\n", BAD, "rejected 12288"),
    ):
        timed(name, ["treecheck", crowded, folder.put("p", text), "--deadline", "10"], status, wrote + "\n")


def dear_documents(folder):
    timed("a document of 3 kB with 6,950 bounds", ["check", folder.put("f", dear(5, 3))], GOOD, "yes 6950\n")
    late = "0 base W 0 -\n" + "".join(f"{k} chain 48 {k - 1} W {k} -\n" for k in range(1, 62))
    timed("the one to blame of a document of 3 kB", ["conflict", folder.put("f", dear(3, 3, unmet=True))], BAD,
          f"conflict 48\nno 89\n{late}")
    alike = folder.put("alike", compact(["Z", "X"], ["X->Z -5"] * 2000))
    timed("the one to blame of 2,000 constraints of which each is enough", ["conflict", alike, "--deadline", "4"], BAD,
          "conflict 1999\nno 3\n0 base Z 0 -\n1 chain 1999 0 X 5 -\n")
