"""The networks that bench/run times, each as a canonical document."""
import itertools
import random

from forged import LETTERS

FACTOR = 6364136223846793005
STEP = 1442695040888963407


class Draws:
    """The drawn numbers of a generated network."""

    def __init__(self, number):
        self.state = number

    def below(self, m):
        self.state = (FACTOR * self.state + STEP) % 2**64
        return (self.state >> 33) % m


def document(deadline, names, observes, constraints):
    """The document of time-points, of what each observes by its number, and of constraints."""
    text = ['<?xml version="1.0" encoding="UTF-8"?>', "<graphml>", '<graph edgedefault="directed">',
            f'<data key="Deadline">{deadline}</data>']
    for x, name in enumerate(names):
        seen = f'<data key="Obs">{observes[x]}</data>' if x in observes else ""
        text.append(f'<node id="{name}">{seen}</node>' if seen else f'<node id="{name}"/>')
    for source, target, most, label in constraints:
        literals = "".join(("¬" if sign else "") + letter for letter, sign in sorted(label.items())) or "⊡"
        text.append(f'<edge source="{names[source]}" target="{names[target]}"><data key="Type">requirement</data>'
                    f'<data key="LabeledValues">{{({most}, {literals})}}</data></edge>')
    return "\n".join(text + ["</graph>", "</graphml>", ""])


def names_of(count):
    return ["Z"] + [f"T{i}" for i in range(1, count)]


def generated(number, size):
    """The network of a number and a size, as `drill` draws it."""
    draws, letters, constraints = Draws(number), min(1 + size // 3, 6), []
    for _ in range(2 * size):
        q, i, j = draws.below(4), 1 + draws.below(size), 1 + draws.below(size)
        w, m, label = draws.below(10), draws.below(3), {}
        for _ in range(m):
            letter, sign = draws.below(letters), draws.below(2)
            label.setdefault(LETTERS[letter], sign)
        low, high = (0 if i == j else min(i, j)), max(i, j)
        ends = (i, 0, -w) if q < 2 else (high, low, -w) if q == 2 else (low, high, w + 5)
        constraints.append(ends + (label,))
    observes = {i + 1: LETTERS[i] for i in range(letters)}
    return document(10 + 2 * size, names_of(size + 1), observes, constraints)


def dense(number, nodes, propositions, edges, deadline):
    """A random network with many labels, for large logs."""
    draw, letters, constraints = random.Random(number), LETTERS[:propositions], []

    def label():
        chosen = draw.sample(letters, min(propositions, draw.choice([0, 1, 1, 2, 2, 3])))
        return {letter: draw.choice([0, 1]) for letter in chosen}

    for _ in range(edges):
        low, high = sorted(draw.sample(range(nodes), 2))
        wait = draw.randint(1, max(2, deadline // nodes))
        constraints.append((high, low, -wait, label()))
        if draw.random() < 0.3:
            constraints.append((low, high, wait + draw.randint(0, deadline // 3), label()))
    return document(deadline, names_of(nodes), {i + 1: letter for i, letter in enumerate(letters)}, constraints)


def plain(number, nodes, edges, deadline):
    """A random network that observes nothing."""
    draw, constraints = random.Random(number), []
    for _ in range(edges):
        low, high = sorted(draw.sample(range(nodes), 2))
        constraints.append((high, low, -draw.randint(1, 9), {}) if draw.random() < 0.7 else (low, high, 9 * nodes, {}))
    return document(deadline, names_of(nodes), {}, constraints)


def self_loop(deadline):
    return document(deadline, ["Z", "X"], {}, [(1, 1, -1, {})])


def all_observers(deadline, more, constraints):
    """A network of the origin, an observer of each letter, and further time-points."""
    names = ["Z", *(f"P{letter}" for letter in LETTERS), *more]
    return document(deadline, names, {i + 1: letter for i, letter in enumerate(LETTERS)}, constraints)


def wide(labels, after):
    """A network whose plan has a bound for each of so many labels, at a time-point and at each of so many after it."""
    x, triples = len(LETTERS) + 1, itertools.islice(itertools.combinations(LETTERS, 3), labels)
    constraints = [(x, 0, -1, {})] + [(x, 0, -5, dict.fromkeys(letters, 0)) for letters in triples]
    constraints += [(x + 1 + i, x + i, -1, {}) for i in range(after)]
    return all_observers(50, ["X", *(f"Y{i}" for i in range(after))], constraints)


def one_after_another(count, moments=0):
    """Observers that come one after another behind so many time-points at ticks of their own, and a last time-point that
    waits longer with each outcome that is true."""
    observers, last = range(moments + 1, moments + count + 1), moments + count + 1
    waits = [(i, 0, -i, {}) for i in range(1, moments + 1)] + [(x, x - 1, -1, {}) for x in observers]
    waits += [(last, 0, -(last + i), {LETTERS[i - 1]: 0}) for i in range(1, count + 1)]
    observes = {x: LETTERS[i] for i, x in enumerate(observers)}
    return document(moments + 4 * count, names_of(last + 1), observes, waits)


def each_a_tick_later(count):
    """Time-points of which each is at a tick of its own or later."""
    return document(count, names_of(count), {}, [(i, 0, -i, {}) for i in range(1, count)])
