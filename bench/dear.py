"""Documents of a few kB that keep a check busy, which checks/hostile and bench/run hand to the program.

Two rows of time-points lead from the origin, one to Q, which observes q, and one to D. Whichever value some letters
have, each time-point comes a tick after the one before it, by a constraint for each letter and sign. So its bounds have
the marks of one letter for each time-point up to it: Q and D have a bound for each choice of these, of which none
implies another. X comes after both. It has as many bounds that mark q, and each of them waits with each bound of Q.
Whether a bound of X implies what such a wait gives is asked of one after another. So time grows with the cube of the
bounds that are derived.
"""
import string


def dear(letters, steps, unmet=False):
    """A document with so many time-points in each row, and so many letters at each of them. It can be carried out,
    unless `unmet` adds a time-point that comes after itself."""
    drawn = iter(string.ascii_letters)
    q, r = next(drawn), next(drawn)
    text = [node("Z"), node(f"o{r}", r)]
    for row, end, seen in ("b", "Q", q), ("d", "D", ""):
        names = [*(f"{row}{i}" for i in range(1, steps)), end]
        for before, name in zip(["Z", *names], names):
            its = [next(drawn) for _ in range(letters)]
            text += [node(f"o{letter}", letter) for letter in its]
            text += [node(name, seen if name == end else ""), after(name, "Z", 1)]
            signed = [sign + letter for letter in its for sign in ("", "!")]
            text.append(after(name, before, 2 if before == "Z" else 1, *signed))
    text += [node("X"), after("X", "Z", 1), after("X", "D", 10, r + q, "!" + r + q), after("X", "Q", 2, r, "!" + r)]
    if unmet:
        text += [node("W"), after("W", "Z", 1), after("W", "W", 1)]
    deadline = 60 if unmet else 1000
    return f'<graphml><graph><data key="Deadline">{deadline}</data>{"".join(text)}</graph></graphml>'


def node(name, letter=""):
    return f'<node id="{name}"><data key="Obs">{letter}</data></node>' if letter else f'<node id="{name}"/>'


def after(name, before, ticks, *labels):
    """An edge: a time-point comes so many ticks after another, or later, where one of these labels holds, or always."""
    values = "".join(f"({-ticks},{label})" for label in labels or [""])
    return f'<edge source="{name}" target="{before}"><data key="LabeledValues">{{{values}}}</data></edge>'
