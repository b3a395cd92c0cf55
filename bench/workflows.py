"""Random workflows as documents: tasks in sequence, in parallel and in exclusive branches, with durations in ranges, gaps
between blocks, and some constraints across tasks."""
import random

LETTERS = "abcdefghijklmnopqrstuvwxyzABCDEFGHIJKLMNOPQRSTUVWXY"


class Workflow:
    """A workflow of so many tasks and choices. Its deadline is the longest way through it, times the factor."""

    def __init__(self, number, tasks, choices, factor, cross):
        self.draw, self.nodes, self.edges, self.choices = random.Random(number), [("Z", "", "")], [], 0
        start, _, longest = self.block(tasks, choices, "")
        self.edges += [(start, "Z", 0), ("Z", start, 0)]
        self.deadline = int(longest * factor)
        for _ in range(cross):
            self.across(longest)

    def node(self, kind, label, observed=""):
        self.nodes.append((f"{kind}{len(self.nodes)}", observed, label))
        return self.nodes[-1][0]

    def between(self, x, y, least, most=None):
        """The time from x to y is at least `least`, and at most `most`."""
        self.edges.append((y, x, -least))
        if most is not None:
            self.edges.append((x, y, most))

    def block(self, tasks, choices, label):
        """Where a block begins and ends, and how long it may take."""
        if tasks <= 1 and choices == 0:
            return self.task(label)
        if choices and (tasks <= 3 or self.draw.random() < 0.35):
            return self.choice(tasks, choices, label)
        half, part = max(1, tasks // 2), min(choices, self.draw.randint(0, choices))
        one, other = self.block(half, part, label), self.block(max(1, tasks - half), choices - part, label)
        if self.draw.random() < 0.5:
            self.between(one[1], other[0], 1, 1 + self.draw.randint(0, 30))
            return one[0], other[1], one[2] + other[2] + 31
        fork, join = self.node("F", label), self.node("J", label)
        for start, end, _ in (one, other):
            self.between(fork, start, 0, 10)
            self.between(end, join, 0)
        return fork, join, max(one[2], other[2]) + 10

    def task(self, label):
        start, end = self.node("S", label), self.node("E", label)
        least = self.draw.randint(1, 10)
        most = least + self.draw.randint(0, 20)
        self.between(start, end, least, most)
        return start, end, most

    def choice(self, tasks, choices, label):
        """Two branches, of which what is observed picks one."""
        letter, self.choices = LETTERS[self.choices], self.choices + 1
        observer, join = self.node("P", label, letter), self.node("J", label)
        part, half, longest = self.draw.randint(0, choices - 1), max(1, tasks // 2), 0
        for sign, its_tasks, its_choices in (("", half, part), ("¬", max(1, tasks - half), choices - 1 - part)):
            start, end, most = self.block(its_tasks, its_choices, label + sign + letter)
            self.between(observer, start, 1, 1 + self.draw.randint(0, 20))
            self.between(end, join, 1)
            longest = max(longest, most + 21)
        return observer, join, longest + 1

    def across(self, longest):
        """A constraint between two time-points, where one is executed whenever the other is."""
        (x, _, one), (y, _, other) = self.draw.sample(self.nodes[1:], 2)
        if one.startswith(other) or other.startswith(one):
            self.edges.append((x, y, self.draw.randint(longest // 3, longest)))

    def document(self):
        """The document, with labels on time-points."""
        text = ["<graphml>", "<graph>", f'<data key="Deadline">{self.deadline}</data>']
        for name, observed, label in self.nodes:
            data = f'<data key="Obs">{observed}</data>' * bool(observed) + f'<data key="Label">{label}</data>' * bool(label)
            text.append(f'<node id="{name}">{data}</node>')
        text += [f'<edge source="{x}" target="{y}"><data key="LabeledValues">{{({most}, ⊡)}}</data></edge>' for x, y, most in self.edges]
        return "\n".join(text + ["</graph>", "</graphml>", ""])
