"""How time and memory grow with the bounds of a check, on random networks and on workflows: a plot, and exponents."""
import math

PANEL, LEFT, TOP = 360, 70, 40
COLOURS = {"random networks": "#1f6fb4", "workflows": "#c4591c"}


class Point:
    """A check: of which family, how many bounds, the milliseconds, and the megabytes."""

    def __init__(self, family, bounds, took, peak):
        self.family, self.bounds, self.took, self.peak = family, bounds, took, peak


def cases():
    """The title of a family, and the numbers of each of its documents."""
    for number in range(40):
        nodes = 60 + 3 * number
        yield "random networks", (100 + number, nodes, 6 + number % 11, 3 * nodes, 10 * nodes)
    for number in range(40):
        yield "workflows", (200 + number, 60 + 5 * number, 6 + number % 17, 1.2, 40)


def exponent(points, value):
    """The slope of the value by the bounds, both as logarithms, and how well it fits."""
    xs, ys = [math.log(it.bounds) for it in points], [math.log(value(it)) for it in points]
    mean_x, mean_y = sum(xs) / len(xs), sum(ys) / len(ys)
    of_x, of_y = sum((x - mean_x) ** 2 for x in xs), sum((y - mean_y) ** 2 for y in ys)
    both = sum((x - mean_x) * (y - mean_y) for x, y in zip(xs, ys))
    return both / of_x, both / math.sqrt(of_x * of_y)


def decades(values):
    return math.floor(math.log10(min(values))), math.ceil(math.log10(max(values)))


class Panel:
    """One of the two plots: a value by the bounds, both axes logarithmic."""

    def __init__(self, title, left, points, value):
        self.title, self.left, self.points, self.value = title, left, points, value
        self.across, self.up = decades([it.bounds for it in points]), decades([value(it) for it in points])

    def x(self, bounds):
        low, high = self.across
        return self.left + PANEL * (math.log10(bounds) - low) / (high - low)

    def y(self, value):
        low, high = self.up
        return TOP + PANEL * (1 - (math.log10(value) - low) / (high - low))

    def lines(self):
        yield f'<rect x="{self.left}" y="{TOP}" width="{PANEL}" height="{PANEL}" fill="none" stroke="#888"/>'
        yield f'<text x="{self.left + PANEL / 2}" y="{TOP - 14}" text-anchor="middle">{self.title}</text>'
        yield f'<text x="{self.left + PANEL / 2}" y="{TOP + PANEL + 38}" text-anchor="middle">bounds</text>'
        for power in range(self.across[0], self.across[1] + 1):
            x = self.x(10**power)
            yield f'<line x1="{x:.1f}" y1="{TOP}" x2="{x:.1f}" y2="{TOP + PANEL}" stroke="#ddd"/>'
            yield f'<text x="{x:.1f}" y="{TOP + PANEL + 18}" text-anchor="middle">{10**power:,}</text>'
        for power in range(self.up[0], self.up[1] + 1):
            y = self.y(10**power)
            yield f'<line x1="{self.left}" y1="{y:.1f}" x2="{self.left + PANEL}" y2="{y:.1f}" stroke="#ddd"/>'
            yield f'<text x="{self.left - 6}" y="{y + 4:.1f}" text-anchor="end">{10.0**power:,g}</text>'
        for it in self.points:
            x, y = self.x(it.bounds), self.y(self.value(it))
            yield f'<circle cx="{x:.1f}" cy="{y:.1f}" r="3" fill="{COLOURS[it.family]}" fill-opacity="0.7"/>'


def legend():
    for place, (family, colour) in enumerate(COLOURS.items()):
        x, y = LEFT + 12, TOP + 18 + 18 * place
        yield f'<circle cx="{x}" cy="{y - 4}" r="4" fill="{colour}"/><text x="{x + 10}" y="{y}">{family}</text>'


def drawing(points):
    """The plot of the points as a document of SVG."""
    panels = [Panel("milliseconds of a check", LEFT, points, lambda it: it.took),
              Panel("peak memory, MB", 2 * LEFT + PANEL + 20, points, lambda it: it.peak)]
    width, height = 3 * LEFT + 2 * PANEL, TOP + PANEL + 60
    body = [line for panel in panels for line in panel.lines()] + list(legend())
    opening = (f'<svg xmlns="http://www.w3.org/2000/svg" width="{width}" height="{height}" '
               'font-family="sans-serif" font-size="12">')
    return "\n".join([opening, f'<rect width="{width}" height="{height}" fill="#fff"/>', *body, "</svg>", ""])


def exponents(points):
    """Of each family the exponent of time by bounds, over the documents with more than 2,000 of these, and its fit."""
    for family in COLOURS:
        large = [it for it in points if it.family == family and it.bounds > 2000]
        if len(large) > 2:
            slope, fit = exponent(large, lambda it: it.took)
            yield family, len(large), slope, fit
