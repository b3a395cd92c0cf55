"""Pictures as SVG: shapes with their colours written on them, so that no style sheet is needed, and with classes, so
that one may give them others. The same shapes are the same bytes."""
import re
from collections.abc import Sequence

from ..explain.names import OBEYED

FONT = "Helvetica, Arial, 'DejaVu Sans', sans-serif"

# How wide the signs from the space to ~ are in DejaVu Sans, the widest of these fonts, in hundredths of their height.
WIDTHS = bytes((
    32, 40, 46, 84, 64, 95, 78, 27, 39, 39, 50, 84, 32, 36, 32, 34, 64, 64, 64, 64, 64, 64, 64, 64, 64, 64, 34, 34, 84,
    84, 84, 53, 100, 68, 69, 70, 77, 63, 58, 77, 75, 29, 29, 66, 56, 86, 75, 79, 60, 79, 69, 63, 61, 73, 68, 99, 69, 61,
    69, 39, 34, 39, 84, 50, 50, 61, 63, 55, 63, 62, 35, 63, 63, 28, 28, 58, 28, 97, 63, 61, 63, 63, 41, 52, 39, 63, 59,
    82, 59, 59, 52, 64, 34, 64, 84))
BOLD = 1.12

Value = str | float | int


def readable(name: str) -> str:
    """A name with its spaces, and a mark in place of each sign that a screen obeys."""
    return re.sub(f"[{OBEYED}]", "\ufffd", name)


def width(text: str, size: float, bold: bool = False) -> float:
    """How wide a text is at most."""
    hundredths = sum(WIDTHS[ord(it) - 32] if " " <= it <= "~" else 100 for it in text)
    return hundredths * size / 100 * (BOLD if bold else 1)


def fitted(text: str, room: float, size: float, bold: bool = False) -> str:
    """A text, cut where it is wider than there is room."""
    if width(text, size, bold) <= room:
        return text
    while text and width(text + "..", size, bold) > room:
        text = text[:-1]
    return text + ".."


def escaped(text: str) -> str:
    """A text as it stands in SVG or HTML, also in an attribute; what a screen would obey is left out."""
    text = re.sub(f"[{OBEYED}\ud800-\udfff\ufffe\uffff]", "\ufffd", text)
    for sign, name in (("&", "amp"), ("<", "lt"), (">", "gt"), ('"', "quot"), ("'", "#39")):
        text = text.replace(sign, f"&{name};")
    return text


def number(value: Value) -> str:
    """A number of a picture, with a tenth at most."""
    if isinstance(value, str):
        return value
    said = f"{value:.1f}".removesuffix(".0")
    return "0" if said == "-0" else said


def element(tag: str, inner: str = "", /, **attributes: Value | None) -> str:
    """An element; `_` in the name of an attribute stands for `-`, and one at its end for nothing."""
    parts = [f' {key.rstrip("_").replace("_", "-")}="{escaped(number(value))}"'
             for key, value in attributes.items() if value is not None]
    return f"<{tag}{''.join(parts)}>{inner}</{tag}>" if inner else f"<{tag}{''.join(parts)}/>"


def text_at(x: float, y: float, text: str, size: float = 12, *, anchor: str | None = None, bold: bool = False,
            fill: str = "#1f2933", class_: str | None = None) -> str:
    """A line of text, whose base line begins, ends or has its middle at a point."""
    return element("text", escaped(text), x=x, y=y, font_size=size, text_anchor=anchor, fill=fill, class_=class_,
                   font_weight="bold" if bold else None)


def group(parts: Sequence[str], title: str = "", **attributes: Value | None) -> str:
    """Some shapes, with words that are shown where one points at them."""
    told = [element("title", escaped(title))] if title else []
    return element("g", "\n" + "\n".join([*told, *parts]) + "\n", **attributes)


def picture(parts: Sequence[str], wide: float, high: float, title: str) -> str:
    """A whole picture, on white."""
    head = (f'<svg xmlns="http://www.w3.org/2000/svg" width="{number(wide)}" height="{number(high)}" '
            f'viewBox="0 0 {number(wide)} {number(high)}" font-family="{FONT}" role="img">')
    paper = element("rect", width=wide, height=high, fill="#ffffff", class_="paper")
    return "\n".join([head, element("title", escaped(title)), paper, *parts, "</svg>"]) + "\n"
