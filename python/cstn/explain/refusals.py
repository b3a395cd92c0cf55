"""Why the checker refuses a document, with the lines in question."""
import re

from .documents import Reader, near
from .names import cut, plain, printed, raw, shown

VALUES = ("values are whole numbers from -1000000000 to 1000000000 without a plus, each with a label, as in {(10, ⊡)} "
          "or {(-5, p¬q) (7, q)}")
LABEL = "a label is letters, each once, with ¬ or ! before one that is false; a word is read as many letters"
MEANS = {
    "X1": "the bytes are not UTF-8",
    "X2": "a tag, a text, or an attribute is not of its form or not allowed there, is missing, or comes twice",
    "X3": "an earlier node has this id",
    "X4": "the edge names a node that does not stand before it",
    "X7": "contingent links are not taken; docs/guide.md says under `What cannot be said` what to do",
    "X8": "a type is requirement, normal, constraint, derived, internal or nothing",
    "X9": "no deadline: say --deadline N, or write <data key=\"Deadline\">N</data> into the graph",
    "X10 N1": "a network has at most 1024 time-points",
    "X10 N3": "a network has at most 16384 constraints",
    "X10 N4": "a deadline is from 0 to 1000000",
    "X10 N5": "a value is from -1000000000 to 1000000000",
    "X10 N6": "a label has a letter that no node observes; a word is read as many letters",
    "X10 N7": "two nodes observe the same letter",
    "X12 L1": "the origin Z takes no label, since it is always executed",
    "X12 L3": "its label has a letter that no node observes; a word is read as many letters",
    "X12 L4": "its label asks for what it observes itself, or for what is known only after it",
    "X12 L5": "its label, with those of the observers that it asks for, never holds",
    "X12 L6": "more than 16384 constraints, with those by which time-points wait for their labels",
    "labels": "this command takes no labels on time-points; docs/guide.md says under `Labels on time-points` which do",
    "long": "a document has at most 8388608 bytes",
}
FORMS = {
    ("X5", "LabeledValues"): VALUES,
    ("X5", "Reaction"): "a reaction is a whole number of ticks from 1 to 1000",
    ("X5", "Deadline"): "a deadline is a whole number of ticks from 0 to 1000000",
    ("X5", ""): "an id has 1 to 64 bytes",
    ("X6", "Obs"): "what a node observes is one letter, A to Z or a to z",
    ("X6", "LabeledValues"): LABEL,
    ("X6", "Label"): LABEL,
}
MOST_LINES = 20
SENTENCES = re.compile(rb"^(deadline|step|task) ", re.M)
IN_SENTENCES = ("this is a plan in sentences, not a document, and no command takes one yet: docs/guide.md says how to "
                "write it")
ATTRIBUTE = re.compile(rb"""\s*+([\w:.-]++)\s*+=\s*+(?:"([^"]*+)"|'([^']*+)')""")


def parts_of(tag: bytes) -> tuple[str | None, dict[str, str]]:
    """The name of the element of a tag, or none, and its attributes up to the first that is of no form."""
    name = re.match(rb"<(\w+)", tag)
    found: dict[str, str] = {}
    at = name.end() if name else len(tag)
    while part := ATTRIBUTE.match(tag, at):
        found.setdefault(part[1].decode(), plain((part[2] or part[3] or b"").decode(errors="replace")))
        at = part.end()
    return name[1].decode() if name else None, found


def tell_line(reader: Reader, place: int) -> str:
    number = reader.line(place)
    return f"line {number}: {raw(reader.row(number))}"


def tell_ends(reader: Reader, place: int, tag: bytes) -> list[str]:
    """Which end of an edge is no node above it."""
    _, found = parts_of(tag)
    above = [name for name, at in reader.nodes.items() if name and at < place]
    lines = []
    for end in sorted({found.get(key, "") for key in ("source", "target")} - set(above)):
        other = near(end, tuple(above))
        hint = f"; did you mean {shown(other)}?" if other and end != "Z" else ""
        if end in reader.nodes:
            hint = "; move that node up"
        elif end == "Z":
            hint = '; write <node id="Z"/> above the edges' + (f", for {shown(other)}" if other else "")
        lines.append(f"no node {shown(end)} stands above it{hint}")
    return lines


def tell_token(reader: Reader, place: int, token: bytes) -> list[str]:
    """What is wrong with a tag or a text, where that is one of the usual things."""
    name, found = parts_of(token)
    wanted = {"edge": ("source", "target"), "node": ("id",), "data": ("key",)}.get(name or "", ())
    missing = [key for key in wanted if key not in found]
    bare = re.sub(rb"\"[^\"]*\"|'[^']*'", b'""', token).split(b"<")[:2][-1]
    owner = next((owner for owner, at, _ in reader.keys if at == place), None)
    if name and re.search(rb"=\s*[^\s\"'<>=]", bare):
        return ["the value of an attribute stands between quotes"]
    if missing:
        return [f"{' and '.join(missing)} {'is' if len(missing) == 1 else 'are'} missing"]
    if re.search(rb"&(?!(?:lt|gt|amp|quot|apos|#\d{1,8}|#x[0-9A-Fa-f]{1,8});)", token):
        return ["& begins a reference there, as in &amp;" + ("" if name else ": for `p and q` a label is pq")]
    if name == "data" and any(above == owner and key == found["key"] and at < place for above, at, key in reader.keys):
        return [f"the key {shown(found['key'])} stands there a second time"]
    if re.match(rb"<!(\[CDATA|DOCTYPE)", token):
        return ["CDATA and document types are not taken"]
    return ["a text stands in data only"] if re.match(rb"[^<]*[^<\s]", token) else []


def tell_refused(answer: str, reader: Reader) -> list[str]:
    """Why a document is refused, and where that is for a byte, a letter, a name or a constraint, the lines of it."""
    if not reader.text:
        return ["the file is empty"]
    code = re.match(r"document (X1[02] [NL]\d|X\d|\w+)(?: at (\d+))?", answer)
    place = int(code[2]) if code and code[2] else None
    key = re.match(rb'<data key="(\w+)"', reader.text[place:]) if place is not None else None
    means = (MEANS.get(code[1]) or FORMS.get((code[1], key[1].decode() if key else ""))) if code else None
    lines = [f"which means: {means}"] if means else []
    lines += tell_letters(answer, reader)
    name = re.search(r"^document X12 (?:L1|L[45] ([^ \n]+))", answer)
    node = reader.nodes.get(printed(name[1] or "Z")) if name else None
    if node is not None:
        lines.append(tell_line(reader, node))
    number = re.search(r"^document X10 N5 (\d+)", answer)
    if number and int(number[1]) < len(reader.rows):
        row = reader.rows[int(number[1])]
        lines.append(f"line {row}: {raw(reader.row(row))}")
    return lines + (tell_place(code[1], place, reader) if code and place is not None else [])


def tell_place(code: str, place: int, reader: Reader) -> list[str]:
    """What is wrong at a byte of the document, in the usual cases, and its line; last of all a tag that was not
    closed."""
    rest = reader.text[place:]
    token = re.findall(rb"\A(?:<[^>]*>?|[^<]*)", rest)[0]
    lines = []
    if code == "X2" and SENTENCES.search(reader.text) and not reader.text.lstrip().startswith(b"<"):
        return [IN_SENTENCES]
    if code == "X4":
        lines = tell_ends(reader, place, token)
    elif code == "X2":
        lines = tell_token(reader, place, token)
    elif code in ("X5", "X6"):
        lines = tell_sign(rest)
    lines.append(tell_line(reader, place))
    if code == "X2" and reader.unclosed:
        lines.append(f"not closed before that: {reader.unclosed}")
    return lines


def tell_sign(rest: bytes) -> list[str]:
    """The first sign that is none of a label, in the values or the label of the element at this place."""
    data = re.match(rb'<data key="(LabeledValues|Label)">([^<]*)<', rest)
    if not data:
        return []
    text = plain(data[2].decode(errors="replace"))
    if data[1] == b"Label":
        return tell_sign_of(text)
    if not re.fullmatch(r"\s*\{[^{}]*\}\s*", text):
        return ["values stand in braces, and each with its label in parentheses, as in {(5, p)}"]
    return next(filter(None, map(tell_pair, re.findall(r"\(([^()]*)\)", text))), [])


def tell_pair(part: str) -> list[str]:
    """What is wrong with a value and its label, if it is one of the usual things."""
    value = next((it.strip() for it in part.split(",") if re.search(r"\d", it)), "")
    if value and not re.fullmatch(r"[-−]?[0-9]+", value):
        lacks = "a value is a whole number, with - before it if it is negative"
        if "," not in part:
            lacks = "a comma stands between a value and its label, as in (-5, p)"
        return [f"`{cut(value)}` is no value: {lacks}"]
    return tell_sign_of(re.sub(r"^\s*[-−]?\d+\s*,|,\s*[-−]?\d+\s*$", "", part))


def tell_sign_of(label: str) -> list[str]:
    sign = re.search(r"[^A-Za-z¬!\s⊡]", label)
    if not sign or not re.search("[A-Za-z]", label):
        return []
    return [f"`{sign[0]}` is none of a label: its letters stand side by side, with no sign but ¬ or ! before one that "
            "is false"]


def tell_twins(reader: Reader) -> list[str]:
    """The letters that two nodes observe, with their lines: a refusal for one that no node observes may hide them."""
    found: dict[str, list[str]] = {}
    for letter, line in reader.observers:
        if re.fullmatch("[A-Za-z]", letter):
            found.setdefault(letter, []).append(str(line))
    return [f"{letter} is observed on lines {several(lines)}, and one time-point alone may observe it"
            for letter, lines in found.items() if len(lines) > 1]


def several(words: list[str]) -> str:
    """Some words side by side, not all of them where these are many."""
    more = len(words) - MOST_LINES
    return " and ".join(words if more <= 0 else [*words[:MOST_LINES], f"{more} more"])


def tell_letters(answer: str, reader: Reader) -> list[str]:
    """The lines that have the letter of a refusal, of one that two observe only those of the two."""
    found = re.search(r"^document X1(?:0 N[67]|2 L3 [^ ]+) ([A-Za-z])(?: ([^ ]+) ([^ ]+))?$", answer.strip())
    if not found:
        return []
    at = [reader.lines.get((printed(name), "Obs")) for name in found.groups()[1:] if name]
    lines = [] if at else tell_twins(reader)
    if None not in at and len(at) == 2:
        where = f"lines {at[0]} and {at[1]}" if at[0] != at[1] else f"line {at[0]} twice"
        lines.append(f"{found[1]} is observed on {where}")
    marks = re.compile(rf"<data key=.(?:{'Obs' if at else 'Label|LabeledValues|Obs'}).>[^<]*{found[1]}".encode())
    rows = [(number, row) for number, row in enumerate(reader.text.split(b"\n"), 1) if marks.search(row)]
    lines += [f"line {number} has the letter {found[1]}: {raw(row)}" for number, row in rows[:MOST_LINES]]
    return lines + ([f"and {len(rows) - MOST_LINES} more lines have it"] if len(rows) > MOST_LINES else [])
