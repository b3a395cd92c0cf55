"""Names and texts of a document as documents, lines and words have them: none of their signs commands a screen."""
import functools
import re

# Signs that a screen obeys, at which it ends a line, or by which it turns writing round.
OBEYED = "\x00-\x1f\x7f-\x9f\u061c\u200e\u200f\u2028-\u202e\u2066-\u2069"
REFERENCE = re.compile(r"&(?:(lt|gt|amp|quot|apos)|#([0-9]{1,8})|#x([0-9A-Fa-f]{1,8}));")
CALLED = {"lt": "<", "gt": ">", "amp": "&", "quot": '"', "apos": "'"}
LONGEST = 200


def plain(text: str) -> str:
    """A text of a document with its references put in; one that names no character stays."""
    def character(found: re.Match[str]) -> str:
        code = int(found[2] or 0) or int(found[3] or "0", 16)
        if found[1]:
            return CALLED[found[1]]
        return chr(code) if 0 < code < 0xD800 or 0xDFFF < code <= 0x10FFFF else found[0]

    return REFERENCE.sub(character, text)


def quoted(name: str) -> str:
    """A name as an attribute of a document."""
    marks = {sign: f"&{word};" for word, sign in CALLED.items() if word != "apos"}

    def escape(found: re.Match[str]) -> str:
        return marks.get(found[0], f"&#{ord(found[0])};")

    return '"' + re.sub(f'[&<>"{OBEYED}]', escape, name) + '"'


def printed(name: str) -> str:
    """The name that a line has in this form."""
    text = re.sub(rb"%([0-9A-F]{2})", lambda found: bytes([int(found[1], 16)]), encoded(name))
    return text.decode(errors="replace")


def typed(name: str) -> str:
    """A name as lines have it."""
    return re.sub(r"[\x00-\x20%\x7f]", lambda found: f"%{ord(found[0]):02X}", name)


@functools.lru_cache(maxsize=None)
def shown(name: str) -> str:
    """A name in words: one with a space stands in quotes, as in a plan in sentences, and what a screen obeys as in
    lines; one that is longer than an id is cut."""
    if " " not in name:
        return cut(re.sub(f"%(?=[0-9A-Fa-f]{{2}})|[{OBEYED}]", escaped, name))
    return f'"{cut(re.sub(f"%(?=[0-9A-Fa-f]{{2}})|[{chr(34)}{OBEYED}]", escaped, name))}"'


def harmless(line: str) -> str:
    """A line of words, or of a document, as a screen may have it."""
    return re.sub(f"[{OBEYED}]", escaped, line)


def harmless_data(text: str) -> str:
    """A text of JSON as a screen may have it: the same data."""
    return re.sub(f"[{OBEYED}]", lambda found: found[0] if found[0] == "\n" else f"\\u{ord(found[0]):04x}", text)


def raw(line: bytes) -> str:
    """The bytes of a line of a document in words."""
    return cut(line.decode(errors="replace").expandtabs(1).strip())


def cut(text: str) -> str:
    return text if len(text) <= LONGEST else text[:LONGEST] + " .."


def escaped(found: re.Match[str]) -> str:
    return "".join(f"%{byte:02X}" for byte in encoded(found[0]))


def encoded(text: str) -> bytes:
    return text.encode(errors="surrogateescape")
