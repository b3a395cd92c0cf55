"""What the scripts do with documents of others: they end soon, command no screen, and judge as the program does.

checks/scripts calls these tables. Each call of a script, with all that it calls, has some seconds of a processor.
"""
import json
import os
import random
import re
import resource
import subprocess
import sys
import threading
import time

from runs import (BAD, DOCUMENT, GOOD, LETTERS, PROGRAM, READ_FAULT, SCRIPT, SECONDS, TOP, TWO_POINTS, WORDS, check,
                  compact, run)

SOON = 5
EXPLAIN, REPLAY = (os.path.join(TOP, "cstn"), "explain"), (os.path.join(TOP, "tools", "replay"),)
OBEYED = re.compile("[\x00-\x09\x0b-\x1f\x7f-\x9f\u061c\u200e\u200f\u2028-\u202e\u2066-\u2069]")


def called(tool, *words, live=b"", **more):
    """How a script ends, what it writes and what it says on standard error; where it takes too long, that alone."""
    live = live if isinstance(live, bytes) else live.encode()
    env, before = {**os.environ, "CSTN": PROGRAM, **more}, spent()
    try:
        done = subprocess.run([*tool, *words], input=live, capture_output=True, timeout=SECONDS, env=env, check=False)
    except subprocess.TimeoutExpired:
        return "late", "", ""
    return done.returncode if spent() - before < SOON else "late", done.stdout.decode(), done.stderr.decode()


def spent():
    """The seconds of a processor that the calls so far took, with all that they called."""
    used = resource.getrusage(resource.RUSAGE_CHILDREN)
    return used.ru_utime + used.ru_stime


def explained(*words, **more):
    return called(EXPLAIN, *words, **more)


# Documents that are dear to explain.


def edge(source, target, *pairs):
    values = "".join(f"({value}, {label})" for value, label in pairs)
    return f'<edge source="{source}" target="{target}"><data key="LabeledValues">{{{values}}}</data></edge>'


def node(name, letter="", reaction="", label=""):
    text = compact([f"{name}:{letter}:{reaction}:{label}"], [])
    return text.removeprefix("<graphml><graph>").partition("</graph>")[0]


def document(*parts, head="", deadline=1000):
    graph = f'<data key="Deadline">{deadline}</data><node id="Z"/>{"".join(parts)}'
    return f"{head}<graphml><graph>{graph}</graph></graphml>"


def tests_in_a_row(count):
    """Steps that each observe a letter by which the limit to the next one differs."""
    names = [f"T{at}" for at in range(count)] + ["End"]
    parts = [*map(node, names, LETTERS[:count]), node("End"), edge("Z", "T0", (5, ""))]
    for first, then, letter in zip(names, names[1:], LETTERS):
        parts.append(edge(then, first, (-2, "")) + edge(first, then, (10, letter), (20, f"!{letter}")))
    return document(*parts)


def steps_with_outcomes(steps, count):
    """A chain of steps beside some observers, so that a tree has each step in each case."""
    names, observers = [f"S{at}" for at in range(steps)], [f"P{at}" for at in range(count)]
    parts = [node(name, letter) for name, letter in zip(observers, LETTERS)] + [node(name) for name in names]
    parts += [edge("Z", name, (5, "")) for name in observers] + [edge("Z", "S0", (3, ""))]
    parts += [edge(then, first, (-1, "")) + edge(first, then, (4, "")) for first, then in zip(names, names[1:])]
    return document(*parts, deadline=9000)


def drawn_label(letters, count):
    return "".join(random.choice(("", "!")) + letter for letter in random.sample(letters, count))


def many_cases():
    """A step whose limits hang on fifteen cases, before four hundred that hang on more."""
    observers = [node(f"P{at}", letter) for at, letter in enumerate(LETTERS[:30])]
    steps = [node("H"), *(node(f"X{at}") for at in range(400))]
    limits = [edge("Z", "H", *((9, drawn_label(LETTERS[:30], 3)) for _ in range(15)))]
    limits += [edge("H", f"X{at}", *((5, drawn_label(LETTERS[:30], 2)) for _ in range(14))) for at in range(400)]
    return document(*observers, *steps, *limits)


def waits_of_a_step(count, labels=("",)):
    pairs = [(-4 if at % 2 else -12, labels[at % len(labels)]) for at in range(count)]
    observers = [node(f"P{letter}", letter, "9" if letter == "A" else "") for letter in LETTERS[:30]]
    return document(*observers, node("X"), edge("Z", "PA", (0, "")), edge("X", "PA", *pairs))


def dear(folder):
    """Documents of up to 100 kB that are accepted, or refused, in a moment are explained in a moment."""
    random.seed(1)
    labels = [drawn_label(LETTERS[1:30], 5) for _ in range(2000)]
    from_x, graph = edge("X", "Z", (-5, "")), '<graphml><graph><data key="Deadline">5</data><node id="Z"/>'
    x = node("X") + from_x
    for name, text, status, says in (
        ("14 tests in a row", tests_in_a_row(14), GOOD, "The deadline is 1000. 16 time-points"),
        ("20 tests in a row", tests_in_a_row(20), GOOD, "The deadline is 1000. 22 time-points"),
        ("50 tests in a row", tests_in_a_row(50), GOOD, "The deadline is 1000. 52 time-points"),
        ("ten outcomes, 200 steps", steps_with_outcomes(200, 10), GOOD, "is not told, since it has up to 1024 ways"),
        ("500 steps", steps_with_outcomes(500, 0), GOOD, "S499 1 to 4 ticks after S498: the plan takes 1"),
        ("many cases", many_cases(), GOOD, "an upper limit is not told, since it takes more than 16 cases"),
        ("4000 waits of a step", waits_of_a_step(4000), GOOD, "Reactions that seem to be written again"),
        ("16000 waits of a step", waits_of_a_step(16000), GOOD, "Reactions that seem to be written again"),
        ("2000 labels", waits_of_a_step(2000, labels), GOOD, "Reactions that seem to be written again"),
        ("a long declaration", document(x, head="<?xml " + "<!--" * 20000 + "?>"), GOOD, "X at 5 or later"),
        ("a tag of letters", "<graphml><graph><node " + "a" * 40000, DOCUMENT, "document X2 at 16"),
        ("a tag of quotes", "<graphml><graph><node " + "a=\"'" * 25000, DOCUMENT, "document X2 at 16"),
        ("comments", graph + from_x + "<!--" * 20000, DOCUMENT, "no node X stands above"),
        ("tags that do not end", graph + from_x + "<node " * 16000, DOCUMENT, "no node X stands above"),
        ("data that do not end", '<graphml><graph><node id="Z">' + "<data " * 16000, DOCUMENT, "document X2"),
        ("4500 keys", document(*(f'<data key="Ded{at}lne"/>' for at in range(4500))), GOOD, "did you mean Deadline?"),
        ("a letter of 1000", document(*(node(f"N{at}", "p") for at in range(1000))), DOCUMENT, "p is observed on"),
        ("parentheses", graph + node("X") + edge("X", "Z", (-5, "(" * 50000)), DOCUMENT, "document X5"),
        ("references", document(node("X", label="&#32;" * 18000)), GOOD, "The deadline is 1000. 2 time-points"),
    ):
        path = folder.put("dear", text)
        for form in ((), ("--json",)) if status == GOOD and len(text) > 20000 else ((),):
            found = explained(path, *form)
            check(f"dear: {name} {form}", (found[0], form != () or says in found[1]), (status, True))
    dear_forms(folder)


def dear_forms(folder):
    """The other forms: a no, a conflict, a tree and a session of plans that are dear to look at."""
    late = steps_with_outcomes(200, 10).replace("9000", "100")
    path = folder.put("late", late)
    no = run(["check", path])[1]
    for words, live, status in (((path, "-", "--only"), no, GOOD), (("--conflict", path), b"", BAD),
                                (("--tight", path), b"", GOOD), (("--tree", path), b"", BAD)):
        check(f"dear: a no, {words[0][:9]}", explained(*words, live=live)[0], status)
    wide = folder.put("wide", steps_with_outcomes(200, 10))
    check("dear: a tree that is too large for words", explained("--tree", wide)[:2], (10, (
        "The plan can be carried out, and has up to 1024 ways, by 10 outcomes, which are too many for words: "
        "`./cstn cases FILE` writes them.\n")))
    chased = folder.put("chased", compact(["Z", "X"], ["X->X -1"], '<data key="Deadline">60000</data>'))
    check("dear: turns", explained(chased, "-", "--only", live=run(["check", chased])[1])[0], GOOD)
    visit = os.path.join(TOP, "examples", "test-and-visit.graphml")
    for name, lines in (("next", "next\n" * 4000), ("blame", "now 4\n" + "blame\n" * 3000), ("rest", "rest\n" * 150),
                        ("check", "now 9\nsaw 0 p true\n" + "check\nrest\n" * 150), ("documents", "")):
        wrote = run(["follow", visit], "did 0 Test\n" + lines)[1] + b"<?xml \n" * (0 if lines else 15000)
        check(f"dear: a session of {name}", explained(visit, "-", "--only", live=wrote)[0], GOOD)
    typed = "".join(f"> now {at}\nno 3\n> blame\nblame 1\n" for at in range(4, 1000))
    check("dear: a session of typed lines", explained(visit, "-", "--only", live=f"follow 1\nyes 5\n{typed}")[0], GOOD)


# Characters that a screen obeys.


NAMES = ("a\x1b[9A\x1b[J\u009b2J\x7f", "a\nFive at 5\rb\t%\u0085ä", "\u202ea\u2028b\u2066\u200f\u061c ö")


def in_document(name):
    return "".join(it if it.isalnum() and it.isascii() else f"&#{ord(it)};" for it in name)


def obeyed(*texts):
    return sorted({hex(ord(it)) for text in texts for it in OBEYED.findall(text)})


def hidden(folder):
    """No name, key or line of a document commands the screen on which it is told."""
    for name in NAMES:
        text = in_document(name)
        above = f'<graphml><graph><data key="Deadline">10</data><data key="Obz{text}">p</data><node id="Z"/>'
        nodes = f'{above}<node id="{text}"><data key="Obs">p</data></node>'
        edges = edge(f"X{text}", text, (-9, "")) + edge("Z", f"X{text}", (9, "")) + edge(text, "Z", (-1, ""))
        labelled = f'{nodes}<node id="X{text}"><data key="Label">p</data></node>{edges}</graph></graphml>'
        hidden_in_a_plan(folder.put("f", labelled), name)
        for kind, more in (("a node", f'<node id="{text}"/>'), ("an edge", edge(f"A{text}", "Z", (1, ""))),
                           ("a tag", f"<node {name}>"), ("a text", name),
                           ("a raw name", f'<node id="{name}" /><x y=>'),
                           ("a label", edge(text, "Z", (1, f"p{text}")))):
            found = explained(folder.put("g", f"{nodes}{more}</graph></graphml>"))
            check(f"a refused document on a screen: {kind} {name!r}", (found[0], obeyed(*found[1:])), (DOCUMENT, []))
    wiped = document('<node id="a&#27;[9A&#27;[J"/><node id="b"><data key="Obz">p</data></node>')
    told = explained(folder.put("f", wiped))[1]
    check("a key behind a name that commands", "data with the key Obz in node is passed over" in told, True)


def hidden_in_a_plan(plan, name):
    """A name of a plan in each form of what is said of it."""
    no, tree = run(["check", plan])[1], b"yes 1\nat 0 Z\nat 1 %58\n"
    forms = [(form, plan) for form in ("--json", "--conflict", "--tight", "--tree")]
    answers = [(plan, it) for it in (f"next 5 do {printed(name)}", f"by 5 {printed(name)}x", "blame 0 1")]
    for words in ((plan,), *forms, *answers, (plan, "-", "no"), (plan, "-", "tree")):
        found = explained(*words[:2], live=no if words[-1] == "no" else tree)
        check(f"a name on a screen: {name!r} {words[0][:9]} {words[1:]}", obeyed(*found[1:]), [])
    points = json.loads(explained("--json", plan)[1])["time_points"]
    check(f"a name as data: {name!r}", [it["name"] for it in points], ["Z", name, f"X{name}"])
    judged = called(REPLAY, plan, "-", live=no.replace(b"0 base", f"0 base {name}".encode()))
    check(f"a step on a screen: {name!r}", (judged[0], obeyed(*judged[1:])), (SCRIPT, []))


def printed(name):
    return "".join(chr(it) if 32 < it < 127 and it != 37 else f"%{it:02X}" for it in name.encode())


# Refutations that are none.


NS = ('<graphml xmlns:h="u"><graph><data key="Deadline">20</data><node id="Z"/><node id="A"/>'
      + edge("A", "Z", (-50, "")).replace("edge", "h:edge") + "</graph></graphml>")
PAIR = document('<node id="A B"/><node id="A\nB"/>', edge("A B", "Z", (-5, "")), edge("Z", "A\nB", (3, "")))
CYRILLIC = document(node("P", "p"), node("X"), edge("X", "Z", (-9, "p")), edge("Z", "X", (3, "¬p")), deadline=20,
                    head='<?xml version="1.0" encoding="iso-8859-5"?>')
ODD = document('<!-- a -- b ---><node id="&#27;"/><node id="×" ä="1"/>', "<y:a\n b='\t>'/>", edge("×", "Z", (-30, "")),
               head="\ufeff<?xml nothing ?>", deadline=20).replace("</graph>", "<x>]]></x></graph>")
LATE = "no 3\n0 base Z 0 -\n1 chain 0 0 X 5 -\n"


# Numbers in a refutation, each with what is none, and lines that are no step.
NUMBERS = (("X 5", "X 0_5"), ("X 5", "X +5"), ("X 5", "X 05"), ("X 5", "X ５"), ("X 5", "X 1000002"),
           ("0 0 X", "-1 0 X"), ("0 0 X", "0 -2 X"), ("0 0 X", "0_0 0 X"), ("0 0 X", "4294967296 0 X"),
           ("no 3", "no +3"), ("no 3", "no 0"),
           ("no 3", "no 4194305"), ("1 chain", "+1 chain"))
LINES = ("", " ", "1", "1 chain", "1 chain 0", "1 chain 0 0 X", "1 chain 0 0 X 5 - -", "1 wait 0 X 5 -", "1 base X",
         "1 bass X 0 -", "1 chain 0 0 Y 5 -", "1 chain 0 0 X 5 pp", "1 chain 0 0 X 5 ¬p", "1  chain 0 0 X 5 -",
         "1 chain 0 0 X 5 -\r", "2 chain 0 0 X 5 -")


def forged(folder):
    """A text that `replay` rejects, or refuses, is none to tools/replay either, and one that it accepts is one."""
    two = document(node("X"), edge("X", "Z", (-5, "")), deadline=4)
    for name, text, proof in (
        ("itself", two, LATE),
        ("an element of another namespace", NS, "no 4\n0 base Z 0 -\n1 chain 0 0 A 21 -\n"),
        ("white space in names", PAIR, "no 5\n0 base Z 0 -\n1 chain 0 0 A%20B 5 -\n2 chain 1 1 Z 1 -\n"),
        ("a declared encoding", CYRILLIC, "no 5\n0 base Z 0 -\n1 chain 0 0 X 9 p\n2 chain 1 1 Z 1 p\n"),
        ("what no parser of XML takes", ODD, "no 5\n0 base Z 0 -\n1 chain 0 0 × 21 -\n"),
        ("a document type", two.replace("<graphml>", "<!DOCTYPE graphml><graphml>"), LATE),
        ("an entity", two.replace('"Z"/>', '"Z"/>&a;'), LATE),
        ("two graphs", two.replace("</graph>", "</graph><graph/>"), LATE),
        ("a value that is none", two.replace("-5", "-5_0"), LATE), ("a plus", two.replace("-5", "+5"), LATE),
        ("a letter twice", two.replace("(-5, )", "(-5, pp)"), LATE), ("no deadline", TWO_POINTS, LATE),
        ("no UTF-8", two.encode() + b"\xff", LATE),
        ("a key twice", two.replace("</edge>", '<data key="Type"/>' * 2 + "</edge>"), LATE),
        *((f"a number of no form: {new}", two, LATE.replace(old, new)) for old, new in NUMBERS),
        *((f"a line of no form: {line!r}", two, f"no 3\n0 base Z 0 -\n{line}\n") for line in LINES),
        ("no step", two, "no 3\n"), ("no line", two, ""), ("a last line without its end", two, LATE[:-1]),
        ("a line more", two, LATE + "\n"), ("a step that is later", two, LATE.replace("0 0 X", "0 1 X")),
        ("a bound that can be", two, LATE.replace("1 chain 0 0 X 5 -\n", "")),
    ):
        same_judgement(name, folder.put("f", text), folder.put("p", proof))


def same_judgement(name, path, proof):
    """tools/replay ends as `replay` does, and names the same step, or line."""
    status, wrote = run(["replay", path, proof])
    ended, told, why = called(REPLAY, path, proof)
    wanted = wrote.decode().strip().split(" ")
    place = re.search(r"step (\d+)|line (\d+)", why)
    found = [{GOOD: "accepted", BAD: "rejected", SCRIPT: "script"}.get(ended, "document")]
    found += filter(None, place.groups() if place else ())
    parts = 1 if status == DOCUMENT else 2
    check(f"a second opinion: {name}", (ended, found[:parts], told),
          (status, wanted[:parts], "accepted\n" if status == GOOD else ""))


# Files that are none, and other surroundings.


# A script called where no temporary file can be written.
NOWHERE = """import runpy, sys, tempfile
tempfile.tempdir = "/nowhere"
sys.path.insert(0, sys.argv.pop(1))
runpy.run_module("cstn.explain", run_name="__main__", alter_sys=True)
"""


def odd_files(folder):
    """FILE is read once, a link to a script is the script, and what cannot be is said in words."""
    visit, answer = os.path.join(TOP, "examples", "test-and-visit.graphml"), "by 9 Visit"
    with open(visit, "rb") as file:
        text = file.read()
    told = explained(visit)
    check("FILE from the standard input", explained("/dev/stdin", live=text), told)
    check("FILE from a pipe, refused", explained("/dev/stdin", live=text.replace(b"<node", b"<nod", 1))[0], DOCUMENT)
    os.mkfifo(folder.at("pipe"))
    writer = threading.Thread(target=lambda: folder.put("pipe", text))
    writer.start()
    check("FILE from a named pipe", explained(folder.at("pipe")), told)
    writer.join()
    check("no FILE", explained(folder.at("none"))[:2], (READ_FAULT, "read fault\n"))
    os.symlink(REPLAY[0], folder.at("replay"))
    folder.put("cstn", "#!/bin/sh\necho another program\n")
    os.chmod(folder.at("cstn"), 0o755)
    os.makedirs(folder.at("bin"))
    os.symlink(EXPLAIN[0], folder.at("bin/cstn"))
    check("a link to the script", called((folder.at("bin/cstn"), "explain"), visit), told)
    check("a link to the other one", called((folder.at("replay"),), visit, folder.put("p", LATE))[0], SCRIPT)
    found = explained(visit, CSTN="/none")
    check("no program, in words", (found[0], found[2].count("\n")), (WORDS, 1))
    found = called((sys.executable, "-B", "-c", NOWHERE, os.path.join(TOP, "python")), "/dev/stdin", live=text)
    check("no folder for a copy, in words", (found[0], found[2].count("\n")), (WORDS, 1))
    for coding in ("ascii", "latin-1", "utf-8"):
        for words in ((visit,), ("--json", visit), (visit, answer)):
            found = explained(*words, PYTHONIOENCODING=coding, LC_ALL="C")
            check(f"written as {coding}: {words[0][:9]}", (found[0], "Traceback" in found[2]), (GOOD, False))
    for name, word in (("a moment", "next {}"), ("an id", "blame {}"), ("a step", "by {} Visit"),
                       ("a least deadline", "least {}\n")):
        found = explained(visit, "-", "--only", live=word.format("9" * 5000) + "\n")
        check(f"a number of 5000 digits: {name}", (found[0], "Traceback" in found[2]), (BAD, False))
    late = run(["check", visit, "--deadline", "9"])[1].replace(b"\n", b"\r\n")
    found = explained(visit, folder.put("p", late), "--deadline", "9", "--only")
    said = "PROOF has lines that end with CR and LF"
    check("CR and LF in PROOF", (found[0], found[1].partition(",")[0]), (BAD, said))


def drawn(folder):
    """Documents and refutations that are drawn and changed a little, by both judges."""
    draw = random.Random(20)
    begun = time.monotonic()
    for at in range(60):
        path, proof = drawn_case(draw, folder)
        same_judgement(f"drawn {at}", path, proof)
        if time.monotonic() - begun > 60:
            check("drawn cases", at, 60)
            break


def drawn_case(draw, folder):
    """A small plan, mostly one that cannot be carried out, and its refutation; each perhaps a byte or two changed."""
    names, letters = ["Z", *(f"N{at}" for at in range(draw.randint(1, 4)))], LETTERS[: draw.randint(0, 3)]
    labels = ["", *(sign + it for it in letters for sign in ("", "!")), "".join(letters)]
    nodes = [f"{name}:{letter}:{draw.choice(('', '2', '3'))}:{draw.choice(labels + [''] * 5)}" if name != "Z" else "Z"
             for name, letter in zip(names, ["", *letters, *[""] * 4])]
    edges = [f"{draw.choice(names)}->{draw.choice(names)} {draw.randint(-9, 3)} {draw.choice(labels) or '⊡'}"
             for _ in range(draw.randint(2, 7))]
    text = compact(nodes, edges, f'<data key="Deadline">{draw.randint(0, 12)}</data>').encode()
    proof = run(["check", folder.put("f", text)])[1]
    if draw.random() < 0.3:
        text = changed(draw, text)
    if draw.random() < 0.7:
        proof = changed(draw, proof)
    return folder.put("f", text), folder.put("p", proof)


def changed(draw, text):
    """A text with a byte or two put in, taken out, or written otherwise."""
    text = bytearray(text)
    for _ in range(draw.randint(1, 2)):
        at = draw.randrange(len(text)) if text else 0
        byte = draw.choice(b'0123456789-!?pqNZ \n\r\t<>/"&;:{}(),_\x00\x1b\xc2\xac')
        text[at : at + draw.randint(0, 1)] = bytes([byte]) if draw.random() < 0.8 else b""
    return bytes(text)


TABLES = (dear, hidden, forged, odd_files, drawn)
