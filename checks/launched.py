"""Plans in sentences where the script `cstn` takes a document: what it writes, and why it is refused; for checks/plans.

Where the program has no command `plan` yet, a stub that asks the model of deciders/ stands in for it.
"""
import hashlib
import os
import random
import re
import shutil
import subprocess
import sys

from runs import DOCUMENT, GOOD, PROGRAM, READ_FAULT, SECONDS, TOP, WORDS, check, run

sys.path.append(os.path.join(TOP, "deciders"))

sys.path.append(os.path.join(TOP, "python"))

from cstn.refused import why_refused
from cstn.said import said as said_in
from drawn_plans import Text, drawn_text
from sentences import AUTOMATON, KEYWORDS, Reader, Refused, heard_in, words_of

NOTHING_TO_RUN = 13
STUB = f"""#!{sys.executable} -B
import os, subprocess, sys
sys.path.insert(0, {os.path.join(TOP, "deciders")!r})
command, words = "".join(sys.argv[1:2]), sys.argv[1:]
if command in ("plan", "sentences"):
    import documents, sentences
    if len(words) == 4 and not words[3].isdigit():
        sys.exit(print("words") or 2)
    if not os.path.isfile(words[1]):
        sys.exit(print("read fault") or 5)
if command == "plan":
    sys.exit(sentences.main(words))
if command == "sentences":
    saved = subprocess.run([{PROGRAM!r}, "save", *words[1:]], stdout=subprocess.PIPE, close_fds=False)
    told = saved.stdout if saved.returncode else sentences.sentences(documents.of_document(saved.stdout))
    sys.exit(sys.stdout.buffer.write(told) and saved.returncode)
os.execv({PROGRAM!r}, [{PROGRAM!r}, *words])
"""

# Texts, with `/` between the lines; why each is refused, in words; and the line with the mark, where one is shown.
SHOWN = r"""
deadline 9 / step X if b / step Y if b !l
line 3: here may stand and, or nothing more
step Y if b !l
            ^^

step "Zürich é" if
line 1: here may stand a letter, a word for one, or not
step "Zürich é" if
                   ^

step Log book # a
line 1: here may stand observes, if, or nothing more; a name with a space stands in quotes
step Log book # a
         ^^^^

X by -3
line 1: here may stand after
X by -3
        ^

step "X
line 1: this quote has no end
step "X
     ^^

step X / X by 5 / X at 6..5
line 3: the range ends before it begins
X at 6..5
     ^^^^

start 22:00 / step X / X at 21:00..23:00
line 3: by the clock the range ends before it begins
X at 21:00..23:00
     ^^^^^^^^^^^^

start 24:00
line 1: a clock is from 0:00 to 23:59
start 24:00
      ^^^^^

step X / X -1000000001..5 after X
line 2: a number is above 1000000000 either way
X -1000000001..5 after X
  ^^^^^^^^^^^^^^

step X observes p after 0
line 1: a reaction is from 1 to 1000
step X observes p after 0
                        ^

step P observes p after 2 / P by 999999999 after result of p
line 2: a number is above 1000000000 with the reaction of its result
P by 999999999 after result of p

step X /  / step X
line 3: line 1 has a step X already
step X
     ^

task T 1 / step T.end
line 2: line 1 has a step T.end already
step T.end
     ^^^^^

deadline 9 / deadline 9
line 2: the deadline was said above
deadline 9
^^^^^^^^

step X observes damage as d / step Y observes harm as d
line 2: this letter has another word already
step Y observes harm as d
                        ^

step X observes damage as d / step Y observes damage as e
line 2: this word stands for another letter already
step Y observes damage as e
                ^^^^^^

step X if p and not p
line 1: the letter of p stands twice in the label
step X if p and not p
                    ^

step X / X after "a b"
line 2: no line says step a%20b, or task a%20b
X after "a b"
        ^^^^^

step X / X after end of X
line 2: X is a step, and no task
X after end of X
               ^

task Z 5
line 1: the start, Z, is no task
task Z 5
     ^

step X / X after result of p
line 2: no step observes p
X after result of p
                  ^

step X if damage
line 1: damage stands for no letter: no step observes damage as a letter
step X if damage
          ^^^^^^

step X
no line says the deadline: write deadline and a time, or say --deadline N

deadline 9 / step P observes p / step Q observes p
P (line 2) and Q (line 3) both observe p

deadline 9 / step X if p
the label of X (line 2) names p, which no step observes
"""


def rows_shown():
    """The rows above; and lines with a sign, or a byte, that a screen obeys."""
    for block in SHOWN.strip().split("\n\n"):
        text, *said = block.split("\n")
        yield text.replace(" / ", "\n"), said
    keyword = "line 2: here may stand a name; one with a space, or that is a keyword, stands in quotes"
    yield "deadline 9\nstep \x1b[2J\n", [keyword, "step ?[2J", "     ^^^^"]
    yield b"step \x9b2J\xc3\xa9\n", ["line 1: the line is not UTF-8", "step ?2J??"]


EXPLAINED = """Sample tells infection (i), which is known 60 ticks later.
Antibiotic is executed only if infection (i) is true.
0 (line 6: Sample by 15): Sample at 15 or earlier
"""


class Checkout:
    """A folder in which the script `cstn` starts the program, or the stub, as one that was built."""

    def __init__(self, folder):
        self.path, self.temporary = folder.at("checkout"), folder.at("temporary")
        for path in ("tools", "crates/cstn/out", "crates/cstn/src"):
            os.makedirs(self.at(path))
        os.makedirs(self.temporary)
        os.symlink(os.path.join(TOP, "python"), self.at("python"))
        shutil.copy(os.path.join(TOP, "cstn"), self.at("cstn"))
        for name in ("checksum", "commands.txt", "hints.sh", "plans.sh", "refused.awk"):
            os.symlink(os.path.join(TOP, "tools", name), self.at("tools", name))
        program = self.at("crates/cstn/out/cstn")
        if run(["plan", TOP])[0] != WORDS:
            shutil.copy(PROGRAM, program)
        else:
            self.put("crates/cstn/out/cstn", STUB)
            os.chmod(program, 0o755)
        self.env = {**os.environ, "TMPDIR": self.temporary}
        for name in ("CSTN", "CSTN_NO_BUILD"):
            self.env.pop(name, None)
        self.put("crates.txt", "cstn:\n")
        self.put("crates/cstn/src/main.rt", "")
        with open(program, "rb") as file:
            made = hashlib.sha256(file.read()).hexdigest()
        sources = subprocess.run([self.at("tools/checksum")], stdout=subprocess.PIPE, text=True, check=True).stdout
        self.put("crates/cstn/out/made-from", f"sources {sources}program {made}\n")

    def at(self, *names):
        return os.path.join(self.path, *names)

    def put(self, name, text):
        with open(self.at(name), "wb") as file:
            file.write(text if isinstance(text, bytes) else text.encode())
        return self.at(name)

    def answer(self, words, live):
        """What the program answers itself."""
        done = subprocess.run([self.at("crates/cstn/out/cstn"), *words], input=live.encode(), stdout=subprocess.PIPE,
                              stderr=subprocess.DEVNULL, timeout=SECONDS, check=False)
        return done.returncode, done.stdout

    def called(self, *words, live="", **env):
        """The status of the script, what it writes, and what it says on standard error."""
        done = subprocess.run([self.at("cstn"), *words], input=live.encode(), stdout=subprocess.PIPE,
                              stderr=subprocess.PIPE, timeout=SECONDS, env={**self.env, **env}, cwd=self.path,
                              check=False)
        return done.returncode, done.stdout, done.stderr.decode()


def evidence(folder, path):
    """Files for a document, each with the commands that take it."""
    for name, *words in (("no", "check", path, "--deadline", "80"), ("bounds", "closed", path), ("tree", "tree", path)):
        yield folder.put(name, run(words)[1])


def calls(folder, visit, pathway, mission):
    """Calls with documents, and what is typed: of each command, with options, and with words that are none."""
    no, bounds, tree = evidence(folder, mission)
    yield from ((words, "") for words in (
        ["check", visit], ["check", mission, "--deadline", "80"], ["check", visit, "--cap", "0"],
        ["check", visit, "--cap"], ["check", visit, "--deadline", "five"], ["check", visit, "--cap", "4"],
        ["save", pathway], ["conflict", pathway], ["conflict", mission, "--deadline", "80"],
        ["tight", mission, "--cap", "100"], ["tree", visit], ["closed", pathway], ["closedcheck", mission, bounds],
        ["treecheck", mission, tree], ["replay", mission, no, "--deadline", "80"], ["sentences", pathway],
        ["sentences", pathway, "--deadline", "400"], ["host", *[visit] * 7],
    ))
    yield ["run", visit], "moment 0\nsee p true\nmoment 10\n"
    yield ["follow", pathway, "--cap", "99"], "did 5 Sample\nnext\n"
    yield ["edit", visit], "add Test Z -3 -\ncheck\n"
    yield ["host", "--deadline", "90", "--cap", "500", mission, visit, mission], "open 1 0\non 1 due\n"
    yield ["host", *[visit] * 7], "open 1 6\n"


def taken(folder):
    """A plan stands where a command takes a document: the answers are those for its document, and no file is left."""
    here, names = Checkout(folder), ("test-and-visit", "clinical-pathway", "mission")
    paths = [os.path.join(TOP, "examples", f"{name}.graphml") for name in names]
    as_plan = {path: path.replace(".graphml", ".plan") for path in paths}
    odd = [here.put(name, "deadline 9\nstep X\nX by 5\n") for name in ("a=b.plan", "-x.plan", "a b'.plan")]
    for words, live in calls(folder, *paths):
        wanted = here.answer(words, live)
        for env in ({}, {"CSTN_NO_BUILD": "1"}):
            status, wrote, told = here.called(*(as_plan.get(it, it) for it in words), live=live, **env)
            is_loud = bool(told) and (bool(env) or status < 2)
            check(f"{words[0]} of a plan {env}", (status, wrote, is_loud), (*wanted, False))
    for name in map(os.path.basename, odd):
        check(f"a plan called {name}", here.called("check", name)[:2], (GOOD, b"yes 2\n"))
    found = here.called("check", "none.plan")
    check("a plan that is no file", found, (READ_FAULT, b"read fault\n", "cstn: there is no file none.plan\n"))
    status, wrote, told = here.called("host", *[as_plan[paths[0]]] * 8)
    check("eight plans", (status, wrote, "at most seven plans" in told), (NOTHING_TO_RUN, b"", True))
    check("what is left behind", os.listdir(here.temporary), [])


def as_said(lines):
    """What the script says on standard error of the plan f.plan that is refused."""
    why, *shows = lines
    return "".join(f"cstn: {it}\n" for it in (f"f.plan, {why}", *(f"  {line}" for line in shows)))


def shown(folder):
    """A plan that is refused ends the script with 3, in all commands, and its line is shown with the mark."""
    here = Checkout(folder)
    for text, lines in rows_shown():
        wanted = *here.answer(["plan", here.put("f.plan", text)], ""), as_said(lines)
        check(f"{text!r} is refused", wanted[0], DOCUMENT)
        if "?" not in "".join(lines):
            why, more = why_refused(text.encode(), wanted[1].decode().rstrip("\n"))
            check(f"{text!r} in the package", [why, *more], [re.sub(r"^line \d+: ", "", lines[0]), *lines[1:]])
        for command, env in (("check", {}), ("follow", {"CSTN_NO_BUILD": "1"}), ("plan", {})):
            check(f"{text!r} by {command} {env}", here.called(command, "f.plan", live="now 0\n", **env), wanted)
    check("what is left behind", os.listdir(here.temporary), [])


def explained(folder):
    """`explain` names constraints by the lines of a plan, and says why one is refused; so it does of drawn plans."""
    here, (text, lines) = Checkout(folder), next(rows_shown())
    status, wrote, told = here.called("explain", os.path.join(TOP, "examples", "clinical-pathway.plan"))
    check("explain", (status, EXPLAINED in wrote.decode(), told), (GOOD, True, ""))
    here.put("f.plan", text)
    wrote = f"plan line 3 word 5\nline 3: {lines[1]}\n".encode()
    check("explain of a plan that is refused", here.called("explain", "f.plan"), (DOCUMENT, wrote, as_said(lines)))
    for number in range(500):
        text = drawn_text(random.Random(number))
        try:
            heard = heard_in(text)
            count = len(Reader(heard).network(9).constraints)
        except Refused:
            continue
        found, words = said_in(text), {letter: word for word, letter in heard.letters.items()}
        told = len(found.rows), len(found.says), found.words
        check(f"what the lines of plan {number} say", told, (count, count, words))


def places():
    """The table of python/cstn/places.txt: for each place what may stand there in words, and where words lead."""
    with open(os.path.join(TOP, "python", "cstn", "places.txt"), encoding="utf-8") as table:
        rows = [line.rstrip("\n").split(" | ") for line in table if not line.startswith("#")]
    return {name: (says, dict(it.split(":") for it in (leads or [""])[0].split())) for name, says, *leads in rows}


def place_behind(table, words):
    place = "line"
    for word in words:
        leads = table[place][1]
        kinds = [word.text] if not word.quoted else []
        kinds += ["LETTER"] if re.fullmatch("[A-Za-z]", word.text) else []
        kinds += ["NEGATIVE"] if word.text[0] == "-" else []
        place = next((leads[it] for it in kinds if it in leads), leads.get("*"))
    return place


def told_places(_):
    """What may stand at a place, as the script says it, is what the model takes: keywords, other words, an end."""
    table, seen = places(), set()
    for number in range(400):
        for line in Text(random.Random(number)).lines():
            words = words_of(line.encode())
            if AUTOMATON.reading(words)[0] is None:
                continue
            for count in range(len(words) + 1):
                place = place_behind(table, words[:count])
                awaited, (says, leads) = AUTOMATON.awaited(words[:count]), table[place]
                seen.add(place)
                found = KEYWORDS & leads.keys(), bool(leads.keys() - KEYWORDS), "nothing" in says
                wanted = KEYWORDS & set(awaited), any(it not in KEYWORDS for it in awaited if it), "" in awaited
                check(f"{line!r} behind {count} words", found, wanted)
    check("places that were seen", seen, set(table))


LAUNCHED = (taken, shown, explained, told_places)
