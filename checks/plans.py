"""The tables of checks/plans: worked plans, each refusal, the examples, and drawn texts and networks."""
import functools
import os
import random
import resource
import subprocess
import sys

from runs import DOCUMENT, GOOD, MEMORY, PROGRAM, READ_FAULT, TOP, WORDS, WRITE_FAULT, check, compact, examples, run, side_by_side

sys.path.append(os.path.join(TOP, "deciders"))

from documents import as_document, fault, of_document
from drawn_plans import drawn_network, drawn_text
from sentences import Refused, network_said, plan, sentences

PLAN = DOCUMENT
MARK = b"\xef\xbb\xbf"


@functools.cache
def has(command):
    """Whether the program has the command: else it answers a folder's name by `words`."""
    return run([command, TOP])[0] != WORDS


def planned(text, deadline=None):
    """What the model answers: the status, and the document or the refusal."""
    try:
        return GOOD, as_document(plan(text, deadline))
    except Refused as why:
        return PLAN, f"plan {why}\n".encode()


class Plans:
    """Asks the model, and, once it has the commands, the program too."""

    def __init__(self, folder):
        self.folder = folder
        self.has_plan, self.has_sentences = has("plan"), has("sentences")

    def plan(self, name, text, deadline=None):
        """What `plan` answers to a text."""
        found = planned(text, deadline)
        if self.has_plan:
            check(f"{name}: the program", run(["plan", self.folder.put("plan", text), *option(deadline)]), found)
        return found

    def sentences(self, name, document, deadline=None):
        """What `sentences` answers to a document."""
        path = self.folder.put("document", document)
        found = sentences(of_document(run(["save", path, *option(deadline)])[1]))
        if self.has_sentences:
            check(f"{name}: the program", run(["sentences", path, *option(deadline)]), (GOOD, found))
        return found


def option(deadline):
    return [] if deadline is None else ["--deadline", str(deadline)]


def text_of(rows):
    """The text of rows with `/` between the lines, by the deadline 9."""
    return "\n".join(["deadline 9", *rows.split(" / ")]).encode() + b"\n"


# Rows: the lines behind `deadline 9`, and the time-points and constraints, as runs.compact has them.
MEANT = (
    ("step X / X at 5..", ["X"], ["X->Z -5"]),
    ("step X / X at 5", ["X"], ["X->Z -5", "Z->X 5"]),
    ("step X / X at 2..5", ["X"], ["X->Z -2", "Z->X 5"]),
    ("step X / X at -5..-2", ["X"], ["X->Z 5", "Z->X -2"]),
    ("step X / X by 5", ["X"], ["Z->X 5"]),
    ("X by 5 / step X", ["X"], ["Z->X 5"]),
    ("step X / step Y / X 2..5 after Y", ["X", "Y"], ["X->Y -2", "Y->X 5"]),
    ("step X / step Y / X 2.. after Y", ["X", "Y"], ["X->Y -2"]),
    ("step X / step Y / X 2 after Y", ["X", "Y"], ["X->Y -2", "Y->X 2"]),
    ("step X / step Y / X -3..-2 after Y", ["X", "Y"], ["X->Y 3", "Y->X -2"]),
    ("step X / step Y / X by 5 after Y", ["X", "Y"], ["Y->X 5"]),
    ("step X / step Y / X by -5 after Y", ["X", "Y"], ["Y->X -5"]),
    ("step X / step Y / X within 5 after Y", ["X", "Y"], ["X->Y 0", "Y->X 5"]),
    ("step X / step Y / X after Y", ["X", "Y"], ["X->Y 0"]),
    ("step X / step Y / X with Y", ["X", "Y"], ["X->Y 0", "Y->X 0"]),
    ("step X / step Y / X 1..2 after Y and Z", ["X", "Y"], ["X->Y -1", "Y->X 2", "X->Z -1", "Z->X 2"]),
    ("step X / Z with X", ["X"], ["Z->X 0", "X->Z 0"]),
    ("step Z observes p after 3 / step X if not p", ["Z:p:3", "X:::!p"], []),
    ("step P observes p / step X / X after P if p and not p1 / step Q observes p1 as q", ["P:p", "X", "Q:q"],
     ["X->P 0 p!q"]),
    ("step P observes p after 4 / step X / X 2..5 after result of p", ["P:p:4", "X"], ["X->P -6", "P->X 9"]),
    ("step P observes p / step X / X with result of p", ["P:p", "X"], ["X->P -1", "P->X 1"]),
    ("step P observes p / step X / X by -1 after result of p", ["P:p", "X"], ["P->X 0"]),
    ("task T 3..4", ["T", "T.end"], ["T.end->T -3", "T->T.end 4"]),
    ("task T 3.. observes p after 2 / step X if p", ["T", "T.end:p:2", "X:::p"], ["T.end->T -3"]),
    ("step P observes p / task T 0..4 if p", ["P:p", "T:::p", "T.end:::p"], ["T.end->T 0", "T->T.end 4"]),
    ("task T 3 / step X / X after T / T at 1.. / T by 5 / T by 2 after X", ["T", "T.end", "X"],
     ["T.end->T -3", "T->T.end 3", "X->T.end 0", "T->Z -1", "Z->T.end 5", "X->T.end 2"]),
    ("task T 3 / step X / X after start of T / end of T at 1.. / start of T by 5 / T.end after X", ["T", "T.end", "X"],
     ["T.end->T -3", "T->T.end 3", "X->T 0", "T.end->Z -1", "Z->T 5", "T.end->X 0"]),
    ("step S observes damage as d after 0:05 / task T 3..4 / step X / "
     "X within 2 after result of damage and T / T by 8 / T after S / "
     "end of T 1.. after start of T if not damage / X with S", ["S:d:5", "T", "T.end", "X"],
     ["T.end->T -3", "T->T.end 4", "X->S -5", "S->X 7", "X->T.end 0", "T.end->X 2", "Z->T.end 8", "T->S 0",
      "T.end->T -1 !d", "X->S 0", "S->X 0"]),
    ("step \"Log book\" / step \"A B\"", ["Log book", "A B"], []),
    ("step \"step\"#a comment / \"step\" by 5\t\r", ["step"], ["Z->step 5"]),
    ("step 5 / 5 5 after 5 / step 1..2 / 1..2 1..2 after 5", ["5", "1..2"],
     ["5->5 -5", "5->5 5", "1..2->5 -1", "5->1..2 2"]),
    ("step X # step Z / step Y", ["X", "Y"], []),
    ("step X#Y / X#Y by 1", ["X#Y"], ["Z->X#Y 1"]),
    ("step \"#1\" / step 50%25 / step A%09B / step \"it's%22\"", ["#1", "50%", "A&#9;B", "it's&quot;"], []),
)

# Rows with a clock: the whole text but for the deadline, the deadline, time-points and constraints.
CLOCKS = (
    ("start 22:00 / deadline 6:00 / step X / X by 5:30 / X at 23:00..1:00 / X 1:00.. after Z", 480, ["X"],
     ["Z->X 450", "X->Z -60", "Z->X 180", "X->Z -60"]),
    ("X by 5:30 / deadline 06:00 / step X / start 22:00", 480, ["X"], ["Z->X 450"]),
    ("start 22:00 / deadline 24:00 / step X / X by 22:00 / X at 21:59 / X by 0:30 after Z", 1440, ["X"],
     ["Z->X 0", "X->Z -1439", "Z->X 1439", "Z->X 30"]),
    ("start 0:00 / deadline 600 / step X / X at -1:00..1:00", 600, ["X"], ["X->Z 60", "Z->X 60"]),
    ("deadline 10:00 / task T 0:30..1:00", 600, ["T", "T.end"], ["T.end->T -30", "T->T.end 60"]),
)

# The lines behind `deadline 9`, and why they are refused.
REFUSED = r"""
X ..30 after Y => line 2 word 2
X by -3 => line 2 word 4
step Log book => line 2 word 3
step X / X at five => line 3 word 3
step X if b / step Y if b !l => line 3 word 5
step X observes damage => line 2 word 5
step "X" => line 2 word 2
step Log%20book => line 2 word 2
step "Log%20book" => line 2 word 2
step a%22b => line 2 word 2
step a%4 => line 2 word 2
step a%41 => line 2 word 2
step a%0a => line 2 word 2
step %FF => line 2 word 2
step "" => line 2 word 2
step xxxxxxxxxxxxxxxxxxxxxxxxxxxxxxxxxxxxxxxxxxxxxxxxxxxxxxxxxxxxxxxxx => line 2 word 2
step ééééééééééééééééééééééééééééééééé => line 2 word 2
step at => line 2 word 2
Step X => line 2 word 2
step => line 2 word 2
"step" X => line 2 word 2
step X observes => line 2 word 4
step X observes 5 => line 2 word 4
step X observes p as d => line 2 word 5
step X observes damage as => line 2 word 6
step X observes damage as 5 => line 2 word 6
step X observes p after => line 2 word 6
step X observes p after -1 => line 2 word 6
step X if => line 2 word 4
step X if p observes p => line 2 word 5
step X if not => line 2 word 5
step X if p and => line 2 word 6
step X if xxxxxxxxxxxxxxxxxxxxxxxxxxxxxxxxxxxxxxxxxxxxxxxxxxxxxxxxxxxxxxxxx => line 2 word 4
step X if "p" => line 2 word 4
task T => line 2 word 3
task T after X => line 2 word 3
task T 3..4 5 => line 2 word 4
deadline => line 2 word 2
deadline -1 => line 2 word 2
deadline 07 => line 2 word 2
deadline 0:60 => line 2 word 2
deadline 10000:00 => line 2 word 2
deadline 9 9 => line 2 word 3
start => line 2 word 2
start 5 => line 2 word 2
X => line 2 word 2
X at => line 2 word 3
X at -0 => line 2 word 3
X at 1...2 => line 2 word 3
X at 1..2..3 => line 2 word 3
X at 1 ..2 => line 2 word 4
X within -1 after Y => line 2 word 3
X within 5 Y => line 2 word 4
X after => line 2 word 3
X after Y and => line 2 word 5
X after Y Y => line 2 word 4
X after result => line 2 word 4
X after result of => line 2 word 5
X after result of 5 => line 2 word 5
X 5 with Y => line 2 word 3
end of => line 2 word 3
end X => line 2 word 2
result of p after X => line 2 word 1
start of X => line 2 word 4
and => line 2 word 1
X at 5 after Y => line 2 word 4
X at +5 => line 2 word 3
step "X => line 2 word 0
step "X # " " => line 2 word 0
step X / X at 6..5 => line 3 range
step X / X 6..5 after X => line 3 range
task T 6..5 => line 2 range
X by 1000000001 => line 2 range
X at -1000000001.. => line 2 range
X by 99999999999999999999 => line 2 range
step X observes p after 0 => line 2 range
step X observes p after 1001 => line 2 range
start 24:00 => line 2 range
start 9999:59 => line 2 range
X at 6..5 => line 2 name X
deadline 1000000001 => line 2 range
step X / X at 6..5 if damage => line 3 range
step P observes p after 1000 / P by 999999000 after result of p / P by 999999001 after result of p => line 4 range
step P observes p after 1000 / P by 999999001 after result of p if damage => line 3 letter damage
deadline 9 => line 2 twice deadline
start 1:00 / start 1:00 => line 3 twice start
step X / step X => line 3 twice X
task T 1 / step T.end => line 3 twice T.end
step T.end / task T 1 => line 3 twice T.end
step T / task T 1 => line 3 twice T
step Z / step Z => line 3 twice Z
step Z / task Z 5 => line 3 twice Z
step "a b" / step "a b" => line 3 twice a%20b
task Z 5 => line 2 name Z
step X observes damage as d / step Y observes damage as e => line 3 twice damage
step X observes damage as d / step Y observes harm as d => line 3 twice d
step X observes damage as d / step Y observes damage as d => N7 d X Y
step X if p and p => line 2 twice p
step X if p and not p => line 2 twice p
step X if harm and p and harm => line 2 twice harm
X by 5 if p and p => line 2 twice p
step X observes damage as d if damage and d => line 2 twice d
step X / Y at 5 => line 3 name Y
step X / X after Y => line 3 name Y
step X / end of X by 3 => line 3 name X
step X / X after start of X => line 3 name X
task T 1 / end of T.end by 3 => line 3 name T.end
end of Z by 3 => line 2 name Z
step X / X after "a b" and Y => line 3 name a%20b
Y at 6..5 / step X / step X => line 4 twice X
step X if damage => line 2 letter damage
step X / X after result of p => line 3 letter p
step X / X after result of damage if harm => line 3 letter damage
step X / X after Y if harm => line 3 name Y
step X / X 5 after X if p => N6 p
step X / X after X if q and p and A => N6 A
step X observes p / step Y observes p / X after result of p => N7 p X Y
step X if p => L3 X p
step Z if p => L1
step X if q and p => L3 X p
step P observes p if p => L4 P
step P observes p if q / step Q observes q if p => L4 P
step P observes p / step Q observes q if p / step X if q and not p => L5 X
step X / step Y if p / X by 1 if q => N6 q
"""
LONG_WORD = 65 * "x"
LONGER_LINES = (
    (f"step {LONG_WORD}", "line 2 word 2"),
    (f"step X if {LONG_WORD}", "line 2 word 4"),
    (4097 * "#", "line 2 word 0"),
    (f"task {61 * 'x'} 5", f"line 2 name {61 * 'x'}"),
    (f"task {31 * 'é'} 5", f"line 2 name {31 * 'é'}"),
    ("step P observes p after 1000 / P by 999999000 after result of p / "
     "P by 999999001 after result of p", "line 4 range"),
)


def refused_rows():
    """The rows above, each with why it is refused."""
    yield from (row.split(" => ") for row in REFUSED.strip().split("\n"))
    yield from LONGER_LINES


def worked(folder):
    """Plans, and the documents that they mean; both are one by `save`."""
    plans = Plans(folder)
    for rows, points, edges in MEANT:
        nodes = points if points[0].split(":")[0] == "Z" else ["Z", *points]
        document = folder.put("f", compact([it.replace("!", "¬") for it in nodes], edges))
        wanted = run(["save", document, "--deadline", "9"])
        check(rows, plans.plan(rows, text_of(rows)), wanted)
    for rows, deadline, points, edges in CLOCKS:
        wanted = run(["save", folder.put("f", compact(["Z", *points], edges)), "--deadline", str(deadline)])
        check(rows, plans.plan(rows, rows.replace(" / ", "\n").encode()), wanted)
    origin = run(["save", folder.put("f", compact(["Z"], [])), "--deadline", "0"])
    for name, text, option_, wanted in (
        ("nothing", b"", None, (PLAN, b"plan deadline\n")), ("nothing, by a deadline", b"", 0, origin),
        ("a byte order mark", MARK + b"deadline 0", None, origin),
        ("two byte order marks", 2 * MARK + b"deadline 0", None, (PLAN, b"plan line 1 word 3\n")),
        ("another deadline", b"deadline 5", 0, origin),
        ("another deadline, and a wrong line", b"deadline five", 0, (PLAN, b"plan line 1 word 2\n")),
        ("a late deadline", b"deadline 1000001", None, (PLAN, b"plan N4 1000001\n")),
        ("bytes", b"deadline 5\n\xff", None, (PLAN, b"plan line 2 word 0\n")),
        ("a line of 4,096 bytes", b"deadline 0\n" + 4096 * b"#" + b"\n", None, origin),
        ("CR", b"deadline 0\r\n\r\n", None, origin),
        ("8,388,608 bytes", b"deadline 0\n" + 8_388_597 * b"\n", None, origin),
        ("a byte more", b"deadline 0\n" + 8_388_598 * b"\n", None, (PLAN, b"plan long\n")),
    ):
        check(name, plans.plan(name, text, option_), wanted)


def refused(folder):
    plans = Plans(folder)
    for rows, why in refused_rows():
        check(rows, plans.plan(rows, text_of(rows)), (PLAN, f"plan {why}\n".encode()))
    check("a NUL in a comment", plans.plan("a NUL", b"deadline 9\n# \0\n")[0], GOOD)
    many, each = "".join(f"step S{number}\n" for number in range(1_023)), " and ".join(18 * ["X"])
    for name, text, why in (
        ("1,024 time-points", many, ""), ("1,025 time-points", many + "step X\n", "N1"),
        ("16,384 constraints", 8_192 * "Z with Z\n", ""),
        ("16,385 constraints", 8_192 * "Z with Z\n" + "Z by 0\n", "N3"),
        ("many by labels", "step P observes p\nstep X if p\n" + 8_192 * "Z with Z\n", "L6"),
        ("many by one line", f"step X\n{911 * f'Z after {each}{chr(10)}'}", "N3"),
    ):
        found = plans.plan(name, b"deadline 9\n" + text.encode())
        check(name, found if why else found[0], (PLAN, f"plan {why}\n".encode()) if why else GOOD)


def examples_as_plans(folder):
    """Each example as a plan means its document, ids and all, and so does what the document says in sentences."""
    plans = Plans(folder)
    for name, path, more in examples():
        saved = run(["save", path, *more])
        with open(path.replace(".graphml", ".plan"), "rb") as file:
            check(f"{name}: as a plan", plans.plan(name, file.read()), saved)
        with open(path, "rb") as file:
            said = plans.sentences(name, file.read(), int(more[1]) if more else None)
        check(f"{name}: there and back", plans.plan(name, said), saved)


# What a text may cost: its name, the text, and the seconds, ten times what is promised.
LONG = 8_388_000
DEAR = (
    ("1,024 steps and 16,384 constraints", "deadline 9\n" + "".join(f"step S{number}\n" for number in range(1_023))
     + "".join(f"S{number % 1_023} 0..9 after S{number * 7 % 1_023}\n" for number in range(8_192)), 0.5),
    ("8 MB of comments", "deadline 9\n" + f"# {4_000 * 'x'}\n" * (LONG // 4_003), 5),
    ("8 MB of lines without words", "deadline 9\n" + (LONG - 11) * "\n", 5),
    ("8 MB of one name", "deadline 9\nstep X\n" + f"X after {' and '.join(500 * ['X'])}\n" * 2_780, 5),
    ("8 MB of words that stand for no letter",
     "deadline 9\nstep X\n" + f"X by 5 if {' and '.join(f'w{n}' for n in range(400))}\n" * 2_390, 5),
    ("8 MB of steps", "deadline 9\n" + "".join(f"step {'x' * 40}{number}\n" for number in range(160_000)), 5),
    ("8 MB of short rules", "deadline 9\nstep X\n" + "X by 9\n" * 1_198_000, 5),
    ("8 MB of short tasks", "deadline 9\n" + "".join(f"task T{number} 1\n" for number in range(540_000)), 5),
)


def children_time():
    """The processor seconds of all programs that ran and ended, which other work on the machine changes little."""
    used = resource.getrusage(resource.RUSAGE_CHILDREN)
    return used.ru_utime + used.ru_stime


def costs_of_texts(folder):
    """Texts at the limits are read in time, by the program."""
    plans = Plans(folder)
    for name, text, most in DEAR if plans.has_plan else ():
        assert len(text) <= LONG, (name, len(text))
        begun = children_time()
        run(["plan", folder.put("f", text)])
        spent = children_time() - begun
        check(f"{name}: {spent:.3f} s", spent < most, True)
        print(f"plans: {name}: {spent:.3f} s")


def ends(folder):
    """How the program ends where words are none, a file cannot be read, the output fails, or memory is short."""
    plans, none, nothing = Plans(folder), folder.at("none"), folder.put("nothing", "")
    if not plans.has_plan or not plans.has_sentences:
        return
    for command in ("plan", "sentences"):
        for more in ("", "5", "--deadline", "--deadline 05", "--deadline 1000001", "--cap 5", "--deadline 5 --cap 5"):
            check(f"{command} FILE {more}", run([command, nothing, *more.split()] if more else [command]),
                  (WORDS, b"words\n"))
        for name, path in (("no file", none), ("a folder", folder.path), ("an empty name", "")):
            check(f"{command} of {name}", run([command, path]), (READ_FAULT, b"read fault\n"))
    for command, path, wrote in (
        ("plan", "/dev/zero", b"plan long\n"), ("plan", "/dev/null", b"plan deadline\n"),
        ("sentences", "/dev/zero", b"document long\n"), ("sentences", "/dev/null", b"document X2 at 0\n"),
    ):
        check(f"{command} {path}", run([command, path]), (DOCUMENT, wrote))
    document = folder.put("document", compact(["Z"], []))
    check("sentences without a deadline", run(["sentences", document]), (DOCUMENT, b"document X9\n"))
    check("sentences by a deadline", run(["sentences", document, "--deadline", "5"]), (GOOD, b"deadline 5\n"))
    full = ["bash", "-c", '"$1" plan "$2" --deadline 5 >/dev/full', "", PROGRAM, nothing]
    check("a full device", subprocess.run(full, check=False, stderr=subprocess.DEVNULL).returncode, WRITE_FAULT)
    text, *_ = (it for name, it, _ in DEAR if "16,384" in name)
    wanted = run(["plan", folder.put("dear", text)])
    for most in (200, 60, 30, 20, 14):
        how = {"preexec_fn": lambda: resource.setrlimit(resource.RLIMIT_AS, (most << 20, most << 20))}
        found = run(["plan", folder.at("dear")], **how)
        check(f"{most} MB of memory", found in (wanted, (MEMORY, b"memory\n"), (MEMORY, b"")), True)


TABLES = (worked, refused, examples_as_plans, costs_of_texts, ends)


def kind_of(words):
    """The kind of a refusal: behind `line N` its word, of which 0 is a kind of its own."""
    return " ".join(words[3:5] if words[3:] == ["word", "0"] else words[3:4]) if words[1] == "line" else words[1]


def network_trial(folder, number):
    """What a network says in sentences is a plan of it, and its document is read as it. The program says the same of that document."""
    network = drawn_network(random.Random(number))
    said, document = sentences(network), as_document(network)
    check(f"network {number}: there and back", plan(said), network)
    check(f"network {number}: its document", of_document(document), network)
    if has("sentences"):
        check(f"network {number}: the program", run(["sentences", folder.put("document", document)]), (GOOD, said))
    return "a network"


def text_trial(folder, number):
    """A text is refused, or says a network that its sentences say too. The program takes it likewise."""
    text = drawn_text(random.Random(number))
    status, wrote = Plans(folder).plan(f"text {number}", text)
    if status == GOOD:
        network = plan(text)
        check(f"text {number}: there and back", plan(sentences(network)), network)
    if number % 20 == 0 and (status == GOOD or wrote[5:6] in b"NL"):
        document = as_document(network_said(text))
        kind = b"X10" if wrote[5:6] == b"N" else b"X12"
        wanted = (GOOD, document) if status == GOOD else (DOCUMENT, b"document " + kind + b" " + wrote[5:])
        check(f"text {number}: its document", run(["save", folder.put("f", document)]), wanted)
    return "accepted" if status == GOOD else kind_of(wrote.decode().split())


def trials(count):
    """Tables of so many drawn networks and texts."""

    def drawn_networks(_):
        side_by_side(network_trial, count)

    def drawn_texts(_):
        told = side_by_side(text_trial, count).most_common()
        print("plans: drawn texts:", ", ".join(f"{why} {times}" for why, times in told))

    return drawn_networks, drawn_texts
