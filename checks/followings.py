"""Sessions that follow a plan, which checks/hostile holds: what is typed, what is answered, and how they end.

A session is said as it is typed, stopped at each of its lines and begun again, and torn in the middle of each. What is left after
each line is written as a document, and checked. Sessions over drawn plans are in deciders/continuations.py.
"""
import os
import subprocess
import sys
import threading

from continuations import continuations
from runs import (BAD, BRANCH, DOCUMENT, FULL, GOOD, PROGRAM, READ_FAULT, SCRIPT, SECONDS, TOP, TWO_POINTS, UNFINISHED, WORDS, WRITE_FAULT,
                  case, check, compact, examples, first_line, run)

PATHWAY = os.path.join(TOP, "examples", "clinical-pathway.graphml")

# What is typed, behind `> `, and what is answered, in sessions that follow a plan; the last line of each is its end.
FOLLOWED = (
    ("a late step, and a limit given up", "clinical-pathway.graphml", GOOD, """follow 1
yes 16
> did 5 Sample
yes 17
> next
next 65 wait i
> now 40
yes 17
> saw 45 i true
yes 9
> next
next 70 do Antibiotic
> by Antibiotic
by 95 Antibiotic
> did 112 Antibiotic
no 4
> check
no 4
0 base Z 0 -
1 chain 0 0 Z 1 -
end
> blame
blame 2
> remove 2
removed 2
> check
yes 6
> next
next 232 do Review
> did 235 Review
yes 3
> next
next 245 do Discharge
> did 250 Discharge
yes 1
> next
done
done
"""),
    ("refusals", "clinical-pathway.graphml", UNFINISHED, """follow 1
yes 16
> did 3 Nobody
refused F3 Nobody
> now 5
yes 21
> now 4
refused F1 5
> did 5 Antibiotic
refused F5 Antibiotic
> saw 5 i true
refused F6 i
> did 2 Sample
yes 17
> did 6 Sample
refused F4 Sample 2
> await 1000001 i
refused F2 1000001
> saw 1 i false
refused F2 1
> saw 30 i false
yes 6
> saw 31 i false
refused F7 i false
> did 31 Antibiotic
refused F5 Antibiotic
> add Discharge Review 100 i
added 8
> add Discharge Z 1 q
refused S5 q
> now 1000001
refused F2 1000001
> remove 99
refused S2 99
> now 07
refused line 17
unfinished 30
"""),
    ("a late result", "clinical-pathway.graphml", UNFINISHED, """follow 1
yes 16
> did 10 Sample
yes 17
> await 100 i
yes 19
> next
next 100 wait i
> now 100
yes 15
> await 130 i
no 14
> check
no 14
0 base Sample 0 -
1 chain 12 0 Antibiotic 130 i
2 chain 1 1 Z 1 i
end
unfinished 100
"""),
    ("a stroke", "stroke.graphml", UNFINISHED, """follow 1
yes 19
> did 0 Scan
yes 19
> saw 9 b false
yes 10
> next
next 10 do Drip
> did 17 Drip
yes 7
> next
next 47 do Swallow
> by Swallow
by 180 Swallow
unfinished 17
"""),
)

# All is done, but a limit was broken.
BROKEN = "did 5 Sample\nsaw 45 i true\ndid 112 Antibiotic\ndid 235 Review\ndid 250 Discharge\n"

# Lines that are none of a session.
NO_LINES = ("", "now -1", "now 07", "now 4294967296", "did 5", "did 5  Sample", "did 5 Sample ", "saw 5 i True", "await 5", "deadline 1000001",
            "by ", "until 5", "late", "late i i", "verdict ", "next ", "Next", "due", "now 5\r", "x" * 4096)


def parts(shown):
    """The opening of a session, each line that is typed with its answer, and the end."""
    opening, *turns = shown.split("> ")
    turns = [turn.split("\n", 1) for turn in turns]
    answer, end = turns[-1][1].rstrip("\n").rsplit("\n", 1)
    turns[-1][1] = answer + "\n"
    return opening, [(line + "\n", answer) for line, answer in turns], end + "\n"


def said_to(words, before, line):
    """What a session answers to a line after others, without its end."""
    def without_end(live):
        return run(words, live)[1][:-1].rpartition(b"\n")[0] + b"\n"

    return without_end(before + line)[len(without_end(before)):]


def stopped(words, opening, turns):
    """Says these lines, each once the line before is answered, and stops the program at once. What was answered."""
    child = subprocess.Popen([PROGRAM, *words], stdin=subprocess.PIPE, stdout=subprocess.PIPE, stderr=subprocess.DEVNULL)
    stop = threading.Timer(SECONDS, child.kill)
    stop.start()
    found = [child.stdout.readline().decode() for _ in opening.splitlines()]
    for line, answer in turns:
        child.stdin.write(line.encode())
        child.stdin.flush()
        found += [child.stdout.readline().decode() for _ in answer.splitlines()]
    child.kill()
    child.communicate()
    stop.cancel()
    return "".join(found)


def told(name, words, status, shown):
    """A session from its first line to its last, stopped at each line and begun again, and torn in the middle of each line."""
    opening, turns, end = parts(shown)
    live = "".join(line for line, _ in turns)
    wanted = opening + "".join(answer for _, answer in turns) + end
    case(name, words, status, wanted, live)
    for place in range(len(turns) + 1):
        before = opening + "".join(answer for _, answer in turns[:place])
        check(f"{name}: stopped after line {place}", stopped(words, opening, turns[:place]), before)
        case(f"{name}: begun again after line {place}", words, status, wanted, live)
        if place < len(turns):
            whole = "".join(line for line, _ in turns[:place])
            ended, wrote = run(words, whole)
            kept, last = wrote[:-1].rsplit(b"\n", 1)
            refused = kept + f"\nrefused line {place + 1}\n".encode() + last + b"\n"
            case(f"{name}: line {place + 1} is torn", words, ended, refused, whole + turns[place][0][:-1])


def left(folder, name, words, shown):
    """What is left after each line is a document: its verdict is that of the session, and a refutation of the session is one of it."""
    turns = parts(shown)[1]
    for place in range(len(turns) + 1):
        before = "".join(line for line, _ in turns[:place])
        verdict = said_to(words, before, "check\n")
        document = folder.put("left", said_to(words, before, "rest\n"))
        check(f"{name}: the verdict on what is left after line {place}", first_line(run(["check", document]))[1], verdict.split(b"\n", 1)[0])
        if verdict.startswith(b"no "):
            case(f"{name}: the refutation after line {place}", ["replay", document, folder.put("proof", verdict.rpartition(b"end\n")[0])], GOOD, "accepted\n")


def journal(shown):
    """The lines of a session that change it."""
    turns = parts(shown)[1]
    return "".join(line for line, answer in turns if line.split()[0] not in ("next", "check", "blame", "by", "until", "late", "verdict") and not answer.startswith("refused "))


def broken_streams():
    for name, shell, wanted in (
        ("a folder as the live source of a session that follows", '"$1" follow "$2" <.', (READ_FAULT, "follow 1\nyes 16\nread fault\n")),
        ("a full device in a session that follows", 'echo now 5 | "$1" follow "$2" >/dev/full', (WRITE_FAULT, "")),
    ):
        done = subprocess.run(["bash", "-c", shell, "", PROGRAM, PATHWAY], stdin=subprocess.DEVNULL, stdout=subprocess.PIPE, stderr=subprocess.DEVNULL,
                              timeout=SECONDS, check=False)
        check(name, (done.returncode, done.stdout.decode()), wanted)


def kept_edits(folder):
    """What edits leave is kept in a file as the guide says, and is the document that `rest` wrote."""
    lines, command = "change 2 120\nadd Discharge Review 100 i\n", """"$1" follow "$2" | sed -n '/^<?xml/,/^<\\/graphml>/p'"""
    done = subprocess.run(["bash", "-c", command, "", PROGRAM, PATHWAY], input=f"{lines}rest\n".encode(), stdout=subprocess.PIPE, timeout=SECONDS, check=False)
    check("edits that are kept", done.stdout, said_to(["follow", PATHWAY], lines, "rest\n"))
    check("edits that are kept: the verdict", first_line(run(["check", folder.put("kept", done.stdout)])), (GOOD, b"yes 16"))


# What the client of the examples prints, which goes on from its journal after a change of shift.
CLIENT = """at 0 do Sample
  Sample done at 5: yes; at 65 wait for i
  it is 65: yes; at 65 wait for i
  i expected at 90: yes; at 90 wait for i
  i true at 80: yes; at 80 do Antibiotic
at 80 do Antibiotic
  Antibiotic done at 91: yes; at 211 do Review
  Review done at 211: yes; at 221 do Discharge
  Discharge done at 221: yes; done
"""


def client():
    child = subprocess.run([sys.executable, "-B", os.path.join(TOP, "examples", "follow.py")], env={**os.environ, "CSTN": PROGRAM}, capture_output=True,
                           timeout=SECONDS, check=False)
    check("a client that goes on from its journal", (child.returncode, child.stdout.decode(), child.stderr.decode()), (GOOD, CLIENT, ""))


def followings(folder):
    """What happens is told: the sessions above, what is left of each, lines that are none, and how sessions end."""
    for name, document, status, shown in FOLLOWED:
        words = ["follow", os.path.join(TOP, "examples", document)]
        told(name, words, status, shown)
        left(folder, name, words, shown)
        live = "".join(line for line, _ in parts(shown)[1])
        check(f"{name}: what is left by the journal", said_to(words, journal(shown), "rest\n"), said_to(words, live, "rest\n"))
    for name, path, more in examples():
        opened = run(["follow", path, *more])[1].split(b"\n")
        check(f"the first verdict on {name}", opened[:2], [b"follow 1", first_line(run(["check", path, *more]))[1]])
        check(f"what is left of {name} at first", said_to(["follow", path, *more], "", "rest\n"), run(["save", path, *more])[1])
    for line in ("x" * 4097, "x" * 4097 + "\n"):
        case("a line of 4,097 bytes", ["follow", PATHWAY], SCRIPT, "follow 1\nyes 16\nscript 1\n", line)
    for line in NO_LINES:
        case(f"the line {line[:20]!r}", ["follow", PATHWAY], UNFINISHED, "follow 1\nyes 16\nrefused line 1\nyes 21\nunfinished 5\n", line + "\nnow 5\n")
    case("a deadline that is given up", ["follow", PATHWAY], UNFINISHED, "follow 1\nyes 16\ndeadline 360\nyes 16\nunfinished 0\n", "deadline 360\ncheck\n")
    case("a log that is full", ["follow", PATHWAY, "--cap", "16"], UNFINISHED, "follow 1\nyes 16\n" + "full 16\n" * 5 + "unfinished 5\n",
         "did 5 Sample\nnext\ncheck\nblame\nby Review\n")
    case("all is done, and the log is full", ["follow", PATHWAY, "--cap", "1"], FULL, "follow 1\nfull 1\n" + "full 1\n" * 5 + "done\n", BROKEN)
    status, wrote = run(["follow", PATHWAY], BROKEN)
    check("all is done, and a limit was broken", (status, wrote.endswith(b"\ndone\n")), (BAD, True))
    case("the origin alone", ["follow", folder.put("f", compact(["Z"], [])), "--deadline", "0"], GOOD, "follow 1\nyes 1\ndone\n")
    result = folder.put("result", compact(["Z", "Sample:i:60", "Result:::i", "Antibiotic:::i"], ["Antibiotic->Result -5"], '<data key="Deadline">360</data>'))
    for moment in (45, 125):
        lines = f"did 10 Sample\nsaw {moment} i true\nnext\ndid {moment} Result\nnext\n"
        case(f"5 ticks after a result at {moment}", ["follow", result], UNFINISHED,
             f"follow 1\nyes 9\nyes 11\nyes 6\nnext {moment} do Result\nyes 3\nnext {moment + 5} do Antibiotic\nunfinished {moment}\n", lines)
    case("no deadline", ["follow", folder.put("f", BRANCH)], DOCUMENT, "document X9\n", "now 5\n")
    case("no document", ["follow", folder.put("f", b"\xff")], DOCUMENT, "document X1 at 0\n", "now 5\n")
    case("no file", ["follow", folder.at("not there")], READ_FAULT, "read fault\n", "now 5\n")
    for words in (["--cap", "0"], ["--cap", "4194305"], ["--deadline", "05"], ["--cap", "5", "--deadline", "5"]):
        case(f"the words {words}", ["follow", folder.put("f", TWO_POINTS), *words], WORDS, "words\n")
    client()
    kept_edits(folder)
    broken_streams()
    continuations(folder)
