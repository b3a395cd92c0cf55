"""What becomes known on the way, told on the board by keys alone: a step that cannot come yet, and one more step."""
import subprocess

from browsers import Served, program
from looks import look
from wards import PATHWAY, followed, press, reach, verdict

WAITS = "Antibiotic cannot come before a moment, or what if"


def has(line):
    """Whether the program takes a line: one without it refuses its form."""
    told = subprocess.run([program(), "follow", PATHWAY], input=f"{line}\n".encode(), capture_output=True, timeout=60,
                          check=False)
    return b"refused line" not in told.stdout


def further(tally, browser):
    if not has("expect 5 Sample") or not has("step Call"):
        print("board: further: skipped, since the program has no line expect or step", flush=True)
        tally.skipped += 1
        return
    from selenium.webdriver.common.keys import Keys
    with Served([PATHWAY]) as board:
        browser.open(board.url)
        press(browser, Keys, "Open clinical-pathway")
        verdict(browser, "yes")
        press(browser, Keys, "Sample done now")
        browser.says("the step is told", "#history", "Sample done")
        cannot_come_yet(tally, board, browser, Keys)
        step_more(tally, board, browser, Keys)
        tally.check("the console of what is further", browser.console(), [])


def moment(browser, keys, text, fits=None):
    """Writes a moment into the dialog, and waits until it says whether that would fit, if it does."""
    browser.wait("the dialog", "dialog[open] #ask-at")
    browser.keys(*(keys.BACKSPACE,) * 8, text)
    if fits:
        browser.wait("whether it would fit", f"dialog [data-fits='{fits}']")


def row(board, name):
    """What the page says of a step."""
    return next(it for it in board.page("clinical-pathway")["steps"] if it["shown"] == name)


def planned(board, name):
    """Before when a step cannot be, and when it is planned."""
    return row(board, name)["ready"], row(board, name)["planned"]


def cannot_come_yet(tally, board, browser, keys):
    """Up to when a step may be put off is found by trying; then it is told, told otherwise, and taken back."""
    press(browser, keys, WAITS)
    moment(browser, keys, "91", "no")
    moment(browser, keys, "90", "yes")
    browser.picture("not-before")
    browser.keys(keys.ENTER)
    browser.says("what was told", "#history", "Antibiotic not before 90")
    browser.says("what the step waits for", "[data-step='2']", "not before 90")
    tally.check("when it is planned", planned(board, "Antibiotic"), (90, 90))
    look(tally, browser, "put-off")
    press(browser, keys, WAITS)
    moment(browser, keys, "100", "no")
    browser.keys(keys.ENTER)
    verdict(browser, "no")
    browser.says("what is to blame", "#no", "Antibiotic at most 90 ticks after Sample")
    look(tally, browser, "put-off-too-far")
    press(browser, keys, "Correct: Antibiotic not before 100")
    moment(browser, keys, "80")
    browser.keys(keys.ENTER)
    verdict(browser, "yes")
    press(browser, keys, WAITS)
    press(browser, keys, "As soon as the rest allows")
    browser.says("what was told", "#history", "Antibiotic can be done as soon as the rest allows")
    tally.check("that it waits no more", planned(board, "Antibiotic"), (None, 65))


def step_more(tally, board, browser, keys):
    """A step is put in, tied by a limit, and done."""
    press(browser, keys, "8 limits")
    press(browser, keys, "step-name", "Call the family", keys.ENTER)
    browser.says("what was told", "#history", "put in: step Call the family")
    press(browser, keys, "step-name", "Call the family", keys.ENTER)
    browser.says("what is refused", "#said", "there is a step Call the family already")
    reach(browser, keys, "add-step")
    press(browser, keys, "add-ticks", "30")
    press(browser, keys, "add-from", "S")
    look(tally, browser, "step-more")
    press(browser, keys, "Put in this limit")
    browser.says("the limit", "#history", "put in: Call the family at least 30 ticks after Sample")
    browser.says("what is next", "#next", "Next at 30")
    press(browser, keys, "It is now", "31", keys.ENTER)
    press(browser, keys, "Call the family done now")
    browser.says("that it is done", "#history", "Call the family done")
    tally.check("when it was done", row(board, "Call the family")["at"], 31)
    status, lines, _ = board.ask(f"api/plans/{board.plans()['clinical-pathway']}/journal")
    tally.check("its journal", (status, "step Call%20the%20family\n" in lines), (200, True))
    tally.check("what follow says of it", followed(PATHWAY, lines)[:2], (8, False))
