"""A night on the ward: the clinical pathway on the board, with a late result and a late antibiotic."""
import os
import re
import subprocess

from browsers import OFFLINE, TOP, Browser, Served, program, until
from looks import look

PATHWAY = os.path.join(TOP, "examples", "clinical-pathway.graphml")
PLAN = PATHWAY.replace(".graphml", ".plan")


def step(page, name):
    """The place of a step in the document."""
    return next(it["index"] for it in page["steps"] if it["shown"] == name)


def did(browser, page, name):
    """Presses "Done now" of a step, wherever it stands, and waits until it is told."""
    row = f"[data-step='{step(page, name)}']"
    browser.click(f"{name} is done", f"{row} [data-act='did']")
    browser.gone(f"{name} is told", row)


def it_is(browser, moment):
    """Says by hand how late it is."""
    browser.type("#hand input", moment)
    browser.click("it is later", "#hand [data-key='hand-set']")
    browser.says("the clock", "#top .time", moment)


def dialog(browser, row, moment, kind=None):
    """Opens the dialog of a row, and writes a moment."""
    browser.click("the dialog", f"{row} [data-act='ask']")
    browser.wait("the dialog", "dialog[open] #ask-at")
    if kind:
        browser.choose("#ask-kind", kind)
    browser.type("#ask-at", moment)


def tell(browser):
    browser.click("it is told", "#ask-tell")
    browser.gone("the dialog", "dialog[open]")


def try_it(browser, wanted):
    browser.click("what if", "#ask-try")
    browser.wait("what would follow", f"dialog [data-outcome='{wanted}']")
    return browser.text("dialog .outcome")


def verdict(browser, wanted):
    browser.wait(f"the verdict {wanted}", f"#verdict[data-verdict='{wanted}']")


def pathway(tally, browser):
    """A plan in sentences, with a late result, asked about before it is told, a restart, and a late antibiotic."""
    with Served([PLAN]) as board:
        browser.open(board.url)
        browser.says("the list", "[data-plan]", "Sample")
        look(tally, browser, "list")
        browser.click("the plan", "[data-plan] button")
        verdict(browser, "yes")
        page = board.page("clinical-pathway")
        it_is(browser, "5")
        did(browser, page, "Sample")
        browser.says("what is next", "#next", "Next at 65")
        late_result(tally, board, browser)
        tally.check("the console before the restart", browser.console(), [])
        restart(tally, board, browser)
        late_antibiotic(tally, board, browser, page)
        tally.check("the console", browser.console(OFFLINE), [])
        journal(tally, board)


def late_result(tally, board, browser):
    it_is(browser, "65")
    dialog(browser, "[data-letter='i']", "120", "late")
    words = try_it(browser, "no")
    tally.check("what a result at 120 would break", "Antibiotic at most 90 ticks after Sample" in words)
    tally.check("nothing was told by asking", board.page("clinical-pathway")["verdict"], "yes")
    browser.picture("what-if")
    browser.type("#ask-at", "90")
    tally.check("what a result at 90 would mean", "Next at 90: i" in try_it(browser, "yes"))
    tell(browser)
    browser.says("what is next", "#next", "Next at 90")
    look(tally, browser, "late-result")
    dialog(browser, "[data-letter='i']", "80", "true")
    tell(browser)
    browser.says("the result", "#history", "infection (i) is true")


def restart(tally, board, browser):
    """The board is killed and started again: the page says so meanwhile, and nothing that was answered is lost."""
    before = board.page("clinical-pathway")
    board.kill()
    browser.says("the page without a board", "#main", "No connection")
    browser.picture("no-connection")
    board.start()
    browser.gone("the page with a board", ".offline")
    after = board.page("clinical-pathway")
    for each in (before, after):
        each["clock"].pop("server")
    tally.check("the plan after the restart", after, before)


def late_antibiotic(tally, board, browser, page):
    it_is(browser, "91")
    browser.says("what is late", "#next", "late by")
    it_is(browser, "112")
    verdict(browser, "no")
    did(browser, page, "Antibiotic")
    browser.says("what is to blame", "#no", "Antibiotic at most 90 ticks after Sample")
    browser.says("how far it has to give way", "#no", "107")
    look(tally, browser, "late-antibiotic")
    browser.click("the limit gives way", "[data-act='give']")
    verdict(browser, "yes")
    tally.check("the limit", [it["value"] for it in board.page("clinical-pathway")["limits"] if it["state"]], [107])
    browser.says("what is next", "#next", "Next at 232")
    it_is(browser, "235")
    did(browser, page, "Review")
    correct(tally, board, browser)
    it_is(browser, "250")
    did(browser, page, "Discharge")
    browser.says("the end", "#verdict", "All is done")
    browser.picture("done")


def correct(tally, board, browser):
    """The review was at 233 in fact; and a slip is left out again."""
    browser.click("a correction", "[data-line] [data-act='correct']")
    browser.type("#ask-at", "233")
    tell(browser)
    until("the correction", lambda: 233 in [it["at"] for it in board.page("clinical-pathway")["steps"]])
    browser.says("the correction", "#history", "233")
    page = board.page("clinical-pathway")
    browser.click("a slip", f"[data-step='{step(page, 'Discharge')}'] [data-act='did']")
    verdict(browser, "no")
    browser.click("a correction", "[data-line] [data-act='correct']")
    browser.click("it did not happen", "#ask-leave")
    browser.wait("the step is left again", f"[data-step='{step(page, 'Discharge')}']")
    verdicts = [it["verdict"] for it in board.page("clinical-pathway")["history"]]
    tally.check("the edits among what was told", verdicts.count(None), 1)


def broken(tally, browser):
    """Until when nothing need happen, whether a fact would fit before it is told, how late a result may be after a
    "no", and what is broken given up."""
    with Served([PATHWAY]) as board:
        browser.open(board.url)
        browser.click("the plan", "[data-plan] button")
        verdict(browser, "yes")
        browser.says("until when nothing need happen", "#until", "15")
        it_is(browser, "5")
        page = board.page("clinical-pathway")
        did(browser, page, "Sample")
        browser.says("until when nothing need happen", "#until", "95")
        browser.says("what cannot wait longer", "#until", "longer: Antibiotic, result i.")
        dialog(browser, f"[data-step='{step(page, 'Antibiotic')}']", "80")
        browser.says("what a step waits for", "dialog .fits", "would wait for i")
        browser.click("the dialog closes", "dialog .buttons button:last-child")
        late_for_good(tally, browser)
        dialog(browser, "[data-letter='i']", "45", "true")
        browser.wait("whether it would fit", "dialog [data-fits='yes']")
        tell(browser)
        it_is(browser, "112")
        verdict(browser, "no")
        browser.gone("what is broken, before it is", "#broken")
        did(browser, page, "Antibiotic")
        browser.says("what is broken", "#broken", "Antibiotic at most 90 ticks after Sample")
        browser.says("what is left without it", "#broken", "fits again")
        look(tally, browser, "broken")
        browser.click("it is given up", "[data-act='forgive']")
        verdict(browser, "yes")
        browser.says("what was given up", "#history", "given up, since broken: Antibiotic at most 90")
        limits = {it["id"]: it["state"] for it in board.page("clinical-pathway")["limits"]}
        tally.check("the limit that was broken", [it for it in limits.items() if it[1]], [(2, "removed")])
        lines = board.ask(f"api/plans/{page['id']}/journal")[1]
        tally.check("what was given up in the journal", lines.split("\n")[-2], "forgive")
        tally.check("the console", browser.console(), [])


def late_for_good(tally, browser):
    """A result is told to come too late: by when it would have to come."""
    dialog(browser, "[data-letter='i']", "95", "late")
    browser.wait("whether it would fit", "dialog [data-fits='yes']")
    browser.type("#ask-at", "100")
    browser.wait("whether it would fit", "dialog [data-fits='no']")
    browser.picture("would-it-fit")
    tell(browser)
    verdict(browser, "no")
    browser.says("by when the result would have to come", "#no [data-late='i']", "come by 95")
    look(tally, browser, "too-late")
    browser.click("it comes earlier", "[data-act='come-by']")
    verdict(browser, "yes")


def journal(tally, board):
    """The journal's file is what `follow` takes, to the end."""
    status, lines, headers = board.ask(f"api/plans/{board.plans()['clinical-pathway']}/journal")
    tally.check("the journal's file", (status, "attachment" in headers["Content-Disposition"]), (200, True))
    tally.check("what follow says of it", followed(PATHWAY, lines), (0, False, True))


def followed(document, lines):
    """How `follow` ends with a journal: its status, whether it refused a line, and whether nothing is left."""
    told = subprocess.run([program(), "follow", document], input=lines.encode(), capture_output=True, timeout=60,
                          check=False)
    return told.returncode, b"refused" in told.stdout, told.stdout.endswith(b"done\n")


def two(tally, one):
    """Two browsers see the same, and one fact that both tell counts once."""
    with Served([PATHWAY]) as board, Browser(one.pictures) as other:
        for browser in (one, other):
            browser.open(board.url)
            browser.click("the plan", "[data-plan] button")
            verdict(browser, "yes")
        it_is(one, "5")
        other.says("the other clock", "#top .time", "5")
        page = board.page("clinical-pathway")
        button = f"[data-step='{step(page, 'Sample')}'] [data-act='did']"
        script = "document.querySelector(arguments[0]).click()"
        one.run(script, button)
        other.run(script, button)
        for browser in (one, other):
            browser.says("what both see", "#history", "Sample done")
        one.says("whose was the second", "#history", "told before")
        one.run("document.querySelector('#history').scrollIntoView()")
        one.picture("told-twice")
        taken = [it["event"] for it in board.page("clinical-pathway")["history"] if it["standing"] == "taken"]
        tally.check("a fact that both tell", [it["kind"] for it in taken if it].count("did"), 1)
        stale = {"of": "x", "version": 1, "instead": None}
        status, answer, _ = board.ask(f"api/plans/{page['id']}/correct", stale, board.own)
        tally.check("a correction of what was seen before", (status, "Another browser" in answer), (409, True))
        for browser in (one, other):
            tally.check("the console of two", browser.console(), [])


def keyboard(tally, browser):
    """The whole way by keys alone: to the plan, a step, a dialog and back."""
    from selenium.webdriver.common.keys import Keys
    with Served([PATHWAY]) as board:
        browser.open(board.url)
        browser.says("the list", "[data-plan]", "Sample")
        press(browser, Keys, "Open clinical-pathway")
        verdict(browser, "yes")
        reach(browser, Keys, "Sample done now")
        outline = browser.run("return getComputedStyle(document.activeElement).outlineStyle")
        tally.check("what has the focus is marked", outline, "solid")
        browser.picture("focus")
        browser.keys(Keys.ENTER)
        browser.says("the step is told", "#history", "Sample done")
        press(browser, Keys, "Result i is late, or came at another time")
        browser.wait("the dialog", "dialog[open]")
        browser.keys(Keys.ESCAPE)
        browser.gone("the dialog", "dialog[open]")
        until("the focus after the dialog", lambda: focus(browser) == "Result i is late, or came at another time")
        press(browser, Keys, "It is now", "70", Keys.ENTER)
        browser.says("the clock", "#top .time", "70")
        browser.says("how late the result is", "[data-letter='i']", "late by 10 ticks")
        press(browser, Keys, "i is false")
        browser.says("the result is told", "#history", "i is false")
        tally.check("the console by keys", browser.console(), [])


def focus(browser):
    return browser.run("const it = document.activeElement; const own = it.matches('input, select') && it.dataset.key; "
                       "return it.ariaLabel || own || it.innerText || it.tagName")


def reach(browser, keys, label):
    """Goes on with the tabulator until what has the focus is called so."""
    for _ in range(60):
        if focus(browser) == label:
            return
        browser.keys(keys.TAB)
    raise TimeoutError(f"{label} cannot be reached by keys")


def press(browser, keys, label, *then):
    reach(browser, keys, label)
    browser.keys(*(then or (keys.ENTER,)))


MOMENTS = """
return import(`${location.pathname}static/clock.js`).then(({ Clock }) => {
  const found = [];
  for (const start of [0, 79200, 81637])
    for (const tick of [1, 1.5, 7, 60, 90, 900, 3600]) {
      const clock = new Clock({ now: 3, tick, start, origin: null, running: false, server: Date.now() });
      for (const at of [0, 2, 6, 300, 1439, 1440, 3000, 99998]) {
        const text = clock.at(at);
        const whole = text.includes("+") ? clock.read(text, 0) : at;
        const read = [clock.read(text.split(" ")[0], at), whole, clock.read(String(at))];
        if (read.some((it) => it !== at)) found.push(`${text}, ${at} with ticks of ${tick} s: ${read}`);
      }
    }
  return found;
});
"""


def clock(tally, browser):
    """Ticks that pass by themselves: a plan that is begun, is due, and is late."""
    with Served([PATHWAY], "--tick", "1") as board:
        browser.open(board.url)
        tally.check("moments that are read as they are written", browser.run(MOMENTS), [])
        browser.says("the list", "[data-plan]", "Not begun")
        browser.click("the plan", "[data-plan] button")
        browser.click("it begins", "[data-act='begin']")
        browser.wait("the plan that runs", "#verdict")
        until("the sample is late", lambda: re.search(r"late by ([2-9]|\d\d|1 min)", browser.text("#next")))
        tally.check("the clock", bool(re.fullmatch(r"\d\d:\d\d:\d\d", browser.text("#top .time"))))
        did(browser, board.page("clinical-pathway"), "Sample")
        kinds = [it["event"]["kind"] for it in board.page("clinical-pathway")["history"]]
        tally.check("no time is told by itself", kinds, ["did"])
        tally.check("the console of the clock", browser.console(), [])
