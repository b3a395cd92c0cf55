"""A night of 52 steps in a hangar, carried out on the board: nine times it does not go as planned."""
import json
import os

from browsers import TOP, Served, until
from looks import look
from wards import dialog, followed, step, tell, try_it, verdict

NIGHT = os.path.join(TOP, "examples", "night.graphml")
TRUE = True
DECISIONS = 12


class Night:
    """A night: the plan goes on as it is planned, by requests, and what is otherwise is told on the page."""

    def __init__(self, tally, board, browser):
        self.tally, self.board, self.browser, self.decided = tally, board, browser, 0
        self.plan = board.plans()["night"]

    def page(self):
        return json.loads(self.board.ask(f"api/plans/{self.plan}")[1])

    def next(self):
        return json.loads(self.board.ask("api/plans")[1])["plans"][0]

    def on_until(self, name):
        """Goes on as planned until a step, or a result, is next, and no further."""
        for _ in range(120):
            brief = self.next()
            if brief["over"] or name in (brief["next"] or {"names": [], "wait": []})["names"] + brief["next"]["wait"]:
                break
            self.one(brief["next"])
        else:
            raise AssertionError(f"{name} does not come: {brief}")
        return self.page()

    def one(self, following):
        """Tells what is next at its moment."""
        for place in following["do"]:
            self.told(kind="did", step=place, at=following["at"])
        for letter in following["wait"]:
            self.told(kind="saw", letter=letter, value=TRUE, at=following["at"])

    def told(self, **event):
        status, text, _ = self.board.tell(self.plan, **event)
        if status != 200:
            raise AssertionError(f"{event}: {status} {text}")

    def is_at(self, tick):
        """The clock by hand, as the page writes it: 22:00 is 0."""
        return f"{(22 + tick // 60) % 24:02d}:{tick % 60:02d}"

    def not_before(self, page, name, tick):
        """A step is known to come later: a limit is put in on the page."""
        browser = self.browser
        if not browser.run("return document.querySelector('#limits details').open"):
            browser.click("the limits", "#limits summary")
        browser.choose("[data-key='add-step']", step(page, name))
        browser.choose("[data-key='add-kind']", "least")
        browser.choose("[data-key='add-from']", step(page, "Z"))
        browser.type("[data-key='add-ticks']", str(tick))
        browser.click("a limit", "[data-key='add']")
        browser.says("the limit", "#history", "put in")

    def way_out(self):
        """The button that is pressed after a "no": what was put in is known, so what the document says gives way."""
        page = self.page()
        known = {it["id"] for it in page["limits"] if it["state"] == "added"}
        ways = [it for it in page["blame"]["limits"] if it["id"] not in known]
        gives = [f"give-{it['id']}" for it in ways if it["needed"] is not None]
        later = ["give-deadline"] if page["blame"]["deadline"] else []
        return [*gives, *later, *(f"remove-{it['id']}" for it in ways)][0]

    def decide(self, what, *, wanted):
        """After a "no" limits give way as far as the board says, one after another, until it fits again."""
        before = self.decided
        for _ in range(DECISIONS):
            brief = self.next()
            if brief["verdict"] == "yes":
                break
            self.browser.wait("the page of this version", f"#verdict[data-version='{brief['version']}']")
            self.browser.wait("what is to blame", "#no [data-blamed], #no [data-act='give-deadline']")
            self.browser.click(f"a decision, {what}", f"#no [data-key='{self.way_out()}']")
            self.decided += 1
            until("the decision", lambda: self.next()["version"] > brief["version"])
        verdict(self.browser, "yes")
        self.tally.check(f"{what}: whether somebody had to decide", self.decided > before, wanted)


def night(tally, browser):
    words = ("--tick", "60", "--start", "22:00", "--by-hand")
    with Served([NIGHT], *words) as board:
        browser.open(board.url)
        browser.click("the plan", "[data-plan] button")
        verdict(browser, "yes")
        look(tally, browser, "night")
        it = Night(tally, board, browser)
        for deviation in (slip, part, borescope, bottle, bolt, cabin, maker, blending, tool_check, tow):
            deviation(it)
        it.on_until("the end")
        browser.says("the end", "#verdict", "All is done")
        look(tally, browser, "night-done")
        tally.check("the console of the night", browser.console(), [])
        ended(tally, board, it)


def slip(it):
    """1: The filter was changed at its moment, and told 20 minutes too early: a "no" that is corrected."""
    page = it.on_until("HydEnd")
    row, due = f"[data-step='{step(page, 'HydEnd')}']", page["next"]["at"]
    dialog(it.browser, row, it.is_at(due - 20))
    tell(it.browser)
    verdict(it.browser, "no")
    it.browser.click("a correction", "[data-line] [data-act='correct']")
    it.browser.type("#ask-at", it.is_at(due))
    tell(it.browser)
    verdict(it.browser, "yes")


def later(it, name, minutes):
    """A step will come later than planned, as is known when it is next."""
    page = it.on_until(name)
    it.not_before(page, name, page["next"]["at"] + minutes)


def part(it):
    """2: The brake comes by truck, 52 minutes later than planned."""
    later(it, "BrakeHere", 52)
    it.decide("the brake by truck", wanted=True)


def borescope(it):
    """3: The result of the borescope is 18 minutes late."""
    page = it.on_until("b")
    dialog(it.browser, "[data-letter='b']", it.is_at(page["next"]["at"] + 18), "late")
    tell(it.browser)
    it.browser.says("the result is late", "#history", "expected at")
    it.decide("the borescope's result", wanted=True)


def bottle(it):
    """4: The slide bottle comes 5 minutes early: no limit is broken, but the one on its way."""
    page = it.on_until("SlideHere")
    dialog(it.browser, f"[data-step='{step(page, 'SlideHere')}']", it.is_at(page["next"]["at"] - 5))
    tell(it.browser)
    it.decide("the bottle that is early", wanted=True)


def bolt(it):
    """5: A bolt is seized: the brake is in an hour later."""
    later(it, "BrakeIn", 60)
    it.decide("the bolt", wanted=True)


def cabin(it):
    """6: The cabin work is over two minutes after it had to be."""
    late(it, "CabinEnd", 2)


def maker(it):
    """7: The maker answers 35 minutes late: asked about first, and then told."""
    page = it.on_until("o")
    dialog(it.browser, "[data-letter='o']", it.is_at(page["next"]["at"] + 35), "late")
    answer = "no" if "can be late until" in it.browser.text("[data-letter='o']") else "yes"
    it.tally.check("what the maker's delay would mean", len(try_it(it.browser, answer)) > 0)
    it.browser.picture("night-maker")
    tell(it.browser)
    it.decide("the maker's answer", wanted=answer == "no")


def blending(it):
    """8: The blending is done three minutes early, which a limit forbids that says "at least"."""
    page = it.on_until("BlendEnd")
    dialog(it.browser, f"[data-step='{step(page, 'BlendEnd')}']", it.is_at(page["next"]["at"] - 3))
    tell(it.browser)
    it.browser.says("the limit", "#no", "at least")
    it.browser.picture("night-blending")
    it.decide("the blending that is early", wanted=True)


def tool_check(it):
    """9: The tools are checked one minute after they had to be."""
    late(it, "ToolCheck", 1)


def tow(it):
    """And at last the tow bar: the aircraft is out 40 minutes later, whatever that takes."""
    later(it, "Out", 40)
    it.decide("the tow bar", wanted=True)


def late(it, name, minutes):
    """A step is done some minutes after the last moment until which it could wait."""
    page = it.on_until(name)
    place = step(page, name)
    dialog(it.browser, f"[data-step='{place}']", it.is_at(page["steps"][place]["by"] + minutes))
    tell(it.browser)
    it.decide(f"{name}, which is late", wanted=True)


def ended(tally, board, it):
    """The whole night stands in the journal, and `follow` takes it to its end."""
    status, lines, _ = board.ask(f"api/plans/{it.plan}/journal")
    tally.check("the night's journal", status, 200)
    tally.check("what follow says of the night", followed(NIGHT, lines), (0, False, True))
    words = [line.split(" ")[0] for line in lines.splitlines()]
    tally.check("steps that were done", words.count("did") >= 40)
    tally.check("results that came", words.count("saw"), 5)
