"""A session as a picture: what was done, what time it is, and what is left."""
from ..explain.following import blamed
from ..explain.spoken import Spoken
from .gantt import DONE_AT, Panel, draw_panels, outcomes_in_words
from .plans import Plan
from .sessions import Session, next_in_words
from .svg import readable


def told_of(plan: Plan, session: Session) -> list[str]:
    """What stands above the picture: whether what is left can be carried out, what is next, or what is to blame."""
    heard = session.heard
    if session.verdict.startswith("no"):
        numbers = [*session.blamed, *session.let_go]
        if not numbers:
            return ["No: after what has happened nothing is left that can be carried out."]
        says = ["No: after what has happened these cannot be met together:" if len(numbers) > 1 else
                "No: after what has happened this cannot be met:"]
        return [*says, *(f"No: {blamed(plan.net, it, heard)}" for it in numbers)]
    moment, names, letters = next_in_words(session)
    if moment is None:
        return ["All is done."] if session.next == "done" else [f"The program says {session.next}."]
    parts = [f"do {', '.join(map(readable, names))}"] if names else []
    parts += [f"the outcome of {' and '.join(map(Spoken.letter, letters))} is awaited"] if letters else []
    done = len(heard.done.keys() - {"Z"})
    return [f"Yes: what is left can be carried out. {done} steps are done. Next, at {plan.clock.says(moment)}: "
            f"{'; '.join(parts)}."]


def draw_now(plan: Plan, session: Session, places: list[int]) -> str:
    """The picture of a session, with what is left in some of its cases; after a no, of what was done alone."""
    done, now, panels = set(session.heard.done), session.heard.now, []
    for at in places:
        case = session.cases[at]
        limits = "this limit" if len(session.blamed + session.let_go) == 1 else "these limits"
        is_let_go = bool(session.blamed and session.left)
        without = f", without {limits}, so lengths and orders may be wrong" if is_let_go else ""
        which = f", case {at + 1} of {len(session.cases)}" if len(session.cases) > 1 else ""
        left = "What is left" if case.moments.keys() - done - {"Z"} else "What was done"
        says = f"{left}{without}{which}: {outcomes_in_words(case) or 'the plan'}"
        title = f"{'No plan. ' if is_let_go else ''}{says}; {DONE_AT}{plan.clock.says(case.end)}"
        panels.append(Panel(case, title, session.chains[at], done, now, at + 1))
    return draw_panels(plan, panels, told_of(plan, session), [])
