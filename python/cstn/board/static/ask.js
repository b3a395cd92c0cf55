// The dialog that asks before something is told: when it was, and what would follow.
import { h, listed, momentField } from "./dom.js";
import * as talk from "./talk.js";
import { tell } from "./telling.js";
import { sentence } from "./words.js";

const dialog = document.getElementById("ask");
const PAUSE = 300;

function next(answer, page) {
  if (answer.over) return "Then all is done.";
  if (!answer.next) return null;
  return ["Next at ", page.clock.at(answer.next.at), ": ", listed([...answer.next.names, ...answer.next.wait])];
}

const WORDS = { yes: "It still fits, whatever the results are.", no: "Then nothing fits any more.", full: "The question is too large: not known." };

/** What would follow of an event that was not told. */
export function outcome(answer, page) {
  const blame = answer.blame.map((it) => h("li", {}, sentence(it, page.clock)));
  const waits = answer.waits.length > 0 && h("p", {}, "It comes too soon, and would wait for ", listed(answer.waits), ".");
  return h("div", { class: `outcome ${answer.verdict}`, "data-outcome": answer.verdict, role: "status" },
    h("strong", {}, WORDS[answer.verdict]), waits,
    answer.verdict === "yes" && h("p", {}, next(answer, page)),
    blame.length > 0 && [h("p", {}, "These limits cannot all be kept:"), h("ul", {}, blame)]);
}

/** Whether it would still fit, in a line, before anything is asked or told. */
function fits(answer) {
  const waits = answer.waits.length > 0 && ["It comes too soon, and would wait for ", listed(answer.waits), "."];
  return h("p", { class: `fits ${answer.verdict ?? ""}`, "data-fits": answer.verdict ?? "", role: "status" }, waits || answer.why || WORDS[answer.verdict]);
}

/** The event that the dialog says at this moment, or words for what is wrong with it. */
function read(page, about, at, kind) {
  const tick = about.letter && kind.value === "never" ? page.data.deadline + 1 : page.clock.read(at.value, about.event.at);
  if (tick === null) return page.clock.hasTimes() ? "Write a time, as 22:40, or a number of ticks." : "Write a number of ticks.";
  if (!about.letter) return { ...about.event, at: tick };
  if (kind.value === "late" || kind.value === "never") return { kind: "await", letter: about.letter, at: tick };
  return { ...about.event, value: kind.value === "true", at: tick };
}

/** What is told, in words. */
function words(event, about, page) {
  const at = page.clock.at(event.at);
  if (event.kind === "did") return `${about.shown} done at ${at}`;
  if (event.kind === "not_before") return event.at > 0 ? `${about.shown} not before ${at}` : `${about.shown} as soon as the rest allows`;
  if (event.kind === "saw") return `${about.word} is ${event.value}, at ${at}`;
  if (event.kind === "await") return event.at > page.data.deadline ? `${about.word} will not come` : `${about.word} expected at ${at}`;
  return `It is ${at}`;
}

const KINDS = [["true", "came, and is true"], ["false", "came, and is false"], ["late", "is late, and expected at"], ["never", "will not come"]];

function parts(page, about) {
  const at = momentField(page.clock, { id: "ask-at", value: page.clock.at(about.event.at).split(" ")[0] });
  const kinds = about.correcting ? KINDS.slice(0, 2) : KINDS;
  const kind = h("select", { id: "ask-kind" }, kinds.map(([value, words]) => h("option", { value }, words)));
  if (about.event.value === false) kind.value = "false";
  const moment = h("label", { class: "narrow" }, "When", at);
  const places = { wrong: h("p", { class: "wrong", role: "alert" }), found: h("div", {}) };
  kind.addEventListener("change", () => { moment.hidden = kind.value === "never"; });
  return { at, kind, moment, ...places };
}

/** Gives the focus back to the button that opened the dialog, which may have been drawn anew. */
function backTo(key) {
  const button = key && document.querySelector(`#main [data-key="${CSS.escape(key)}"]`);
  if (button) button.focus({ preventScroll: true });
}

/** Opens the dialog about one event. With `letter`, in words `word`, it may come or be late. `correcting` puts it in the place of one that was told, by `send`. */
export function askAbout(page, about) {
  const it = parts(page, about);
  const event = () => {
    const found = read(page, about, it.at, it.kind);
    it.wrong.textContent = typeof found === "string" ? found : "";
    return typeof found === "string" ? null : found;
  };
  const tryIt = async () => {
    const asked = event();
    if (!asked) return;
    clearTimeout(attempts.timer);
    attempts.last += 1;
    try {
      it.found.replaceChildren(outcome(await talk.whatIf(page.data.id, asked), page));
    } catch (error) {
      it.wrong.textContent = error.message;
    }
  };
  const send = async (submitted) => {
    submitted.preventDefault();
    const asked = event();
    if (!asked) return;
    dialog.close();
    await (about.send ? about.send(asked) : tell(page, asked, words(asked, about, page)));
  };
  const attempts = { last: 0, timer: null };
  const attempt = async () => {
    const [asked, mine] = [read(page, about, it.at, it.kind), (attempts.last += 1)];
    if (about.correcting || typeof asked === "string") return;
    const answer = await talk.attempt(page.data.id, asked).catch(() => null);
    if (answer && mine === attempts.last) it.found.replaceChildren(fits(answer));
  };
  const changed = () => {
    it.found.replaceChildren();
    attempts.last += 1;
    clearTimeout(attempts.timer);
    attempts.timer = setTimeout(attempt, PAUSE);
  };
  it.at.addEventListener("input", changed);
  it.kind.addEventListener("change", changed);
  const opener = document.activeElement?.dataset.key;
  const leave = () => { dialog.close(); about.leave(); };
  const anyTime = { ...about.event, at: 0 };
  const takeBack = () => { dialog.close(); tell(page, anyTime, words(anyTime, about, page)); };
  dialog.replaceChildren(h("form", { onsubmit: send },
    h("h2", { id: "ask-title" }, about.title),
    h("div", { class: "fields" }, about.letter && h("label", {}, "The result", it.kind), it.moment), it.wrong, it.found,
    h("div", { class: "buttons" }, h("button", { class: "button first", id: "ask-tell" }, about.correcting ? "Correct it" : "Tell it"),
      !about.correcting && h("button", { type: "button", class: "button", id: "ask-try", onclick: tryIt }, "What if?"),
      !about.correcting && about.ready > 0 && h("button", { type: "button", class: "button", id: "ask-back", onclick: takeBack }, "As soon as the rest allows"),
      about.correcting && h("button", { type: "button", class: "button grave", id: "ask-leave", onclick: leave },
        about.event.kind === "not_before" ? "Leave it out" : "It did not happen"),
      h("button", { type: "button", class: "button", onclick: () => dialog.close() }, "Close"))));
  dialog.showModal();
  dialog.addEventListener("close", () => backTo(opener), { once: true });
  it.at.select();
  attempt();
}
