// The page of one plan: how it stands, what is next, what nothing can be done about without a decision, and what was told.
import { askAbout } from "./ask.js";
import { button, fold, h, listed, momentField, name, number, quiet } from "./dom.js";
import { drawGantt } from "./gantt.js";
import { drawHistory } from "./history.js";
import { drawLimits, drawNo } from "./limits.js";
import { tell } from "./telling.js";

const SOON = 6;
const VERDICTS = {
  yes: ["On plan", "Whatever the results are, all that is left can be done in time."],
  no: ["Nothing fits any more", "After what has happened, these limits cannot all be kept. What was told stays told."],
  full: ["Not known", "The question was too large for its limit. What is told is kept; nobody knows whether the rest fits."],
};

function verdict(data, page) {
  const [title, words] = data.over ? ["All is done", "Nothing is left of this plan."] : VERDICTS[data.verdict];
  const state = { "data-verdict": data.verdict, "data-version": data.version };
  return h("section", { class: `card state wide ${data.verdict}`, id: "verdict", ...state },
    h("strong", {}, title), h("p", {}, words), idle(data, page));
}

/** Until when nothing at all may happen. */
function idle(data, page) {
  if (data.over || data.until === null || data.until === undefined) return null;
  const left = data.until - page.clock.now();
  const tight = [...data.steps.filter((it) => it.by === data.until).map((it) => it.shown),
    ...data.results.filter((it) => it.until === data.until).map((it) => `result ${it.word}`)];
  return h("p", { class: "quiet", id: "until" }, "If nothing more happens, this holds until ",
    number(page.clock.at(data.until), { "data-until": data.until }), left > 0 ? ` (${page.clock.length(left)} left).` : ", and no longer.",
    tight.length > 0 && [" What cannot wait longer: ", listed(tight), "."]);
}

/** Until when a step can wait. In the case that the picture shows it may be planned later than another case allows. */
function until(step, page) {
  const moment = number(page.clock.at(step.by), { "data-by": step.by });
  if (step.planned !== null && step.planned > step.by) return ["in another case it can wait only until ", moment];
  const left = step.by - page.clock.now();
  return ["can wait until ", moment, left > 0 ? ` (${page.clock.length(left)} left)` : ""];
}

/** When a step is to be done, in words: its planned moment, and until when it can wait. */
function when(step, page) {
  const now = page.clock.now();
  const late = page.data.late.find((it) => it.step === step.index);
  const tag = late ? h("span", { class: "tag late" }, `late by ${page.clock.length(now - late.due)}`)
    : step.state === "open" && step.planned !== null && step.planned <= now && h("span", { class: "tag due" }, "now");
  const parts = [tag, step.ready > now && ["not before ", number(page.clock.at(step.ready), { "data-ready": step.ready })],
    step.planned !== null && step.planned > now && `planned ${page.clock.at(step.planned)}`,
    step.by !== null && until(step, page), step.label && `only if ${step.label}`].filter(Boolean);
  return parts.flatMap((part, i) => (i ? [" · ", part] : [part]));
}

function stepRow(step, page, kind, place) {
  const now = page.clock.now();
  const did = (at) => ({ kind: "did", step: step.index, at });
  const ask = () => askAbout(page, { title: [name(step.shown), " is done"], event: did(page.clock.now()), shown: step.shown });
  const wait = () => askAbout(page, { title: [name(step.shown), " cannot come before"], shown: step.shown, ready: step.ready,
    event: { kind: "not_before", step: step.index, at: Math.max(step.ready ?? 0, step.planned ?? 0, page.clock.now()) } });
  const title = step.observes ? [name(step.shown), h("span", { class: "quiet" }, ` (tells ${step.observes})`)] : name(step.shown);
  return h("li", { class: "row", "data-step": step.index },
    h("div", { class: "says" }, h("div", {}, title), h("div", { class: "quiet" }, when(step, page))),
    h("div", { class: "buttons" },
      button(`${place}-did-${step.index}`, "Done now", () => tell(page, did(page.clock.now()), `${step.shown} done at ${page.clock.at(now)}`),
        { kind, "data-act": "did", "aria-label": `${step.shown} done now`, disabled: step.state !== "open" }),
      button(`${place}-ask-${step.index}`, "Other time …", ask,
        { "data-act": "ask", "aria-label": `${step.shown} done at another time, or what if` }),
      button(`${place}-wait-${step.index}`, "Not before …", wait,
        { "data-act": "wait", "aria-label": `${step.shown} cannot come before a moment, or what if` })));
}

function resultSays(result, page) {
  const now = page.clock.now();
  const words = [];
  if (result.expected < now) words.push(h("span", { class: "tag late" }, `late by ${page.clock.length(now - result.expected)}`), " ");
  words.push(`expected ${page.clock.at(result.expected)}`);
  if (result.until === "ever") words.push(" · the plan can do without it");
  else if (result.until !== null) words.push(" · can be late until ", number(page.clock.at(result.until)));
  return words;
}

function resultRow(result, page) {
  const saw = (value, at) => ({ kind: "saw", letter: result.letter, value, at });
  const now = () => page.clock.now();
  const ask = () => askAbout(page, { title: ["Result ", name(result.word)], letter: result.letter, word: result.word, event: saw(true, now()) });
  const value = (it) => button(`saw-${result.letter}-${it}`, it ? "true" : "false",
    () => tell(page, saw(it, now()), `${result.word} is ${it}, at ${page.clock.at(now())}`),
    { kind: "first", "data-act": `saw-${it}`, "aria-label": `${result.word} is ${it}` });
  return h("li", { class: "row", "data-letter": result.letter },
    h("div", { class: "says" }, h("div", {}, "Result ", name(result.word), h("span", { class: "quiet" }, " of ", name(result.shown))),
      h("div", { class: "quiet" }, resultSays(result, page))),
    h("div", { class: "buttons" }, value(true), value(false),
      button(`result-${result.letter}`, "Late, other time …", ask,
        { "data-act": "ask", "aria-label": `Result ${result.word} is late, or came at another time` })));
}

function nextTitle(data, page) {
  const now = page.clock.now();
  if (!data.next) return "What is awaited";
  const gone = data.blame?.let_go.length ? "If what is blamed were let go: " : "";
  if (data.next.at <= now) return gone ? `${gone}now` : "Now";
  return `${gone || "Next "}at ${page.clock.at(data.next.at)}, in ${page.clock.length(data.next.at - now)}`;
}

function next(data, page) {
  if (data.over) return null;
  const steps = data.next ? data.next.do.map((index) => data.steps[index]) : [];
  const results = data.results.filter((it) => it.state === "awaited");
  if (!steps.length && !results.length) return null;
  const awaited = results.length ? [steps.length ? h("h3", {}, "Results that are awaited") : null,
    h("ul", { class: "rows" }, results.map((it) => resultRow(it, page)))] : null;
  return h("section", { class: "card next", id: "next" }, h("h2", {}, nextTitle(data, page)),
    steps.length ? h("ul", { class: "rows" }, steps.map((it) => stepRow(it, page, "first", "next"))) : null, awaited);
}

function others(data, page) {
  const named = new Set(data.next?.do ?? []);
  const order = (step) => step.planned ?? step.by ?? 1e9;
  const left = data.steps.filter((it) => !named.has(it.index) && (it.state === "open" || it.state === "unknown")).sort((a, b) => order(a) - order(b));
  if (!left.length) return null;
  return h("section", { class: "card", id: "later" }, h("h2", {}, named.size ? "And then" : "What is left"),
    quiet("Each moment until which a step can wait is for that step alone: two that both wait may be too much."),
    h("ul", { class: "rows" }, left.slice(0, SOON).map((it) => stepRow(it, page, "", "later"))),
    left.length > SOON && fold("later", `${left.length - SOON} more`,
      h("ul", { class: "rows" }, left.slice(SOON).map((it) => stepRow(it, page, "", "later")))));
}

function byHand(data, page) {
  if (data.clock.running || data.over) return null;
  const field = momentField(page.clock, { "data-key": "hand", value: "", placeholder: page.clock.at(data.clock.now), "aria-label": "It is now" });
  const set = (at) => (at === null ? page.say("That is no moment.") : tell(page, { kind: "now", at }, `It is ${page.clock.at(at)}`));
  const forward = (ticks) => button(`hand-${ticks}`, `+${ticks}`, () => set(data.clock.now + ticks), { "aria-label": `${ticks} later` });
  const send = (event) => {
    event.preventDefault();
    const at = page.clock.read(field.value);
    if (at !== null) field.value = "";
    set(at);
  };
  return h("form", { class: "card", id: "hand", onsubmit: send },
    h("h2", {}, "It is ", number(page.clock.at(data.clock.now))),
    h("div", { class: "buttons" }, forward(1), forward(5), forward(15), field, h("button", { class: "button", "data-key": "hand-set" }, "Set")));
}

function notBegun(data, page) {
  const begin = () => tell(page, { kind: "begin" }, "Begun");
  return h("section", { class: "card wide" }, h("h2", {}, "Not begun"),
    h("p", {}, "The clock of this plan runs from the moment at which you begin it."),
    h("div", {}, button("begin", "Begin now", begin, { kind: "first", "data-act": "begin" })));
}

function files(data) {
  const link = { href: `api/plans/${data.id}/journal`, download: `${data.id}.txt`, "data-key": "journal" };
  return h("p", {}, h("a", link, "The journal as a file"), ", whose lines ", h("code", {}, "cstn follow"), " takes.");
}

export function drawPlan(data, state) {
  const page = { ...state, data };
  if (!data.begun) return notBegun(data, page);
  const todo = [drawNo(data, page), next(data, page), byHand(data, page), others(data, page)].filter(Boolean);
  return [verdict(data, page),
    todo.length > 0 && h("div", { class: "column" }, todo),
    h("div", { class: todo.length ? "column" : "column wide" }, drawGantt(data, page), drawHistory(data, page), drawLimits(data, page), files(data))];
}
