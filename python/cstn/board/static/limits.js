// What a "no" blames and how far it must give way; and all limits, to be changed, removed and put in.
import { button, fold, h, momentField, name, number, quiet } from "./dom.js";
import { tell } from "./telling.js";
import { numberOf, readNumber, sentence } from "./words.js";

const remove = (limit, page) => () => tell(page, { kind: "remove", limit: limit.id }, "Limit removed");

function wayOut(way, data, page) {
  const limit = data.limits.find((it) => it.id === way.id);
  if (!limit) return null;
  const needed = way.needed === null ? "" : numberOf(limit.parts, way.needed, page.clock);
  const change = () => tell(page, { kind: "change", limit: limit.id, value: way.needed }, `Limit changed to ${needed}`);
  const would = needed ? h("p", {}, "It would have to be ", number(needed, { "data-needed": way.needed }), ".")
    : quiet("No number of this limit alone would do: there is another cause beside it.");
  return h("li", { class: "row", "data-blamed": limit.id },
    h("div", { class: "says" }, h("div", {}, sentence(limit.parts, page.clock)), quiet(limit.says), would),
    h("div", { class: "buttons" },
      needed && button(`give-${limit.id}`, `Change to ${needed}`, change, { kind: "first", "data-act": "give" }),
      button(`remove-${limit.id}`, "Remove", remove(limit, page), { kind: "grave", "data-act": "remove" })));
}

function later(data, page) {
  if (data.blame.deadline === null) return null;
  const [now, needed] = [page.clock.at(data.deadline), page.clock.at(data.blame.deadline)];
  const change = () => tell(page, { kind: "deadline", at: data.blame.deadline }, "Deadline changed");
  return h("li", { class: "row" },
    h("div", { class: "says" }, "Or the deadline of all, ", number(now), ": it would have to be ", number(needed), "."),
    h("div", { class: "buttons" }, button("give-deadline", `Deadline ${needed}`, change, { "data-act": "give-deadline" })));
}

function comeBy(result, page) {
  const [now, needed] = [result.expected, result.needed].map((it) => it === null ? null : page.clock.at(it));
  const expect = () => tell(page, { kind: "await", letter: result.letter, at: result.needed }, `${result.word} expected at ${needed}`);
  return needed && h("li", { class: "row", "data-late": result.letter },
    h("div", { class: "says" }, "Or result ", name(result.word), ", expected at ", number(now), ": it would have to come by ", number(needed), "."),
    h("div", { class: "buttons" }, button(`come-${result.letter}`, `Expected ${needed}`, expect, { "data-act": "come-by" })));
}

const WITHOUT = { yes: "Without what is broken it fits again.", no: "Without what is broken something else still cannot be kept.", full: "Whether it fits without what is broken is not known." };

/** What was done has broken limits: what is broken is broken, and the plan goes on without them. */
function broken(data, page) {
  const it = data.blame.forgive;
  if (!it) return null;
  const forgive = () => tell(page, { kind: "forgive" }, "What is broken is given up");
  return h("li", { class: "row", id: "broken" },
    h("div", { class: "says" }, "What was done has broken ", it.limits.map((parts, i) => [i ? "; " : "", sentence(parts, page.clock)]), ".", quiet(WITHOUT[it.verdict])),
    h("div", { class: "buttons" }, button("forgive", "Give up what is broken", forgive, { kind: it.verdict === "yes" ? "first" : "", "data-act": "forgive" })));
}

const NOBODY = "No limit is to blame: the deadline is too early, or what was told leaves no time to know a result.";

const decide = (count) => (count === 1 ? "Somebody has to decide by how much it gives way, or a moment below is to be corrected."
  : "Without any one of them the others can. Somebody has to decide which one gives way, or a moment below is to be corrected.");

/** The limits that a "no" blames. After each decision the next such set, if there is one, stands here. */
export function drawNo(data, page) {
  if (data.verdict !== "no" || !data.blame) return null;
  const ways = data.blame.limits;
  return h("section", { class: "card state no", id: "no" }, h("h2", {}, ways.length === 1 ? "This cannot be kept" : "These cannot all be kept"),
    h("p", {}, ways.length ? decide(ways.length) : NOBODY),
    h("ul", { class: "rows" }, ways.map((it) => wayOut(it, data, page)),
      data.blame.results.map((it) => comeBy(it, page)), broken(data, page), later(data, page)));
}

function editor(limit, page) {
  const written = limit.parts.some((part) => "moment" in part) ? page.clock.at(limit.value) : limit.value;
  const field = momentField(page.clock, { "data-key": `limit-${limit.id}`, value: written, "aria-label": "The number of this limit, in ticks" });
  const change = () => {
    const value = readNumber(limit.parts, field.value, page.clock, limit.value);
    return value === null ? page.say("Write a number of ticks.") : tell(page, { kind: "change", limit: limit.id, value }, "Limit changed");
  };
  return [field, button(`change-${limit.id}`, "Change", change, { "data-act": "change" }),
    button(`drop-${limit.id}`, "Remove", remove(limit, page), { kind: "grave" })];
}

function limitRow(limit, page) {
  const note = { changed: `changed from ${numberOf(limit.parts, limit.original, page.clock)}`, removed: "removed", added: "put in" }[limit.state];
  return h("li", { class: "row", "data-limit": limit.id },
    h("div", { class: "says" }, sentence(limit.parts, page.clock), note && h("span", { class: "quiet" }, ` · ${note}`), quiet(limit.says)),
    limit.state !== "removed" && h("div", { class: "buttons" }, editor(limit, page)));
}

function adder(data, page) {
  const last = data.steps.at(-1);
  const options = () => data.steps.map((it) => h("option", { value: it.index }, it.shown));
  const step_ = h("select", { "data-key": "add-step" }, options());
  if (last.further) step_.value = last.index;
  const kind = h("select", { "data-key": "add-kind" }, h("option", { value: "least" }, "at least"), h("option", { value: "most" }, "at most"));
  const ticks = h("input", { class: "short", "data-key": "add-ticks", inputmode: "numeric", autocomplete: "off" });
  const from = h("select", { "data-key": "add-from" }, options());
  const add = (event) => {
    event.preventDefault();
    if (!/^[0-9]{1,7}$/.test(ticks.value)) return page.say("Write a number of ticks.");
    const places = { step: Number(step_.value), from: Number(from.value) };
    return tell(page, { kind: "add", ...places, bound: kind.value, value: Number(ticks.value) }, "Limit put in");
  };
  return h("form", { class: "fields", onsubmit: add, id: "add" }, h("label", {}, "This step", step_), h("label", { class: "narrow" }, "comes", kind),
    h("label", { class: "narrow" }, "ticks", ticks), h("label", {}, "after", from), h("button", { class: "button", "data-key": "add", "aria-label": "Put in this limit" }, "Put in"));
}

/** A step that the document does not have. Nothing ties it to the others but a limit that is put in then. */
function stepMore(page) {
  const field = h("input", { "data-key": "step-name", maxlength: 80, autocomplete: "off", required: true });
  const put = (event) => {
    event.preventDefault();
    const told = field.value.trim();
    field.value = "";
    return tell(page, { kind: "step", name: told }, `Step ${told} put in`);
  };
  return h("form", { class: "fields", onsubmit: put, id: "step-more" }, h("label", {}, "Its name", field),
    h("button", { class: "button", "data-key": "step-put", "aria-label": "Put in this step" }, "Put in"));
}

function deadline(data, page) {
  const field = momentField(page.clock, { "data-key": "deadline", value: page.clock.at(data.deadline) });
  const change = (event) => {
    event.preventDefault();
    const at = page.clock.read(field.value, data.deadline);
    return at === null ? page.say("That is no moment.") : tell(page, { kind: "deadline", at }, "Deadline changed");
  };
  return h("form", { class: "fields", onsubmit: change }, h("label", { class: "narrow" }, "Deadline", field),
    h("button", { class: "button", "data-key": "deadline-set" }, "Change"));
}

export function drawLimits(data, page) {
  const changed = data.limits.filter((it) => it.state).length;
  const title = `${data.limits.length} limits${changed ? ` (${changed} not as in the document)` : ""}`;
  return h("section", { class: "card", id: "limits" }, fold("limits", title, deadline(data, page), h("h3", {}, "A step more"), stepMore(page),
    h("h3", {}, "A limit more"), adder(data, page),
    h("h3", {}, "All limits"), h("ul", { class: "rows" }, data.limits.map((it) => limitRow(it, page)))));
}
