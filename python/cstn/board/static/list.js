// The list of plans: what is next in each, and what is late.
import { Clock } from "./clock.js";
import { button, h, listed, name, number } from "./dom.js";
import * as talk from "./talk.js";

const VERDICTS = { yes: "on plan", no: "does not fit", full: "not known" };

function nextOf(plan, clock) {
  if (plan.error) return h("p", { class: "wrong" }, plan.error);
  if (!plan.begun) return h("p", {}, "Not begun.");
  if (plan.over) return h("p", {}, "All is done.");
  if (!plan.next) return h("p", {}, "Nothing fits any more: somebody has to decide.");
  return h("p", {}, "Next at ", number(clock.at(plan.next.at)), ": ", listed([...plan.next.names, ...plan.next.wait]));
}

function lateOf(plan, clock) {
  if (!plan.late.length) return null;
  return h("p", {}, h("span", { class: "tag late" }, "late"), " ",
    plan.late.map((it, i) => [i ? ", " : "", name(it.name), ` by ${clock.length(it.by)}`]));
}

function card(plan) {
  const clock = new Clock(plan.clock);
  const verdict = plan.over ? "done" : plan.verdict;
  return h("li", {}, h("article", { class: "card", "data-plan": plan.id },
    h("div", { class: "row" },
      h("h2", { class: "says" }, name(plan.title)),
      plan.begun && !plan.error && h("span", { class: `tag ${verdict}` }, plan.over ? "done" : VERDICTS[verdict])),
    nextOf(plan, clock), lateOf(plan, clock),
    button(`open-${plan.id}`, "Open", () => { location.hash = `#/plan/${plan.id}`; }, { kind: "first", "aria-label": `Open ${plan.title}` })));
}

function another(data, page) {
  const title = h("input", { "data-key": "new-title", maxlength: 80, autocomplete: "off", required: true });
  const choice = h("select", { "data-key": "new-document" }, data.documents.map((it) => h("option", { value: it.id }, it.title)));
  const begin = async (event) => {
    event.preventDefault();
    try {
      const made = await talk.begin(choice.value, title.value);
      location.hash = `#/plan/${made.id}`;
    } catch (error) {
      page.say(error.message);
    }
  };
  return h("form", { class: "card", onsubmit: begin },
    h("h2", {}, "Another plan"),
    h("div", { class: "fields" }, h("label", {}, "For whom, or for what", title), h("label", {}, "Which document", choice),
      h("button", { class: "button first", "data-key": "new-begin" }, "Add")));
}

export const drawList = (data, page) => [h("ul", { class: "plans" }, data.plans.map(card)), another(data, page)];
