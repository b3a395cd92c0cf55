// What was told, the last first, with a way to correct each: the journal is then told anew.
import { askAbout } from "./ask.js";
import { button, fold, h } from "./dom.js";
import * as talk from "./talk.js";
import { plain, sentence } from "./words.js";

const SHOWN = 8;

async function correct(page, entry, instead) {
  try {
    const answer = await talk.correct(page.data.id, { version: page.data.version, of: entry.key, instead });
    page.say(answer.fallen ? `Corrected. ${answer.fallen} of what was told behind it can no longer be: look below.` : "Corrected.");
  } catch (error) {
    page.say(error.message);
  }
  await page.refresh();
}

function open(page, entry) {
  const letter = entry.event.kind === "saw" ? entry.event.letter : undefined;
  askAbout(page, {
    title: ["Correct: ", sentence(entry.parts, page.clock)], event: entry.event, letter, correcting: true,
    send: (event) => correct(page, entry, event), leave: () => correct(page, entry, null),
  });
}

const TAGS = { yes: "fits", no: "no", full: "not known" };

function tag(entry) {
  if (entry.standing === "waits") return h("p", {}, h("span", { class: "tag due" }, "waits"), ` ${entry.why}`);
  if (entry.standing === "fell") return h("p", {}, h("span", { class: "tag late" }, "not taken"), ` ${entry.why}`);
  if (entry.standing === "known") return h("span", { class: "tag" }, "told before");
  return entry.verdict && h("span", { class: `tag ${entry.verdict}` }, TAGS[entry.verdict]);
}

function row(entry, page) {
  const moment = entry.at === null ? null : h("span", { class: "number quiet" }, page.clock.at(entry.at), " ");
  return h("li", { class: "row", "data-line": entry.n }, h("div", { class: "says" }, moment, sentence(entry.parts, page.clock), " ", tag(entry)),
    entry.event && button(`correct-${entry.n}`, "Correct …", () => open(page, entry),
      { "data-act": "correct", "aria-label": `Correct: ${plain(entry.parts, page.clock)}` }));
}

export function drawHistory(data, page) {
  const isPast = (entry) => entry.event?.kind === "now" && entry.event.at !== data.clock.now;
  const entries = data.history.filter((it) => !isPast(it)).reverse();
  const [last, older] = [entries.slice(0, SHOWN), entries.slice(SHOWN)];
  return h("section", { class: "card", id: "history" }, h("h2", {}, "What was told"),
    entries.length ? null : h("p", { class: "quiet" }, "Nothing yet."), h("ol", { class: "rows" }, last.map((it) => row(it, page))),
    older.length ? fold("older", `${older.length} more`, h("ol", { class: "rows" }, older.map((it) => row(it, page)))) : null);
}
