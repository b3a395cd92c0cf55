// The plan as a picture: a row is a step, with when it was done, or when it is planned and how long it can wait, and the line of now.
import { button, h, name, svg } from "./dom.js";

const ROW = 28;
const HEAD = 30;
const STEPS = [1, 2, 5, 10, 15, 20, 30, 60, 120, 180, 240, 360, 480, 720, 1440];

/** The moments that stand at the axis: at round numbers, and no more than there is room for. */
function marks(first, last, room) {
  const length = last - first;
  const most = Math.max(2, Math.min(10, Math.floor(room / 64)));
  const step = STEPS.find((it) => length / it <= most) ?? Math.ceil(length / most / 1440) * 1440;
  const found = [];
  for (let at = Math.ceil(first / step) * step; at <= last; at += step) found.push(at);
  return found;
}

function span(data, now) {
  const moments = data.steps.flatMap((it) => [it.at, it.planned, it.state === "open" ? it.by : null]).filter((it) => it !== null && it !== undefined);
  const last = Math.max(now, 1, ...moments.map((it) => Math.min(it, data.deadline)), ...moments.filter((it) => it > data.deadline));
  return { first: 0, last: Math.max(last * 1.02, last + 1) };
}

function frame(data, page, place) {
  const grid = marks(place.first, place.last, place.width - 60).map((at) => [
    svg("line", { class: "grid", x1: place.x(at), x2: place.x(at), y1: HEAD - 6, y2: place.height }),
    svg("text", { class: "axis", x: place.x(at), y: 14, "text-anchor": "middle" }, page.clock.at(at))]);
  const x = place.x(data.deadline);
  const end = data.deadline <= place.last && svg("line", { class: "end", x1: x, x2: x, y1: HEAD - 6, y2: place.height });
  return [grid, end].flat(2).filter(Boolean);
}

const diamond = (x, y, kind) => svg("path", { class: kind, d: `M${x - 7} ${y}L${x} ${y - 7}L${x + 7} ${y}L${x} ${y + 7}Z` });

function bar(place, from, to, y, kind, height = 12) {
  return svg("rect", { class: kind, x: place.x(from), y: y - height / 2, width: Math.max(place.x(to) - place.x(from), 2), height, rx: 3 });
}

function reaction(step, data, place, y) {
  const result = data.results.find((it) => it.step === step.index);
  const from = step.at ?? step.planned;
  if (!result || from === null) return [];
  const to = result.state === "seen" ? result.at : (result.expected ?? from + result.reaction);
  const seen = result.state === "seen" ? [svg("circle", { class: "seen", cx: place.x(to), cy: y, r: 5 })] : [];
  return [bar(place, from, Math.max(to, from), y, "reaction", 14), ...seen];
}

function says(step, page) {
  if (step.at !== null) return `${step.shown}: done at ${page.clock.at(step.at)}`;
  const planned = step.planned === null ? "" : ` planned ${page.clock.at(step.planned)}`;
  const ready = step.ready === null ? "" : `, not before ${page.clock.at(step.ready)}`;
  return `${step.shown}:${planned}${ready}${step.by === null ? "" : `, can wait until ${page.clock.at(step.by)}`}`;
}

/** A stripe behind every second row. */
const stripe = (index, width) => (index % 2 ? svg("rect", { class: "stripe", x: 0, y: HEAD + index * ROW, width, height: ROW }) : null);

const middle = (index) => HEAD + index * ROW + ROW / 2;

function row(step, index, data, page, place) {
  const y = middle(index);
  const late = data.late.some((it) => it.step === step.index);
  const parts = [stripe(index, place.width), ...reaction(step, data, place, y)];
  if (step.at !== null) parts.push(svg("circle", { class: "done", cx: place.x(step.at), cy: y, r: 7 }));
  else {
    if (step.planned !== null && step.by > step.planned) parts.push(bar(place, step.planned, step.by, y, "float"));
    if (step.planned !== null) parts.push(diamond(place.x(step.planned), y, late ? "late" : "planned"));
  }
  return svg("g", {}, svg("title", {}, says(step, page)), ...parts.filter(Boolean));
}

/** The names beside the picture, which stay where they are while it scrolls. A long one is cut at the edge. */
function names(shown, place) {
  const one = (step, index) => [stripe(index, place.names),
    svg("svg", { x: 0, y: HEAD + index * ROW, width: place.names - 6, height: ROW }, svg("text", { x: 4, y: ROW / 2 + 5 }, step.shown))];
  return svg("svg", { class: "gantt names", width: place.names, height: place.height + 4, "aria-hidden": "true" },
    ...shown.flatMap(one).filter(Boolean));
}

function rows(data) {
  const moment = (it) => it.at ?? it.planned ?? it.by ?? 1e9;
  return data.steps.filter((it) => !it.start && (it.at !== null || it.planned !== null)).sort((a, b) => moment(a) - moment(b));
}

function place(data, now, count) {
  const room = document.documentElement.clientWidth;
  const names = room < 600 ? 110 : 180;
  const width = Math.max(room < 600 ? 400 : 460, Math.min(room < 1224 ? room - 70 : room * 0.535, 980) - names);
  const { first, last } = span(data, now);
  const x = (at) => 26 + ((Math.min(at, last) - first) / (last - first)) * (width - 60);
  return { names, width, height: HEAD + count * ROW, first, last, x };
}

function picture(data, page) {
  const now = page.clock.now();
  const shown = rows(data);
  const where = place(data, now, shown.length);
  const line = svg("line", { class: "now", x1: where.x(now), x2: where.x(now), y1: HEAD - 6, y2: where.height });
  const word = svg("text", { class: "axis now-text", x: where.x(now), y: HEAD - 2, "text-anchor": "middle" }, "now");
  const label = `The plan as a picture, ${shown.length} steps`;
  const chart = svg("svg", { class: "gantt", width: where.width, height: where.height + 4, role: "img", "aria-label": label },
    ...frame(data, page, where), ...shown.map((step, index) => row(step, index, data, page, where)), line, word);
  const scrolls = { "data-scroll": "gantt", "data-start": Math.max(0, where.x(now) - 60), tabindex: 0 };
  return h("div", { class: "scroll", ...scrolls, role: "region", "aria-label": "The picture, which scrolls" }, names(shown, where), chart);
}

function choices(data, page) {
  if (!data.ahead.length) return null;
  return h("div", { class: "buttons", role: "group", "aria-label": "The picture of which case" }, h("span", {}, "The way ahead, if"),
    data.ahead.map(({ letter, word, value }) => button(`case-${letter}`, `${word} is ${value} ⇄`, () => page.choose(letter, !value),
      { "aria-label": `The picture supposes that ${word} is ${value}; suppose the contrary`, "data-act": "case" })));
}

function legend() {
  const sign = (...shapes) => svg("svg", { class: "gantt", viewBox: "0 0 26 16", "aria-hidden": "true" }, ...shapes);
  const entries = [[sign(svg("circle", { class: "done", cx: 13, cy: 8, r: 7 })), "done"], [sign(diamond(13, 8, "planned")), "planned"],
    [sign(diamond(13, 8, "late")), "late"], [sign(svg("rect", { class: "float", x: 1, y: 2, width: 24, height: 12, rx: 3 })), "can wait"],
    [sign(svg("rect", { class: "reaction", x: 1, y: 2, width: 24, height: 12, rx: 3 })), "until the result"],
    [sign(svg("line", { class: "end", x1: 13, x2: 13, y1: 0, y2: 16 })), "deadline"]];
  return h("div", { class: "legend" }, entries.map(([shape, words]) => h("span", {}, shape, words)));
}

export function drawGantt(data, page) {
  if (!rows(data).length) return null;
  return h("section", { class: "card", id: "gantt" }, h("h2", {}, "The whole plan"), choices(data, page),
    picture(data, page), legend());
}
