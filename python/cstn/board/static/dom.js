// Elements from data. A text becomes a text node and never markup, whatever stands in it.

const SVG = "http://www.w3.org/2000/svg";

function build(element, attributes, children) {
  for (const [name, value] of Object.entries(attributes)) {
    if (name.startsWith("on")) element.addEventListener(name.slice(2), value);
    else if (value === true) element.setAttribute(name, "");
    else if (value !== false && value !== null && value !== undefined) element.setAttribute(name, String(value));
  }
  element.append(...children.flat(3).filter((child) => child !== null && child !== undefined && child !== false));
  return element;
}

/** An HTML element; `onclick` and the like are listeners. */
export const h = (tag, attributes = {}, ...children) => build(document.createElement(tag), attributes, children);

/** An element of a picture. */
export const svg = (tag, attributes = {}, ...children) => build(document.createElementNS(SVG, tag), attributes, children);

/** A name of the document, which may be in any script and of any length. */
export const name = (text) => h("bdi", { class: "name" }, text);

/** A number, or a moment, in a sentence. */
export const number = (text, more = {}) => h("b", { class: "number", ...more }, text);

/** Words beside what matters, if there are any. */
export const quiet = (...words) => (words.some(Boolean) ? h("p", { class: "quiet" }, words) : null);

/** Names in a row, with commas. */
export const listed = (names) => names.map((it, i) => [i ? ", " : "", name(it)]);

/** A field for a moment. */
export const momentField = (clock, more) =>
  h("input", { class: "short", autocomplete: "off", inputmode: clock.hasTimes() ? "text" : "numeric", ...more });

/** A part of a page that is unfolded by its title. */
export const fold = (key, title, ...children) =>
  h("details", { "data-key": key }, h("summary", {}, title), h("div", { class: "inside" }, children));

/** A button that says what it does; `key` finds it again after the page was drawn anew. */
export function button(key, text, act, more = {}) {
  const { kind = "", ...attributes } = more;
  return h("button", { type: "button", class: `button ${kind}`, "data-key": key, onclick: act, ...attributes }, text);
}

const byKey = (root, key) => root.querySelector(`[data-key="${CSS.escape(key)}"]`);

function kept(root) {
  const fields = [...root.querySelectorAll("input[data-key], select[data-key]")].map((it) => [it.dataset.key, it.value, it.dataset.drawn]);
  const folds = [...root.querySelectorAll("details[data-key]")].map((it) => [it.dataset.key, it.open]);
  const focus = root.contains(document.activeElement) ? document.activeElement.dataset.key : undefined;
  const scrolls = [...root.querySelectorAll("[data-scroll]")].map((it) => [it.dataset.scroll, it.scrollLeft]);
  return { fields, folds, focus, scrolls };
}

/** Draws a part of the page anew. What was typed, unfolded, scrolled to or had the focus stays so. */
export function draw(root, ...children) {
  const before = kept(root);
  root.replaceChildren(...children.flat(3).filter(Boolean));
  for (const field of root.querySelectorAll("input[data-key], select[data-key]")) field.dataset.drawn = field.value;
  for (const [key, value, drawn] of before.fields) {
    const field = byKey(root, key);
    if (field && value !== drawn) field.value = value;
  }
  for (const [key, open] of before.folds) {
    const fold = byKey(root, key);
    if (fold) fold.open = open;
  }
  const scrolls = new Map(before.scrolls);
  for (const part of root.querySelectorAll("[data-scroll]")) part.scrollLeft = scrolls.get(part.dataset.scroll) ?? part.dataset.start;
  if (before.focus) (byKey(root, before.focus) ?? root).focus({ preventScroll: true });
}
