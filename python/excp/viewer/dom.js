/** @file Elements. Text is only ever set as text. */

const SVG = "http://www.w3.org/2000/svg";

const isChild = (child) => child !== null && child !== undefined && child !== false && child !== "";

function fill(element, attributes, children) {
  for (const [name, value] of Object.entries(attributes ?? {})) {
    if (value === undefined || value === false) continue;
    if (name === "style") Object.assign(element.style, value);
    else if (name.startsWith("on")) element.addEventListener(name.slice(2), value);
    else element.setAttribute(name, value === true ? "" : value);
  }
  element.append(...children.flat(Infinity).filter(isChild));
  return element;
}

/** An HTML element. `style` is an object, `onNAME` a listener; children are nodes, texts and lists of them. */
const el = (name, attributes, ...children) => fill(document.createElement(name), attributes, children);

/** An SVG element. */
const svg = (name, attributes, ...children) => fill(document.createElementNS(SVG, name), attributes, children);

const byId = (id) => document.getElementById(id);

/** The chip of a completion code. */
const chip = (code) => el("b", { class: `chip c${code || "none"}` }, code || "–");

const button = (words, title, action) => el("button", { type: "button", title, "aria-label": title, onclick: action }, words);

/** Calls a function at most once a frame. */
function oncePerFrame(action) {
  let isDue = false;
  return () => {
    if (isDue) return;
    isDue = true;
    requestAnimationFrame(() => { isDue = false; action(); });
  };
}

const watcher = new IntersectionObserver((entries) => {
  for (const entry of entries) if (entry.isIntersecting) entry.target.build();
}, { rootMargin: "1500px" });

/** Builds the content of a part when it first comes near the window, or when `part.build()` is called. */
function whenSeen(part, build) {
  let isBuilt = false;
  part.build = () => {
    if (isBuilt) return;
    isBuilt = true;
    watcher.unobserve(part);
    part.style.minHeight = "";
    build();
  };
  watcher.observe(part);
  return part;
}

/** A fold. Its content is made when it is first opened, or when `build()` is called. */
function fold(title, make) {
  const details = el("details", null, el("summary", null, title));
  details.build = () => { if (details.children.length === 1) details.append(make()); };
  details.addEventListener("toggle", () => { if (details.open) details.build(); });
  return details;
}

/** Adds what `make(index)` returns for the first `step` of `count` numbers, and a button that adds as many again. */
function inPortions(parent, count, step, noun, make) {
  let done = 0;
  const more = el("button", { class: "more", type: "button", onclick: () => add() });
  const add = () => {
    const to = Math.min(count, done + step);
    const parts = [];
    for (; done < to; done += 1) parts.push(make(done));
    more.remove();
    parent.append(...parts.flat().filter(isChild));
    if (done < count) {
      more.textContent = `Show ${Math.min(step, count - done)} more of ${many(count - done)} further ${noun}`;
      parent.append(more);
    }
  };
  add();
  return { upTo: (index) => { while (done <= index && done < count) add(); } };
}

/** A table. The heading of a column of numbers is a list. */
const table = (name, heads, rows) => el("div", { class: "wide-table" }, el("table", { class: name },
  el("thead", null, el("tr", null, heads.map((head) => el("th", { class: Array.isArray(head) && "n" }, head)))),
  el("tbody", null, rows)));

const cell = (...content) => el("td", null, content);
const numberCell = (value) => el("td", { class: "n" }, value ? many(value) : "·");

/** Bytes in hexadecimal and in characters, in lines of so many bytes. */
function hexOfBytes(hex, isMore = false, bytes = 16) {
  const width = hex.length > 2 * bytes ? (bytes / 4) * 9 - 1 : 0;
  const lines = hexLines(hex, bytes).map(([digits, text]) => el("div", null, digits.padEnd(width), "  ", el("i", null, text)));
  return el("div", { class: "hex code" }, lines, isMore ? el("div", { class: "dim" }, "…") : null);
}
