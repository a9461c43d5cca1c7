/** @file The signs that lanes are drawn of, and the hatches of codes and strips. */

/** The pixels of a letter of a label. */
const LETTER = 6.35;

/** The marks, drawn around 0 0. */
const SIGNS = {
  purge: () => svg("path", { class: "sign", d: "M-6-5H6L0 6Z" }),
  closed: () => svg("path", { class: "sign line", d: "M-5-5H5V5H-5ZM-5-5L5 5M5-5L-5 5" }),
  reset: () => svg("path", { class: "sign line", d: "M-2.5-4.4A5 5 0 1 1-5 0M-5.8-6L-2-4.6L-4-1" }),
  opened: () => svg("path", { class: "sign line", d: "M-5-5H5V5H-5Z" }),
};

/** The ends of requests that did not end well, drawn around 0 0. */
const ENDS = {
  41: "M-2.4-2.4L2.4 2.4M2.4-2.4L-2.4 2.4",
  42: "M0-3V.8M0 2.6V3.2",
  48: "M-2.6 2.6L2.6-2.6",
};

/** A box about a height. */
function box(name, left, right, y, half) {
  const width = Math.max(1.5, right - left - (name === "wait" ? 0 : 0.5));
  return svg("rect", { class: name, x: left.toFixed(1), width: width.toFixed(1), y: y - half, height: 2 * half });
}

/** The sign at the end of a request that did not end well. */
const endSign = (code, x, y) => svg("g", { class: "end", transform: `translate(${x} ${y})` },
  svg("circle", { r: 5 }), svg("path", { d: ENDS[code] ?? "" }));

/** A text on a plate. */
const plate = (words, { x, width }, y) => svg("g", { class: "plate" },
  svg("rect", { x, y: y - 6.5, width, height: 13, rx: 2 }), svg("text", { x: x + 3, y: y + 3.6 }, words));

/** The width of a text on a plate. */
const plateWidth = (words) => words.length * LETTER + 6;

/** The line of a task's wait, with its ends. */
const waitLine = (left, right, y) => svg("path", { class: "pause", d: `M${left} ${y - 3}v6m0-3H${right}m0-3v6` });

const collectSign = (x, y) => svg("circle", { class: "collect", cx: x, cy: y, r: 2.2 });

const HATCHES = { 41: "M0 0L6 6M6 0L0 6", 42: "M2 3h2", 48: "M-1 7L7-1M-1 1L1-1M5 7L7 5" };

const pattern = (id, size, name, ...parts) =>
  svg("pattern", { id, width: size, height: size, patternUnits: "userSpaceOnUse", class: name }, parts);

/** The hatches of codes and strips. */
const patterns = () => svg("svg", { class: "patterns", "aria-hidden": "true" }, svg("defs", null,
  Object.entries(HATCHES).map(([code, d]) =>
    pattern(`p${code}`, 6, `c${code}`, svg("rect", { class: "tint", width: 6, height: 6 }), svg("path", { d }))),
  pattern("pflag", 7, "", svg("path", { d: "M-1 8L8-1M-1 1L1-1M6 8L8 6" })),
  pattern("pclosed", 4, "", svg("path", { d: "M0 2H4" }))));
