/** @file The page on paper: lanes in windows that fit a sheet, all folds open, and the panels of a short run. */

/** A run with more requests is printed without its panels, and with its folds as they are. */
const MOST_PRINTED = 80;
/** The pixels of a sheet in landscape, the events of a window, and the most windows: a longer run has one, which shows its
 * density. */
const SHEET = 1180;
const LABELS = 150;
const WINDOW = 160;
const MOST_WINDOWS = 20;

/** The lanes of some columns. Each lane is a picture, so that a sheet ends between two. */
function printedWindow(model, state, lanes, from, to) {
  const width = SHEET - LABELS;
  const view = new View(from, Math.min(WIDEST_FIT, (width - RIGHT) / Math.max(1, to - from)), width);
  const drawing = new Drawing(model, state, view, isDense(lanes, view));
  const { numbers } = drawing.drawAxis(Math.min(to, model.length), AXIS);
  const row = (label, height, picture) => el("div", { class: "printed-lane" }, label, svg("svg", { width, height }, picture));
  return el("figure", { class: "printed" }, row(el("div", { class: "label" }, "event"), AXIS, svg("g", { class: "axis" }, numbers)),
    lanes.map((lane) => row(el("div", { class: "label" },
      el("b", null, `${lane.owner === "task" ? "Task" : "Unit"} ${lane.number}`),
      lane.owner === "unit" ? ` ${model.run.units[lane.number].kind}` : ""), lane.height, drawing.draw(lane, 0))));
}

function printedLanes(model, state, lanes) {
  const windows = Math.ceil(model.length / WINDOW);
  const width = windows > MOST_WINDOWS ? model.length : Math.ceil(model.length / Math.max(1, windows));
  const list = [];
  for (let from = 0; from < model.length; from += width) {
    list.push(printedWindow(model, state, lanes, from, Math.min(from + width, model.length)));
  }
  return list;
}

/** Builds all that a page on paper has. Returns a call that takes it away again. */
function preparePrint({ model, state, lanes }) {
  const isShort = model.requests.length <= MOST_PRINTED;
  byId("printed").replaceChildren(...printedLanes(model, state, lanes.tall));
  for (const unit of document.querySelectorAll("section.unit")) unit.build();
  const folds = isShort ? [...document.querySelectorAll("details:not([open])")] : [];
  for (const it of folds) { it.build(); it.open = true; }
  const panels = byId("panels");
  const hasPanels = panels.firstChild !== null;
  if (isShort && !hasPanels) {
    panels.replaceChildren(el("h2", null, "Each request"), ...model.requests.map((request) => articleOf(model, request)));
  }
  return () => {
    byId("printed").replaceChildren();
    for (const it of folds) it.open = false;
    if (!hasPanels) panels.replaceChildren();
  };
}
