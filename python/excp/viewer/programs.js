/**
 * @file Channel programs as lanes of commands, for a run of few requests: one cell a CCW.
 *
 * @typedef {{at: string, name: string, count: number, isBad: boolean, tip: string}} Cell
 * @typedef {{cells: Cell[], times: number}} Group cells that repeat in a row
 */

/** A run with more requests has no lanes of commands. */
const MOST_PROGRAMS = 20;
/** The cells of a request that are shown, if it has more. */
const FIRST_CELLS = 40;
const LAST_CELLS = 8;

class Programs {
  constructor(model, state) {
    this.state = state;
    const requests = model.requests.length > MOST_PROGRAMS ? [] : model.requests;
    this.lanes = requests.map((request) => ({ request, root: programLane(model, request) }));
    this.root = el("div", { class: "programs" }, this.lanes.map(({ root }) => root));
  }

  filter() {
    for (const { request, root } of this.lanes) root.hidden = !this.state.matches(request);
  }
}

function programLane(model, request) {
  const parts = attemptGroups(model, request).flatMap(({ numbers, steps }) =>
    [request.starts.length > 1 ? attemptSign(numbers) : null, ...cellsOf(steps)].filter(Boolean));
  const leftOut = parts.length - FIRST_CELLS - LAST_CELLS;
  if (leftOut > 0) parts.splice(FIRST_CELLS, leftOut, el("span", { class: "dim" }, `… ${many(leftOut)} more …`));
  const manner = howItEnded(model, request);
  return el("div", { class: "program-lane", "data-request": idOf(request) },
    el("div", { class: "name" }, chip(request.code), " ", linkTo(request)),
    el("div", { class: "cells" }, parts.map((it) => (it.nodeType ? it : partOf(request, it))),
      manner ? el("span", { class: `manner t${request.code}` }, manner) : null));
}

/** What the cells of a request do not show of its end. */
function howItEnded(model, request) {
  if (!request.end) return "not posted";
  return request.code === "7F" ? "" : mannerOf(model, request);
}

const attemptSign = (numbers) =>
  el("span", { class: "attempt dim" }, numbers.length > 1 ? `attempts ${numbers[0]}–${lastOf(numbers)}` : `attempt ${numbers[0]}`);

const partOf = (request, part) => (part.cells ? el("span", { class: "group" }, part.cells.map((it) => drawCell(request, it)),
  el("b", null, `×${many(part.times)}`)) : drawCell(request, part));

const drawCell = (request, { name, count, isBad, tip }) =>
  el("a", { class: isBad ? "cell failed" : name === TRANSFER ? "cell dim" : "cell", href: `#${idOf(request)}`, "data-tip": tip },
    isBad ? "✕ " : "", el("b", null, name), count > 1 ? ` ×${many(count)}` : "");

// --- cells

const TRANSFER = "TIC";

/** The cells of steps in their order. A command that a transfer repeats is one cell with both, as a search with its rounds. */
function cellsOf(steps) {
  const cells = [];
  let next = null;
  for (const step of steps) {
    const { loop = [step], times = 1 } = step;
    const isOne = loop.length === 1 && loop[0].ccws.length < 2;
    if (isOne && lastOf(cells)?.at === firstAt(loop[0])) repeat(lastOf(cells), loop[0], times);
    else cells.push(...transferTo(next, loop[0]),
      ...(isOne || !step.loop ? cellsOfStep(loop[0], times) : [{ cells: roundOf(loop), times }]));
    // the last transfer of a loop is in its last round
    next = isOne || !step.loop ? lastOf(loop).next : null;
  }
  return cells;
}

/** A command comes again so many times: how it ended is how it ended last. */
function repeat(cell, step, times) {
  const count = cell.count + times;
  const { isBad, tip } = lastOf(cellsOfStep(step, count));
  Object.assign(cell, { count, isBad, tip });
}

/** The cells of one round of a loop, with the transfer that leads back. */
const roundOf = (loop) => [...cellsOf(loop), ...transferTo(lastOf(loop).next, loop[0])];

/** Where a step begins: at its first CCW, or at the one that broke a rule. */
const firstAt = ({ ccws, rule }) => ccws[0]?.at ?? rule?.at;

/** The JSON has no transfers: there is one if a program goes on at another address than its next command has. */
const transferTo = (next, step) => (next && next !== firstAt(step) ? [transferAt(next, firstAt(step))] : []);

const transferAt = (at, to) => ({ at, name: TRANSFER, count: 1, isBad: false, tip: `TIC transfer in channel\nat ${at}, to ${to}` });

/** The cells of a step: its CCWs, the transfers between them, and the CCW that broke a rule. */
function cellsOfStep(step, count) {
  const cells = [];
  let next = null;
  for (const ccw of step.ccws) {
    if (next && next !== ccw.at) cells.push(transferAt(next, ccw.at));
    cells.push(ccwCell(step, ccw, count));
    next = hexOf(bitsOf(ccw.at) + 8, 6);
  }
  if (step.rule && !step.ccws.some(({ at }) => at === step.rule.at)) cells.push(ruleCell(step.rule));
  return cells;
}

function ccwCell(step, { at, image, name, mnemonic, flags }, count) {
  const isBad = step.rule ? step.rule.at === at : isFailed(step);
  const lines = [`${mnemonic ?? ""} ${name} ${flags.join(" ")}`.trim(), `at ${at}: ${grouped(image)}`,
    count > 1 ? `${many(count)} times` : "",
    step.place ? placeInWords(step.place) : "", isBad ? troubleOfStep(step) : ""];
  return { at, name: mnemonic ?? (name === "data" ? name : operationOf(image)), count, isBad,
    tip: lines.filter(Boolean).join("\n") };
}

/** The name of a CCW that is no command of its device. */
const operationOf = (image) => (image[1] === "8" ? TRANSFER : `X'${image.slice(0, 2)}'`);

const ruleCell = ({ at, image, mnemonic, text }) =>
  ({ at, name: mnemonic ?? (image ? operationOf(image) : at), count: 1, isBad: true, tip: `program check at ${at}\n${text}` });
