/**
 * @file The program of a request: its CCWs, each with how often it was hit. What a pointer is at is lit in the steps too, and back.
 *
 * @typedef {{at: string, hits: number, isBad: boolean}} Row with the members of a Ccw that are known
 */

/** The rows of a pane that are shown. */
const MOST_CCWS = 200;

/** The pane of a request with these attempts; nothing if its program is not known. */
function paneOf(model, request, attempts) {
  const rows = ccwsOf(programOf(model, request), attempts);
  if (!rows.length) return null;
  const isSymbolic = rows.some(({ line }) => line !== undefined);
  const heads = isSymbolic ? [["Hits"], "Address", "Label", "Statement", ["Line"]] : [["Hits"], "Address", "CCW", "Command"];
  const parts = table("pane", heads, rows.slice(0, MOST_CCWS).map((row) => paneRow(row, isSymbolic)));
  const leftOut = rows.length - MOST_CCWS;
  return part("Program", parts, leftOut > 0 ? el("p", { class: "dim" }, `and ${counted(leftOut, "CCW")} more`) : null);
}

function paneRow({ at, hits, isBad, image, name, mnemonic, label, line, text }, isSymbolic) {
  const command = [el("b", null, mnemonic ?? ""), ` ${name ?? ""}`];
  const statement = text?.replace(/^\w+:\s*/, "");
  const cells = isSymbolic ? [label ?? "", statement ?? command] : [image ? grouped(image) : "", command];
  return el("tr", { class: isBad ? "bad" : !hits && "dim", "data-at": at }, numberCell(hits), el("td", { class: "code" }, at),
    cells.map((content) => el("td", { class: "code" }, content)), isSymbolic ? el("td", { class: "n" }, line ?? "") : null);
}

/** The CCWs of a request by their addresses: those of its script, and those that its attempts hit. @returns {Row[]} */
function ccwsOf(program, attempts) {
  const rows = new Map(program.map((ccw) => [ccw.at, { ...ccw, hits: 0, isBad: false }]));
  for (const { numbers, steps } of attempts) countHits(rows, steps, numbers.length);
  return [...rows.values()].sort((one, other) => (one.at < other.at ? -1 : 1));
}

/** Counts the CCWs of steps that came so many times, and the transfers between them. */
function countHits(rows, steps, attempts) {
  let next = null;
  for (const { loop, times = 1, ...step } of steps) {
    const list = loop ?? [step];
    list.forEach((it, place) => {
      if (next) hitTransfer(rows, next, it, place ? times * attempts : attempts);
      hitStep(rows, it, times * attempts);
      next = it.next;
    });
    if (next && times > 1) hitTransfer(rows, next, list[0], (times - 1) * attempts);
  }
}

function hitTransfer(rows, at, step, times) {
  if (at !== firstAt(step)) hit(rows, { at, name: "transfer in channel", mnemonic: TRANSFER }, times);
}

function hitStep(rows, step, times) {
  let next = null;
  for (const ccw of step.ccws) {
    if (next && next !== ccw.at) hit(rows, { at: next, name: "transfer in channel", mnemonic: TRANSFER }, times);
    hit(rows, ccw, times, step.rule ? step.rule.at === ccw.at : isFailed(step));
    next = hexOf(bitsOf(ccw.at) + 8, 6);
  }
  if (step.rule && !step.ccws.some(({ at }) => at === step.rule.at)) {
    hit(rows, { at: step.rule.at, image: step.rule.image }, times, true);
  }
}

function hit(rows, ccw, times, isBad = false) {
  if (!rows.has(ccw.at)) rows.set(ccw.at, { ...ccw, hits: 0, isBad: false });
  const row = rows.get(ccw.at);
  row.hits += times;
  row.isBad = row.isBad || isBad;
}

/** Lights the rows of a panel that have the address of what a pointer is at. */
function lightAddress(target) {
  for (const lit of document.querySelectorAll(".pointed")) lit.classList.remove("pointed");
  const at = target.closest?.("[data-at]")?.getAttribute("data-at");
  const rows = at ? target.closest(".program").querySelectorAll("[data-at]") : [];
  for (const row of rows) if (row.getAttribute("data-at") === at) row.classList.add("pointed");
}
