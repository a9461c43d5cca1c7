/** @file The steps of a request as a table: a row for each CCW of the commands of its attempts. */

/** The most steps of an attempt that are shown. */
const FIRST_STEPS = 120;
const LAST_STEPS = 40;

const STEP_HEADS = ["Address", "Command", "Flags", "Data", "Place", "Status"];
/** The bytes of a line of data. */
const STEP_BYTES = 8;

/** The steps of the attempts of a request; those with equal steps in a row are one. */
function stepsOfAttempts(model, request, attempts) {
  if (!request.runs.length) return [];
  return attempts.map(({ numbers, runs, steps }) => {
    const title = request.starts.length > 1 ? `Attempt${numbers.length > 1 ? "s" : ""} ${rangeOf(numbers)}` : "Steps";
    const isLeftOut = runs.some(({ event }) => event.left_out);
    return part(title, stepsTable({ unit: model.run.units[request.unit], ccws: programOf(model, request), search: null }, steps),
      isLeftOut ? el("p", { class: "dim" }, "Further steps were left out.") : null);
  });
}

const rangeOf = (numbers) =>
  (numbers.length > 1 ? `${numbers[0]} to ${lastOf(numbers)}, all alike but for their faults` : numbers[0]);

/** @param {object} context the unit, the CCWs of the program that have names, and the last step that searched */
function stepsTable(context, steps) {
  const leftOut = steps.length - FIRST_STEPS - LAST_STEPS;
  const shown = leftOut > 0 ? [...steps.slice(0, FIRST_STEPS), null, ...steps.slice(-LAST_STEPS)] : steps;
  return el("div", { class: "wide-table" }, el("table", { class: "steps" },
    el("thead", null, el("tr", null, STEP_HEADS.map((head) => el("th", null, head)))),
    shown.map((step) => (step ? stepOrLoop(context, step)
      : el("tbody", null, wholeRow("dim", `… ${counted(leftOut, "step")} more …`))))));
}

const wholeRow = (name, ...content) => el("tr", { class: name }, el("td", { colspan: STEP_HEADS.length }, content));

function stepOrLoop(context, step) {
  if (!step.loop) return el("tbody", { class: isFailed(step) ? "step failed-step" : "step" }, stepRows(context, step));
  return el("tbody", { class: "loop" }, step.loop.map((it) => stepRows(context, it)), wholeRow("times", `× ${many(step.times)}`));
}

/** The rows of a step: one for each CCW, the first with what the step did; then the rule that a CCW broke, or what a search
 * passed. */
function stepRows(context, step) {
  if (step.place?.equal !== undefined && step.bytes) context.search = step;
  const { ccws, rule, place } = step;
  const rows = Math.max(1, ccws.length);
  const did = [dataOf(context, step), place && place.passed === undefined ? placeOf(context, step) : "", statusOf(step)]
    .map((content) => el("td", { rowspan: rows > 1 && rows }, content));
  const isRule = ({ at }) => at === rule?.at;
  return [
    ...ccws.map((ccw, nth) => ccwRow(context, ccw, isRule(ccw), nth === 0 ? did : [])),
    rule ? wholeRow("bad rule", brokenRule(step)) : null,
    place?.passed === undefined ? null : wholeRow("", comparisonOf(context.unit, place, context.search)),
  ];
}

const ccwRow = (context, { at, image, name, mnemonic, flags }, isBroken, did) =>
  el("tr", { class: isBroken && "bad", "data-at": at },
  el("td", { class: "code" }, at, labelAt(context, at)),
  el("td", null, did.length ? [el("b", { class: "code" }, mnemonic ?? ""), ` ${name}`] : "…",
    el("div", { class: "image code dim" }, grouped(image))),
  el("td", { class: "code" }, flags.join(" ")), did);

function brokenRule({ ccws, rule }) {
  const isShown = ccws.some(({ at }) => at === rule.at);
  const ccw = rule.image && !isShown ? [" ", el("b", { class: "code" }, rule.mnemonic ?? ""), ` ${grouped(rule.image)}`] : "";
  return [el("span", { "data-at": rule.at }, `program check at ${rule.at}`), ccw, ": ", rule.text];
}

/** The label of a CCW in a job in symbols. */
function labelAt({ ccws }, address) {
  const label = ccws.find(({ at }) => at === address)?.label;
  return label ? el("div", { class: "dim" }, label) : null;
}

function dataOf({ ccws }, { moved, way, address, bytes, more }) {
  if (moved === undefined) return "";
  const operand = ccws.find(({ image }) => image.slice(2, 8) === address)?.operand;
  const line = `${counted(moved, "byte")} ${way} ${address}${operand ? ` ${operand}` : ""}`;
  return isHexadecimal(bytes) ? [line, hexOfBytes(bytes, more, STEP_BYTES)] : `${line}: ${bytes}${more ? " …" : ""}`;
}

function statusOf(step) {
  const { status, residual, next } = step;
  if (status === undefined) return "";
  const trouble = troubleOfStep(step);
  return [el("span", { class: "code" }, `${status} residual ${residual}`),
    next ? el("span", { class: "code dim" }, ` → ${next}`) : "",
    trouble ? el("div", { class: isFailed(step) && "bad" }, trouble) : ""];
}

/** Whether a step is a program check, or shows more than a normal end. */
const isFailed = ({ rule, status, fault }) => Boolean(rule || bitsOf(status) & TROUBLE || fault);

/** What the status and the sense bytes of a step say, and which fault of its unit it met. */
function troubleOfStep({ rule, status, sense, fault }) {
  if (rule) return rule.text;
  const names = unusualStatus(bitsOf(status));
  if (sense && sense !== "0000") names.push(`sense ${sense} ${senseNames(bitsOf(sense)).join(", ")}`.trim());
  if (fault) names.push(`fault ${fault} of the unit`);
  return names.join(", ");
}
