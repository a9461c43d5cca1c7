/**
 * @file The state of a request at each of its steps: a slider chooses the step.
 *
 * @typedef {{base: string, bytes: string, labels: object}} Area storage before a request, and the labels at its addresses
 * @typedef {Array} State the last step, the place of the program, the bytes that the step has set, and the number of a medium's
 *   look
 */

/** The bytes of a row, and the most rows that are shown. */
const STATE_ROW = 8;
const STATE_ROWS = 160;

/** The states of the page; null if it has none. */
let statesOfPage;

function readStates() {
  if (statesOfPage === undefined) statesOfPage = read("states");
  return statesOfPage;
}

/** The slider of a request, and the state that it chooses; nothing of a request that did not run. */
function statesOf({ task, unit, number, runs }) {
  if (!runs.length) return null;
  const states = readStates();
  const found = states?.requests[`${task}-${unit}-${number}`];
  const title = "Storage and medium at each step";
  if (!found) return part(title, el("p", { class: "dim" }, "This page leaves them out. excp debug shows them."));
  const view = el("div", { class: "state", "aria-live": "polite" });
  const show = (step) => view.replaceChildren(...stateAt(states, found, step));
  show(0);
  return el("div", { class: "program states" }, part(title, sliderOf(found.steps.length - 1, show), view));
}

/** A slider from 0 to `most`, with a button on either side. */
function sliderOf(most, show) {
  const slider = el("input",
    { type: "range", min: 0, max: most, value: 0, "aria-label": "Step", oninput: () => show(Number(slider.value)) });
  const move = (by) => {
    slider.value = String(Number(slider.value) + by);
    show(Number(slider.value));
  };
  return el("div", { class: "slider" }, button("‹", "The step before", () => move(-1)), slider,
    button("›", "The next step", () => move(1)));
}

/** What the page shows of a step: the step, the place of the program, storage, and the medium. */
function stateAt(states, { area, steps }, step) {
  const [last, place, , medium] = steps[step];
  return [
    el("p", { class: "code" }, last || "before the first command"), el("p", { class: "code dim" }, place),
    el("div", { class: "state-parts" },
      el("div", { class: "storage code" }, storageRows(states.areas[area], steps.slice(0, step + 1))),
      el("div", { class: "medium code" }, states.media[medium].map((line) => el("div", { class: isAtPlace(line) && "at" }, line)))),
  ];
}

const isAtPlace = (line) => /^ *>/.test(line);

/** The rows of storage after some steps: bytes that changed, and those that the last step has set. Rows of zeros without a label
 * are left out. */
function storageRows({ base, bytes, labels }, steps) {
  const first = bytes.match(/../g) ?? [];
  const now = [...first];
  const isNew = new Set();
  steps.forEach(([, , changes], step) => changes.forEach(([address, digits]) => digits.match(/../g).forEach((byte, nth) => {
    const at = bitsOf(address) - bitsOf(base) + nth;
    now[at] = byte;
    if (step === steps.length - 1) isNew.add(at);
  })));
  const rows = [];
  for (let at = 0; at < now.length; at += STATE_ROW) {
    const row = now.slice(at, at + STATE_ROW);
    const names = row.map((_, nth) => labels[hexOf(bitsOf(base) + at + nth, 6)]).filter(Boolean).join(" ");
    const isWanted = names || row.some((byte, nth) => byte !== "00" || first[at + nth] !== "00");
    if (isWanted) rows.push(storageRow(hexOf(bitsOf(base) + at, 6),
      row.map((byte, nth) => byteIn(byte, first[at + nth], isNew.has(at + nth))), row, names));
  }
  const leftOut = rows.length - STATE_ROWS;
  return leftOut > 0 ? [...rows.slice(0, STATE_ROWS), el("div", { class: "dim" }, `and ${counted(leftOut, "row")} more`)] : rows;
}

function byteIn(byte, before, isNew) {
  if (isNew) return el("mark", null, byte);
  return byte === before ? byte : el("b", null, byte);
}

const storageRow = (address, bytes, row, names) => el("div", null, el("span", { class: "dim" }, `${address} `),
  bytes.map((byte, nth) => [nth && nth % 4 === 0 ? " " : "", byte]),
  " ".repeat(2 * (STATE_ROW - row.length) + (row.length > 4 ? 2 : 3)),
  el("i", null, ebcdic(row.join(""))), names ? `  ${names}` : "");
