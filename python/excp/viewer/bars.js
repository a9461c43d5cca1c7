/** @file How a request is drawn in a lane: its wait, its attempts, its end and its label. */

/** A bar that is not higher on both sides of its middle has no signs. */
const SIGN = 4;

/** The bar of a request. `free` has the first and the last pixel that its label may use. */
function drawBar(lane, item, view, free) {
  const { request } = item;
  const y = middleOf(lane, item);
  const half = lane.isCompact ? Math.min(8, lane.rowHeight / 2 - 0.5) : Math.min(8, lane.rowHeight / 2 - 2);
  const left = view.x(item.from - 1);
  const right = Math.max(left + 2, view.x(item.to));
  const started = request.starts.length ? Math.max(left, view.x(request.starts[0].column - 1)) : right;
  const isWide = right - started > 22;
  const parts = started > left + 0.5 ? [box("wait", left, started, y, Math.min(2.5, half))] : [];
  parts.push(...drawAttempts(request, view, { left, right, y, half }));
  if (half > SIGN && ENDS[request.code] && (isWide || !request.starts.length)) {
    parts.push(endSign(request.code, right - (isWide ? 8 : 0), y));
  }
  const label = half > SIGN ? labelOf(lane, request, { left, started, right }, view, free) : undefined;
  if (label) parts.push(plate(label.name, label, y));
  return { parts, labelEnd: label ? label.x + label.width : 0 };
}

/** A pale box for each attempt that was tried again, a full one for the last. */
function drawAttempts(request, view, { left, right, y, half }) {
  const starts = request.starts.map(({ column }) => Math.max(left, view.x(column - 1)));
  const last = starts.length - 1;
  const parts = starts.map((start, place) => box(place < last ? "again" : "run", start, starts[place + 1] ?? right, y, half));
  if (view.pixels < 9 || half <= SIGN) return parts;
  const turns = request.runs.map(({ column }) => `M${view.middle(column)} ${y + half - 4}v4`).join("");
  if (turns && starts.length) parts.push(svg("path", { class: "turn", d: turns }));
  if (request.halted) parts.push(svg("path",
    { class: "halt", d: `M${view.middle(request.halted.column)} ${y - half}v${2 * half}` }));
  return parts;
}

/** The whole name of a request, or its number, if either has room. */
function labelOf(lane, request, edges, view, free) {
  const number = `#${request.number}`;
  const names = [`${lane.owner === "unit" ? `T${request.task}` : `U${request.unit}`} ${number}`, number];
  return names.map((name) => placeLabel(name, edges, view, free)).find(Boolean);
}

/** Where a label has room: in the bar, over its wait, to its right, or to its left. */
function placeLabel(name, { left, started, right }, view, [before, after]) {
  const width = plateWidth(name);
  const leftmost = Math.max(started, 0) + 3;
  const sign = right - started > 22 ? 14 : 2;
  if (Math.min(right, view.width) - leftmost > width + sign) return { name, x: leftmost, width };
  const waiting = Math.max(left, 0) + 3;
  if (Math.min(started, view.width) - waiting > width + 4) return { name, x: waiting + 4, width };
  if (after - right > width + 12 && right > 0) return { name, x: right + 8, width };
  if (left - before > width + 8 && left < view.width) return { name, x: left - width - 4, width };
  return undefined;
}

/** The pixels that are free before and after each item in its row. */
function roomOf(items, view) {
  const room = new Map();
  const last = new Map();
  for (const item of items) {
    const before = last.get(item.row);
    if (before) room.get(before)[1] = view.x(item.from - 1);
    room.set(item, [before ? view.x(before.to) + 20 : 0, view.width]);
    last.set(item.row, item);
  }
  return room;
}
