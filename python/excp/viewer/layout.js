/**
 * @file The lanes of the tasks and the units: which row each bar, mark and strip has.
 *
 * @typedef {{thing: Request|Mark, request: ?Request, from: number, to: number, row: number}} Item from and to are columns
 * @typedef {object} Lane
 * @property {"task"|"unit"} owner
 * @property {number} number
 * @property {Request[]} requests
 * @property {Mark[]} marks
 * @property {boolean} isOpen whether the reader wants a row for each request that overlaps others
 * @property {boolean} isDeep whether so many overlap that only their active parts are drawn, above a chart of those in flight
 * @property {Item[]} items its bars and marks, by `from`
 * @property {Float64Array} reach the furthest `to` of the items up to each one
 * @property {number} rows
 * @property {number} top
 * @property {number} height
 */

/** A lane with more rows is deep; among many lanes one with fewer. An open lane has at most the last. */
const MOST_ROWS = 24;
const MOST_ROWS_OF_MANY = 6;
const MOST_ROWS_OPEN = 400;
const MANY_LANES = 12;
/** The most DCBs of a unit that have strips. */
const MOST_STRIPS = 6;
const MARK_ROW = 19;
const STRIP_ROW = 15;
const CHART = 44;
const PADDING = 7;

/** The lanes of a run, tasks first. @returns {Lane[]} */
function lanesOf(model) {
  const tasks = Array.from({ length: model.run.tasks }, (_, number) => newLane("task", number));
  const units = model.run.units.map(({ unit }) => newLane("unit", unit));
  for (const request of model.requests) {
    if (!request.arrival.column) continue;
    tasks[request.task].requests.push(request);
    units[request.unit].requests.push(request);
  }
  for (const mark of model.marks) {
    if (mark.by !== null) tasks[mark.by]?.marks.push(mark);
    units[mark.unit].marks.push(mark);
  }
  for (const strip of model.strips) units[strip.unit].strips.push(strip);
  for (const lane of tasks) Object.assign(lane, waitsOf(model, lane.number));
  const lanes = [...tasks, ...units];
  lanes.forEach((lane) => { lane.most = lanes.length > MANY_LANES ? MOST_ROWS_OF_MANY : MOST_ROWS; arrangeLane(model, lane); });
  return lanes;
}

const newLane = (owner, number) => ({ owner, number, requests: [], marks: [], strips: [], waits: [], collects: [], isOpen: false });

/** Places what is in a lane. */
function arrangeLane(model, lane) {
  const most = lane.isOpen ? MOST_ROWS_OPEN : lane.most;
  lane.items = [...lane.requests.map((request) => itemOf(model, request)), ...lane.marks.map(markItem)];
  lane.items.sort((one, other) => one.from - other.from);
  lane.rows = giveRows(lane.items, most);
  lane.isDeep = lane.rows > most;
  lane.isCrowded = lane.isDeep || lane.isOpen;
  if (lane.isDeep) flatten(lane);
  lane.reach = reachOf(lane.items);
  lane.itemOf = new Map(lane.items.map((item) => [item.thing, item]));
  arrangeStrips(lane);
  lane.hasMarks = lane.marks.length > 0;
  lane.rowHeight = lane.rows <= 8 ? 22 : lane.rows <= 14 ? 18 : 14;
  lane.firstRow = PADDING + (lane.hasMarks ? MARK_ROW : 0);
  lane.firstStrip = lane.firstRow + lane.rows * lane.rowHeight + (lane.isDeep ? CHART : 0) + 3;
  lane.height = Math.max(38, lane.firstStrip + lane.stripRows * STRIP_ROW + PADDING - 3);
}

const itemOf = (model, request) =>
  ({ thing: request, request, from: request.arrival.column, to: request.end?.column ?? model.length, row: 0 });

const markItem = (mark) => ({ thing: mark, request: null, from: mark.moment.column, to: mark.moment.column, row: -1 });

/** Gives each bar the first row that is free. Returns how many rows there are, or one more than the most. */
function giveRows(items, most) {
  const ends = [];
  for (const item of items) {
    if (!item.request) continue;
    let row = ends.findIndex((end) => end < item.from);
    if (row < 0) row = ends.length;
    if (row === most) return most + 1;
    ends[row] = item.to;
    item.row = row;
  }
  return ends.length;
}

/** Leaves the active part of each request of a unit, or the post of each request of a task, in one row. */
function flatten(lane) {
  const changes = new Map();
  const change = (column, by) => changes.set(column, (changes.get(column) ?? 0) + by);
  for (const item of lane.items) {
    if (!item.request) continue;
    const start = lane.owner === "unit" ? item.request.starts[0]?.column ?? item.to : item.to;
    change(item.from, 1);
    change(lane.owner === "unit" ? start : item.to, -1);
    item.from = start;
    item.row = 0;
  }
  lane.items.sort((one, other) => one.from - other.from);
  lane.rows = 1;
  lane.flight = heightsOf([...changes].sort(([one], [other]) => one - other));
}

/** Running sums of changes, as columns with how many are in flight from there. */
function heightsOf(changes) {
  let now = 0;
  let most = 0;
  const steps = changes.map(([column, by]) => {
    now += by;
    most = Math.max(most, now);
    return [column, now];
  });
  return { steps, most };
}

function reachOf(items) {
  const reach = new Float64Array(items.length);
  let furthest = 0;
  items.forEach(({ to }, place) => { furthest = Math.max(furthest, to); reach[place] = furthest; });
  return reach;
}

/** A unit has a row for each of its DCBs that is ever closed or in error. A task has one for its waits. */
function arrangeStrips(lane) {
  const dcbs = [...new Set(lane.strips.map(({ dcb }) => dcb))].sort((one, other) => one - other);
  lane.stripRows = Math.min(dcbs.length, MOST_STRIPS) + (lane.collects.length ? 1 : 0);
  lane.moreStrips = Math.max(0, dcbs.length - MOST_STRIPS);
  lane.shownStrips = lane.strips.map((strip) => ({ ...strip, row: dcbs.indexOf(strip.dcb) }))
    .filter(({ row }) => row < MOST_STRIPS);
}

/** The place of the first number of a sorted list that is at least `wanted`. */
function firstAtLeast(list, wanted, valueOf = (it) => it) {
  let low = 0;
  let high = list.length;
  while (low < high) {
    const middle = (low + high) >> 1;
    if (valueOf(list[middle]) < wanted) low = middle + 1;
    else high = middle;
  }
  return low;
}

/** From which item to before which one a lane may have items between two columns. */
const placesBetween = (lane, left, right) => [firstAtLeast(lane.reach, left), firstAtLeast(lane.items, right, ({ from }) => from)];

/** Puts lanes below one another. Returns how high they are. */
function stack(lanes) {
  let top = 0;
  for (const lane of lanes) {
    lane.top = top;
    top += lane.height;
  }
  return top;
}

/** The middle of the row of an item, from the top of its lane. */
const middleOf = (lane, item) =>
  (item.row < 0 ? PADDING + MARK_ROW / 2 - 2 : lane.firstRow + (item.row + 0.5) * lane.rowHeight);

const stripMiddle = (lane, row) => lane.firstStrip + (row + 0.5) * STRIP_ROW;

/** Which columns are in view, and where each of them is. */
class View {
  /** @param {number} left the column at the left edge, with its fraction; a column is so many pixels wide */
  constructor(left, pixels, width) {
    Object.assign(this, { from: left, to: left + width / pixels, pixels, width });
  }

  x(column) { return (column - this.from) * this.pixels; }

  /** The middle of the column of an event. */
  middle(column) { return this.x(column - 0.5); }

  /** The events whose numbers have room on the axis. */
  ticks(length) {
    const rough = 74 / this.pixels;
    const power = 10 ** Math.floor(Math.log10(rough));
    const step = Math.max(1, [1, 2, 5, 10].find((factor) => factor * power >= rough) * power);
    const list = [];
    const last = Math.min(length, this.to + 1);
    for (let tick = Math.floor(this.from / step) * step; tick <= last; tick += step) list.push(Math.max(1, tick));
    return last < 1 ? [] : [...new Set(list)].filter((tick) => this.middle(tick) >= 0);
  }
}
