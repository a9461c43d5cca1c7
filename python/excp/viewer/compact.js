/**
 * @file Compact lanes: so low that the first screen shows all lanes of a run with many tasks and units. They have one row, in which
 * bars are over one another, and neither waits nor strips.
 */

const LEAST_LANE = 4;
/** A lower lane shares its label with those after it. */
const LABEL_HEIGHT = 13;

/** How high each lane is if they share so much room. */
const heightOfEach = (lanes, room) => Math.max(LEAST_LANE, Math.floor(room / lanes.length));

/** Lanes as compact ones, each so high. */
function compactLanes(model, lanes, height) {
  return lanes.map((lane) => {
    lane.compact = lane.compact ?? compactLane(model, lane);
    return Object.assign(lane.compact, { height, rowHeight: height });
  });
}

function compactLane(model, lane) {
  const items = [...lane.requests.map((request) => itemOf(model, request)),
    ...lane.marks.map((mark) => ({ ...markItem(mark), row: 0 }))];
  items.sort((one, other) => one.from - other.from);
  return { ...lane, isCompact: true, isDeep: false, isCrowded: false, items, reach: reachOf(items), rows: 1, firstRow: 0,
    itemOf: new Map(items.map((item) => [item.thing, item])), waits: [], collects: [], shownStrips: [], moreStrips: 0,
    stripRows: 0 };
}

/** Whether a compact lane shows its label, which may need the room of the lanes after it. */
function hasLabel({ owner, number, height }, lanes) {
  const shared = Math.ceil(LABEL_HEIGHT / height);
  return number % shared === 0 && lanes.some((it) => it.owner === owner && it.number === number + shared - 1);
}
