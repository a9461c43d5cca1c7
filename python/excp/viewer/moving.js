/** @file Pointer and keys in the lanes. */

function listenToPointer(lanes) {
  const { picture, scroller, state } = lanes;
  const thingAt = (event) => {
    const id = event.target.closest?.("[data-id]")?.getAttribute("data-id");
    return id ? state.thing(id) : null;
  };
  const placeOf = (event) => event.clientX - picture.getBoundingClientRect().left;
  scroller.addEventListener("wheel", (event) => {
    if (!event.ctrlKey && !event.metaKey) return;
    event.preventDefault();
    lanes.zoom(Math.exp(-event.deltaY / 300), placeOf(event));
  }, { passive: false });
  picture.addEventListener("click", (event) => {
    const thing = thingAt(event);
    if (thing) state.select(thing);
    else if (lanes.isDense) showAround(lanes, placeOf(event));
  });
  picture.addEventListener("pointermove",
    (event) => { if (!event.target.closest?.("[data-tip]")) state.hover(thingAt(event), event); });
  picture.addEventListener("pointerleave", (event) => state.hover(null, event));
  picture.addEventListener("pointerdown", (event) => {
    if (event.pointerType === "mouse" && !thingAt(event)) drag(scroller, event);
  });
}

/** Shows the 120 events about a place of a view that has too many bars. */
function showAround(lanes, at) {
  const column = lanes.view.from + at / lanes.view.pixels;
  lanes.showColumns(Math.max(0, column - 60), column + 60);
}

/** The mouse drags the ground. */
function drag(scroller, event) {
  const [left, top] = [scroller.scrollLeft + event.clientX, scroller.scrollTop + event.clientY];
  const move = (it) => scroller.scrollTo(left - it.clientX, top - it.clientY);
  addEventListener("pointermove", move);
  addEventListener("pointerup", () => removeEventListener("pointermove", move), { once: true });
}

function listenToKeys(lanes) {
  const { scroller, state } = lanes;
  scroller.addEventListener("keydown", (event) => {
    if (event.ctrlKey || event.altKey || event.metaKey || event.target !== scroller) return;
    if (event.key === "Enter" && state.cursor) { state.select(state.cursor.thing); return; }
    const next = nextItem(lanes, event.key);
    if (!next) return;
    event.preventDefault();
    state.cursor = next;
    lanes.reveal(next);
    state.moved(next.thing);
  });
}

/** The item that a key leads to from the cursor. */
function nextItem({ shown, state: { cursor }, view }, key) {
  const lane = cursor?.lane ?? shown[0];
  const { items } = lane;
  const place = cursor ? items.indexOf(cursor.item) : -1;
  const inLane = (at) => (items[at] ? { lane, item: items[at], thing: items[at].thing } : null);
  switch (key) {
    case "ArrowRight": return inLane(cursor ? place + 1 : Math.min(placesBetween(lane, view.from, view.to)[0], items.length - 1));
    case "ArrowLeft": return inLane(place - 1);
    case "Home": return inLane(0);
    case "End": return inLane(items.length - 1);
    case "ArrowDown": return inNextLane(shown, lane, cursor, 1);
    case "ArrowUp": return inNextLane(shown, lane, cursor, -1);
    default: return null;
  }
}

/** The same request in the next lane, or the item of it that is nearest in the order of events. */
function inNextLane(shown, lane, cursor, way) {
  const from = cursor?.item.from ?? 0;
  for (let at = shown.indexOf(lane) + way; shown[at]; at += way) {
    const { items, itemOf: known } = shown[at];
    const item = known.get(cursor?.thing) ?? items.find(({ to }) => to >= from) ?? lastOf(items);
    if (item) return { lane: shown[at], item, thing: item.thing };
  }
  return null;
}
