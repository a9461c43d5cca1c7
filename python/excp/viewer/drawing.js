/** @file The drawing of lanes in a view: bars, marks, lines to what was ended, DCBs, waits. Only what is in view is drawn. */

class Drawing {
  /** @param {object} state which requests the filter leaves (`matches`), what is selected, and where the cursor is */
  constructor(model, state, view, isDense) {
    Object.assign(this, { model, state, view, isDense });
  }

  /** A lane at a height, of which the rows between `from` and `to` pixels are in view. */
  draw(lane, y, from = 0, to = Infinity) {
    const ground = svg("rect", { class: "ground", width: this.view.width, height: lane.height });
    const name = `${lane.owner}${lane.number}`;
    const bars = this.isDense ? densityOf(lane, this.view, this.state.matches) : this.drawItems(lane, from, to);
    return svg("g", { class: `lane ${lane.owner}`, "data-lane": name, transform: `translate(0 ${y})` }, ground,
      lane.isDeep ? this.drawFlight(lane) : null, this.drawStrips(lane), this.isDense ? null : this.drawWaits(lane), bars);
  }

  drawItems(lane, top, bottom) {
    const { view } = this;
    const [from, before] = placesBetween(lane, view.from - 30 / view.pixels, view.to + 1);
    const isInView = (item) => { const y = middleOf(lane, item); return y > top - 20 && y < bottom + 20; };
    const items = lane.items.slice(from, before).filter(isInView);
    const free = roomOf(items, view);
    const labelEnds = new Map();
    const parts = items.map((item) => {
      const room = free.get(item);
      if (!item.request) return this.groupOf(item, "mark", this.markParts(lane, item, room));
      const { parts: bar, labelEnd } = drawBar(lane, item, view, [Math.max(room[0], labelEnds.get(item.row) ?? 0), room[1]]);
      if (labelEnd) labelEnds.set(item.row, labelEnd);
      return this.groupOf(item, `bar c${item.request.code || "none"}`, bar);
    });
    const dooms = lane.owner === "unit" && !lane.isCompact ? items.map((item) => this.drawDoom(lane, item)) : [];
    // the sign at the end of a bar is over the next bar
    return [...parts.reverse(), ...dooms, this.drawLife(lane)];
  }

  groupOf({ thing, request }, name, parts) {
    const { filter, matches, selected, cursor } = this.state;
    const classes = [name];
    if (request ? !matches(request) : filter.isOn()) classes.push("dim");
    if (thing === selected) classes.push("selected");
    if (thing === cursor?.thing) classes.push("cursor");
    return svg("g", { class: classes.join(" "), "data-id": idOf(thing) }, parts);
  }

  markParts(lane, item, [before, after]) {
    const { thing } = item;
    const x = this.view.middle(item.from);
    const y = middleOf(lane, item);
    const by = thing.by === null ? "" : `, by task ${thing.by}`;
    const words = markInWords(thing) + (lane.owner === "task" ? `, on unit ${thing.unit}` : by);
    const width = plateWidth(words);
    const sign = SIGNS[thing.event.what]();
    sign.setAttribute("transform", `translate(${x} ${y}) scale(${Math.min(1, lane.rowHeight / MARK_ROW)})`);
    const high = Math.min(20, lane.rowHeight);
    const parts = [svg("rect", { class: "target", x: x - 9, y: y - high / 2, width: 18, height: high }), sign];
    if (lane.isCompact) return parts;
    if (after - x > width + 12) parts.push(plate(words, { x: x + 9, width }, y));
    else if (x - before > width + 12 && before === 0) parts.push(plate(words, { x: x - 9 - width, width }, y));
    return parts;
  }

  /** A dashed line from what ended a request to its end. If that came before its arrival, it leads from the strip of its DCB. */
  drawDoom(lane, item) {
    const { view } = this;
    const doom = item.request?.doom;
    if (!doom || (lane.isDeep && doom.request)) return null;
    const x = view.x(item.to) - 1;
    const y = middleOf(lane, item);
    const line = (d) => svg("path", { class: "doom", "data-doom": idOf(item.request), d });
    const { dcb } = item.request.arrival.event;
    const strip = lane.shownStrips.find((it) => it.dcb === dcb && it.from <= item.from && item.to <= it.to);
    if (strip && doom.moment.column < item.from) return line(`M${x} ${stripMiddle(lane, strip.row)}V${y + 6}`);
    const source = lane.itemOf.get(doom.request ?? doom.mark);
    if (!source) return null;
    const x0 = doom.request ? view.x(source.to) - 1 : view.middle(source.from);
    return line(`M${x0} ${middleOf(lane, source) + 6}V${y}H${x - 5}`);
  }

  /** The whole life of the selected request of a deep lane, over its chart. */
  drawLife(lane) {
    const { selected } = this.state;
    if (!lane.isDeep || !selected?.arrival || !lane.itemOf.has(selected)) return null;
    const item = { ...itemOf(this.model, selected), row: 1 };
    const { parts } = drawBar({ ...lane, isDeep: false }, item, this.view, [0, this.view.width]);
    return svg("g", { class: `life c${selected.code || "none"}` }, parts);
  }

  /** The strips of the DCBs that are in error or closed. */
  drawStrips(lane) {
    const { view } = this;
    const rightOf = ({ to }) => view.x(Math.min(to - 0.5, this.model.length));
    const strips = lane.shownStrips.map((strip) => ({ ...strip, left: view.middle(strip.from), right: rightOf(strip) }))
      .filter(({ left, right }) => right >= 0 && left <= view.width);
    const next = new Map();
    for (const strip of [...strips].reverse()) {
      strip.after = Math.min(next.get(strip.row)?.left ?? view.width, view.width);
      next.set(strip.row, strip);
    }
    const taken = new Map();
    const parts = strips.map(({ dcb, row, isClosed, left, right, after }) => {
      const y = stripMiddle(lane, row);
      const words = `DCB ${dcb} ${isClosed ? "closed" : "error flag"}`;
      const label = placeStripLabel([words, `DCB ${dcb}`], [left, right], [taken.get(row) ?? 0, after]);
      taken.set(row, Math.max(right, label ? label.x + label.width : 0));
      return svg("g", { class: `strip ${isClosed ? "closed" : "flagged"}`, "data-tip": words },
        box("body", left, right, y, STRIP_ROW / 2 - 2), label ? plate(label.words, label, y) : null);
    });
    const words = `and ${counted(lane.moreStrips, "DCB")} more in error or closed`;
    if (lane.moreStrips) parts.push(plate(words, { x: 4, width: plateWidth(words) }, lane.height - 7));
    return parts;
  }

  /** The waits of a task, and where it collects posts. */
  drawWaits(lane) {
    const { view } = this;
    const y = stripMiddle(lane, lane.stripRows - 1);
    const lines = lane.waits.filter(({ from, to }) => to >= view.from && from <= view.to + 1).map(({ from, to, collects }) => {
      const [left, right] = [view.middle(from), view.middle(to)];
      const tip = `task ${lane.number} waits\nevent: after ${many(from)}, until ${many(to)}\ncollects ${counted(collects, "post")}`;
      return svg("g", { class: "pausing", "data-tip": tip },
        svg("rect", { class: "target", x: left, y: y - 7, width: right - left, height: 14 }), waitLine(left, right, y));
    });
    const first = firstAtLeast(lane.collects, view.from, ({ column }) => column);
    const before = firstAtLeast(lane.collects, view.to + 1, ({ column }) => column);
    const dots = lane.collects.slice(first, before).map(({ column, request }) => {
      const tip = `task ${lane.number} collects a post\n${request ? longName(request) : "of no unit"}`;
      return svg("g", { "data-tip": tip }, collectSign(view.middle(column), y));
    });
    return [...lines, ...dots];
  }

  /** The chart of how many requests of a deep lane wait, or are not posted. */
  drawFlight(lane) {
    const { view } = this;
    const { steps, most } = lane.flight;
    const base = lane.firstRow + lane.rowHeight + CHART;
    const scale = (CHART - 6) / Math.max(1, most);
    let path = "";
    let drawn = -1;
    for (const [column, height] of steps) {
      const x = Math.round(view.x(column - 1));
      if (x === drawn && x !== 0) continue;
      path += `H${Math.max(-5, Math.min(x, view.width + 5))}V${(base - height * scale).toFixed(1)}`;
      drawn = x;
    }
    const words = `up to ${many(most)} ${lane.owner === "unit" ? "wait" : "not posted"}`;
    const label = { x: 4, width: plateWidth(words) };
    return svg("g", { class: "flight" }, svg("path", { d: `M-5 ${base}${path}V${base}Z` }), plate(words, label, base - 8));
  }

  /** The grid, and the numbers of events on the axis, so that none is cut at the sides. */
  drawAxis(length, height) {
    const { view } = this;
    const ticks = view.ticks(length);
    const grid = svg("path", { class: "grid", d: ticks.map((tick) => `M${view.middle(tick)} 0V${height}`).join("") });
    const numbers = ticks.map((tick) => {
      const half = (many(tick).length * LETTER) / 2 + 2;
      const x = view.middle(tick);
      return svg("text", { x: x < 0 ? x : Math.min(Math.max(x, half), view.width - half), y: 16, "text-anchor": "middle" },
        many(tick));
    });
    return { grid, numbers };
  }
}

/** The first label of a strip that has room in its row, to the left of a short strip or from its left edge on; undefined for
 * none. */
function placeStripLabel(labels, [left, right], [before, after]) {
  const inside = Math.max(left, 0) + 4;
  for (const words of labels) {
    const width = plateWidth(words);
    const isShort = Math.min(right, after) - inside < width + 4;
    const places = isShort ? [left - width - 2, inside, after - width - 4] : [inside];
    const x = places.find((it) => it >= before && it + width <= after);
    if (x !== undefined) return { words, x, width };
  }
  return undefined;
}
