/** @file The lanes in their scroller: one SVG of the size of the view stays where it is while the stage scrolls under it. */

const AXIS = 24;
/** A view with more bars shows their density instead. */
const MOST_BARS = 1500;
/** The most pixels of an event by itself, of an event at all, and of a stage. */
const WIDEST_FIT = 110;
const WIDEST = 400;
const MOST_PIXELS = 12e6;
/** A run with more events begins at a width at which its bars can be told apart. */
const FIT_EVENTS = 400;
const FIRST_PIXELS = 18;
/** Room for the label of the last request, and for what is below lanes that fill the first screen. */
const RIGHT = 12;
const BELOW_LANES = 6;

class Lanes {
  /** @param {object} state `matches(request)`, `filter`, and `select(thing)`, `moved(thing)`, `hover(thing, event)` */
  constructor(model, state) {
    this.model = model;
    this.state = state;
    this.lanes = lanesOf(model);
    this.shown = this.lanes;
    /** The lanes that the filter leaves, none of them compact. */
    this.tall = this.lanes;
    this.isTall = false;
    this.isFit = model.length <= FIT_EVENTS;
    this.pixels = FIRST_PIXELS;
    this.onview = () => {};
    this.toggle = el("button",
      { type: "button", "aria-pressed": "false", hidden: true, onclick: () => this.makeTall(!this.isTall) },
      "Tall lanes");
    this.redraw = oncePerFrame(() => this.draw());
    this.axis = svg("svg", { class: "axis", height: AXIS, "aria-hidden": "true" });
    this.picture = svg("svg", { class: "drawing", role: "img", "aria-label": "Lanes of tasks and units" });
    this.labels = el("div", { class: "labels" });
    this.stage = el("div", { class: "stage" }, el("div", { class: "corner" }, "event"), this.axis, this.labels, this.picture);
    this.scroller = el("div", { class: "scroller", tabindex: 0, role: "application",
      "aria-label": "Lanes. Arrow keys move between requests, Enter opens one." }, this.stage);
    this.scroller.addEventListener("scroll", this.redraw, { passive: true });
    new ResizeObserver(() => this.arrange()).observe(this.scroller);
    listenToPointer(this);
    listenToKeys(this);
  }

  /** Lays the lanes out that the filter leaves. */
  arrange() {
    const { filter, matches } = this.state;
    this.tall = filter.isOn() ? this.lanes.filter((lane) => lane.requests.some(matches)) : this.lanes;
    const room = this.roomForLanes();
    this.isCrowded = this.tall.length > MANY_LANES && stack(this.tall) > room;
    const isCompact = this.isCrowded && !this.isTall;
    this.shown = isCompact ? compactLanes(this.model, this.tall, heightOfEach(this.tall, room)) : this.tall;
    this.height = stack(this.shown);
    this.scroller.classList.toggle("compact", isCompact);
    this.toggle.hidden = !this.isCrowded;
    this.labels.replaceChildren(...this.shown.map((lane) => this.labelOf(lane)));
    this.labelWidth = this.labels.offsetWidth;
    this.setScale();
    this.redraw();
  }

  /** The pixels of the first screen that lanes may have. */
  roomForLanes() {
    return innerHeight - (scrollY + this.scroller.getBoundingClientRect().top) - AXIS - BELOW_LANES;
  }

  makeTall(isTall) {
    this.isTall = isTall;
    this.state.cursor = null;
    this.toggle.setAttribute("aria-pressed", isTall);
    this.arrange();
  }

  labelOf(lane) {
    const { run, taskTallies, unitTallies } = this.model;
    const isTask = lane.owner === "task";
    const tally = (isTask ? taskTallies : unitTallies)[lane.number];
    const name = el(isTask ? "b" : "a", isTask ? null : { href: `#unit${lane.number}` },
      `${isTask ? "Task" : "Unit"} ${lane.number}`);
    if (lane.isCompact) {
      return el("div", { class: "low label", style: { height: `${lane.height}px` } }, hasLabel(lane, this.shown) ? name : null);
    }
    const toggle = () => { lane.isOpen = !lane.isOpen; arrangeLane(this.model, lane); this.arrange(); };
    return el("div", { class: "label", style: { height: `${lane.height}px` } }, name,
      el("span", null, isTask ? "" : ` ${run.units[lane.number].kind}`), el("small", null, codesInWords(tally.codes)),
      lane.isCrowded ? button(lane.isOpen ? "fewer rows" : "all rows", "Rows of requests that overlap", toggle) : null);
  }

  get viewWidth() { return Math.max(120, this.scroller.clientWidth - this.labelWidth); }
  get viewHeight() { return Math.min(this.height, Math.max(200, this.scroller.clientHeight - AXIS)); }

  setScale() {
    const { length } = this.model;
    this.scaledFor = this.viewWidth;
    const fit = Math.min(WIDEST_FIT, (this.viewWidth - RIGHT) / Math.max(1, length));
    if (this.isFit || this.pixels <= fit) { this.pixels = fit; this.isFit = true; }
    this.pixels = Math.min(this.pixels, WIDEST, Math.max(fit, MOST_PIXELS / length));
    const width = Math.max(this.viewWidth, length * this.pixels + (this.isFit ? 0 : RIGHT));
    this.stage.style.width = `${Math.floor(this.labelWidth + width)}px`;
    this.stage.style.height = `${AXIS + this.height}px`;
  }

  /** Makes an event wider or narrower about a place of the view: the cursor if that is in view, or the middle. 0 shows all. */
  zoom(factor, at = this.placeOfCursor()) {
    const column = (this.scroller.scrollLeft + at) / this.pixels;
    this.isFit = factor === 0;
    this.pixels *= factor || 1;
    this.setScale();
    this.scroller.scrollLeft = column * this.pixels - at;
    this.draw();
  }

  placeOfCursor() {
    const { cursor } = this.state;
    const at = cursor ? this.view.middle(cursor.item.from) : -1;
    return at > 0 && at < this.viewWidth ? at : this.viewWidth / 2;
  }

  /** Shows some columns, so that they fill the view. */
  showColumns(from, to) {
    this.isFit = false;
    this.pixels = this.viewWidth / Math.max(1, to - from);
    this.setScale();
    this.scroller.scrollLeft = from * this.pixels;
    this.draw();
  }

  draw() {
    if (this.scaledFor !== this.viewWidth) this.setScale();
    const { scrollLeft, scrollTop } = this.scroller;
    const height = this.viewHeight;
    const view = new View(scrollLeft / this.pixels, this.pixels, this.viewWidth);
    this.view = view;
    for (const it of [this.axis, this.picture]) it.setAttribute("width", view.width);
    this.picture.setAttribute("height", height);
    const visible = this.shown.filter(({ top, height: high }) => top + high > scrollTop && top < scrollTop + height);
    this.isDense = isDense(visible, view);
    const drawing = new Drawing(this.model, this.state, view, this.isDense);
    const { grid, numbers } = drawing.drawAxis(this.model.length, height);
    const bodies = visible.map((lane) => {
      const y = lane.top - scrollTop;
      return drawing.draw(lane, y, -y, height - y);
    });
    this.axis.replaceChildren(...numbers);
    this.picture.replaceChildren(grid, ...bodies, this.drawDrops(visible));
    this.onview(view);
  }

  /** A dotted line from each purge, close and reset of a task to its unit. */
  drawDrops(visible) {
    const { view } = this;
    const at = new Map(visible.map((lane) =>
      [`${lane.owner}${lane.number}`, lane.top - this.scroller.scrollTop + MARK_ROW / 2 + 12]));
    const isInView = ({ moment }) => moment.column > view.from && moment.column < view.to + 1;
    const lines = this.model.marks.filter((mark) => mark.by !== null && isInView(mark))
      .map(({ moment, by, unit }) => [view.middle(moment.column), at.get(`task${by}`), at.get(`unit${unit}`)])
      .filter(([, from, to]) => from !== undefined && to !== undefined);
    return svg("path", { class: "drop", d: lines.map(([x, from, to]) => `M${x} ${from}V${to - 14}`).join("") });
  }

  /** Selects a request or a mark, or nothing, and brings it into view. */
  choose(thing) {
    const { state } = this;
    state.selected = thing;
    const ownLane = thing && this.shown.find(({ owner, number }) => owner === "unit" && number === thing.unit);
    const lane = thing && state.cursor?.thing === thing ? state.cursor.lane : ownLane;
    const item = lane?.itemOf.get(thing);
    if (item) { state.cursor = { lane, item, thing }; this.reveal(state.cursor); }
    this.redraw();
  }

  /** Scrolls so that an item is in view. */
  reveal({ lane, item }) {
    const { scroller, view } = this;
    const left = view.x(item.from - 1);
    const right = view.x(item.to);
    if (right < 24 || left > this.viewWidth - 24 || (right > this.viewWidth && left > this.viewWidth / 2)) {
      scroller.scrollLeft += left - this.viewWidth / 3;
    }
    const y = lane.top + middleOf(lane, item);
    if (y < scroller.scrollTop + 12 || y > scroller.scrollTop + this.viewHeight - 12) scroller.scrollTop = y - this.viewHeight / 2;
    this.redraw();
  }
}

/** Whether lanes have too many bars and marks in a view. */
function isDense(lanes, view) {
  let sum = 0;
  for (const lane of lanes) {
    const [from, before] = placesBetween(lane, view.from, view.to + 1);
    sum += before - from;
  }
  return sum > MOST_BARS;
}
