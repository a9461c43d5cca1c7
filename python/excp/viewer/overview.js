/** @file The overview of a run: a row for each lane, and a window that shows what the lanes have in view. */

/** A run with fewer events has no overview. */
const FEWEST = 150;
/** The most rows. With more lanes some share a row. */
const MOST_ROWS_SHOWN = 20;

class Overview {
  constructor(lanes) {
    this.lanes = lanes;
    this.window = svg("rect", { class: "window", y: 0.5, rx: 3 });
    this.picture = svg("svg", { class: "rows" });
    const label = "The whole run. Press or drag to show a part of it in the lanes.";
    this.root = el("div", { class: "overview", role: "img", "aria-label": label }, this.picture);
    this.root.hidden = lanes.model.length < FEWEST;
    this.picture.addEventListener("pointerdown", (event) => {
      this.picture.setPointerCapture(event.pointerId);
      this.drag(event);
    });
    this.picture.addEventListener("pointermove", (event) => { if (event.buttons) this.drag(event); });
    if (!this.root.hidden) new ResizeObserver(oncePerFrame(() => this.draw())).observe(this.root);
  }

  draw() {
    if (this.root.hidden) return;
    const { model, state } = this.lanes;
    const groups = this.groups();
    const width = this.root.clientWidth;
    const row = groups.length > 10 ? 13 : 18;
    this.scale = width / model.length;
    const bucketOf = (column) => ((column - 0.5) * this.scale) / BUCKET;
    this.picture.setAttribute("height", row * groups.length + 1);
    this.window.setAttribute("height", row * groups.length);
    const rows = groups.flatMap((lanes, place) => {
      const counts = noCounts(Math.ceil(width / BUCKET));
      for (const lane of lanes) countEnds(counts, lane, [0, lane.items.length], bucketOf, state.matches);
      const base = (place + 1) * row - 1;
      return [...drawCounts(counts, BUCKET, base, row - 3), svg("text", { x: 4, y: base - 3 }, nameOf(lanes))];
    });
    this.picture.replaceChildren(...rows, this.window);
    if (this.lanes.view) this.show(this.lanes.view);
  }

  /** The lanes that share each row. */
  groups() {
    const { shown } = this.lanes;
    const each = Math.ceil(shown.length / MOST_ROWS_SHOWN);
    return ["task", "unit"].flatMap((owner) => {
      const lanes = shown.filter((lane) => lane.owner === owner);
      return Array.from({ length: Math.ceil(lanes.length / each) }, (_, place) => lanes.slice(place * each, (place + 1) * each));
    });
  }

  /** Shows which columns the lanes have in view. */
  show({ from, to }) {
    if (!this.scale) return;
    this.window.setAttribute("x", from * this.scale + 0.5);
    this.window.setAttribute("width", Math.max(3, (Math.min(to, this.lanes.model.length) - from) * this.scale - 1));
  }

  drag(event) {
    const { lanes } = this;
    const column = (event.clientX - this.picture.getBoundingClientRect().left) / this.scale;
    lanes.scroller.scrollLeft = column * lanes.pixels - lanes.viewWidth / 2;
  }
}

function nameOf(lanes) {
  const letter = lanes[0].owner === "task" ? "T" : "U";
  return lanes.length > 1 ? `${letter}${lanes[0].number}–${lastOf(lanes).number}` : `${letter}${lanes[0].number}`;
}
