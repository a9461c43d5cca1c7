/** @file The page: what is where, the selection, keys and hints. */

const ZOOM = 1.6;
/** After these events a hint may be at another place than what it is of. */
const MOVES = ["scroll", "wheel", "keydown", "pointerdown", "focusout", "resize"];

class Page {
  constructor(run) {
    this.model = indexOf(run, () => read("rest"), () => read("job"));
    this.filter = new Filter();
    this.state = {
      filter: this.filter,
      matches: this.filter.matches,
      selected: null,
      cursor: null,
      thing: (id) => thingOf(this.model, id),
      select: (thing) => this.go(idOf(thing)),
      moved: (thing) => (this.state.selected ? this.go(idOf(thing)) : this.hintAtCursor(thing)),
      hover: (thing, event) => this.hint(thing ? tipOf(thing) : null, event.clientX, event.clientY),
    };
    this.lanes = new Lanes(this.model, this.state);
    this.overview = new Overview(this.lanes);
    this.list = new RequestList(this.model, this.state);
    this.programs = null;
    this.lanes.onview = (view) => this.overview.show(view);
    this.panel = el("aside", { class: "panel", hidden: true, tabindex: -1, "aria-label": "Details" });
    this.tip = el("div", { class: "tip", role: "status", hidden: true });
  }

  build() {
    const { run, requests, length } = this.model;
    const lead = `${counted(requests.length, "request")} of ${counted(run.tasks, "task")} to ${counted(run.units.length, "unit")}, `
      + counted(length, "event");
    const controls = filterControls(this.model, this.filter, () => this.refilter());
    byId("head").append(el("p", { class: "dim" }, lead), hasTables(this.model) ? shareOf(this.model) : "", controls);
    // many lanes are an overview themselves
    const isLow = this.lanes.lanes.length > MANY_LANES;
    byId("run").append(patterns(), this.tools(), isLow ? "" : this.overview.root, this.lanes.scroller,
      isLow ? this.overview.root : "",
      el("div", { id: "printed" }), el("p", { class: "dim note" }, this.note()));
    document.body.append(this.panel, this.tip);
    this.lanes.arrange();
    this.lanes.draw();
    performance.mark("lanes");
    // the first frame has the lanes; what is below them comes after it
    requestAnimationFrame(() => setTimeout(() => whenLoaded(() => this.buildRest())));
  }

  buildRest() {
    const { model } = this;
    this.programs = new Programs(model, this.state);
    if (this.programs.lanes.length) byId("programs").append(el("h2", null, "The programs, command by command"), this.programs.root);
    byId("tables").append(...tablesOf(model));
    byId("requests").append(el("h2", null, "Requests"), this.list.root);
    byId("media").append(el("h2", null, "Units and their media"), ...model.run.units.map((unit) => unitSection(model, unit)));
    this.list.filter();
    linkPosts(model);
    this.listen();
    this.follow();
    document.body.dataset.state = "built";
    performance.mark("built");
  }

  refilter() {
    this.lanes.arrange();
    this.overview.draw();
    this.list.filter();
    this.programs?.filter();
  }

  tools() {
    return el("div", { class: "tools" }, el("h2", null, "The run, event by event"),
      el("div", { class: "zooms", role: "group", "aria-label": "Zoom" },
        button("Fit", "Show the whole run (0)", () => this.lanes.zoom(0)),
        button("−", "Narrower events (−)", () => this.lanes.zoom(1 / ZOOM)),
        button("+", "Wider events (+)", () => this.lanes.zoom(ZOOM))), this.lanes.toggle,
      legendOf(this.model, this.lanes.lanes));
  }

  note() {
    const order = this.model.run.order === "run" ? "Events are in the order in which they happened."
      : "Inside a unit, events are in the order in which they happened. Between units the run recorded no order: "
        + "the one shown keeps the waits of the job.";
    const hasDots = this.lanes.lanes.some(({ collects }) => collects.length);
    const dots = hasDots ? " A dot is where a task can first have collected the post." : "";
    return `${order}${dots} The axis counts events; it is no clock. Select a bar for its steps, a mark for what it ended. `
      + "When the lanes have the focus, arrow keys move, Enter opens, + and − zoom. Esc closes.";
  }

  // --- the selection, which is the address of the page

  go(id) {
    if (location.hash === `#${id}`) this.follow();
    else location.hash = id;
  }

  follow() {
    const id = location.hash.slice(1);
    if (lightPlace(id)) return;
    const thing = thingOf(this.model, id);
    if (thing) this.open(thing);
    else if (/^unit\d+$/.test(id)) byId(id)?.build();
    if (!thing && id) this.close();
  }

  open(thing) {
    this.hint(null);
    const { title, content } = panelOf(this.model, thing);
    this.panel.replaceChildren(el("header", null, el("h3", null, title), button("‹", "The one before", () => this.step(-1)),
      button("›", "The next one", () => this.step(1)), button("×", "Close (Esc)", () => this.close())),
    el("div", { class: "content" }, content));
    this.panel.hidden = false;
    this.panel.scrollTop = 0;
    document.body.classList.add("has-panel");
    this.lanes.choose(thing);
    this.keepLanesInSight();
  }

  /** Scrolls the page so that the lanes are in sight, also over a panel at the bottom. */
  keepLanesInSight() {
    const { top, bottom, right } = this.lanes.scroller.getBoundingClientRect();
    const panel = this.panel.getBoundingClientRect();
    if (top < 0 || bottom > (panel.left < right ? panel.top : innerHeight)) scrollBy({ top: top - 8 });
  }

  step(by) {
    const { selected } = this.state;
    const list = selected.event ? this.model.marks : this.model.requests;
    const next = list[selected.index + by];
    if (next) this.go(idOf(next));
  }

  close() {
    if (this.panel.hidden) return;
    this.panel.hidden = true;
    document.body.classList.remove("has-panel");
    this.lanes.choose(null);
    if (/^#[qm]\d/.test(location.hash)) history.replaceState(null, "", "#");
  }

  // --- hints

  hint(lines, x = 0, y = 0) {
    this.tip.hidden = !lines;
    if (!lines) return;
    this.tip.replaceChildren(...lines.filter(Boolean).map((line, place) => el(place ? "div" : "b", null, line)));
    const { offsetWidth: width, offsetHeight: height } = this.tip;
    this.tip.style.left = `${Math.max(4, Math.min(x + 14, innerWidth - width - 8))}px`;
    this.tip.style.top = `${y + 18 + height > innerHeight ? y - height - 10 : y + 18}px`;
  }

  hintAtCursor(thing) {
    requestAnimationFrame(() => {
      const frame = this.lanes.picture.querySelector(".cursor")?.getBoundingClientRect();
      if (frame) this.hint(tipOf(thing), Math.max(frame.left, 0), frame.bottom - 10);
    });
  }

  // --- what the reader does

  listen() {
    addEventListener("hashchange", () => this.follow());
    addEventListener("keydown", (event) => this.press(event));
    addEventListener("beforeprint", () => { this.close(); this.afterPrint = preparePrint(this); });
    addEventListener("afterprint", () => this.afterPrint?.());
    for (const name of MOVES) addEventListener(name, () => this.hint(null), { capture: true, passive: true });
    document.documentElement.addEventListener("pointerleave", () => this.hint(null));
    document.addEventListener("pointerover", (event) => {
      lightAddress(event.target);
      const words = event.target.closest?.("[data-tip]")?.getAttribute("data-tip");
      if (words) this.hint(words.split("\n"), event.clientX, event.clientY);
      else if (!event.target.closest?.(".drawing")) this.hint(null);
    });
  }

  press(event) {
    if (event.ctrlKey || event.altKey || event.metaKey || event.target.matches?.("input, select")) return;
    const isInPanel = this.panel.contains(document.activeElement);
    const action = {
      Escape: () => this.close(),
      "+": () => this.lanes.zoom(ZOOM),
      "=": () => this.lanes.zoom(ZOOM),
      "-": () => this.lanes.zoom(1 / ZOOM),
      0: () => this.lanes.zoom(0),
      ArrowRight: () => isInPanel && this.step(1),
      ArrowLeft: () => isInPanel && this.step(-1),
    }[event.key];
    action?.();
  }
}

/** The JSON is in three parts: what the first picture needs is before this script; steps and posts, and the job, are after it. */
const read = (id) => JSON.parse(byId(id).textContent);

function whenLoaded(action) {
  if (document.readyState === "loading") document.addEventListener("DOMContentLoaded", action);
  else action();
}

new Page(read("front")).build();
