/** @file The list of requests that the filter leaves, and the panels of them all. Only the rows in view are elements. */

const ROW = 24;
/** How many panels are added to the page at once. */
const PANELS = 40;

class RequestList {
  constructor(model, state) {
    this.model = model;
    this.state = state;
    this.rows = el("div", { class: "rows" });
    this.scroller = el("div", { class: "list", tabindex: 0, role: "list", "aria-label": "Requests" }, this.rows);
    this.heading = el("p", { class: "dim" });
    this.scroller.addEventListener("scroll", oncePerFrame(() => this.draw()), { passive: true });
    const all = button("Show these with their steps", "In the page itself, to search or print them", () => this.showPanels());
    this.all = el("p", { class: "all" }, all);
    this.root = el("div", null, this.heading, this.scroller, this.all);
  }

  filter() {
    this.requests = this.model.requests.filter(this.state.matches);
    const { length } = this.model.requests;
    const all = length > 1 ? `All ${counted(length, "request")}, in order of their arrivals.` : `${counted(length, "request")}.`;
    this.heading.textContent = this.requests.length === length ? all
      : `${counted(this.requests.length, "request")} of ${many(length)}.`;
    this.rows.style.height = `${this.requests.length * ROW}px`;
    this.all.hidden = !this.requests.length;
    byId("panels").replaceChildren();
    this.draw();
  }

  draw() {
    const from = Math.max(0, Math.floor(this.scroller.scrollTop / ROW) - 4);
    const to = Math.min(this.requests.length, from + Math.ceil((this.scroller.clientHeight || 320) / ROW) + 8);
    this.rows.replaceChildren(...this.requests.slice(from, to).map((request, place) => this.rowOf(request, from + place)));
  }

  rowOf(request, place) {
    const { arrival, end, starts, commands, code } = request;
    return el("a", { class: "request", role: "listitem", href: `#${idOf(request)}`, style: { top: `${place * ROW}px` } },
      chip(code),
      el("span", { class: "code" }, shortName(request)),
      el("span", { class: "code dim" }, `${many(arrival.column)}–${end ? many(end.column) : ""}`),
      el("span", { class: "manner" }, end ? mannerOf(this.model, request) : endInWords(request)),
      el("span", { class: "dim" }, `${starts.length > 1 ? `${starts.length} starts, ` : ""}${counted(commands, "command")}`));
  }

  /** Adds the panels of the requests that the filter leaves to the page. */
  showPanels() {
    const { requests } = this;
    byId("panels").replaceChildren(el("h2", null, "Each request"));
    inPortions(byId("panels"), requests.length, PANELS, "requests", (place) => articleOf(this.model, requests[place]));
  }
}
