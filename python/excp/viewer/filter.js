/** @file The filter by code, task and unit, and its controls. */

class Filter {
  constructor() {
    Object.assign(this, { codes: new Set(), task: "", unit: "" });
    this.matches = this.matches.bind(this);
  }

  isOn() { return this.codes.size > 0 || this.task !== "" || this.unit !== ""; }

  matches(request) {
    return (this.codes.size === 0 || this.codes.has(request.code))
      && (this.task === "" || request.task === this.task) && (this.unit === "" || request.unit === this.unit);
  }
}

/** The controls of a filter. They call `changed` after each change. */
function filterControls({ run, whole }, filter, changed) {
  const present = [...CODES.keys()].filter((code) => whole.codes[code]);
  const codeButton = (code) => {
    const control = el("button", { type: "button", "aria-pressed": "false", title: `Show only requests posted ${code}` },
      chip(code), ` ${many(whole.codes[code])} ${CODES.get(code).replace(/error$/, whole.codes[code] === 1 ? "error" : "errors")}`);
    control.addEventListener("click", () => {
      if (!filter.codes.delete(code)) filter.codes.add(code);
      control.setAttribute("aria-pressed", filter.codes.has(code));
      changed();
    });
    return control;
  };
  const chooser = (field, noun, number) => {
    if (number < 2) return null;
    const choices = Array.from({ length: number }, (_, at) => el("option", { value: at }, `${field} ${at}`));
    const select = el("select", { "aria-label": `Show requests of a ${field}` }, el("option", { value: "" }, `all ${noun}`),
      choices);
    select.addEventListener("change", () => {
      filter[field] = select.value === "" ? "" : Number(select.value);
      changed();
    });
    return select;
  };
  return el("div", { class: "filters", role: "group", "aria-label": "Show requests" }, present.map(codeButton),
    chooser("task", "tasks", run.tasks), chooser("unit", "units", run.units.length));
}

/** The shares of the codes. */
function shareOf({ whole }) {
  const present = [...CODES.keys()].filter((code) => whole.codes[code]);
  return el("div", { class: "share", "aria-hidden": "true" },
    present.map((code) => el("i", { class: `c${code}`, style: { flex: `${whole.codes[code]} 1 0` } })));
}
