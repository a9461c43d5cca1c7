/** @file The section of a unit: its medium, and its history. */

const HISTORY = 500;

/** A unit. Its medium is drawn when it comes into view. */
function unitSection(model, unit) {
  const { unit: id, kind, isc, events } = unit;
  const tally = model.unitTallies[id];
  const codes = tally.requests ? `: ${codesInWords(tally.codes)}` : "";
  const section = el("section", { class: "unit", id: `unit${id}`, style: { minHeight: "120px" } },
    el("h3", null, `Unit ${id}, ${kind} `, el("small", null, `ISC ${isc}, ${counted(tally.requests, "request")}${codes}`)));
  return whenSeen(section, () => {
    const before = mediumBefore(model, unit);
    const changes = before ? changesOf({ ...unit, medium: before }, unit) : [];
    unit.medium.changed = new Set(changes.map((change) => change.id));
    if (changes.length) giveOneScale(kind, before, unit.medium);
    const { words, parts, show } = mediumOf(unit);
    section.show = show;
    section.append(...[...(changes.length ? drawBefore({ ...unit, medium: before, isBefore: true }) : []),
      el("p", null, words, before && !changes.length ? " The run left it as it was." : ""), ...parts,
      changes.length ? changesTable(changes) : null, events.length ? historyOf(model, unit) : null].filter(Boolean));
  });
}

/** The medium of a unit before a run that changed it, and the heading of what comes after it. */
function drawBefore(unit) {
  const { words, parts } = mediumOf(unit);
  return [el("h4", null, "Before the run"), el("p", null, words), ...parts, el("h4", null, "After the run")];
}

/** The events of a unit. Those of the set-up have no number. */
function historyOf(model, { unit, events }) {
  return fold(`History: ${counted(events.length, "event")}`, () => {
    const lines = el("div", { class: "history code" });
    inPortions(lines, events.length, HISTORY, "events", (place) => {
      const moment = model.moments[unit].get(events[place].entry);
      return el("div", null, el("span", { class: "dim" }, eventNumber(moment).padStart(6)), "  ", eventInWords(moment));
    });
    return lines;
  });
}

function eventInWords({ event, request, mark }) {
  const name = request ? linkTo(request, `task ${request.task} request ${request.number}`) : "";
  switch (event.what) {
    case "opened": return [`DCB ${event.dcb} opened for ${event.way}`,
      event.extents.length ? `, ${counted(event.extents.length, "extent")}` : ""];
    case "arrived": return [name, ` arrived for DCB ${event.dcb}${event.related ? ", related" : ""}`];
    case "started": return [name, event.attempt > 1 ? ` started again, attempt ${event.attempt}` : " started"];
    case "ran": return [name, ` ran ${counted(event.commands, "command")}${event.turns > 1 ? ` in ${event.turns} turns` : ""}`];
    case "halted": return [name, " halted"];
    case "posted": return [name, " posted ", el("b", { class: `t${event.code}` }, event.code),
      `, CSW ${event.address} ${event.status} ${event.residual}, sense ${event.sense}`,
      request?.starts.length ? "" : `, not started${event.why ? `: ${event.why}` : ""}`];
    case "purge": return [linkTo(mark, markInWords(mark)),
      event.active ? `, task ${event.active[0]} request ${event.active[1]} active` : ", nothing active"];
    default: return linkTo(mark, `DCB ${event.dcb} ${event.what}`);
  }
}
