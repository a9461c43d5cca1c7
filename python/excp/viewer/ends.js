/** @file How the requests ended, in groups, by unit and by task. */

const NAMED = 3;
/** A run with fewer requests has no tables: its lanes show all that they say. */
const FEWEST_IN_TABLES = 10;

const hasTables = ({ requests }) => requests.length >= FEWEST_IN_TABLES;

function tablesOf(model) {
  if (!hasTables(model)) return othersOf(model);
  return [el("h2", null, "How requests ended"), ...endsTable(model), el("div", { class: "columns" },
    el("div", null, el("h3", null, "By unit"), unitsTable(model)), el("div", null, el("h3", null, "By task"), tasksTable(model)))];
}

/** How a request ended, in words that are alike for requests that ended alike. */
function mannerOf(model, request) {
  const { event } = request.end;
  const starts = request.starts.length;
  if (event.why) return whyInWords(event.why);
  if (request.code === "7F") return `ended well${starts > 1 ? ", after being tried again" : ""}`;
  const status = bitsOf(event.status);
  const names = [...unusualStatus(status & ~STATUS_MODIFIER), ...senseNames(bitsOf(event.sense))];
  const rule = status & PROGRAM_CHECK && lastStep(model, request)?.rule?.text.replace(/\b[0-9A-F]{6}\b/g, "…");
  return `${names.join(", ") || CODES.get(request.code)}${rule ? `: ${rule}` : ""}${starts > 1 ? `, after ${starts} starts` : ""}`;
}

function endsTable(model) {
  const groups = new Map();
  for (const request of model.requests) {
    if (!request.end) continue;
    const manner = mannerOf(model, request);
    const key = `${request.code} ${manner}`;
    if (!groups.has(key)) groups.set(key, { code: request.code, manner, requests: [] });
    groups.get(key).requests.push(request);
  }
  const order = [...CODES.keys()];
  const sorted = [...groups.values()].sort((one, other) =>
    order.indexOf(one.code) - order.indexOf(other.code) || other.requests.length - one.requests.length);
  const body = sorted.map(({ code, manner, requests }) =>
    el("tr", null, cell(chip(code)), numberCell(requests.length), cell(manner),
    cell(linksTo(requests, NAMED))));
  return [table("ends", ["Code", ["Requests"], "How they ended", "First of them"], body), ...othersOf(model)];
}

/** How many requests were not posted, and how many no unit took. */
function othersOf({ run, requests }) {
  const unposted = requests.filter(({ end }) => !end).length;
  const issued = run.task_events.reduce((sum, events) => sum + events.filter(({ what }) => what === "issued").length, 0);
  return [["Not posted", unposted], ["Issued, and taken by no unit", issued - requests.length]].filter(([, number]) => number > 0)
    .map(([words, number]) => el("p", { class: "dim" }, `${words}: ${counted(number, "request")}.`));
}

/** The columns of a tally that the run has something in: their headings, and their values. */
function tallyColumns({ whole }) {
  const codes = [...CODES.keys()].filter((code) => whole.codes[code]).map((code) => [code, (tally) => tally.codes[code]]);
  const others = [["Requests", "requests"], ["Retries", "retries"], ["Commands", "commands"], ["Controls", "marks"]]
    .filter(([, name]) => whole[name]).map(([head, name]) => [head, (tally) => tally[name]]);
  return [...others.slice(0, 1), ...codes, ...others.slice(1)];
}

function talliesTable(model, heads, tallies, cellsOf) {
  const columns = tallyColumns(model);
  return table("tallies", [...heads, ...columns.map(([head]) => [head])], tallies.map((tally, place) =>
    el("tr", null, cellsOf(place), columns.map(([, value]) => numberCell(value(tally))))));
}

const unitsTable = (model) => talliesTable(model, ["Unit", "Kind"], model.unitTallies, (unit) =>
  [cell(el("a", { href: `#unit${unit}` }, `Unit ${unit}`)), cell(model.run.units[unit].kind)]);

const tasksTable = (model) => talliesTable(model, ["Task"], model.taskTallies, (task) => cell(`Task ${task}`));
