/** @file The panel of a request or of a mark, and the few lines on what is pointed at. */

/** The fields of the rows of an IOB: their lengths in bytes, and their names. */
const IOB_ROWS = [[[1, 1, 2, 1, 3], "flags, sense, code, ECB"], [[1, 3, 1, 1, 2], "CSW"], [[1, 3, 1, 3], "program, DCB"],
  [[8], ""], [[1, 2, 2, 2, 1], "M BB CC HH R"]];
/** The bytes of a row of what a request shows. */
const SHOWN_ROW = 8;
/** The most requests and the most starts that are named. */
const MOST_NAMED = 40;
const MOST_STARTS = 4;

const linkTo = (thing, words = shortName(thing)) => el("a", { href: `#${idOf(thing)}` }, words);

/** Links to requests, with commas; of very many the first ones. */
function linksTo(requests, most = MOST_NAMED) {
  const links = requests.slice(0, most).flatMap((request, place) => [place ? ", " : "", linkTo(request)]);
  return requests.length > most ? [...links, ` and ${many(requests.length - most)} more`] : links;
}

/** The title and the content of a panel. */
const panelOf = (model, thing) => (thing.event ? markPanel(model, thing) : requestPanel(model, thing));

/** A panel in the page itself, as in print. */
function articleOf(model, thing) {
  const { title, content } = panelOf(model, thing);
  return el("article", { class: "panel" }, el("h3", null, title), el("div", { class: "content" }, content));
}

const part = (title, ...children) => el("section", null, el("h4", null, title), children);

function requestPanel(model, request) {
  const { kind } = model.run.units[request.unit];
  const post = postOf(model, request);
  const attempts = attemptGroups(model, request);
  const noPost = request.end ? "Its task has not collected the post." : "It was not posted.";
  return {
    title: [chip(request.code), ` ${longName(request)} · ${kind} · ${endInWords(request)}`],
    content: [
      part("Its events", lifeOf(request, kind)), request.end ? part("CSW and sense", cswOf(request)) : null,
      el("div", { class: "program" }, paneOf(model, request, attempts), stepsOfAttempts(model, request, attempts)),
      statesOf(request),
      part("IOB as posted", post ? iobOf(post) : el("p", { class: "dim" }, noPost)),
      request.code === "42" ? part("Extents of its DCB", extentsOf(model, request)) : null,
      post?.shown ? part(`${counted(post.shown.length / 2, "byte")} shown`, hexOfBytes(post.shown, false, SHOWN_ROW)) : null,
    ],
  };
}

/** Rows of a number, words and a note. */
const rows = (list) => el("table", { class: "facts" }, list.filter(Boolean).map(([number, words, note]) =>
  el("tr", null, el("td", { class: "n" }, number), el("td", null, words),
    note === undefined ? null : el("td", { class: "dim" }, note))));

/** The track and the record of MBBCCHHR. */
const seekInWords = (seek) =>
  `cylinder ${bitsOf(seek.slice(6, 10))}, head ${bitsOf(seek.slice(10, 14))}, R${bitsOf(seek.slice(14))}`;

/** The number of an event; nothing for one of the set-up. */
const eventNumber = ({ column }) => (column ? many(column) : "");

function lifeOf(request, kind) {
  const { arrival, starts, end, halted, doom, dooms } = request;
  const { dcb, related, seek, start } = arrival.event;
  const code = end && el("b", { class: `t${request.code}` }, request.code);
  return [
    rows([
      [eventNumber(arrival), `arrived for DCB ${dcb}, ${related ? "related" : "unrelated"}`],
      ["", `program at ${start}`],
      kind === "disk" ? ["", `seeks ${seekInWords(seek)}`] : null,
      ...startsOf(request),
      halted ? [eventNumber(halted), "halted"] : null,
      end ? [eventNumber(end), ["posted ", code, starts.length ? "" : ", not started"]] : null,
    ]),
    end?.event.why ? el("p", null, whyInWords(end.event.why), doom ? [" ", doomerOf(doom)] : null) : null,
    dooms.length ? el("p", null, "Its error ended ", linksTo(dooms), ".") : null,
  ];
}

/** The rows of the first starts and of the last one, each with the commands of its attempt, and one for those between. */
function startsOf(request) {
  const attempts = attemptsOf(request);
  const list = attempts.map(({ number, start, runs }) => {
    const commands = runs.reduce((sum, { event }) => sum + event.commands, 0);
    return [[eventNumber(start), number > 1 ? `started again, attempt ${number}` : "started"],
      commands ? ["", `ran ${counted(commands, "command")}`] : null];
  });
  const leftOut = list.length - MOST_STARTS;
  if (leftOut > 0) list.splice(MOST_STARTS - 1, leftOut,
    [["…", `${counted(leftOut, "more start")}, attempts ${MOST_STARTS} to ${list.length - 1}`]]);
  return list.flat();
}

function doomerOf({ request, mark }) {
  if (request) return ["By ", linkTo(request), `, posted ${request.code}.`];
  if (!mark) return null;
  return ["Event ", eventNumber(mark.moment), ": ", linkTo(mark, markInWords(mark)),
    mark.by === null ? "." : `, by task ${mark.by}.`];
}

function cswOf(request) {
  const { address, status, residual, sense } = request.end.event;
  const names = (mask) => (request.starts.length ? statusNames(bitsOf(status) & mask).join(", ") || "nothing to tell" : "");
  return el("table", { class: "facts code" }, [
    ["CCW address", address, ""], ["unit status", status.slice(0, 2), names(0xff00)], ["subchannel", status.slice(2), names(0xff)],
    ["residual", residual, bitsOf(residual) || ""], ["sense", sense, senseNames(bitsOf(sense)).join(", ")],
  ].map(([name, value, note]) => el("tr", null, el("td", null, name), el("td", null, value), el("td", { class: "dim" }, note))));
}

function iobOf({ iob_at: at, iob }) {
  return el("table", { class: "facts code" }, IOB_ROWS.map(([lengths, names], row) => {
    let from = row * 16;
    const fields = lengths.map((length) => {
      from += 2 * length;
      return iob.slice(from - 2 * length, from);
    });
    return el("tr", null, el("td", { class: "dim" }, hexOf(bitsOf(at) + row * 8, 6)), el("td", null, fields.join(" ")),
      el("td", { class: "dim" }, names));
  }));
}

function extentsOf(model, request) {
  const { dcb, seek } = request.arrival.event;
  const opened = model.run.units[request.unit].events.find(({ what, dcb: it }) => what === "opened" && it === dcb);
  return [
    el("p", { class: "bad" }, `It sought ${seekInWords(seek)}.`),
    rows((opened?.extents ?? []).map(({ from, to }, place) => [place, `${from.join(" ")} to ${to.join(" ")}`])),
  ];
}

function markPanel(model, mark) {
  const { unit, event, by, dooms } = mark;
  return {
    title: [`${markInWords(mark)} · unit ${unit}`],
    content: [part("What it did",
      el("p", null, `Event ${eventNumber(mark.moment)}${by === null ? "" : `, by task ${by}`}.`),
      event.what === "purge" ? el("p", null, activeAt(model, mark)) : null,
      event.what === "opened" ? null : el("p", null, dooms.length ? ["It ended ", linksTo(dooms), "."] : "It ended no request."))],
  };
}

/** Which request was active at a purge. */
function activeAt(model, { unit, event }) {
  if (!event.active) return "Nothing was active.";
  const active = requestNamed(model, event.active[0], unit, event.active[1]);
  return active ? ["Active then: ", linkTo(active), `, ${active.code ? `posted ${active.code}` : "not posted"}.`] : null;
}

/** A few lines on what is pointed at. @returns {string[]} */
const tipOf = (thing) => (thing.event ? tipOfMark(thing) : tipOfRequest(thing)).filter(Boolean);

const tipOfMark = (mark) => [
  `${markInWords(mark)} · unit ${mark.unit}`,
  `event ${eventNumber(mark.moment)}${mark.by === null ? "" : `, by task ${mark.by}`}`,
  mark.dooms.length ? `ended ${counted(mark.dooms.length, "request")}` : "",
];

function tipOfRequest(request) {
  const { arrival, starts, end, code, commands } = request;
  const times = [`arrived ${many(arrival.column)}`, starts.length ? `started ${many(starts[0].column)}` : "not started",
    starts.length > 1 ? `${starts.length} starts` : "", end ? `posted ${many(end.column)}` : "not posted"];
  return [longName(request), `${code} ${endInWords(request)}`.trim(), `event: ${times.filter(Boolean).join(", ")}`,
    commands ? counted(commands, "command") : "", end ? troubleOf(end.event) : ""];
}

/** Why a request ended, or what its status and its sense bytes say. */
function troubleOf({ code, why, status, sense }) {
  if (why) return whyInWords(why);
  return code === "7F" ? "" : [...unusualStatus(bitsOf(status)), ...senseNames(bitsOf(sense))].join(", ");
}
