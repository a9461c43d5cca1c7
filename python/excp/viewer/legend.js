/** @file The legend: the signs that this run has, each with its words. */

const legendItem = (words, width, picture) =>
  el("li", null, svg("svg", { width, height: 16, "aria-hidden": "true" }, picture), words);

/** The signs of requests: for each code, and for what only some requests have. */
function signsOfRequests({ requests, whole }) {
  const signs = [];
  const add = (words, test, ...parts) => {
    const request = requests.find(test);
    if (request) signs.push(legendItem(words, 30, svg("g", { class: `bar c${request.code || "none"}` }, parts)));
  };
  for (const code of CODES.keys()) {
    if (!whole.codes[code]) continue;
    add(code, (request) => request.code === code && request.starts.length, box("run", 0, 28, 8, 7));
    add(`${code}, never started`, (request) => request.code === code && !request.starts.length,
      box("wait", 0, 22, 8, 2.5), endSign(code, 22, 8));
  }
  add("not posted", ({ end }) => !end, box("run", 0, 28, 8, 7));
  add("waits", ({ starts }) => starts.length, box("wait", 0, 28, 8, 2.5));
  add("attempt that was tried again", ({ starts }) => starts.length > 1, box("again", 0, 28, 8, 7));
  add("its program ran", ({ runs }) => runs.length, box("run", 0, 28, 8, 7), svg("path", { class: "turn", d: "M15 11v4" }));
  add("halted", ({ halted }) => halted, box("run", 0, 28, 8, 7), svg("path", { class: "halt", d: "M18 1v14" }));
  return signs;
}

const MARK_WORDS = [["purge", "purge"], ["closed", "close"], ["reset", "reset"], ["opened", "open"]];
const STRIP_WORDS = [[false, "flagged", "DCB has its error flag on"], [true, "closed", "DCB closed"]];

function legendOf(model, lanes) {
  const marks = MARK_WORDS.filter(([what]) => model.marks.some(({ event }) => event.what === what));
  const strips = STRIP_WORDS.filter(([isClosed]) => model.strips.some((strip) => strip.isClosed === isClosed));
  const some = (name) => lanes.some((lane) => lane[name].length);
  return el("ul", { class: "legend", "aria-label": "Legend" }, signsOfRequests(model),
    marks.map(([what, words]) => legendItem(words, 16, svg("g", { transform: "translate(8 8)" }, SIGNS[what]()))),
    model.requests.some(({ doom }) => doom) ? legendItem("ended by it", 30, svg("path", { class: "doom", d: "M2 2V8H28" })) : null,
    strips.map(([, name, words]) => legendItem(words, 28, svg("g", { class: `strip ${name}` }, box("body", 0, 28, 8, 5)))),
    some("waits") ? legendItem("task waits", 28, waitLine(1, 27, 8)) : null,
    some("collects") ? legendItem("task collects a post", 10, collectSign(5, 8)) : null);
}
