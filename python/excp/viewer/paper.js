/** @file Printed pages. */

const PAGES = 6;
const PAGE_LINES = 66;

function paperOf(unit) {
  const { lines, pages, printed, page, line } = unit.medium;
  const sheets = new Map();
  for (const it of printed) sheets.set(it.page, [...(sheets.get(it.page) ?? []), it]);
  const withLines = sheets.size;
  if (!sheets.has(page)) sheets.set(page, []);
  const list = [...sheets];
  const parts = el("div", { class: "paper" });
  const portions = inPortions(parts, list.length, PAGES, "pages",
    (at) => sheetOf(unit, ...list[at], list[at][0] === page ? line : 0));
  return {
    words: [`${counted(printed.length, "line")} on ${counted(withLines, "page")}. `,
      `The paper is at page ${many(page)}, line ${line}. `,
      `It has room for ${counted(lines, "line")} on ${counted(pages, "page")}.`],
    parts: [notWhole(unit.medium, "lines"), parts,
      printed.length ? listing("Lines in hexadecimal", printed, (it) => [`page ${it.page} line ${it.line}`, it.bytes]) : null],
    show: (place) => portions.upTo(list.findIndex(([number]) => number === parseInt(place, 10))),
  };
}

/** How many lines of a page are drawn: up to its last bar with something on it. */
function linesOf({ printed, page: now, line: here }, page) {
  const last = printed.reduce((most, it) => (it.page === page ? Math.max(most, it.line) : most), page === now ? here : 0);
  return last > 54 ? PAGE_LINES : Math.ceil(last / 3) * 3;
}

/** A page. Lines that were printed over one another are over one another. */
function sheetOf({ unit, medium }, page, printed, here) {
  const shown = linesOf(medium, page);
  const lines = Array.from({ length: shown }, (_, place) => {
    const line = place + 1;
    const isHere = here === line;
    return el("div", { class: Math.floor(place / 3) % 2 ? "line" : "line green", id: `l${unit}-${page}-${line}` },
      el("span", { class: isHere ? "number here" : "number" }, isHere ? "▸" : line),
      el("span", { class: "over" }, printed.filter((it) => it.line === line).map(({ text }) => el("span", null, text))));
  });
  const blank = shown < PAGE_LINES ? `, lines ${shown + 1} to ${PAGE_LINES} blank` : "";
  return el("figure", null, el("figcaption", { class: "dim" }, `Page ${many(page)}${blank}`),
    el("div", { class: shown < PAGE_LINES ? "sheet torn" : "sheet", tabindex: 0 }, lines));
}
