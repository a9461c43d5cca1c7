/** @file Where a step was on its medium. */

/** Where a step was: of a loop the first and the last place. A search that found no record has the records of its track. */
function placeOf({ unit, search }, step) {
  const { place, last_place: last } = step;
  if (place.passed !== undefined) return comparisonOf(unit, place, search);
  return el("div", { class: "place" }, placeLink(unit, step, place), last ? [" … ", placeLink(unit, step, last)] : null);
}

function placeLink(unit, step, place) {
  const words = placeInWords(place);
  const id = placeId(unit, step, place);
  return [id ? el("a", { href: `#${id}` }, `▸ ${words}`) : words,
    id === null ? ", which the medium no longer has" : "",
    place.equal === undefined ? "" : `: ${place.equal ? "equal" : "not equal"}`];
}

function placeInWords({ item, page, line, cylinder, head, record, id, key }) {
  if (item !== undefined) return `item ${many(item)} of the tape`;
  if (page !== undefined) return `page ${many(page)}, line ${line}`;
  return `track ${cylinder} ${head}, ${id ? `ID ${id}` : `R${record}`}${key ? `, key ${key} |${ebcdic(key)}|` : ""}`;
}

/** The id of a step's place in the drawing of its medium. Null if the medium no longer has it; empty if a line is not drawn. */
function placeId({ unit, medium }, step, { item, page, line, cylinder, head, record, nth, id, key = "" }) {
  if (item !== undefined) return itemsOf(medium).some((it) => it.number === item && isMovedBy(step, it)) ? `i${unit}-${item}`
    : null;
  if (page !== undefined) return line <= linesOf(medium, page) ? `l${unit}-${page}-${line}` : "";
  const now = recordsOf(medium, { cylinder, head })[nth];
  const isSame = now?.id === (id ?? homeOf(cylinder, head) + hexOf(record, 2)) && now.key === key;
  return isSame ? recordId(unit, { cylinder, head, nth }) : null;
}

/** Whether an item of a tape begins with the bytes that a step moved, if these show how it began. */
const isMovedBy = ({ ccws, way, bytes = "" }, item) => way === "down from" || ccws.some(({ flags }) => flags.includes("SKIP"))
  || !isHexadecimal(bytes) || (item.bytes ?? "").startsWith(bytes);

/** What a search that found nothing looked for, as far as the JSON has it, beside what its track had then. */
function comparisonOf({ unit, medium }, place, search) {
  const { cylinder, head, passed } = place;
  const found = place.keys ?? place.ids ?? [];
  const more = place.keys_more ?? place.ids_more ?? 0;
  const wanted = isHexadecimal(search?.bytes) ? { digits: search.bytes, isWhole: !search.more } : null;
  const text = (hex) => (place.keys ? ` |${ebcdic(hex)}|` : "");
  const kind = place.keys ? "key" : "ID";
  const records = recordsOf(medium, place);
  const isThere = (bytes, nth) => bytes === (place.keys ? records[nth]?.key : records[nth]?.id);
  const words = wanted ? [`Looked for ${kind} `, el("code", null, grouped(wanted.digits)), text(wanted.digits),
    wanted.isWhole ? " on " : " … on "] : "Looked on ";
  return el("div", { class: "compare" },
    el("p", null, words, `track ${cylinder} ${head}, passed ${counted(passed, "record")}, found none. The track had:`),
    el("table", { class: "facts code" }, found.map((bytes, nth) => (nth === 0 && !bytes ? null : el("tr", null,
      el("td", null, isThere(bytes, nth) ? el("a", { href: `#${recordId(unit, { cylinder, head, nth })}` }, nth) : String(nth)),
      el("td", null, digitsBeside(bytes, wanted)), el("td", { class: "dim" }, text(bytes)))))),
    more ? el("p", { class: "dim" }, `and ${counted(more, "record")} more`) : null);
}

/** Bytes, of which those that are known to differ from what was looked for are marked. */
function digitsBeside(bytes, wanted) {
  const pairs = bytes.match(/../g) ?? ["–"];
  const isKnown = (at) => wanted && (wanted.isWhole || 2 * at < wanted.digits.length);
  const differs = (byte, at) => isKnown(at) && byte !== wanted.digits.slice(2 * at, 2 * at + 2);
  return pairs.map((byte, at) => (differs(byte, at) ? el("mark", null, byte) : byte));
}
