/** @file Tapes: their blocks and marks in strips, to scale. */

/** The items of a strip of a tape, and how many strips are drawn at once. */
const STRIP = 60;
const STRIPS = 25;
const ITEM_HEAD = 4;

/** The items of a tape that the JSON has, each with its number, from 1. A tape mark has null as its bytes. */
function itemsOf(medium) {
  medium.list = medium.list ?? medium.items.map((bytes, at) => ({ bytes, number: medium.numbers ? medium.numbers[at] : at + 1 }));
  return medium.list;
}

const itemSize = ({ bytes }) => ITEM_HEAD + (bytes ?? "").length / 2;

const sumOf = (items) => items.reduce((sum, item) => sum + itemSize(item), 0);

/** The strips of a tape: items without a gap, up to a tape mark, at most sixty. */
function stripsOf(items) {
  const strips = [];
  let strip = [];
  items.forEach((item, at) => {
    strip.push(item);
    const next = items[at + 1];
    if (item.bytes !== null && next && next.number === item.number + 1 && strip.length < STRIP) return;
    strips.push(strip);
    strip = [];
  });
  return strips.length ? strips : [[]];
}

function tapeOf(unit) {
  const { medium } = unit;
  const { bytes, place } = medium;
  const items = itemsOf(medium);
  const strips = stripsOf(items);
  const total = medium.count ?? items.length;
  const marks = items.filter((item) => item.bytes === null).length;
  const longest = strips.reduce((most, strip) => Math.max(most, sumOf(strip)), medium.scale ?? 1);
  const parts = el("div", { class: "tape" });
  const portions = inPortions(parts, strips.length, STRIPS, "strips of the tape", (at) =>
    [headingOf(medium, strips, at), stripOf(unit, strips[at], (100 * sumOf(strips[at])) / longest)]);
  return {
    words: [`${counted(items.length - marks, "block")} and ${counted(marks, "tape mark")}, `,
      `${many(sumOf(items))} of ${many(bytes)} bytes. `,
      `The tape is after ${many(place)} of ${counted(total, "item")}.`],
    parts: [notWhole(medium, "blocks and tape marks"), parts,
      items.length ? listing("Blocks in hexadecimal", items, rowOfItem) : null],
    show: (number) => portions.upTo(strips.findIndex((strip) => strip.some((item) => item.number === Number(number)))),
  };
}

const rowOfItem = ({ number, bytes }) => [`item ${number}${bytes === null ? ": tape mark" : ""}`, bytes];

/** What is written above a strip: the file that it begins, or, if the tape is not whole, its first item. */
function headingOf(medium, strips, at) {
  const [first] = strips[at];
  const before = at ? lastOf(strips[at - 1]) : null;
  if (!first) return null;
  const isNext = before && before.number + 1 === first.number;
  if (medium.whole === false) return isNext ? null : el("p", { class: "dim" }, `From item ${many(first.number)}:`);
  if (before && before.bytes !== null) return null;
  const file = strips.slice(0, at).filter((strip) => lastOf(strip).bytes === null).length + 1;
  const end = strips.findIndex((strip, place) => place >= at && lastOf(strip).bytes === null);
  const blocks = strips.slice(at, end < 0 ? strips.length : end + 1).flat().filter(({ bytes }) => bytes !== null);
  const size = blocks.reduce((sum, { bytes }) => sum + bytes.length / 2, 0);
  return el("p", { class: "dim" }, `File ${file}: ${counted(blocks.length, "block")}, ${counted(size, "byte")}`);
}

function stripOf({ unit, medium, isBefore }, items, percent) {
  const { place } = medium;
  const strip = el("div", { class: "strip-of-tape", style: { width: `${percent}%` } });
  items.forEach((item, at) => {
    if (item.number === place + 1) strip.append(headOfTape(at > 0 && sumOf(items.slice(0, at)) * 2 > sumOf(items)));
    const tip = `item ${item.number}: ${item.bytes === null ? "tape mark" : `block of ${bytesInWords(item.bytes)}`}`;
    const style = { flex: `${itemSize(item)} ${itemSize(item)} 0` };
    const id = `i${unit}-${item.number}`;
    const name = `${item.bytes === null ? "tape-mark" : "block"}${medium.changed?.has(id) ? " changed" : ""}`;
    strip.append(el("div", { class: name, id: !isBefore && id, "data-tip": tip, style },
      beginOf(item.bytes ?? "")));
  });
  const isAtEnd = lastOf(items) === lastOf(itemsOf(medium)) && (lastOf(items)?.number ?? 0) === place;
  if (isAtEnd) strip.append(headOfTape(items.length > 0));
  return strip;
}

/** The place of the tape. Its words go to the left in the right half of a strip. */
const headOfTape = (isLate) =>
  el("div", { class: isLate ? "tape-head late" : "tape-head", "data-tip": "The tape is at this place." },
  el("span", null, "▲ here"));
