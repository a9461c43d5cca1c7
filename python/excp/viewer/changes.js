/**
 * @file What a run changed on a medium, against what its script has put there.
 *
 * @typedef {{id: string, name: string, areas: string[]}} Thing a record with its key and its data, or an item of a tape
 * @typedef {{id: string, name: string, before: ?string[], after: ?string[]}} Change the areas of a thing, if it was there
 */

/** The changes that are listed at once. */
const LISTED_CHANGES = 60;

/** The medium of a unit as its script has it, in the form of the JSON; null if an image has it, or the end is not whole. */
function mediumBefore(model, { unit, kind, medium }) {
  const job = jobOf(model);
  if (!job || job.loaded.includes(unit) || !medium?.whole || kind === "printer") return null;
  const content = job.content.filter(([owner]) => owner === unit);
  if (kind === "tape") return { ...medium, list: null, items: content.map(([, block]) => block), place: 0 };
  const records = content.map(([, cylinder, head, record, key, data]) => ({ cylinder, head, record, key, data }));
  return { ...medium, byTrack: null,
    records: records.sort((one, other) => one.cylinder - other.cylinder || one.head - other.head) };
}

/** The records or items of a medium, but for records that mounting has made. @returns {Thing[]} */
function thingsOn({ unit, kind, medium }) {
  if (kind === "tape") {
    return itemsOf(medium).map(({ bytes, number }) =>
      ({ id: `i${unit}-${number}`, name: `item ${many(number)}${bytes === null ? ", tape mark" : ""}`, areas: [bytes ?? ""] }));
  }
  return [...tracksOf(medium).values()].flatMap((track) => recordsOf(medium, track).map((record, nth) => ({ ...record, nth })))
    .filter(({ isMounted }) => !isMounted)
    .map((record) => ({ id: recordId(unit, record), name: ownName(record), areas: [record.key, record.data] }));
}

/** The name of a record, with its ID if that is not of its track. */
function ownName({ cylinder, head, record, id }) {
  return nameOfRecord({ cylinder, head, record, id: id === homeOf(cylinder, head) + hexOf(record, 2) ? "" : id });
}

/** What differs on a unit before and after a run. A thing with another name at the same place is another thing.
 * @returns {Change[]} */
function changesOf(before, after) {
  const places = new Map();
  for (const thing of thingsOn(before)) places.set(thing.id, { old: thing });
  for (const thing of thingsOn(after)) places.set(thing.id, { ...places.get(thing.id), now: thing });
  return [...places.values()].flatMap(({ old, now }) => {
    if (old?.name !== now?.name) return [changeOf(old), changeOf(undefined, now)].filter(Boolean);
    return `${old.areas}` === `${now.areas}` ? [] : [changeOf(old, now)];
  });
}

/** A change of a thing; nothing if it was at no time there. @returns {?Change} */
function changeOf(old, now) {
  const thing = now ?? old;
  return thing ? { id: thing.id, name: thing.name, before: old?.areas, after: now?.areas } : null;
}

/** Gives two media one scale: the bytes of the longest track or strip of both. */
function giveOneScale(kind, one, other) {
  const sizesOf = (medium) => (kind === "tape" ? stripsOf(itemsOf(medium)).map(sumOf)
    : [...tracksOf(medium).values()].map((track) => usedOf(medium, track)));
  one.scale = [...sizesOf(one), ...sizesOf(other)].reduce((most, size) => Math.max(most, size), 1);
  other.scale = one.scale;
}

/** The bytes of all changes, before and after. Those that differ are marked. */
function changesTable(changes) {
  const parts = el("div", { class: "changes" });
  inPortions(parts, changes.length, LISTED_CHANGES, "changes", (place) => {
    const { id, name, before, after } = changes[place];
    const cells = [[before, after], [after, before]].map(([areas, others]) => el("div", { class: "code" }, areas
      ? areas.map((hex, nth) => (hex ? markedBytes(hex, others?.[nth]) : null)) : el("span", { class: "dim" }, "none")));
    return el("div", { class: "change", "data-change": id }, el("div", { class: "dim" }, name), cells);
  });
  return el("div", null, el("h4", null, "Changed bytes, before and after"), parts);
}

/** Up to 64 bytes, from the line of the first one that differs. */
function markedBytes(hex, other = "") {
  const bytes = hex.match(/../g);
  const differs = (at) => bytes[at] !== other.slice(2 * at, 2 * at + 2);
  const first = Math.max(0, bytes.findIndex((_, at) => differs(at)));
  const from = first - (first % 16);
  const shown = bytes.slice(from, from + SHOWN_BYTES);
  return el("div", { class: "hex" }, from ? el("span", { class: "dim" }, `from byte ${many(from)}: `) : null,
    shown.map((byte, nth) => [nth && nth % 4 === 0 ? " " : "", differs(from + nth) ? el("mark", null, byte) : byte]),
    "  ", el("i", null, ebcdic(shown.join(""))), from + SHOWN_BYTES < bytes.length ? " …" : "");
}
