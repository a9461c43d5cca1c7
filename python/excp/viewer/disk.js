/** @file Disks: tracks to scale, and a map of all tracks. */

/** How many tracks are drawn at once, and with how many a disk has no map. */
const TRACKS = 24;
const TRACKS_WITHOUT_MAP = 12;
const COUNT_AREA = 8;

/** The id of a record in the drawing of its track: `nth` is its place on the track. */
const recordId = (unit, { cylinder, head, nth }) => `r${unit}-${cylinder}-${head}-${nth}`;

/** The first bytes of the IDs of a track. */
const homeOf = (cylinder, head) => hexOf(cylinder, 4) + hexOf(head, 4);

/** The records of a track by their place on it, with the R0 that the JSON leaves out if it is as mounting makes it. */
function recordsOf(medium, { cylinder, head }) {
  const home = homeOf(cylinder, head);
  const number = cylinder * medium.heads + head;
  const list = (tracksOf(medium).get(number)?.stored ?? [])
    .map((record) => ({ ...record, id: record.id ?? home + hexOf(record.record, 2) }));
  if (list[0]?.record === 0 && !medium.furtherR0?.has(number)) return list;
  return [{ cylinder, head, record: 0, id: `${home}00`, key: "", data: "0".repeat(16), isMounted: true }, ...list];
}

/** The tracks with other records than R0 in the JSON, by their numbers. */
function tracksOf(medium) {
  if (medium.byTrack) return medium.byTrack;
  const tracks = new Map();
  for (const record of medium.records) {
    const { cylinder, head } = record;
    const number = cylinder * medium.heads + head;
    if (!tracks.has(number)) tracks.set(number, { number, cylinder, head, stored: [] });
    tracks.get(number).stored.push(record);
  }
  medium.byTrack = new Map([...tracks].sort(([one], [other]) => one - other));
  return medium.byTrack;
}

const sizeOf = ({ key, data }) => COUNT_AREA + (key.length + data.length) / 2;

const usedOf = (medium, track) => recordsOf(medium, track).reduce((sum, record) => sum + sizeOf(record), 0);

function diskOf(unit) {
  const { medium } = unit;
  const { cylinders, heads, bytes, records } = medium;
  const tracks = [...tracksOf(medium).values()].map((track) => ({ ...track, used: usedOf(medium, track) }));
  const total = cylinders * heads;
  const others = tracks.reduce((sum, track) => sum + recordsOf(medium, track).length - 1, 0);
  const longest = tracks.reduce((most, { used }) => Math.max(most, used), medium.scale ?? 1);
  const size = longest * 4 > bytes ? bytes : Math.ceil((longest * 5) / 256) * 64;
  const parts = el("div", { class: "disk" });
  const rest = medium.whole === false ? "untouched, or with record 0 alone" : "with record 0 alone";
  const gap = (number) => (number > 0 ? el("div", { class: "gap dim" }, `${counted(number, "track")} ${rest}`) : null);
  const portions = inPortions(parts, tracks.length, TRACKS, "tracks", (place) => {
    const before = place ? tracks[place - 1].number + 1 : 0;
    const isLast = place === tracks.length - 1;
    const { number } = tracks[place];
    return [gap(number - before), drawTrack(unit, tracks[place], size), isLast ? gap(total - number - 1) : null];
  });
  if (!tracks.length) parts.append(gap(total) ?? "");
  return {
    words: [`${counted(cylinders, "cylinder")} of ${counted(heads, "head")}, ${many(bytes)} bytes a track; `,
      `${counted(others, "record")}, and record 0 of each track. `,
      size < bytes ? `The first ${many(size)} bytes of each track, to scale:` : "To scale:",
      ["count", "key", "data"].map((area) => [" ", el("i", { class: `swatch ${area}` }), ` ${area}`]), "."],
    parts: [notWhole(medium, "tracks"), total > TRACKS_WITHOUT_MAP ? mapOf(medium, tracks, total) : null, parts,
      records.length ? listing("Records in hexadecimal", records, (record) => [nameOfRecord(record), record.key, record.data])
        : null],
    show: (place) => {
      const [cylinder, head] = place.split("-").map(Number);
      portions.upTo(tracks.findIndex((track) => track.cylinder === cylinder && track.head === head));
      if (byId(recordId(unit.unit, { cylinder, head, nth: 0 }))) return;
      // a track with record 0 alone
      parts.append(drawTrack(unit, { cylinder, head, used: usedOf(medium, { cylinder, head }) }, size));
    },
  };
}

const nameOfRecord = ({ cylinder, head, record, id }) => `${cylinder} ${head} R${record}${id ? ` ID ${id}` : ""}`;

function drawTrack({ unit, medium, isBefore }, track, size) {
  const { cylinder, head, used } = track;
  const percent = (bytes) => `${(100 * bytes) / size}%`;
  const records = recordsOf(medium, track);
  let at = 0;
  const boxes = records.map((record, nth) => {
    const length = sizeOf(record);
    const tip = [`R${record.record}, bytes ${at} to ${at + length - 1} of the track`, `ID ${record.id}`,
      record.key ? `key of ${bytesInWords(record.key)}` : "no key", `data of ${bytesInWords(record.data)}`].join("\n");
    const style = { left: percent(at), width: percent(length) };
    at += length;
    const id = recordId(unit, { cylinder, head, nth });
    return el("div", { class: medium.changed?.has(id) ? "record changed" : "record", id: !isBefore && id, "data-tip": tip, style },
      areaOf("count", COUNT_AREA, `R${record.record}`), areaOf("key", record.key.length / 2, beginOf(record.key)),
      areaOf("data", record.data.length / 2, record.isMounted ? "" : beginOf(record.data)));
  });
  const bytes = `${many(used)} of ${many(medium.bytes)} bytes used`;
  const label = `Track ${cylinder} ${head}: ${counted(records.length, "record")}, ${bytes}`;
  return el("div", { class: "track-row" }, el("span", { class: "code dim" }, `${cylinder} ${head}`),
    el("div", { class: "track", role: "img", "aria-label": label }, boxes));
}

const areaOf = (name, bytes, text) => (bytes ? el("span", { class: name, style: { flex: `${bytes} ${bytes} 0` } }, text) : null);

/** A cell for each track, darker if it is fuller. */
function mapOf({ heads, bytes }, tracks, total) {
  const across = Math.max(heads, Math.floor(Math.sqrt(total * 7) / heads) * heads);
  const side = Math.max(2, Math.min(14, Math.floor(1160 / across)));
  const inner = side - (side > 4 ? 1 : 0);
  const paths = ["", "", "", ""];
  for (const { number, used } of tracks) {
    const place = `${(number % across) * side} ${Math.floor(number / across) * side}`;
    paths[Math.min(3, Math.floor((used * 4) / bytes))] += `M${place}h${inner}v${inner}h-${inner}z`;
  }
  const [width, height] = [across * side, Math.ceil(total / across) * side];
  const picture = { viewBox: `0 0 ${width} ${height}`, width, role: "img", "aria-label": `Map of ${many(total)} tracks` };
  return el("div", { class: "map" }, svg("svg", picture, svg("rect", { width, height }),
    paths.map((d, shade) => (d ? svg("path", { class: `shade${shade}`, d }) : null))),
  el("p", { class: "dim" }, `A cell for each of ${many(total)} tracks, ${many(across)} a row; darker is fuller.`));
}
