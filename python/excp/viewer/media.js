/** @file The medium of a unit at the end of the run: its drawing, its bytes, and how to show a place of it. */

const LISTED = 200;
const SHOWN_BYTES = 64;
/** The keys and data of a medium over which the JSON has only what the run touched (docs/REPORT.md). */
const BOUND = "1 MiB";

/** The drawing of the medium of a unit: words, parts, and `show(place)`, which draws what was left out up to a place. */
const mediumOf = (unit) => ({ disk: diskOf, tape: tapeOf, printer: paperOf }[unit.kind](unit));

/** What a page says of a medium that it does not have whole. */
const notWhole = ({ whole }, parts) => (whole ? null : el("p", { class: "partial" },
  `It has more than ${BOUND} of keys and data. The page has only the ${parts} that the run touched.`));

/** Shows the record, the item or the line that an address names, and lights it. */
function lightPlace(id) {
  const [, unit, place] = /^[ril](\d+)-(.+)$/.exec(id) ?? [];
  const section = unit && byId(`unit${unit}`);
  if (!section) return false;
  section.build();
  section.show(place);
  for (const lit of document.querySelectorAll(".lit")) lit.classList.remove("lit");
  const it = byId(id);
  it?.classList.add("lit");
  (it ?? section).scrollIntoView({ block: "center", inline: "nearest" });
  return true;
}

/** Bytes in hexadecimal in a fold, one row for each thing that has a name. */
function listing(title, list, rowOf) {
  return fold(title, () => {
    const parts = el("div", { class: "listing" });
    inPortions(parts, list.length, LISTED, "rows", (place) => {
      const [name, ...areas] = rowOf(list[place]);
      return el("div", { class: "row" }, el("span", { class: "dim" }, name), el("div", null, areas.filter(Boolean)
        .map((hex) => hexOfBytes(hex.slice(0, 2 * SHOWN_BYTES), hex.length > 2 * SHOWN_BYTES))));
    });
    return parts;
  });
}

/** The characters that bytes begin with. */
const beginOf = (hex) => ebcdic(hex.slice(0, 2 * SHOWN_BYTES));

const bytesInWords = (hex) => `${counted(hex.length / 2, "byte")}, |${beginOf(hex)}|`;
