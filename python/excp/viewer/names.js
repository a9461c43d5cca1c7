/** @file The words of the page: codes, status and sense bits, characters of EBCDIC, numbers, names of requests and controls. */

/** The completion codes in the order of the page, each with its meaning. */
const CODES = new Map([
  ["7F", "ended well"],
  ["41", "permanent error"],
  ["42", "outside the extents"],
  ["48", "ended by another event"],
]);

const WHY = new Map([
  ["purged", "It waited, and a purge covers it."],
  ["its DCB was closed", "It waited, and its DCB was closed."],
  ["its DCB is not open", "Its DCB was closed before it arrived."],
  ["a related request ended in error", "It is related, and a related request of its DCB ended in error."],
  ["halted", "A purge with halt ended its program."],
  ["not tried again", "A purge with halt kept it from being tried again."],
  ["its disk address is outside the extents", "Its disk address is outside the extents of its DCB."],
]);

/** Why a request ended, as a sentence. */
const whyInWords = (why) => WHY.get(why) ?? why;

/** Unit status, then subchannel status, from X'8000' down. */
const STATUS = ["attention", "status modifier", "control unit end", "busy", "channel end", "device end", "unit check",
  "unit exception", "program-controlled interruption", "incorrect length", "program check", "protection check",
  "channel data check", "channel control check", "interface control check", "chaining check"];

const SENSE = new Map([[0x8000, "command reject"], [0x4000, "intervention required"], [0x2000, "bus-out check"],
  [0x1000, "equipment check"], [0x0800, "data check"], [0x0400, "overrun"], [0x0040, "invalid track format"],
  [0x0020, "end of cylinder"], [0x0008, "no record found"], [0x0004, "file protected"]]);

const NORMAL_END = 0x0c00;
const STATUS_MODIFIER = 0x4000;
/** Unit check, unit exception and all of subchannel status: what is more than a normal end. */
const TROUBLE = 0x03ff;
const PROGRAM_CHECK = 0x0020;

/** The names of the bits of a status that are on. */
const statusNames = (bits) => STATUS.filter((_, place) => bits & (0x8000 >> place));

/** The same without channel end and device end. */
const unusualStatus = (bits) => statusNames(bits & ~NORMAL_END);

const senseNames = (bits) => [...SENSE].filter(([bit]) => bits & bit).map(([, name]) => name);

const bitsOf = (hex) => parseInt(hex || "0", 16);

/** The characters of X'40' to X'FF' in code page 037; a dot for one that cannot be seen. */
const GRAPHICS = " .âäàáãåçñ¢.<(+|&éêëèíîïìß!$*);¬-/ÂÄÀÁÃÅÇÑ¦,%_>?øÉÊËÈÍÎÏÌ\x60:#@'=\""
  + "Øabcdefghi«»ðýþ±°jklmnopqrªºæ¸Æ¤µ~stuvwxyz¡¿ÐÝÞ®^£¥·©§¶¼½¾[]¯¨´×"
  + "{ABCDEFGHI.ôöòóõ}JKLMNOPQR¹ûüùúÿ\\÷STUVWXYZ²ÔÖÒÓÕ0123456789³ÛÜÙÚ.";

/** Bytes in hexadecimal as text of code page 037. */
function ebcdic(hex) {
  let text = "";
  for (let at = 0; at + 1 < hex.length; at += 2) {
    text += GRAPHICS[parseInt(hex.slice(at, at + 2), 16) - 0x40] ?? ".";
  }
  return text;
}

/** Whether a member of a step has bytes: it may be `skipped`, or empty. */
const isHexadecimal = (text) => /^[0-9A-F]+$/.test(text ?? "");

/** Bytes in hexadecimal in groups of four. */
const grouped = (hex) => hex.replace(/.{8}(?=.)/g, "$& ");

/** Bytes in lines of so many: hexadecimal in groups, and characters. */
function hexLines(hex, bytes) {
  const lines = [];
  for (let at = 0; at < hex.length; at += 2 * bytes) {
    const part = hex.slice(at, at + 2 * bytes);
    lines.push([grouped(part), ebcdic(part)]);
  }
  return lines;
}

const hexOf = (number, digits) => number.toString(16).toUpperCase().padStart(digits, "0");

/** A number with commas between thousands. */
const many = (number) => String(number).replace(/\B(?=(\d{3})+$)/g, ",");

/** A count with its noun. */
const counted = (number, noun, plural = `${noun}s`) => `${many(number)} ${number === 1 ? noun : plural}`;

/** Counts of codes in words, as `3×7F 1×41`. */
const codesInWords = (codes) =>
  [...CODES.keys()].filter((code) => codes[code]).map((code) => `${many(codes[code])}×${code}`).join(" ");

const shortName = (request) => `T${request.task} U${request.unit} #${request.number}`;

const longName = (request) => `task ${request.task} · unit ${request.unit} · request ${request.number}`;

/** How a request ended, in a few words. */
const endInWords = (request) => (request.halted ? "halted" : CODES.get(request.code) ?? "not posted");

/** A purge, a close, a reset or an open in words. */
function markInWords({ event }) {
  const scope = "dcb_purged" in event ? `DCB ${event.dcb_purged}` : `task ${event.task_purged}`;
  switch (event.what) {
    case "purge": return `purge of ${scope} with ${event.mode}`;
    case "closed": return `close of DCB ${event.dcb}`;
    case "reset": return `reset of DCB ${event.dcb}`;
    default: return `open of DCB ${event.dcb} for ${event.way}`;
  }
}

const lastOf = (list) => list[list.length - 1];
