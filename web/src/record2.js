// Records of format 2, which the page and the program `lots` write. Every record has exactly one text.

import { textOf } from "./bytes.js";
import {
  canGoOn, hasName, NAMED, readLine, readLines, readNumber, readSum, RecordError, restOf,
} from "./lines.js";
import { reasonInQuoted } from "./misquoted.js";
import { reasonIn } from "./pasted.js";
import { quoted, quotedText, unquoted } from "./quoted.js";

const TITLE2 = "nanorand public draw 2";
const END2 = "end of the record";

/** @param {string} text @returns {?string} a SHA-256, or that there is no announcement */
function readAnnouncement(text) {
  return text === "none" ? text : readSum(text);
}

/** @param {string} text @returns {?string} */
function readSeed2(text) {
  const bytes = unquoted(text);
  return bytes === null || bytes.length === 0 ? null : textOf(bytes);
}

/** @param {string} text @returns {?Uint8Array} */
function readEntrant2(text) {
  const bytes = unquoted(text);
  return bytes === null || bytes.length === 0 || bytes.includes(10) ? null : bytes;
}

/** The lines after the title. The line of the module may be missing. @type {import("./lines.js").Form[]} */
const LINES2 = [
  { property: "announcement", name: "announcement SHA-256", read: readAnnouncement, joint: "" },
  {
    property: "seed", name: "seed", read: readSeed2, joint: " ",
    reason: (text) => reasonInQuoted(text) || " A seed is UTF-8, and not empty.",
  },
  { property: "list", name: "list SHA-256", read: readSum, joint: "" },
  { property: "entrants", name: "entrants", read: readNumber, joint: "" },
  { property: "drawn", name: "drawn", read: readNumber, joint: "" },
  { property: "module", name: "module SHA-256", read: readSum, joint: "" },
  { property: "result", name: "result SHA-256", read: readSum, joint: "" },
];
const NAMES2 = LINES2.map(({ name }) => name);
/** The place of the lines that follow the number drawn. */
const AFTER_DRAWN = NAMES2.indexOf("drawn") + 1;

function goesOn2(line) {
  return line !== END2 && canGoOn(line, NAMES2);
}

/** The line of the entrant with a number. @param {number} number @returns {import("./lines.js").Form} */
function formOfEntrant(number) {
  const reason = (text) => reasonInQuoted(text) || " An entrant is not empty, and has no line feed.";
  return { name: String(number), read: readEntrant2, joint: " ", reason };
}

/** Reads the named entrants. Returns them and the index of the line after them. */
function readNamed2(lines, first, drawn) {
  const named = [];
  let at = first;
  for (let number = 1; number <= Math.min(drawn, NAMED); number += 1) {
    const { value, next } = readLine(lines, at, formOfEntrant(number), goesOn2);
    named.push(value);
    at = next;
  }
  return { named, next: at };
}

/** Reads the lines with the values. Returns the values and the index of the line after them. */
function readValues2(lines, first) {
  const above = readLines(lines, first, LINES2.slice(0, AFTER_DRAWN), goesOn2);
  const { entrants, drawn } = above.values;
  if (drawn > entrants) {
    throw new RecordError(above.next, `${drawn} of ${entrants} entrants cannot be drawn.`);
  }
  const below = LINES2.slice(AFTER_DRAWN).filter(({ property, name }) =>
    property !== "module" || hasName(lines[above.next] ?? "", name));
  const { values, next } = readLines(lines, above.next, below, goesOn2);
  return { values: { version: null, module: null, ...above.values, ...values }, next };
}

/** @param {string[]} lines @param {number} first @returns {{record: import("./record.js").Record, end: number}} */
function readLines2(lines, first) {
  const { values, next } = readValues2(lines, first);
  const { named, next: below } = readNamed2(lines, next, values.drawn);
  let end = below;
  for (const line of [...restOf(values.drawn), END2]) {
    if (lines[end] !== line) {
      const found = lines[end] ?? "";
      const oneMore = ` The record says that ${values.drawn} are drawn, and this line names one more.`;
      const reason = /^[0-9]+: /.test(found) ? oneMore : reasonIn(found);
      throw new RecordError(end + 1, `“${line}” is missing.${reason}`);
    }
    end += 1;
  }
  return { record: { ...values, named }, end };
}

/** @type {import("./record.js").Format} */
export const FORMAT2 = { title: TITLE2, names: NAMES2, read: readLines2 };

/** @param {import("./record.js").Record} record @returns {string} */
export function writeRecord(record) {
  const values = { ...record, seed: quotedText(record.seed) };
  const lines = LINES2.filter(({ property }) => values[property] !== null)
    .map(({ property, name }) => `${name}: ${values[property]}`);
  const named = record.named.map((entrant, index) => `${index + 1}: ${quoted(entrant)}`);
  return [TITLE2, ...lines, ...named, ...restOf(record.drawn), END2, ""].join("\n");
}
