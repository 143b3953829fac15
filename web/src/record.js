// The record of a draw: a text that tells others everything they need to repeat it with the list. Records of two formats
// are read, and those of the second one are written.

import { linesOfRecord, RecordError } from "./lines.js";
import { BELOW, isLikeAnnouncement, isLikeTitle, misleadingLine, reasonIn } from "./pasted.js";
import { FORMAT1 } from "./record1.js";
import { FORMAT2 } from "./record2.js";

/**
 * What a record says.
 * @typedef {Object} Record
 * @property {string} announcement SHA-256 of the announcement, 64 digits, or "none"
 * @property {string} seed
 * @property {string} list SHA-256 of the list, 64 digits
 * @property {number} entrants
 * @property {number} drawn
 * @property {?string} version of the page, which only format 1 has
 * @property {?string} module SHA-256 of the module, or null: the program `lots` has no module
 * @property {string} result SHA-256 of the result
 * @property {Uint8Array[]} named the first entrants drawn, at most `NAMED`
 * @property {[number, number]} [lines] the first and the last line of a record that was read, from 1
 * @property {number} [others] how many other lines its text has that are not empty
 */

/**
 * A format of records: its title, the names of its values, and what reads the lines from the one below the title on. It
 * returns the record and the index of the line after it.
 * @typedef {Object} Format
 * @property {string} title
 * @property {string[]} names
 * @property {(lines: string[], first: number) => {record: Record, end: number}} read
 */

/** @type {Format[]} */
const FORMATS = [FORMAT2, FORMAT1];

/** The names of the values in records of any format. */
const VALUE_NAMES = Array.from(new Set(FORMATS.flatMap(({ names }) => names)));

/** The index of the title, which has to be the only line that looks like one. */
function titleIn(lines) {
  const titles = lines.flatMap((line, index) => (isLikeTitle(line) ? [index] : []));
  if (titles.length > 1) {
    throw new RecordError(titles[1] + 1, "a second record begins here. Check one record at a time.");
  }
  const announced = titles.length === 0 ? lines.findIndex(isLikeAnnouncement) : -1;
  if (announced >= 0) throw new RecordError(announced + 1, BELOW);
  const first = lines.findIndex((line) => line !== "");
  if (first < 0) throw new RecordError(1, "there is no record yet. Paste it, or open its file. A file " +
    "that does not begin with the record is taken as the list.");
  return titles[0] ?? first;
}

/** The format that begins with a line. @param {string} line @param {number} index @returns {Format} */
function formatOf(line, index) {
  const format = FORMATS.find(({ title }) => title === line);
  if (format !== undefined) return format;
  const titles = FORMATS.map(({ title }) => `“${title}”`).join(" or ");
  throw new RecordError(index + 1, `a record begins with ${titles}.${reasonIn(line)}`);
}

/**
 * Reads the record in a text. Throws RecordError, also if a second record begins in the text: a
 * reader could take one for the other.
 * @param {string} text @returns {Record}
 */
export function readRecord(text) {
  const lines = linesOfRecord(text);
  const first = titleIn(lines);
  const { record, end } = formatOf(lines[first], first).read(lines, first + 1);
  const misleading = misleadingLine(lines, first, end, VALUE_NAMES);
  if (misleading !== null) throw new RecordError(misleading.index + 1, misleading.reason);
  const others = lines.filter((line, index) => line.trim() !== "" && (index < first || index >= end)).length;
  return { ...record, lines: [first + 1, end], others };
}
