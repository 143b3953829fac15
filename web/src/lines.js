// Reads the lines of a record. A mail program may have quoted them, folded them, or added white space at their ends.

import { AS_FILE, reasonIn } from "./pasted.js";

/** The error for a text that is not a record: the line and the reason. */
export class RecordError extends Error {
  /** @param {number} line from 1 @param {string} reason */
  constructor(line, reason) {
    super(`Line ${line}: ${reason}`);
    this.line = line;
  }
}

/** What is said of an empty line between others. */
const SPACED = ` The line is empty, as mail programs add lines. ${AS_FILE}`;

/** The largest number of entrants that a record names. Its SHA-256 of the result covers all. */
export const NAMED = 1000;

/** The greatest number of lines into which a value may be folded. */
const MOST_FOLDS = 2000;
/** The greatest number of letters in which the end of a folded value is sought. */
const MOST_TRIED = 2_000_000;

/**
 * A line with a value.
 * @typedef {Object} Form
 * @property {string} name before the colon
 * @property {(text: string) => *} read returns the value, or null if the text is none
 * @property {""|" "} joint the text that joins a value that was folded into several lines
 * @property {(text: string) => string} [reason] why a text is no value, after a space; or an empty text
 * @property {string} [property] of the record
 */

/** @param {RegExp} form @param {(text: string) => *} value */
function matching(form, value) {
  return (text) => (form.test(text) ? value(text) : null);
}

export const readSum = matching(/^[0-9a-f]{64}$/, String);
export const readNumber = matching(/^(?:0|[1-9][0-9]{0,14})$/, Number);
export const readVersion = matching(/^[0-9]{1,6}\.[0-9]{1,2}\.[0-9]{1,2}$/, String);

/** A line without the `>` marks of a quoted mail and without white space at its end. */
function withoutMarks(line) {
  let end = line.length;
  while (end > 0 && " \t\r".includes(line[end - 1])) end -= 1;
  return line.slice(0, end).replace(/^(?:> ?)+/, "");
}

/** The lines of a text, without what a mail program adds to each. @param {string} text @returns {string[]} */
export function linesOfRecord(text) {
  return text.split("\n").map(withoutMarks);
}

/**
 * Whether a line can continue the one before, as when a mail program folds a long line: it does not begin as another
 * line of a record.
 * @param {string|undefined} line @param {string[]} names of the values
 */
export function canGoOn(line, names) {
  return Boolean(line) && !/^[0-9]+: /.test(line) && !names.some((name) => line.startsWith(`${name}: `));
}

/** Whether a line begins with a name and a colon. A mail program may have folded it after the colon. */
export function hasName(line, name) {
  return line === `${name}:` || line.startsWith(`${name}: `);
}

/**
 * Reads the value after a name and a colon. Returns it and the index of the line after it. The
 * value may be folded into several lines, which are joined until it can be read.
 * @param {string[]} lines @param {number} index @param {Form} form
 * @param {(line: string|undefined) => boolean} goesOn whether a line can continue the one before
 * @returns {{value: *, next: number}}
 */
export function readLine(lines, index, { name, read, joint, reason = reasonIn }, goesOn) {
  const line = lines[index] ?? "";
  if (!hasName(line, name)) {
    const reason = line === "" && lines.slice(index).some(Boolean) ? SPACED : reasonIn(line);
    throw new RecordError(index + 1, `“${name}: ” is missing.${reason}`);
  }
  let text = line.slice(name.length + 2);
  let tried = 0;
  for (let next = index + 1; ; next += 1) {
    const value = read(text);
    if (value !== null) return { value, next };
    if (text.endsWith("\"")) tried += text.length;
    if (!goesOn(lines[next]) || next - index > MOST_FOLDS || tried > MOST_TRIED) {
      throw new RecordError(index + 1, `the value of “${name}” cannot be read.${reason(text)}`);
    }
    text += (text && joint) + lines[next];
  }
}

/**
 * Reads the lines of some forms. Returns the value of each property, and the index of the line after them.
 * @param {string[]} lines @param {number} first @param {Form[]} forms @param {(line: string|undefined) => boolean} goesOn
 * @returns {{values: Object, next: number}}
 */
export function readLines(lines, first, forms, goesOn) {
  const values = {};
  let at = first;
  for (const form of forms) {
    const { value, next } = readLine(lines, at, form, goesOn);
    values[form.property] = value;
    at = next;
  }
  return { values, next: at };
}

/** The line below the entrants that a record names, if more are drawn. @param {number} drawn @returns {string[]} */
export function restOf(drawn) {
  return drawn > NAMED ? [`and ${drawn - NAMED} more`] : [];
}
