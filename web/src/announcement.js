// The announcement of a draw: a text that is published before anybody can know the seed. Every announcement has exactly
// one text.

import { textOf } from "./bytes.js";
import { canGoOn, linesOfRecord, readLine, readNumber, readSum, RecordError } from "./lines.js";
import { reasonInQuoted } from "./misquoted.js";
import { reasonIn } from "./pasted.js";
import { unquoted } from "./quoted.js";

/**
 * What an announcement says. Its texts are quoted, as a record quotes a seed.
 * @typedef {Object} Announcement
 * @property {string} occasion
 * @property {string} list SHA-256 of the list, 64 digits
 * @property {number} entrants
 * @property {number} winners
 * @property {number} reserves
 * @property {string} source of the seed
 * @property {string} form of the seed
 * @property {string} example of a seed
 * @property {string} time of the draw
 */

const ANNOUNCEMENT_TITLE = "nanorand announcement 1";
const ANNOUNCEMENT_END = "end of the announcement";

/** @param {string} text @returns {?string} the text, if it is the quoted form of UTF-8 that is not empty */
function readFilled(text) {
  const bytes = unquoted(text);
  return bytes === null || !textOf(bytes) ? null : text;
}

function reasonInFilled(text) {
  return reasonInQuoted(text) || (text === "\"\"" ? " It must not be empty." : " Its bytes are not UTF-8.");
}

function reasonInNumber(text) {
  return reasonIn(text) || " It has to be a decimal number without leading zeros.";
}

function reasonInSum(text) {
  return reasonIn(text) || " It has to be 64 hexadecimal digits, with small letters.";
}

/** The kinds of values, and what joins a value that a mail program has folded. */
const FILLED = { read: readFilled, reason: reasonInFilled, joint: " " };
const NUMBER = { read: readNumber, reason: reasonInNumber, joint: "" };
const SUM = { read: readSum, reason: reasonInSum, joint: "" };

/** The lines between the title and the end. */
const ANNOUNCED_LINES = [
  { property: "occasion", name: "occasion", ...FILLED },
  { property: "list", name: "list SHA-256", ...SUM },
  { property: "entrants", name: "entrants", ...NUMBER },
  { property: "winners", name: "winners", ...NUMBER },
  { property: "reserves", name: "reserves", ...NUMBER },
  { property: "source", name: "seed source", ...FILLED },
  { property: "form", name: "seed form", ...FILLED },
  { property: "example", name: "seed example", ...FILLED },
  { property: "time", name: "time", ...FILLED },
];
const ANNOUNCED_NAMES = ANNOUNCED_LINES.map(({ name }) => name);

/** @param {Announcement} announcement @returns {string} */
export function writeAnnouncement(announcement) {
  const lines = ANNOUNCED_LINES.map(({ property, name }) => `${name}: ${announcement[property]}`);
  return [ANNOUNCEMENT_TITLE, ...lines, ANNOUNCEMENT_END, ""].join("\n");
}

/** Whether a file begins as an announcement does, so that it is no list and no record. @param {Uint8Array} bytes */
export function isAnnouncement(bytes) {
  const start = String.fromCharCode(...bytes.subarray(0, 100));
  return /^(?:\xef\xbb\xbf)?[\s>]*nanorand announcement/i.test(start);
}

/** The title of an announcement in a line of its own, quoted or not. */
const TITLE_BELOW = new RegExp(`(?:^|\n)[ \t>]*${ANNOUNCEMENT_TITLE}[ \t\r]*\n`);

/** Whether a file has an announcement below other text, as a saved mail has it. @param {Uint8Array} bytes */
export function hasAnnouncementBelow(bytes) {
  return TITLE_BELOW.test(new TextDecoder("latin1").decode(bytes));
}

/** Throws unless a line is the one that stands at its place. */
function expectLine(lines, index, wanted) {
  const line = lines[index] ?? "";
  if (line !== wanted) throw new RecordError(index + 1, `“${wanted}” is missing.${reasonIn(line)}`);
}

/** Whether a line of a pasted text can continue the one before. @param {string|undefined} line */
function announcementGoesOn(line) {
  return line !== ANNOUNCEMENT_END && canGoOn(line, ANNOUNCED_NAMES);
}

/** Throws if the numbers do not fit. @param {Announcement} announcement @param {number} line of the winners, from 1 */
function checkNumbers({ entrants, winners, reserves }, line) {
  if (winners < 1) throw new RecordError(line, "there has to be a winner.");
  if (winners + reserves > entrants) {
    throw new RecordError(line, `${winners} winners and ${reserves} reserves are more than ${entrants} entrants.`);
  }
}

/**
 * Reads lines of which the announcement begins at an index, and returns it. Below it there may only be empty lines.
 * @param {string[]} lines @param {number} first
 * @param {(line: string|undefined) => boolean} goesOn whether a line can continue the one before
 * @returns {Announcement}
 */
function readAnnouncedLines(lines, first, goesOn) {
  expectLine(lines, first, ANNOUNCEMENT_TITLE);
  const announcement = {};
  let [end, winners] = [first + 1, 0];
  for (const form of ANNOUNCED_LINES) {
    if (form.property === "winners") winners = end + 1;
    const { value, next } = readLine(lines, end, form, goesOn);
    announcement[form.property] = value;
    end = next;
  }
  checkNumbers(announcement, winners);
  expectLine(lines, end, ANNOUNCEMENT_END);
  const other = lines.findIndex((line, index) => index > end && line !== "");
  if (other >= 0) throw new RecordError(other + 1, "nothing may stand below the announcement.");
  return announcement;
}

/**
 * Reads the bytes of a file. Throws RecordError unless they are exactly those of an announcement.
 * @param {Uint8Array} bytes @returns {Announcement}
 */
export function readAnnouncementFile(bytes) {
  const text = textOf(bytes);
  if (text === null) throw new RecordError(1, "the file is not UTF-8.");
  const lines = text.split("\n");
  const announcement = readAnnouncedLines(lines, 0, () => false);
  if (writeAnnouncement(announcement) !== text) {
    throw new RecordError(lines.length, "the file has to end with the line feed of its last line.");
  }
  return announcement;
}

/**
 * Reads a pasted text. What a mail program does is forgiven: white space at the ends of lines, `>` marks, folded lines,
 * and empty lines above and below. Compare the SHA-256 of what `writeAnnouncement` makes of it.
 * @param {string} text @returns {Announcement}
 */
export function readPastedAnnouncement(text) {
  const lines = linesOfRecord(text);
  const first = Math.max(lines.findIndex((line) => line !== ""), 0);
  const title = lines.indexOf(ANNOUNCEMENT_TITLE);
  if (title > first) {
    throw new RecordError(first + 1, `the announcement begins in line ${title + 1}. Remove the lines above it.`);
  }
  return readAnnouncedLines(lines, first, announcementGoesOn);
}
