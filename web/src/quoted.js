// How a record of format 2 writes a seed or an entrant: between quotation marks, with escapes for what does not show.
// There is exactly one way to write some bytes.

import { hexOfByte, textOf, utf8 } from "./bytes.js";

/**
 * The first and the last code point of each range of characters that do not show. The format fixes this table, so it
 * does not depend on the browser's version of Unicode.
 */
const HIDDEN_RANGES = [
  [0x0, 0x1f], [0x7f, 0xa0], [0xad, 0xad], [0x34f, 0x34f], [0x600, 0x605], [0x61c, 0x61c], [0x6dd, 0x6dd],
  [0x70f, 0x70f], [0x890, 0x891], [0x8e2, 0x8e2], [0x115f, 0x1160], [0x1680, 0x1680], [0x17b4, 0x17b5],
  [0x180b, 0x180f], [0x2000, 0x200f], [0x2028, 0x202f], [0x205f, 0x206f], [0x2800, 0x2800], [0x3000, 0x3000],
  [0x3164, 0x3164], [0xd800, 0xf8ff], [0xfdd0, 0xfdef], [0xfe00, 0xfe0f], [0xfeff, 0xfeff], [0xffa0, 0xffa0],
  [0xfff0, 0xffff], [0x110bd, 0x110bd], [0x110cd, 0x110cd], [0x13430, 0x1343f], [0x1bca0, 0x1bca3],
  [0x1d173, 0x1d17a], [0xe0000, 0x10ffff],
];

/** A backslash or a character that does not show. */
const ESCAPED = new RegExp(`[\\\\${HIDDEN_RANGES.map(([first, last]) =>
  `\\u{${first.toString(16)}}-\\u{${last.toString(16)}}`).join("")}]`, "gu");

const BACKSLASH = 0x5c;
/** A backslash that begins no escape. */
export const NO_ESCAPE = /\\(?!x[0-9a-f]{2})/;

/** Whether a text begins and ends with a quotation mark. @param {string} text */
export function isBetweenMarks(text) {
  return text.length > 1 && text.startsWith("\"") && text.endsWith("\"");
}

/** @param {number} byte @returns {string} \x and two digits */
function escapeOf(byte) {
  return `\\x${hexOfByte(byte)}`;
}

/** @param {string} letter @returns {string} the escapes of its bytes */
export function escapesOfLetter(letter) {
  return Array.from(utf8(letter), escapeOf).join("");
}

/** Bytes that are not UTF-8: printable ASCII except the backslash stays as it is. @param {Uint8Array} bytes */
function shownBytes(bytes) {
  const isPlain = (byte) => byte >= 32 && byte < 127 && byte !== BACKSLASH;
  return Array.from(bytes, (byte) => (isPlain(byte) ? String.fromCharCode(byte) : escapeOf(byte))).join("");
}

/** The text by which a record shows some bytes. @param {Uint8Array} bytes @returns {string} */
export function shownText(bytes) {
  const text = textOf(bytes);
  if (text === null) return shownBytes(bytes);
  return text.replace(ESCAPED, escapesOfLetter);
}

/** @param {Uint8Array} bytes @returns {string} their shown text between quotation marks */
export function quoted(bytes) {
  return `"${shownText(bytes)}"`;
}

/** @param {string} text @returns {string} */
export function quotedText(text) {
  return quoted(utf8(text));
}

/** The bytes that a shown text stands for, if each backslash in it begins an escape. @param {string} shown */
export function bytesShown(shown) {
  const bytes = utf8(shown);
  const found = [];
  for (let place = 0; place < bytes.length; place += 1) {
    if (bytes[place] === BACKSLASH) {
      found.push(Number.parseInt(String.fromCharCode(bytes[place + 2], bytes[place + 3]), 16));
      place += 3;
    } else {
      found.push(bytes[place]);
    }
  }
  return Uint8Array.from(found);
}

/**
 * The inverse of `quoted`.
 * @param {string} text @returns {?Uint8Array} null if `quoted` returns this text for no bytes
 */
export function unquoted(text) {
  if (!isBetweenMarks(text) || NO_ESCAPE.test(text)) return null;
  const bytes = bytesShown(text.slice(1, -1));
  return quoted(bytes) === text ? bytes : null;
}
