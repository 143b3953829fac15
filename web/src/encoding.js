// Recognizes the encoding of a list that is not UTF-8, and converts it.

import { textOf, utf8 } from "./bytes.js";

/** Bytes that no text in Windows-1252 has: controls, except the tab and line ends, and unused ones. */
const NO_LETTERS = new Set([0x7f, 0x81, 0x8d, 0x8f, 0x90, 0x9d]);
for (let byte = 0; byte < 32; byte += 1) if (![9, 10, 13].includes(byte)) NO_LETTERS.add(byte);

/** Bytes that no list in UTF-8 has: controls, except the tab and line ends. */
function isControl(byte) {
  return byte < 32 && byte !== 9 && byte !== 10 && byte !== 13;
}

/** How many of the first characters are looked at. */
const LOOKED_AT = 1000;
/** What a list has in UTF-16: letters, marks, digits, signs, spaces and line ends. */
const WRITING = /^[\p{L}\p{M}\p{N}\p{P}\p{S}\p{Zs}\p{Cf}\t\r\n]*$/u;

/**
 * How much the beginning of a list looks like writing if it is read in an encoding: how many letters
 * it has of the alphabets from Latin to Arabic, and of line ends and spaces; or -1 if it is none.
 * @param {Uint8Array} list @param {string} encoding
 */
function likeness(list, encoding) {
  try {
    const text = new TextDecoder(encoding, { fatal: true }).decode(list.subarray(0, 2 * LOOKED_AT), { stream: true });
    return WRITING.test(text) ? text.match(/[\t\r\n -\u06ff]/g)?.length ?? 0 : -1;
  } catch (error) {
    if (error.name === "TypeError") return -1;
    throw error;
  }
}

/**
 * The kind of UTF-16, or null. Without a byte order mark, it is UTF-16 if it has bytes of controls,
 * as no list in UTF-8 has them, and is writing in one of the two kinds.
 * @param {Uint8Array} list @returns {?string}
 */
function utf16Of(list) {
  if (list.length % 2 !== 0) return null;
  if (list[0] === 0xff && list[1] === 0xfe) return "utf-16le";
  if (list[0] === 0xfe && list[1] === 0xff) return "utf-16be";
  if (!list.some(isControl)) return null;
  const [little, big] = ["utf-16le", "utf-16be"].map((encoding) => likeness(list, encoding));
  if (little < 0 && big < 0) return null;
  return little >= big ? "utf-16le" : "utf-16be";
}

/** What documents begin with that are no lists, though all their bytes may be letters. */
const DOCUMENT = /^(?:\xef\xbb\xbf)?\s*(?:%PDF-|\{\\rtf|<[!?a-z]|\{\s*"|BEGIN:V|nanorand (?:public draw|announcement) )/i;

/** @param {Uint8Array} list */
function isDocument(list) {
  return DOCUMENT.test(String.fromCharCode(...list.subarray(0, 100)));
}

/**
 * The encoding that a list seems to have.
 * @param {Uint8Array} list
 * @returns {"utf-8"|"utf-16le"|"utf-16be"|"windows-1252"|"unknown"}
 */
export function encodingOf(list) {
  const utf16 = utf16Of(list);
  if (utf16 !== null) return utf16;
  if (isDocument(list)) return "unknown";
  if (textOf(list) !== null) return list.some(isControl) ? "unknown" : "utf-8";
  return list.some((byte) => NO_LETTERS.has(byte)) ? "unknown" : "windows-1252";
}

/** The text of a list in another encoding, without a byte order mark. @param {Uint8Array} list */
export function decoded(list, encoding) {
  return new TextDecoder(encoding).decode(list);
}

/**
 * A list converted to UTF-8, with line feeds at the ends of its lines.
 * @param {Uint8Array} list @param {string} encoding @returns {Uint8Array}
 */
export function converted(list, encoding) {
  return utf8(decoded(list, encoding).replace(/\r\n?/g, "\n"));
}
