// How a record of format 1 prints an entrant, and the way back.

import { hexOfByte, textOf, utf8 } from "./bytes.js";
import { isSeen } from "./entrant.js";

/** @param {Uint8Array} bytes @returns {string} \x and two digits for each byte */
function escapedBytes(bytes) {
  return Array.from(bytes, (byte) => `\\x${hexOfByte(byte)}`).join("");
}

/**
 * Prints an entrant. A visible character stays as it is, a backslash is doubled, and each byte of
 * an invisible character becomes \x and two hexadecimal digits. So does a space at either end and,
 * if the entrant is not UTF-8, each byte from 128 on.
 * @param {Uint8Array} bytes @returns {string}
 */
function printed(bytes) {
  const text = textOf(bytes);
  const letters = Array.from(text ?? Array.from(bytes, (byte) => String.fromCharCode(byte)));
  return letters.map((letter, place) => {
    if (text === null && bytes[place] >= 128) return escapedBytes([bytes[place]]);
    if (letter === "\\") return "\\\\";
    return isSeen(letters, place) ? letter : escapedBytes(utf8(letter));
  }).join("");
}

/**
 * The pieces of a printed entrant: plain text, a doubled backslash or an escaped byte.
 * @param {string} text
 */
function piecesOf(text) {
  return text.match(/[^\\]+|\\\\|\\x[0-9a-f]{2}/gsu) ?? [];
}

/** The bytes that a piece stands for. @param {string} piece @returns {number[]} */
function bytesOf(piece) {
  if (piece === "\\\\") return [0x5c];
  return piece[0] === "\\" ? [Number.parseInt(piece.slice(2), 16)] : Array.from(utf8(piece));
}

/** For each byte of a printed entrant, whether it is escaped. @param {string} text */
function escapesOf(text) {
  return piecesOf(text).flatMap((piece) => bytesOf(piece).map(() => piece.startsWith("\\x")));
}

/** Whether a text escapes every byte of an entrant that `printed` escapes. */
function hidesNothing(text, bytes) {
  const escapes = escapesOf(text);
  return escapesOf(printed(bytes)).every((isEscaped, place) => !isEscaped || escapes[place]);
}

/**
 * @param {string} text a printed entrant
 * @returns {?Uint8Array} its bytes; null if it is not one, or if something in it is invisible
 */
export function unprinted(text) {
  if (!/^(?:[^\\]|\\\\|\\x[0-9a-f]{2})+$/su.test(text)) return null;
  const bytes = Uint8Array.from(piecesOf(text).flatMap(bytesOf));
  return bytes.includes(10) || !hidesNothing(text, bytes) ? null : bytes;
}
