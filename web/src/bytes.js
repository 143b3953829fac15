// Bytes and text: UTF-8, hexadecimal, base64.

/** Whether a text has a lone surrogate, which UTF-8 cannot encode. @param {string} text */
export function hasHalfCharacter(text) {
  return /\p{Surrogate}/u.test(text);
}

/**
 * Invisible characters: control and format characters, separators, characters that fonts do not
 * draw (variation selectors, Hangul fillers), the blank Braille pattern, and the sign that stands for an
 * object that is not there.
 */
const UNSEEN = /^[\p{Cc}\p{Cf}\p{Z}\p{Default_Ignorable_Code_Point}\u2800\ufffc]$/u;

/** Whether a character is invisible, or cannot be told from another. @param {string} letter */
export function isUnseen(letter) {
  return UNSEEN.test(letter);
}

const UNSEEN_IN = /(?! )[\p{Cc}\p{Cf}\p{Z}\p{Default_Ignorable_Code_Point}\u2800\ufffc]/u;

/** Whether a text has an invisible character other than the plain space. @param {string} text */
export function hasUnseen(text) {
  return UNSEEN_IN.test(text);
}

/** @param {string} text @returns {Uint8Array} */
export function utf8(text) {
  return new TextEncoder().encode(text);
}

/** @param {Uint8Array} bytes @returns {?string} their text, or null if they are not UTF-8 */
export function textOf(bytes) {
  try {
    return new TextDecoder("utf-8", { fatal: true, ignoreBOM: true }).decode(bytes);
  } catch (error) {
    if (error.name === "TypeError") return null;
    throw error;
  }
}

/** @param {number} byte @returns {string} two digits, lower case */
export function hexOfByte(byte) {
  return byte.toString(16).padStart(2, "0");
}

/** @param {Uint8Array} bytes @returns {string} */
export function hex(bytes) {
  return Array.from(bytes, hexOfByte).join("");
}

/** @param {string} text @returns {Uint8Array} */
export function fromBase64(text) {
  return Uint8Array.from(atob(text), (letter) => letter.charCodeAt(0));
}

/** @param {Uint8Array} left @param {Uint8Array} right @returns {boolean} */
export function equalBytes(left, right) {
  return left.length === right.length && left.every((byte, index) => byte === right[index]);
}
