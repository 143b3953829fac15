// Draws entrants from a list, with a seed and a count, as the program `lots` does.

import { hasHalfCharacter, utf8 } from "./bytes.js";
import { lineAt, startsOfLines } from "./list.js";
import { Refusal } from "./refusal.js";

const LARGEST = 2n ** 64n - 1n;

/**
 * The bytes of a seed, in UTF-8. Throws a Refusal if it is empty or has a lone surrogate.
 * @param {string} seed @returns {Uint8Array}
 */
export function bytesOfSeed(seed) {
  if (seed === "") throw new Refusal("seed is empty");
  if (hasHalfCharacter(seed)) throw new Refusal("seed has half a character");
  return utf8(seed);
}

/**
 * The value of a count, or null for "all". Throws a Refusal for anything but digits and for a value
 * above `LARGEST`.
 * @param {string} text @returns {?bigint}
 */
export function numberOfCount(text) {
  if (text === "all") return null;
  if (text === "") throw new Refusal("count is empty");
  if (!/^[0-9]+$/.test(text)) throw new Refusal("count is no number");
  const digits = text.replace(/^0+(?=.)/, "");
  if (digits.length > 20 || BigInt(digits) > LARGEST) throw new Refusal("count is too large");
  return BigInt(digits);
}

/**
 * @typedef {Object} Draw
 * @property {number} entrants the number of entrants in the list
 * @property {Uint8Array[]} drawn the entrants drawn, in order
 */

/**
 * Draws. Throws a Refusal for a bad seed, count or list, checked in this order, as `lots` does.
 * @param {import("./module.js").Module} module @param {Uint8Array} list
 * @param {string} seed @param {string} count @returns {Draw}
 */
export function draw(module, list, seed, count) {
  const bytes = bytesOfSeed(seed);
  const number = numberOfCount(count);
  const entrants = module.count(list);
  if (number !== null && number > BigInt(entrants)) {
    throw new Refusal("too few entrants", { entrants, count: number.toString() });
  }
  const places = module.draw(bytes, entrants, number === null ? entrants : Number(number));
  const starts = startsOfLines(list, entrants);
  return { entrants, drawn: Array.from(places, (place) => lineAt(list, starts, Number(place))) };
}

/** The bytes that `lots` writes: each entrant and a line feed. @param {Uint8Array[]} drawn */
export function resultOf(drawn) {
  const result = new Uint8Array(drawn.reduce((length, line) => length + line.length + 1, 0));
  let end = 0;
  for (const line of drawn) {
    result.set(line, end);
    end += line.length + 1;
    result[end - 1] = 10;
  }
  return result;
}
