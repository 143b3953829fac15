// Marks letters that a reader could take for others.

import { partsOf } from "./entrant.js";

const COMBINING = /^\p{M}$/u;

/**
 * The index of the first letter in which two texts differ. If a combining mark differs, it is that
 * of the letter below the mark.
 * @param {string[]} left @param {string[]} right
 */
function placeOfDifference(left, right) {
  let place = 0;
  while (place < left.length && left[place] === right[place]) place += 1;
  while (place > 0 && [left, right].some((letters) => COMBINING.test(letters[place] ?? ""))) {
    place -= 1;
  }
  return place;
}

/** How many letters are shown before and after a marked one. */
const AROUND = 100;

/** What the page shows of a text whose letter at an index is marked, with its combining marks. */
function markedAt(letters, place) {
  let end = Math.min(place + 1, letters.length);
  while (end < letters.length && COMBINING.test(letters[end])) end += 1;
  const [first, last] = [Math.max(0, place - AROUND), Math.min(letters.length, end + AROUND)];
  const parts = partsOf(letters.slice(first, last), place - first, end - first);
  const shown = [first > 0 && "…", ...parts, last < letters.length && "…"];
  return { isText: true, parts: shown.filter((part) => part !== false) };
}

/**
 * What the page shows of two different texts: in each the first letter that differs is marked.
 * @param {string} left @param {string} right
 */
export function markedPair(left, right) {
  const [one, other] = [left, right].map((text) => Array.from(text));
  const place = placeOfDifference(one, other);
  return [markedAt(one, place), markedAt(other, place)];
}

/**
 * What the page shows of a text in which each character outside ASCII is marked.
 * @param {string} text @returns {(string|number[])[]}
 */
export function foreignMarked(text) {
  return text.match(/[\x00-\x7f]+|[^\x00-\x7f]/gu)?.map((part) =>
    (/^[\x00-\x7f]/.test(part) ? part : [part.codePointAt(0)])) ?? [];
}
