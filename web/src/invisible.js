// Finds invisible characters that come into a list unnoticed, from web pages, word processors and
// spreadsheets, and removes them.

import { hasUnseen, isUnseen } from "./bytes.js";
import { isSeen } from "./entrant.js";

/**
 * A kind of invisible characters: its name; what several of them are called; the characters; what
 * they are replaced by; and the text of the button that does so.
 * @typedef {Object} Kind
 * @property {string} name
 * @property {string} words
 * @property {RegExp} letters
 * @property {""|" "} becomes
 * @property {string} label
 */

/** The last kind has all other invisible characters. @type {Kind[]} */
export const INVISIBLE = [
  {
    name: "no-break", words: "no-break spaces", letters: /^[\u00a0\u2007\u202f]$/u,
    becomes: " ", label: "Make the no-break spaces plain",
  },
  {
    name: "wide", words: "spaces of another width, such as U+3000",
    letters: /^[\u1680\u2000-\u2006\u2008-\u200a\u205f\u3000]$/u,
    becomes: " ", label: "Make these spaces plain",
  },
  {
    name: "zero-width", words: "zero-width characters",
    letters: /^[\u00ad\u034f\u200b-\u200d\u2060\ufeff]$/u,
    becomes: "", label: "Remove the zero-width characters",
  },
  {
    name: "directional", words: "directional marks",
    letters: /^[\u061c\u200e\u200f\u202a-\u202e\u2066-\u2069]$/u,
    becomes: "", label: "Remove the directional marks",
  },
  {
    name: "tab", words: "tabs, as between the columns of a spreadsheet", letters: /^\t$/u,
    becomes: " ", label: "Make the tabs plain spaces",
  },
  {
    name: "other", words: "other invisible characters", letters: /^/u,
    becomes: "", label: "Remove these characters",
  },
];

/** The kind of an invisible character. @param {string} letter @returns {Kind} */
function kindOf(letter) {
  return INVISIBLE.find(({ letters }) => letters.test(letter));
}

/**
 * The characters of a line, each with its kind if it is invisible, or null. A plain space is not
 * invisible here, wherever it is, and neither are a tab and a carriage return at an end, of which
 * other warnings tell.
 * @param {string} line @returns {[string, ?Kind][]}
 */
function lettersOf(line) {
  const letters = Array.from(line);
  const isEdge = (letter) => letter === "\t" || letter === "\r" || letter === " ";
  let [first, end] = [0, letters.length];
  while (first < end && isEdge(letters[first])) first += 1;
  while (first < end && isEdge(letters[end - 1])) end -= 1;
  return letters.map((letter, place) => {
    const isInside = first <= place && place < end;
    const isPlain = letter === " " || !isUnseen(letter) || isSeen(letters, place);
    return [letter, isPlain || !isInside ? null : kindOf(letter)];
  });
}

/** The names of the kinds in a line. @param {string} line @returns {Set<string>} */
export function kindsIn(line) {
  if (!hasUnseen(line)) return new Set();
  return new Set(lettersOf(line).map(([, kind]) => kind?.name).filter(Boolean));
}

/**
 * A line in which invisible characters are removed or are plain spaces: those of one kind, or of all
 * kinds if no name is given.
 * @param {string} line @param {string} [name]
 */
export function withoutInvisible(line, name) {
  if (!hasUnseen(line)) return line;
  return lettersOf(line).map(([letter, kind]) =>
    (kind && (name === undefined || kind.name === name) ? kind.becomes : letter)).join("");
}
