// What the page shows of an entrant. Entrants are bytes, which need not be text.

import { isUnseen, textOf } from "./bytes.js";
import { shownText } from "./quoted.js";

/** Letters of scripts in which a joiner can change how its neighbours look: Persian, Hindi. */
const JOINING = new RegExp(`[${[
  "Arabic", "Bengali", "Devanagari", "Gujarati", "Gurmukhi", "Kannada", "Khmer", "Malayalam",
  "Mongolian", "Oriya", "Sinhala", "Syriac", "Tamil", "Telugu", "Thaana",
].map((script) => `\\p{Script=${script}}`).join("")}]`, "u");
const PICTURE = /\p{Extended_Pictographic}/u;
const PICTURE_END = /[\p{Extended_Pictographic}\p{Emoji_Modifier}\ufe0f]/u;
const TAG = /[\u{e0020}-\u{e007f}]/u;

/** What `flaggedIn` has returned for a text: a text of many tags would take quadratic time. */
const FLAGGED = new WeakMap();

/** For each character of a text, whether it is a black flag or a tag that follows one, with only tags between. */
function flaggedIn(letters) {
  if (!FLAGGED.has(letters)) {
    let isFlagged = false;
    FLAGGED.set(letters, letters.map((letter) => {
      isFlagged = letter === "\u{1f3f4}" || isFlagged && TAG.test(letter);
      return isFlagged;
    }));
  }
  return FLAGGED.get(letters);
}

/** Whether an invisible character joins its neighbours or selects how they look. */
function joins(letters, place) {
  const letter = letters[place];
  const [before, after] = [letters[place - 1] ?? "", letters[place + 1] ?? ""];
  const isBetweenLetters = JOINING.test(before) && JOINING.test(after);
  const isBetweenPictures = PICTURE_END.test(before) && PICTURE.test(after);
  if (letter === "\u200c") return isBetweenLetters;
  if (letter === "\u200d") return isBetweenLetters || isBetweenPictures;
  if (letter === "\ufe0f") return PICTURE.test(before) || after === "\u20e3";
  return TAG.test(letter) && flaggedIn(letters)[place];
}

/** Whether a character is visible at its place in a text. A space at either end is not. */
export function isSeen(letters, place) {
  if (letters[place] === " ") return place > 0 && place < letters.length - 1;
  return !isUnseen(letters[place]) || joins(letters, place);
}

/**
 * What the page shows of an entrant. One that is not UTF-8 is one text with escapes.
 * @typedef {{isText: boolean, parts: (string|number|number[])[]}} Shown
 */

/**
 * What the page shows of a text: visible characters as texts, and the code point of each invisible
 * one in its place. The characters from `first` to before `end` are marked: they are an array of
 * their code points.
 * @param {string[]} letters @param {number} [first] @param {number} [end]
 * @returns {(string|number|number[])[]}
 */
export function partsOf(letters, first = letters.length, end = letters.length) {
  const parts = [];
  letters.forEach((letter, place) => {
    const last = parts.length - 1;
    if (first <= place && place < end) {
      if (place === first) parts.push([]);
      parts[parts.length - 1].push(letter.codePointAt(0));
    } else if (!isSeen(letters, place)) parts.push(letter.codePointAt(0));
    else if (typeof parts[last] === "string") parts[last] += letter;
    else parts.push(letter);
  });
  return parts;
}

/** Bytes that are not UTF-8, as in a record, but with escapes for the spaces at the ends. @param {Uint8Array} bytes */
function shownWithEnds(bytes) {
  return shownText(bytes).replace(/^ /, "\\x20").replace(/ $/, "\\x20");
}

/** An entrant for the page to show. @param {Uint8Array} bytes @returns {Shown} */
export function shown(bytes) {
  const text = textOf(bytes);
  return text === null
    ? { isText: false, parts: [shownWithEnds(bytes)] }
    : { isText: true, parts: partsOf(Array.from(text)) };
}
