// Compares the form of a seed with that of the announced example.

import { isUnseen } from "./bytes.js";
import { nameOf } from "./names.js";

/** A part of at least this length, such as 64 hexadecimal digits, has to have the length of the example's. */
const LONG_PART = 16;

/** The kind of a character. @param {string} letter */
function kindOfLetter(letter) {
  if (/[0-9]/.test(letter)) return "digits";
  if (/[a-z]/.test(letter)) return "small letters (a-z)";
  if (/[A-Z]/.test(letter)) return "capital letters (A-Z)";
  if (letter === " ") return "spaces";
  if (isUnseen(letter)) return nameOf(letter.codePointAt(0));
  return /[\p{L}\p{M}]/u.test(letter) ? "letters beyond a-z" : `“${letter}”`;
}

/** The kinds of characters in a text. @param {string} text @returns {string[]} */
function kindsOfText(text) {
  return Array.from(new Set(Array.from(text, kindOfLetter)));
}

/** The parts of a text, between spaces. @param {string} text @returns {string[]} */
function partsOfText(text) {
  return text.split(" ").filter((part) => part !== "");
}

/** Whether spaces are at the ends of a text, or two in a row. @param {string} text */
function hasLooseSpaces(text) {
  return /^ | $| {2}/.test(text);
}

/** Throws of a die: digits from 1 to 6, each a part of its own, or all in one part. */
const OF_A_DIE = /^[1-6]+$|^[1-6]( [1-6])*$/;

/** The digits of a seed that no die has, as a sentence in a list, if the example has throws. */
function otherThanThrows(seed, example) {
  const digits = Array.from(new Set(seed.match(/[07-9]/g)));
  if (digits.length === 0 || !OF_A_DIE.test(example)) return [];
  const found = `${digits.length === 1 ? "digit" : "digits"} ${digits.join(", ")}`;
  return [`The seed has the ${found}, which no die has; the example has only 1 to 6.`];
}

/** @param {string[]} parts @returns {string} */
function countOfParts(parts) {
  return parts.length === 1 ? "1 part" : `${parts.length} parts`;
}

/**
 * In which ways a seed has another form than an example, as sentences: the kinds of characters, the number of parts,
 * the spaces, the digits that no die has, and the lengths of long parts.
 * @param {string} seed @param {string} example @returns {string[]}
 */
export function formDifferences(seed, example) {
  const [kinds, wanted] = [seed, example].map(kindsOfText);
  const [parts, others] = [seed, example].map(partsOfText);
  const loose = hasLooseSpaces(seed) && !hasLooseSpaces(example);
  const isOtherLength = parts.length === others.length && others.some((other, place) =>
    other.length >= LONG_PART && other.length !== parts[place].length);
  return [
    ...kinds.filter((kind) => !wanted.includes(kind)).map((kind) => `The seed has ${kind}, the example has none.`),
    ...wanted.filter((kind) => !kinds.includes(kind)).map((kind) => `The seed has no ${kind}, the example has.`),
    ...(parts.length === others.length ? [] : [
      `The seed has ${countOfParts(parts)} between spaces, the example has ${countOfParts(others)}.`]),
    ...(loose ? ["The seed has a space at an end or two spaces in a row, the example has not."] : []),
    ...otherThanThrows(seed, example),
    ...(isOtherLength ? ["A part of the seed has another length than in the example."] : []),
  ];
}
