// Finds lines that look alike: equal lines, and lines that differ only in spaces, invisible
// characters, the encoding of a letter, case, or letters of another alphabet that look the same.

import { withoutInvisible } from "./invisible.js";

const SPACES = new Set([9, 11, 12, 13, 32]);

/** Whether a byte or character code is ASCII white space but no line feed. @param {number} code */
export function isSpace(code) {
  return SPACES.has(code);
}

/** A line without the white space at its ends. @param {string} line */
function trimmed(line) {
  let [first, end] = [0, line.length];
  while (first < end && isSpace(line.charCodeAt(first))) first += 1;
  while (first < end && isSpace(line.charCodeAt(end - 1))) end -= 1;
  return line.slice(first, end);
}

/** Letters and signs of many alphabets that look like the letter or sign below them. */
const [LOOKALIKES, LATIN] = [
  "АВЕЗЅІӀЈКМНОРСТУХҮԚԜаекорсухіјѕѵԁһԛԝӏΑΒΕΖΗΙΚΜΝΟΡΤΥΧϹαινορυκϲՕՍօոսհıɡɑᴄᴏᴠᴡᴢꜱÐƉ\u0326" +
    "‘’‛ʼʹʻꞌ′´`“”„«»‐‑‒–—―⁃−‚꞉⁄",
  "ABE3SIIJKMHOPCTYXYQWaekopcyxijsvdhqwlABEZHIKMNOPTYXCaivopukcOUonuhigacovwzsĐĐ\u0327" +
    "''''''''''\"\"\"\"\"--------,:/",
].map((letters) => Array.from(letters));
const LATIN_OF = new Map(LOOKALIKES.map((letter, index) => [letter, LATIN[index]]));
const LOOKALIKE = new RegExp(`[${LOOKALIKES.join("")}]`, "gu");

/** A text in which letters that look like a Latin one are that one, also below an accent. @param {string} text */
export function latin(text) {
  return text.normalize("NFD").replace(LOOKALIKE, (letter) => LATIN_OF.get(letter)).normalize("NFC");
}

/** A line in which only plain spaces are invisible, one in a row. @param {string} line */
function spaced(line) {
  return trimmed(withoutInvisible(line).replace(/ {2,}/g, " "));
}

/**
 * Each form is computed from the one before. Lines that are equal in a form, but not in the one
 * before, differ in what `name` says. `isOfBytes`: whether it is a form of lines that are not UTF-8.
 */
const FORMS = [
  { of: (line) => line, name: "", isOfBytes: true },
  { of: trimmed, name: "the spaces at its ends", isOfBytes: true },
  { of: spaced, name: "invisible characters or the spaces in it" },
  { of: (line) => line.normalize("NFC"), name: "how an accented letter is encoded" },
  { of: latin, name: "letters or signs that look the same" },
  { of: (line) => spaced(line.normalize("NFKC")), name: "the form of a letter, such as its width" },
  { of: (line) => line.toLowerCase().normalize("NFC"), name: "upper and lower case" },
];

/**
 * The last form of each line. Everything but the spaces is computed in one text, because a call for
 * each line takes seconds.
 */
function lastForms(lines, isText) {
  if (!isText) return lines.map(trimmed);
  const text = latin(lines.map(spaced).join("\n")).normalize("NFKC");
  return text.split("\n").map(spaced).join("\n").toLowerCase().normalize("NFC").split("\n");
}

/** The groups of lines that share a last form: the indices of each group of two or more lines. */
function groupsOf(forms) {
  const first = new Map();
  const groups = new Map();
  forms.forEach((form, place) => {
    const group = groups.get(form);
    if (group) group.push(place);
    else if (first.has(form)) groups.set(form, [first.get(form), place]);
    else first.set(form, place);
  });
  return groups.values();
}

/** The greatest number of equal lines that are named. */
const TOLD = 10;

/**
 * For each form: how many lines equal an earlier line in it but not in the form before; and the
 * numbers, from 1, of the first `TOLD` of these lines, each after that of the line that it equals.
 * @param {string[]} lines @param {boolean} isText false if the lines are bytes that are not UTF-8
 * @returns {{name: string, count: number, pairs: [number, number][]}[]}
 */
export function alikeIn(lines, isText) {
  const forms = FORMS.filter(({ isOfBytes }) => isText || isOfBytes);
  const found = forms.map(({ name }) => ({ name, count: 0, pairs: [] }));
  for (const group of groupsOf(lastForms(lines, isText))) {
    let left = new Map(group.map((place) => [place, lines[place]]));
    forms.forEach(({ of }, index) => {
      const seen = new Map();
      const next = new Map();
      for (const [place, text] of left) {
        const form = of(text);
        if (seen.has(form)) count(found[index], place, seen.get(form));
        else {
          seen.set(form, place);
          next.set(place, form);
        }
      }
      left = next;
    });
  }
  return found;
}

/** Counts the line at `place`, which equals the earlier one at `other`. */
function count(found, place, other) {
  const { pairs } = found;
  found.count += 1;
  let index = pairs.length;
  while (index > 0 && pairs[index - 1][1] > place + 1) index -= 1;
  pairs.splice(index, 0, [other + 1, place + 1]);
  if (pairs.length > TOLD) pairs.pop();
}

/** Whether two different texts look the same or nearly so. @param {string} left @param {string} right */
export function looksAlike(left, right) {
  const [one, other] = lastForms([left, right], true);
  return one === other;
}

/** Whether a line is of white space only. @param {string} line */
export function isBlank(line) {
  return line !== "" && trimmed(line) === "";
}
