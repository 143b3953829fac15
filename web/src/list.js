// A list of entrants: its lines as bytes, and its first and last ones.

import { hasHalfCharacter, utf8 } from "./bytes.js";
import { shown } from "./entrant.js";
import { Refusal } from "./refusal.js";

export const LINE_FEED = 10;
export const CARRIAGE_RETURN = 13;
export const SPACE = 32;
/** How many of the first lines, and how many of the last ones, a preview has. */
const ENDS = 3;
/** How many bytes of a line a preview shows: more is seldom an entrant. */
const LONGEST = 200;

/**
 * The bytes of a pasted list, in UTF-8. Throws a Refusal if it has a lone surrogate.
 * @param {string} text @returns {Uint8Array}
 */
export function listOfText(text) {
  if (hasHalfCharacter(text)) {
    const line = text.split("\n").findIndex(hasHalfCharacter) + 1;
    throw new Refusal("list has half a character", { line });
  }
  return utf8(text);
}

/**
 * The offset at which each line begins, then the offset at which a further one would begin. A last
 * line without a line feed counts as if it had one.
 * @param {Uint8Array} list @param {number} entrants how many lines it has @returns {Float64Array}
 */
export function startsOfLines(list, entrants) {
  const starts = new Float64Array(entrants + 1);
  for (let line = 0; line < entrants; line += 1) {
    const end = list.indexOf(LINE_FEED, starts[line]);
    starts[line + 1] = (end < 0 ? list.length : end) + 1;
  }
  return starts;
}

/** The bytes of the line with this index. @param {Uint8Array} list @param {Float64Array} starts */
export function lineAt(list, starts, place) {
  return list.subarray(starts[place], starts[place + 1] - 1);
}

/** The first bytes of a line, without a part of a character at their end. @param {Uint8Array} line */
function beginningOf(line) {
  let end = Math.min(line.length, LONGEST);
  // In UTF-8 at most three bytes continue a character. They begin with the bits 10.
  while (LONGEST - end < 3 && (line[end] & 0xc0) === 0x80) end -= 1;
  return line.subarray(0, end);
}

/**
 * The first and last lines of a list, or all of a short one: the number of each, from 1, what the
 * page shows of it, and whether it goes on.
 * @param {Uint8Array} list @param {number} entrants how many lines it has
 */
export function previewOf(list, entrants) {
  const starts = startsOfLines(list, entrants);
  const places = Array.from({ length: Math.min(entrants, 2 * ENDS) }, (_, index) =>
    (index < ENDS ? index : entrants - Math.min(entrants, 2 * ENDS) + index));
  return places.map((place) => {
    const line = lineAt(list, starts, place);
    return { number: place + 1, line: shown(beginningOf(line)), isCut: line.length > LONGEST };
  });
}
