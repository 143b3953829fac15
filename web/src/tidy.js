// Changes that the owner of a list may want. The changed list has another SHA-256.

import { isBlank, isSpace } from "./alike.js";
import { textOf, utf8 } from "./bytes.js";
import { resultOf } from "./draw.js";
import { converted } from "./encoding.js";
import { INVISIBLE, withoutInvisible } from "./invisible.js";
import { CARRIAGE_RETURN, LINE_FEED, SPACE, lineAt, startsOfLines } from "./list.js";

/** @param {Uint8Array} list @returns {Uint8Array[]} its lines, which may be empty */
function linesOf(list) {
  const feeds = list.reduce((count, byte) => count + (byte === LINE_FEED ? 1 : 0), 0);
  const isOpen = list.length > 0 && list[list.length - 1] !== LINE_FEED;
  const starts = startsOfLines(list, feeds + (isOpen ? 1 : 0));
  return Array.from(starts.subarray(1), (_, place) => lineAt(list, starts, place));
}

/** A line without the white space at its ends, or the same line. @param {Uint8Array} line */
function trimmedBytes(line) {
  let [first, end] = [0, line.length];
  while (first < end && isSpace(line[first])) first += 1;
  while (first < end && isSpace(line[end - 1])) end -= 1;
  return end - first < line.length ? line.subarray(first, end) : line;
}

/** A line without the carriage return at its end, or the same line. @param {Uint8Array} line */
function withoutReturn(line) {
  return line[line.length - 1] === CARRIAGE_RETURN ? line.subarray(0, -1) : line;
}

/** A line with one space in place of several in a row, or the same line. @param {Uint8Array} line */
function withoutDoubled(line) {
  const single = line.filter((byte, place) => byte !== SPACE || line[place - 1] !== SPACE);
  return single.length < line.length ? single : line;
}

/** Whether a line has something other than white space, or nothing at all. @param {Uint8Array} line */
function isNotBlank(line) {
  return !isBlank(new TextDecoder("latin1").decode(line));
}

/** The lines without repetitions: the first of equal lines stays. @param {Uint8Array[]} lines */
function unique(lines) {
  const letters = new TextDecoder("latin1");
  const seen = new Set();
  return lines.filter((line) => seen.size < seen.add(letters.decode(line)).size);
}

/** A line without the invisible characters of one kind, or the same line. */
function without(line, name) {
  const text = textOf(line);
  const changed = text === null ? text : withoutInvisible(text, name);
  return changed === text ? line : utf8(changed);
}

/** What a change makes of the lines of a list, and what the page says of the lines that it changes. */
const CHANGES = {
  empty: { of: (lines) => lines.filter((line) => line.length > 0), verb: "removed" },
  blank: { of: (lines) => lines.filter(isNotBlank), verb: "removed" },
  trim: { of: (lines) => lines.map(trimmedBytes), verb: "made shorter" },
  returns: { of: (lines) => lines.map(withoutReturn), verb: "made shorter" },
  doubled: { of: (lines) => lines.map(withoutDoubled), verb: "made shorter" },
  unique: { of: unique, verb: "removed" },
  heading: { of: (lines) => lines.slice(1), verb: "removed" },
  mark: { of: ([first, ...rest]) => [first.subarray(3), ...rest], verb: "changed" },
};
for (const { name } of INVISIBLE) {
  CHANGES[name] = { of: (lines) => lines.map((line) => without(line, name)), verb: "changed" };
}

/**
 * The lines after a change, as a list. If the list has no line feed at its end, the changed list has
 * none either, unless its last line is empty: without a line feed, an empty line would not be a line.
 */
function listOf(lines, list) {
  const text = resultOf(lines);
  const isOpen = list[list.length - 1] !== LINE_FEED && lines[lines.length - 1]?.length > 0;
  return isOpen ? text.slice(0, -1) : text;
}

/**
 * The list after a change, how many lines it removed or changed, and what is said of them.
 * @param {Uint8Array} list
 * @param {string} change a name in CHANGES, or the encoding from which the list is converted
 * @returns {{list: Uint8Array, changed: number, verb: string}}
 */
export function tidied(list, change) {
  if (!(change in CHANGES)) {
    const inUtf8 = converted(list, change);
    const verb = change === "utf-8" ? "made" : "converted to UTF-8, with plain line ends";
    return { list: inUtf8, changed: linesOf(inUtf8).length, verb };
  }
  const { of, verb } = CHANGES[change];
  const before = linesOf(list);
  const after = of(before);
  const changed = after.length < before.length
    ? before.length - after.length
    : after.filter((line, place) => line !== before[place]).length;
  return { list: changed === 0 ? list : listOf(after, list), changed, verb };
}
