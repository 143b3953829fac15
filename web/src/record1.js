// Records of format 1, which earlier versions of the page wrote. They are only read.

import { hasHalfCharacter, isUnseen } from "./bytes.js";
import { canGoOn, NAMED, readLines, readNumber, readSum, readVersion, RecordError, restOf } from "./lines.js";
import { reasonIn } from "./pasted.js";
import { unprinted } from "./printed.js";

/** The shortest line, in UTF-16 units, that a mail program is expected to fold. */
const FOLDED = 50;

/** The lines after the title. @type {import("./lines.js").Form[]} */
const LINES1 = [
  { property: "seed", name: "seed", read: readJsonSeed, joint: " " },
  { property: "list", name: "list SHA-256", read: readSum, joint: "" },
  { property: "entrants", name: "entrants", read: readNumber, joint: "" },
  { property: "drawn", name: "drawn", read: readNumber, joint: "" },
  { property: "version", name: "version", read: readVersion, joint: "" },
  { property: "module", name: "module SHA-256", read: readSum, joint: "" },
  { property: "result", name: "result SHA-256", read: readSum, joint: "" },
];
const NAMES1 = LINES1.map(({ name }) => name);

/**
 * Whether a text shows everything that it contains: there is no white space around the string, and
 * nothing invisible in it except spaces. Otherwise a different seed could look like the one that
 * was announced.
 * @param {string} text of a JSON string
 */
function showsAll(text) {
  return text.startsWith("\"") &&
    Array.from(text).every((letter) => letter === " " || !isUnseen(letter));
}

/** @param {string} text @returns {?string} */
function readJsonSeed(text) {
  if (!text.endsWith("\"")) return null;
  try {
    const seed = JSON.parse(text);
    const isSeed = typeof seed === "string" && seed !== "" && !hasHalfCharacter(seed);
    return isSeed && showsAll(text) ? seed : null;
  } catch {
    return null;
  }
}

function goesOn1(line) {
  return canGoOn(line, NAMES1);
}

/**
 * Reads the line of an entrant. Returns the entrant and the index of the line after it. A long line
 * may be folded into several, which end before the line `end`.
 */
function readEntrant1(lines, index, number, end) {
  const start = `${number}: `;
  const line = lines[index] ?? "";
  let text = line.startsWith(start) ? line.slice(start.length) : "";
  let next = index + 1;
  let isFolded = line === start.trim() || line.startsWith(start) && line.length >= FOLDED;
  while (isFolded && goesOn1(lines[next]) && lines[next] !== end) {
    text += (text && " ") + lines[next];
    isFolded = lines[next].length >= FOLDED;
    next += 1;
  }
  const entrant = unprinted(text);
  if (entrant === null) {
    throw new RecordError(index + 1, `“${start}” and an entrant are missing.${reasonIn(line)}`);
  }
  return { entrant, next };
}

/** Reads the named entrants, which end the record, and returns the index of the line after them. */
function readNamed1(lines, first, drawn) {
  const named = [];
  const [rest] = restOf(drawn);
  let end = first;
  for (let number = 1; number <= Math.min(drawn, NAMED); number += 1) {
    const { entrant, next } = readEntrant1(lines, end, number, number === NAMED ? rest : undefined);
    named.push(entrant);
    end = next;
  }
  if (rest !== undefined) {
    if (lines[end] !== rest) throw new RecordError(end + 1, `“${rest}” is missing.`);
    end += 1;
  }
  if (/^(?:[0-9]+: |and [0-9]+ more$)/.test(lines[end] ?? "")) {
    throw new RecordError(end + 1, "the record should have ended before.");
  }
  return { named, end };
}

/** @type {import("./record.js").Format} */
export const FORMAT1 = {
  title: "nanorand public draw 1",
  names: NAMES1,
  read(lines, first) {
    const { values, next } = readLines(lines, first, LINES1, goesOn1);
    const { named, end } = readNamed1(lines, next, values.drawn);
    return { record: { announcement: "none", ...values, named }, end };
  },
};
