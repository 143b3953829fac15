// Warnings about a list, for its owner. None of them is an error.

import { alikeIn, isBlank } from "./alike.js";
import { textOf } from "./bytes.js";
import { partsOf } from "./entrant.js";
import { INVISIBLE, kindsIn } from "./invisible.js";
import { CARRIAGE_RETURN, LINE_FEED, SPACE } from "./list.js";
import { markedPair } from "./marks.js";

const TAB = 9;
const MARK = "\ufeff";

/**
 * A warning: a sentence; lines of the list, each with its name and what the page shows of it; and the
 * change that removes the cause, with the text of its button.
 * @typedef {Object} Warning
 * @property {string} text
 * @property {{name: string, line: import("./entrant.js").Shown}[]} [lines]
 * @property {{change: string, label: string}} [cure]
 */

/** How many letters of a line a warning shows, and how many lines. */
const MOST_LETTERS = 200;
const MOST_LINES = 10;

/** Counts lines, and keeps the numbers of the first ones. */
class Found {
  count = 0;
  /** @type {number[]} */
  numbers = [];

  /** @param {number} number of a line, from 1 */
  add(number) {
    this.count += 1;
    if (this.numbers.length < MOST_LINES) this.numbers.push(number);
  }
}

/** @param {Uint8Array} list @returns {Warning[]} */
export function warningsOf(list) {
  const text = textOf(list);
  const lines = (text ?? new TextDecoder("latin1").decode(list)).split("\n");
  if (lines[lines.length - 1] === "") lines.pop();
  const isText = text !== null;
  return [
    ...ofBytes(list, text),
    ...spacesIn(lines, isText),
    ...(isText ? invisibleIn(lines) : []),
    ...(isText ? ofMac(lines) : []),
    ...doubledIn(lines, isText),
    ...columnsIn(lines, isText),
    ...blankIn(lines),
    ...signsOnlyIn(lines, isText),
    ...alikeIn(lines, isText).map((found) => alikeWarning(found, lines, isText)),
  ].filter(Boolean);
}

/** Warnings about the bytes as a whole. @param {Uint8Array} list @param {?string} text */
function ofBytes(list, text) {
  const hasEnd = list.length === 0 || list[list.length - 1] === LINE_FEED;
  return [
    text?.startsWith(MARK) && {
      text: "The list begins with an invisible mark (a byte order mark), as Excel writes it. It belongs to the " +
        "first entrant.",
      cure: { change: "mark", label: "Remove the byte order mark" },
    },
    list.includes(0) && {
      text: "The list has characters of value 0, which no list of names has. The file may be damaged.",
    },
    text === null && {
      text: "The list is not UTF-8. The draw takes its bytes as they are. Bytes that are not visible " +
        "ASCII are shown as \\x and two digits.",
    },
    !hasEnd && {
      text: "The last line has no line end. That is no mistake, but a program that adds one changes the SHA-256.",
    },
  ];
}

/** A line of the list, named and shown, or none if the list is no text. */
function lineShown(lines, number, isText, name = `Line ${number}`) {
  if (!isText) return [];
  const letters = Array.from(lines[number - 1].slice(0, 2 * MOST_LETTERS)).slice(0, MOST_LETTERS);
  return [{ name, line: { isText, parts: partsOf(letters) } }];
}

/** Warnings about the ends of lines. @param {string[]} lines @param {boolean} isText */
function spacesIn(lines, isText) {
  const found = { returns: 0, spaced: new Found() };
  lines.forEach((line, place) => {
    const [first, last] = [line.charCodeAt(0), line.charCodeAt(line.length - 1)];
    if (last === CARRIAGE_RETURN) found.returns += 1;
    else if ([first, last].some((code) => code === SPACE || code === TAB)) found.spaced.add(place + 1);
  });
  const { count, numbers } = found.spaced;
  return [
    found.returns && {
      text: `${counted(found.returns, "end", "ends")} with a carriage return, an invisible character that ` +
        "Windows programs write. It belongs to the entrant: without it the list has another SHA-256.",
      cure: { change: "returns", label: "Remove the carriage returns" },
    },
    count && {
      text: `${counted(count, "begin or end", "begins or ends")} with a space or a tab, which ` +
        `belongs to the entrant: look at line ${numbers[0]}.`,
      lines: numbers.flatMap((number) => lineShown(lines, number, isText)),
      cure: { change: "trim", label: "Remove these spaces" },
    },
  ];
}

/** A warning if carriage returns stand alone, as old Macs end their lines. @param {string[]} lines */
function ofMac(lines) {
  const count = lines.filter((line) => line.slice(0, -1).includes("\r")).length;
  return count === 0 ? [] : [{
    text: `${counted(count, "have carriage returns within them", "has carriage returns within it")}, as files of old ` +
      "Macs do. Each of them may be several entrants.",
    cure: { change: "utf-8", label: "Begin a new line at each" },
  }];
}

/** A warning of spaces in a row. @param {string[]} lines @param {boolean} isText */
function doubledIn(lines, isText) {
  const found = new Found();
  lines.forEach((line, place) => {
    if (/[^ ] {2,}[^ ]/.test(line)) found.add(place + 1);
  });
  const { count, numbers } = found;
  return count === 0 ? [] : [{
    text: `${counted(count, "have", "has")} two or more spaces in a row: look at line ${numbers[0]}.`,
    lines: numbers.flatMap((number) => lineShown(lines, number, isText)),
    cure: { change: "doubled", label: "Make them single spaces" },
  }];
}

/**
 * Warnings if each line has the same number of columns, as in a CSV file.
 * @param {string[]} lines @param {boolean} isText
 */
function columnsIn(lines, isText) {
  const separator = [";", ","].find((sign) => lines.length > 1 && lines.every((line) =>
    line.includes(sign) && !line.includes(`${sign} `) &&
    line.split(sign).length === lines[0].split(sign).length));
  if (separator === undefined) return [];
  const columns = lines[0].split(separator).length;
  return [{
    text: `Each line has ${columns} columns, with “${separator}” between them, and all of them are published. If only ` +
      "one has the names, save that one alone.",
  }, ...gapsIn(lines, separator, isText)];
}

/** A warning of lines with an empty column that other lines fill. @param {string[]} lines @param {string} separator */
function gapsIn(lines, separator, isText) {
  const rows = lines.map((line) => line.split(separator).map((cell) => cell.trim() !== ""));
  const isUsed = rows[0].map((_, column) => rows.some((row) => row[column]));
  const found = new Found();
  rows.forEach((row, place) => {
    if (row.some((isFilled, column) => !isFilled && isUsed[column]) && row.includes(true)) found.add(place + 1);
  });
  const { count, numbers } = found;
  return count === 0 ? [] : [{
    text: `${counted(count, "have an empty column", "has an empty column")} that other lines fill: look at line ` +
      `${numbers[0]}. If the name is missing, the line can win all the same.`,
    lines: numbers.flatMap((number) => lineShown(lines, number, isText)),
  }];
}

/** A warning of lines of white space only. @param {string[]} lines */
function blankIn(lines) {
  const first = lines.findIndex(isBlank) + 1;
  return first === 0 ? [] : [{
    text: `Line ${first} has nothing that can be seen, but is an entrant.`,
    cure: { change: "blank", label: "Remove such lines" },
  }];
}

/** A warning of lines of signs alone, as a CSV file has them for the empty rows of a spreadsheet. @param {string[]} lines */
function signsOnlyIn(lines, isText) {
  const found = new Found();
  lines.forEach((line, place) => {
    if (/^[\p{P}\s]+$/u.test(line) && /\p{P}/u.test(line)) found.add(place + 1);
  });
  const { count, numbers } = found;
  return count === 0 ? [] : [{
    text: `${counted(count, "have", "has")} no letter and no digit, as an empty row of a spreadsheet, but can win: look ` +
      `at line ${numbers[0]}. Delete such rows where the list was made, and open it again.`,
    lines: numbers.flatMap((number) => lineShown(lines, number, isText)),
  }];
}

/** A warning for each kind of invisible characters. @param {string[]} lines */
function invisibleIn(lines) {
  const found = new Map();
  lines.forEach((line, place) => {
    for (const name of kindsIn(place === 0 && line.startsWith(MARK) ? line.slice(1) : line)) {
      if (!found.has(name)) found.set(name, new Found());
      found.get(name).add(place + 1);
    }
  });
  return INVISIBLE.filter(({ name }) => found.has(name)).map(({ name, words, label }) => {
    const { count, numbers } = found.get(name);
    return {
      text: `${counted(count, `have ${words}`, `has ${words}`)}, which nobody sees: look at line ${numbers[0]}.`,
      lines: numbers.flatMap((number) => lineShown(lines, number, true)),
      cure: { change: name, label },
    };
  });
}

/** @returns {?Warning} null if no lines are alike */
function alikeWarning({ name, count, pairs }, lines, isText) {
  if (count === 0) return null;
  const [[other, line]] = pairs;
  const equal = `${count} of the lines ${count === 1 ? "equals" : "equal"} an earlier line`;
  if (name === "") {
    return {
      text: `${equal}: look at line ${line}. Equal lines are separate entrants, each with its own chance.`,
      lines: pairs.flatMap(([first, second]) => lineShown(lines, second, isText, `Lines ${first} and ${second}`)),
    };
  }
  const text = `${equal} except for ${name}: look at line ${line}. They are separate entrants.`;
  if (!isText) return { text };
  const [first, second] = markedPair(lines[other - 1], lines[line - 1]);
  return { text, lines: [{ name: `Line ${other}`, line: first }, { name: `Line ${line}`, line: second }] };
}

/** @param {number} count */
function counted(count, many, one) {
  return count === 1 ? `1 line ${one}` : `${count} lines ${many}`;
}
