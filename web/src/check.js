// Checks a record: repeats its draw with a list and compares the results.

import { looksAlike } from "./alike.js";
import { readAnnouncementFile, readPastedAnnouncement, writeAnnouncement } from "./announcement.js";
import { comparedWith, differencesFrom } from "./belongs.js";
import { equalBytes, hex, textOf, utf8 } from "./bytes.js";
import { draw, resultOf } from "./draw.js";
import { shown } from "./entrant.js";
import { RecordError } from "./lines.js";
import { CARRIAGE_RETURN, LINE_FEED } from "./list.js";
import { foreignMarked, markedPair } from "./marks.js";
import { quoted, quotedText } from "./quoted.js";
import { readRecord } from "./record.js";
import { Refusal } from "./refusal.js";
import { tidied } from "./tidy.js";

/**
 * @typedef {Object} Check
 * @property {"agrees"|"other module"|"differs"|"no record"|"no announcement"|"no list"} outcome
 * @property {string} title the outcome in a sentence
 * @property {Finding[]} findings what differs
 * @property {?Reading} reading what the record says, or null if there is no record
 */

/**
 * A sentence, whether it is a warning, and, of two results that look alike, what the page shows of each.
 * @typedef {{text: string, isWarning?: boolean, lines?: {name: string, line: import("./entrant.js").Shown}[]}} Finding
 */

/**
 * What the record says: its first and last line in the text, how many other lines there
 * are, the SHA-256 of its announcement or "none", what the page shows of its seed, the SHA-256 of its
 * list, its numbers and its named entrants.
 * @typedef {Object} Reading
 * @property {[number, number]} lines
 * @property {number} others
 * @property {string} announcement
 * @property {(string|number[])[]} seed
 * @property {string} list
 * @property {number} entrants
 * @property {number} drawn
 * @property {import("./entrant.js").Shown[]} named
 * @property {?number} winners how many of these are winners, if the record agrees and its announcement was given
 * @property {?string} occasion of this announcement, quoted, in the same case
 */

const TITLES = {
  "agrees": "The record agrees: the same list, and the draw repeated here gives the same result. " +
    "Whether its list and its seed are those that were announced, only you can compare.",
  "other module": "The result agrees, but the record was made by another version of the program.",
  "differs": "The record differs from the draw repeated here.",
  "no record": "This text is not a record of a draw.",
  "no announcement": "The record can be read, but the other text is not an announcement as the page saves it. " +
    "Nothing was compared.",
  "no list": "The record can be read. Open or paste its list above, and check again.",
};

/** What is said of a list whose lines are those of the record's list. */
const OTHER_ENDS = "Only the line ends differ, or an invisible mark at the beginning: the lines are those of the record's " +
  "list. Programs change these when they copy or save a text. Open the published file itself.";
/** The bytes of a byte order mark. */
const ORDER_MARK = [0xef, 0xbb, 0xbf];

/** Bytes with a carriage return before each line feed. @param {Uint8Array} list */
function withReturns(list) {
  const longer = new Uint8Array(2 * list.length);
  let end = 0;
  for (const byte of list) {
    if (byte === LINE_FEED) longer[end++] = CARRIAGE_RETURN;
    longer[end++] = byte;
  }
  return longer.subarray(0, end);
}

/** Whether a list is the one with a SHA-256, but for the ends of its lines and a byte order mark. */
function hasOtherEnds(module, list, wanted) {
  const isMarked = ORDER_MARK.every((byte, place) => list[place] === byte);
  const plain = tidied(isMarked ? list.subarray(ORDER_MARK.length) : list, "returns").list;
  const open = plain[plain.length - 1] === LINE_FEED ? plain.subarray(0, -1) : plain;
  const whole = new Uint8Array(open.length + 1);
  whole.set(open);
  whole[open.length] = LINE_FEED;
  return [open, whole].flatMap((one) => [one, withReturns(one)]).some((one) => {
    const marked = new Uint8Array(ORDER_MARK.length + one.length);
    marked.set(ORDER_MARK);
    marked.set(one, ORDER_MARK.length);
    return [one, marked].some((bytes) => hex(module.digest(bytes)) === wanted);
  });
}

/** As `hasOtherEnds`, but false if there is not enough memory for copies of the list. */
function differsOnlyInEnds(module, list, wanted) {
  try {
    return hasOtherEnds(module, list, wanted);
  } catch (error) {
    if (error instanceof RangeError) return false;
    throw error;
  }
}

/** The outcomes of a record that is that of its draw, and belongs to the announcement if one was given. */
const AGREES = ["agrees", "other module"];
const OTHER_LIST = "Another list:";
const WITH_ANNOUNCEMENT = "The record agrees: the same list, the announcement that it names, and the draw repeated " +
  "here gives the same result. What only you can compare is said below.";
const OTHER_ANNOUNCEMENT = "The draw repeated here gives the same result, but the record does not belong to this " +
  "announcement.";
const UNANNOUNCED = {
  text: "The record names no announcement. So nothing in it shows that the list was closed before the seed was known.",
  isWarning: true,
};
const NOT_COMPARED = {
  text: "The record names an announcement, which was not compared. Paste it above or drop its file there, and check again.",
  isWarning: true,
};

/**
 * The announcement that was given with a record, with its SHA-256.
 * @typedef {{announcement: import("./announcement.js").Announcement, digest: string}} Announced
 */

/**
 * @typedef {Object} Maker
 * @property {string} version
 * @property {string} module SHA-256 of the module that runs here
 * @property {string} otherModule SHA-256 of the page's other module
 * @property {string} words describes the module that runs here
 * @property {string} otherWords describes the other module
 */

/**
 * @param {Check["outcome"]} outcome @param {(string|Finding)[]} findings
 * @param {?import("./record.js").Record} [record] @param {string} [title] @returns {Check}
 */
function checked(outcome, findings, record = null, title = TITLES[outcome]) {
  const asFinding = (finding) => (typeof finding === "string" ? { text: finding } : finding);
  const isOfOtherList = outcome === "differs" && String(findings[0]).startsWith(OTHER_LIST);
  return {
    outcome,
    title: isOfOtherList ? "This is not the list that the record names." : title,
    findings: findings.map(asFinding),
    reading: record && readingOf(record),
  };
}

/** @param {import("./record.js").Record} record @returns {Reading} */
function readingOf({ lines, others, announcement, seed, list, entrants, drawn, named }) {
  const shownSeed = foreignMarked(quotedText(seed));
  const shownNamed = named.map(shown);
  const given = { winners: null, occasion: null };
  return { lines, others, announcement, seed: shownSeed, list, entrants, drawn, named: shownNamed, ...given };
}

/**
 * Reads the announcement that was given: the bytes of its file, or a pasted text. Throws RecordError.
 * @param {import("./module.js").Module} module @param {?{bytes?: Uint8Array, text?: string}} given
 * @returns {?Announced}
 */
function announcedFrom(module, given) {
  if (given === null) return null;
  const announcement = given.bytes ? readAnnouncementFile(given.bytes) : readPastedAnnouncement(given.text);
  return { announcement, digest: hex(module.digest(utf8(writeAnnouncement(announcement)))) };
}

/**
 * Reads with a function. Returns what it returns, or the check that says why it cannot.
 * @param {() => *} read @param {Check["outcome"]} outcome @param {?import("./record.js").Record} [record]
 */
function readOr(read, outcome, record) {
  try {
    return { value: read(), failed: null };
  } catch (error) {
    if (error instanceof RecordError) return { value: null, failed: checked(outcome, [error.message], record) };
    throw error;
  }
}

/**
 * @param {import("./module.js").Module} module @param {Maker} maker @param {Uint8Array} list
 * @param {{text: string, announced?: ?{bytes?: Uint8Array, text?: string}}} given the text with the record, and the
 * announcement if there is one
 * @returns {Check}
 */
export function check(module, maker, list, { text, announced = null }) {
  const { value: record, failed } = readOr(() => readRecord(text), "no record");
  if (failed) return failed;
  if (list.length === 0) return checked("no list", [], record);
  const { value: named, failed: unread } = readOr(() => announcedFrom(module, announced), "no announcement", record);
  if (unread) return unread;
  const answer = compared(module, maker, list, record, named);
  if (named !== null && AGREES.includes(answer.outcome)) {
    const { winners, occasion } = named.announcement;
    Object.assign(answer.reading, { winners, occasion });
  }
  return answer;
}

/** Compares a record with the repeated draw and with its announcement. @param {?Announced} named @returns {Check} */
function compared(module, maker, list, record, named) {
  const others = otherMakers(record, maker);
  const findings = [...others, ...otherOfPage(record, maker), ...withoutModule(record)];
  const differences = differencesOf(module, list, record);
  const unlike = named === null ? [] : differencesFrom(record, named.announcement, named.digest);
  const said = [...findings, ...announcedFindings(record, named, unlike)];
  if (differences.length > 0) return checked("differs", [...differences, ...unlike, ...said], record);
  if (unlike.length > 0) return checked("differs", [...unlike, ...said], record, OTHER_ANNOUNCEMENT);
  if (others.length > 0) return checked("other module", said, record);
  return checked("agrees", said, record, named === null ? TITLES.agrees : WITH_ANNOUNCEMENT);
}

/** What was compared with the announcement, or that none was. @returns {(string|Finding)[]} */
function announcedFindings(record, named, unlike) {
  if (named === null) return [record.announcement === "none" ? UNANNOUNCED : NOT_COMPARED];
  return unlike.length > 0 ? [] : comparedWith(record, named.announcement);
}

/**
 * A record of format 2 names no version, and one by the program `lots` no module.
 * @param {import("./record.js").Record} record @param {Maker} maker @returns {string[]}
 */
function otherMakers(record, { version, module, otherModule }) {
  return [
    ![null, version].includes(record.version) &&
      `Another version: the record names ${record.version}, this page has ${version}.`,
    ![null, module, otherModule].includes(record.module) &&
      `Another drawing program (module): the record names ${record.module}, this page has ${module}.`,
  ].filter(Boolean);
}

/** Says so if the page's other module made the record, which is not an error. */
function otherOfPage(record, { otherModule, words, otherWords }) {
  return record.module !== otherModule ? [] : [
    "The record was made in a browser that runs this page's other drawing program (module), " +
      `${otherWords}. This browser runs the one ${words}. Both draw the same.`,
  ];
}

/** Says so if the record names no module, which is not an error. @param {import("./record.js").Record} record */
function withoutModule({ module }) {
  return module !== null ? [] : [
    "The record names no drawing program (module), as records of the program lots do not.",
  ];
}

/**
 * Returns what differs, or why the draw that the record describes cannot be made with the list.
 * Throws if the module fails.
 * @param {import("./record.js").Record} record @returns {(string|Finding)[]}
 */
function differencesOf(module, list, record) {
  const digest = hex(module.digest(list));
  if (digest !== record.list) {
    return [
      `${OTHER_LIST} the record names the SHA-256 ${record.list}, this list has ${digest}.`,
      ...(differsOnlyInEnds(module, list, record.list) ? [OTHER_ENDS] : []),
    ];
  }
  try {
    const repeated = draw(module, list, record.seed, String(record.drawn));
    return [
      repeated.entrants !== record.entrants &&
        `Entrants: the record says ${record.entrants}, this list has ${repeated.entrants}.`,
      differentLine(record.named, repeated.drawn),
      hex(module.digest(resultOf(repeated.drawn))) !== record.result &&
        "The SHA-256 of the result differs.",
    ].filter(Boolean);
  } catch (error) {
    const refusal = Refusal.of(error);
    if (refusal.field === "page") throw refusal;
    return [refusal.words];
  }
}

/**
 * Describes the first line of the result that differs. If the two entrants look alike, it shows where
 * they differ. Returns null if no line differs.
 * @param {Uint8Array[]} named @param {Uint8Array[]} drawn @returns {?Finding}
 */
function differentLine(named, drawn) {
  const index = named.findIndex((entrant, place) => !equalBytes(entrant, drawn[place]));
  if (index < 0) return null;
  const two = [named[index], drawn[index]];
  const text = `Line ${index + 1} of the result: the record says ${quoted(two[0])}, ` +
    `the draw gives ${quoted(two[1])}.`;
  const texts = two.map(textOf);
  if (texts.includes(null) || !looksAlike(...texts)) return { text };
  const [record, repeated] = markedPair(...texts);
  return { text, lines: [{ name: "Record", line: record }, { name: "Draw", line: repeated }] };
}
