// Whether a draw or a record belongs to an announcement.

import { textOf } from "./bytes.js";
import { formDifferences } from "./form.js";
import { unquoted } from "./quoted.js";
import { Refusal } from "./refusal.js";

/** @param {number} number @param {string} one @param {string} many */
function numbered(number, one, many) {
  return `${number} ${number === 1 ? one : many}`;
}

/** Such as “3 winners and 1 reserve”. @param {import("./announcement.js").Announcement} announcement */
export function announcedWords({ winners, reserves }) {
  const won = numbered(winners, "winner", "winners");
  return reserves === 0 ? won : `${won} and ${numbered(reserves, "reserve", "reserves")}`;
}

/** How many are drawn. @param {import("./announcement.js").Announcement} announcement */
export function announcedCount({ winners, reserves }) {
  return winners + reserves;
}

/**
 * Why a list is not the announced one, or null if it is.
 * @param {import("./announcement.js").Announcement} announcement @param {{digest: string, entrants: number}} list
 * @returns {?Refusal}
 */
export function unannouncedList(announcement, { digest, entrants }) {
  if (digest !== announcement.list) {
    return new Refusal("list is not announced", { announced: announcement.list, digest });
  }
  if (entrants === announcement.entrants) return null;
  return new Refusal("entrants are not announced", { announced: announcement.entrants, entrants });
}

/**
 * Throws a Refusal unless a draw is the announced one.
 * @param {?import("./announcement.js").Announcement} announcement null if the draw was not announced
 * @param {{digest: string, entrants: number, drawn: number}} draw
 */
export function refuseOtherDraw(announcement, draw) {
  if (announcement === null) return;
  const other = unannouncedList(announcement, draw);
  if (other !== null) throw other;
  const wanted = announcedCount(announcement);
  if (draw.drawn === wanted) return;
  throw new Refusal("count is not announced", { wanted, words: announcedWords(announcement) });
}

/**
 * What differs between a record and an announcement.
 * @param {import("./record.js").Record} record @param {import("./announcement.js").Announcement} announcement
 * @param {string} digest SHA-256 of the announcement @returns {string[]}
 */
export function differencesFrom(record, announcement, digest) {
  const { list, entrants } = announcement;
  const drawn = announcedCount(announcement);
  if (record.announcement === "none") return ["The record names no announcement. So it does not belong to this one."];
  return [
    record.announcement === digest && record.list !== list &&
      "The record names this announcement, but was drawn from another list than the announced one.",
    record.announcement !== digest &&
      `Another announcement: the record names the SHA-256 ${record.announcement}, this announcement has ${digest}.`,
    record.list !== list &&
      `The announcement is of another list: it names the SHA-256 ${list}, the record ${record.list}.`,
    record.entrants !== entrants &&
      `Entrants: the announcement says ${entrants}, the record ${record.entrants}.`,
    record.drawn !== drawn &&
      `Drawn: the announcement says ${drawn} (${announcedWords(announcement)}), the record ${record.drawn}.`,
  ].filter(Boolean);
}

/**
 * A warning if a seed has another form than the announced example, or is this example. Otherwise an empty text.
 * @param {string} seed @param {import("./announcement.js").Announcement} announcement @returns {string}
 */
export function seedWarning(seed, { example }) {
  const text = textOf(unquoted(example));
  if (seed === text) return "The seed is the announced example.";
  const differences = formDifferences(seed, text);
  return differences.length === 0 ? ""
    : `The seed has another form than the announced example ${example}: ${differences.join(" ")}`;
}

/**
 * What was compared with an announcement that belongs to a record, and what only a reader can compare.
 * @param {import("./record.js").Record} record @param {import("./announcement.js").Announcement} announcement
 * @returns {(string|import("./check.js").Finding)[]}
 */
export function comparedWith(record, announcement) {
  const { occasion, source, form, example, time } = announcement;
  const warning = seedWarning(record.seed, announcement);
  return [
    "The record fits the announcement: its SHA-256, that of its list, the number of entrants, and how many are drawn: " +
      `${announcedWords(announcement)}. The first ${announcement.winners} drawn are the winners.`,
    ...(warning === "" ? [] : [{ text: warning, isWarning: true }]),
    `Only you can compare the seed with its source: ${source}. Its form: ${form}, for example ${example}.`,
    `Only you can know when the announcement of ${occasion} was published. It has to be before the seed could be ` +
      `known. The time that it names: ${time}.`,
  ];
}
