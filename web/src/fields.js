// The fields of the announcement, and what is wrong with them.

import { hasHalfCharacter } from "./bytes.js";
import { BLANKS } from "./presets.js";
import { quotedText } from "./quoted.js";
import { Refusal } from "./refusal.js";

/** The fields with a text, and what each one is called in an error. */
const TEXT_FIELDS = {
  occasion: "the occasion", source: "the source of the seed", form: "the form of the seed",
  example: "the example of a seed", time: "the time and the place",
};
/** The fields in the order of the page. */
export const ANNOUNCE_FIELDS = ["occasion", "winners", "reserves", "source", "form", "example", "time"];
const COUNT = /^[0-9]{1,15}$/;

/** The number in a field, or NaN. @param {string} text */
export function numberTyped(text) {
  return COUNT.test(text.trim()) ? Number(text.trim()) : NaN;
}

/** What is wrong with a field with a text, or null. @param {string} text @param {string} name @returns {?Refusal} */
function faultOfText(text, name) {
  if (text.trim() === "") return new Refusal("field is empty", { name });
  if (hasHalfCharacter(text)) return new Refusal("field has half a character", { name });
  const [blank] = BLANKS.filter((one) => text.includes(one))
    .sort((one, other) => text.indexOf(one) - text.indexOf(other));
  return blank === undefined ? null : new Refusal("field has a blank", { name, blank });
}

/** What is wrong with the winners or the reserves. @returns {?{id: string, refusal: Refusal}} */
function faultOfNumbers({ winners, reserves }, entrants) {
  const [won, kept] = [winners, reserves].map(numberTyped);
  if (!(won >= 1)) return { id: "winners", refusal: new Refusal("winners are no number") };
  if (!(kept >= 0)) return { id: "reserves", refusal: new Refusal("reserves are no number") };
  if (won + kept <= entrants) return null;
  const refusal = new Refusal("too few for winners", { entrants, winners: won, reserves: kept });
  return { id: won > entrants ? "winners" : "reserves", refusal };
}

/**
 * The first field that cannot be announced, and why; or null.
 * @param {Record<string, string>} fields what is typed in each field @param {number} entrants
 * @returns {?{id: string, refusal: Refusal}}
 */
export function faultOfFields(fields, entrants) {
  for (const id of ANNOUNCE_FIELDS) {
    const isNumber = id === "winners" || id === "reserves";
    const refusal = isNumber ? null : faultOfText(fields[id], TEXT_FIELDS[id]);
    const found = isNumber ? faultOfNumbers(fields, entrants) : refusal && { id, refusal };
    if (found?.id === id) return found;
  }
  return null;
}

/**
 * The announcement that the fields make of a list. Its numbers are NaN if they are none.
 * @param {Record<string, string>} fields @param {{digest: string, entrants: number}} list
 * @returns {import("./announcement.js").Announcement}
 */
export function announcementOf(fields, { digest, entrants }) {
  const texts = Object.keys(TEXT_FIELDS).map((id) => [id, quotedText(fields[id])]);
  const [winners, reserves] = [fields.winners, fields.reserves].map(numberTyped);
  return { ...Object.fromEntries(texts), list: digest, entrants, winners, reserves };
}
