// The part of step 1 that makes the announcement: fills its fields, and saves and prints it.

import { writeAnnouncement } from "./announcement.js";
import { utf8 } from "./bytes.js";
import { advisedThrows, enoughWords, setsOf } from "./enough.js";
import { ANNOUNCE_FIELDS, announcementOf, faultOfFields, numberTyped } from "./fields.js";
import {
  disagreements, fillAnew, isEdited, keepEdited, preset, presetValues, refill, throwsApart,
} from "./filling.js";
import { Refusal } from "./refusal.js";
import { client, refuse, session } from "./session.js";
import { clearRefusals, part, save, say, sayOnce, withDigests } from "./view.js";

/** The name of the file that the page saves. */
const ANNOUNCEMENT_FILE = "announcement.txt";

/**
 * `advised` is the number of throws that the page has filled in. `made` is the announcement that was saved or printed
 * last, or null, and `word` says which. `turn` counts the changes of the fields.
 */
const announcing = { advised: "", made: null, word: "", turn: 0 };

/** What is typed in the fields. Line ends in a text become spaces. @returns {Record<string, string>} */
function fieldsTyped() {
  return Object.fromEntries(ANNOUNCE_FIELDS.map((id) => [id, part(id).value.replace(/\s*\n\s*/g, " ")]));
}

/** The winners that are typed, if the list has as many entrants; or null. */
function winnersTyped() {
  const winners = numberTyped(part("winners").value);
  const { facts } = session;
  return facts !== null && winners >= 1 && winners <= facts.entrants ? winners : null;
}

/** Advises a number of throws that is enough for the winners, unless another number was typed or a text was edited. */
function adviseThrows() {
  const winners = winnersTyped();
  if (winners === null || isEdited() || part("preset-throws").value !== announcing.advised) return;
  announcing.advised = String(advisedThrows(setsOf(session.facts.entrants, winners)));
  part("preset-throws").value = announcing.advised;
}

/** Says whether the seeds of the preset are enough for the sets of winners. */
function sayEnough() {
  const winners = winnersTyped();
  const values = presetValues();
  const isKnown = winners !== null && values !== null;
  const { asks, seeds } = preset();
  sayOnce("enough", isKnown
    ? enoughWords({ entrants: session.facts.entrants, winners }, seeds(values), asks.includes("throws")) : "");
}

/** Says whether the announcement that was saved or printed is that of the fields and the list. */
function markAnnouncement() {
  const { made, word } = announcing;
  const { facts } = session;
  const isKnown = made !== null && facts !== null;
  const isOld = isKnown && made.text !== writeAnnouncement(announcementOf(fieldsTyped(), facts));
  const isNew = isKnown && !isOld;
  part("made").hidden = !isNew;
  sayOnce("made-words", isNew ? `You ${word} an announcement of this draw. Open it before you draw, so that the record ` +
    "names it." : "");
  sayOnce("announcement-stale", isOld ? `The announcement that you ${word} is out of date: the list or a field has ` +
    "changed since. Save or print it again, and do not publish the one from before." : "");
  sayOnce("announcement-heading", isOld ? "The announcement that is out of date" : "The announcement");
}

/** Shows what follows from the fields and the list, after a change of one of them. */
function showAnnouncing() {
  keepEdited();
  adviseThrows();
  refill();
  sayOnce("disagreements", disagreements().join(" "));
  sayEnough();
  markAnnouncement();
}

/** Handles a change of a field of the announcement. */
export function announceTyped() {
  announcing.turn += 1;
  clearRefusals("announce");
  showAnnouncing();
}

/** Shows the fields of the preset that is chosen, and fills in its texts. */
export function presetChosen() {
  const { asks } = preset();
  for (const ask of document.querySelectorAll("[data-ask]")) ask.hidden = !asks.includes(ask.dataset.ask);
  part("preset-checks").hidden = part("preset").value !== "drand";
  fillAnew();
  announceTyped();
}

/** Begins with the preset that is chosen, after the page has been loaded. */
export function beginAnnouncing() {
  announcing.advised = part("preset-throws").value;
  presetChosen();
}

/** Handles a change of the list. The announcement of another list is out of date. */
export function announceList() {
  announcing.turn += 1;
  clearRefusals("announce");
  if (session.facts !== null) showAnnouncing();
  else part("made").hidden = true;
}

/** The first field that cannot be announced, and why; or null. @param {Record<string, string>} fields */
function faultOf(fields, entrants) {
  const apart = throwsApart();
  return faultOfFields(fields, entrants) ?? (apart && { id: "source", refusal: new Refusal("throws differ", apart) });
}

/** Shows what is wrong with a field, beside the buttons, and moves the focus to the field. */
function refuseField({ id, refusal }) {
  say("announce-error", refusal.words);
  part(id).setAttribute("aria-invalid", "true");
  part(id).focus();
  const { blank } = refusal.values;
  const first = part(id).value.indexOf(blank);
  if (blank && first >= 0) part(id).setSelectionRange(first, first + blank.length);
}

/**
 * Makes the announcement of the fields and the list, and shows it.
 * @param {"saved"|"printed"} word what is done with it
 * @returns {Promise<?string>} its text, or null if it has a fault, or a field or the list has changed meanwhile
 */
async function makeAnnouncement(word) {
  clearRefusals("announce", "page");
  const { facts } = session;
  if (facts === null) return null;
  const fields = fieldsTyped();
  const fault = faultOf(fields, facts.entrants);
  if (fault !== null) {
    refuseField(fault);
    return null;
  }
  const announcement = announcementOf(fields, facts);
  const text = writeAnnouncement(announcement);
  const { turn } = announcing;
  try {
    const digest = await client.ask("digest", { text });
    if (turn !== announcing.turn) return null;
    announcing.made = { text, digest, occasion: announcement.occasion };
    announcing.word = word;
    showAnnouncement(text, digest);
    return text;
  } catch (error) {
    refuse(error);
    return null;
  }
}

/** @param {string} text @param {string} digest */
function showAnnouncement(text, digest) {
  part("announcement").hidden = false;
  part("announcement-text").replaceChildren(...withDigests(text));
  say("announcement-digest", digest);
  say("announcement-escapes", text.includes("\\")
    ? "In the announcement, \\x and two digits stand for a byte that is no visible letter, and \\x5c for a backslash."
    : "");
  markAnnouncement();
}

/** Saves the announcement as a file. */
export async function saveAnnouncement() {
  const text = await makeAnnouncement("saved");
  if (text !== null) save(text, ANNOUNCEMENT_FILE);
}

/** @returns {Uint8Array} the bytes of the announcement that was saved or printed */
export function bytesMade() {
  return utf8(announcing.made.text);
}

/** @returns {string} the occasion of the announcement that was saved or printed, quoted, or an empty text */
export function occasionMade() {
  return announcing.made?.occasion ?? "";
}

/** Prints the announcement. @param {(paper: "announcement") => void} print */
export async function printAnnouncement(print) {
  const text = await makeAnnouncement("printed");
  if (text !== null) print("announcement");
}
