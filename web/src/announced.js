// The announcement that was opened again for its draw.

import { announcedCount, announcedWords, unannouncedList, seedWarning } from "./belongs.js";
import { client, fieldChanged, markResult, refuse, session } from "./session.js";
import { clearRefusals, part, say, sayOnce } from "./view.js";

/** Reads a file that begins as an announcement does, and takes it for the draw. @param {Uint8Array} bytes */
export async function openAnnouncement(bytes) {
  clearRefusals("announcement", "count");
  try {
    const { announcement, digest } = await client.ask("announcement", { bytes });
    announceDraw({ bytes, announcement, digest });
    part("count").value = String(announcedCount(announcement));
    markResult();
  } catch (error) {
    announceDraw(null);
    refuse(error);
  }
}

/** Opens the announcement that was saved or printed. @param {Uint8Array} bytes */
export async function openMade(bytes) {
  await openAnnouncement(bytes);
  part("seed").focus();
}

/** Takes the announcement away: the draw is one that was not announced. */
export function takeAway() {
  announceDraw(null);
  clearRefusals("announcement", "count");
  part("seed").focus();
}

/**
 * Takes an announcement for the draw, or none.
 * @param {?{bytes: Uint8Array, announcement: import("./announcement.js").Announcement, digest: string}} announced
 */
function announceDraw(announced) {
  session.announced = announced;
  part("announced").hidden = announced === null;
  part("announce").hidden = announced !== null;
  part("unopened").hidden = announced !== null;
  if (announced !== null) {
    const { occasion, entrants, source, form, example, time } = announced.announcement;
    say("announced-words", `Announced: ${announcedWords(announced.announcement)} of ${entrants} entrants, ` +
      `for ${occasion}. Seed: ${source}. Its form: ${form}, for example ${example}. Time: ${time}.`);
    say("announced-digest", announced.digest);
  }
  fieldChanged();
  compareList();
  compareSeed();
}

/** The occasion of the announcement that is open, if it is of the list that is open; or an empty text. */
export function occasionOfList() {
  const { announced, facts } = session;
  const isOfList = announced !== null && facts !== null && unannouncedList(announced.announcement, facts) === null;
  return isOfList ? announced.announcement.occasion : "";
}

/** The occasion of the announcement of the result that is shown, if that announcement is open; or an empty text. */
export function occasionOfResult() {
  const { announced, result } = session;
  return announced !== null && result?.announced === announced.digest ? announced.announcement.occasion : "";
}

/** Says so if the list that is open is not the announced one. */
export function compareList() {
  const { announced, facts } = session;
  if (announced === null) return;
  clearRefusals("announcement");
  const other = facts && unannouncedList(announced.announcement, facts);
  if (other) refuse(other);
}

/** Warns if the seed has another form than the announced example, or is this example. */
export function compareSeed() {
  const { announced } = session;
  const seed = part("seed").value;
  sayOnce("seed-form", announced === null || seed === "" ? "" : seedWarning(seed, announced.announcement));
}
