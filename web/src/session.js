// What the steps of the page share: the worker, the result that is shown, and errors.

import { Client } from "./client.js";
import { quotedText } from "./quoted.js";
import { Refusal } from "./refusal.js";
import { fieldOf, hideResult, part, say, showRefusal, unhideResult } from "./view.js";

/** In milliseconds: the delay before progress is shown. */
const MOMENT = 500;

/**
 * `turn` counts the changes of the list, the seed and the count, and the draws: an answer to an earlier
 * turn is not shown. `result` is the result of the last draw, as bytes, with the SHA-256 of its list, and
 * the seed, the count and the announcement that were there for it, or null. `announced` is the announcement that
 * was opened, or null. `facts` has the SHA-256 of the list and its number of entrants, or is null while they are
 * not known; `watch` is called after each change of them. `showing` is the timer until progress is shown.
 */
export const session = { turn: 0, result: null, announced: null, facts: null, watch: () => {}, showing: 0 };

/** @param {?{digest: string, entrants: number}} facts about the list, or null if it is being changed */
export function setFacts(facts) {
  session.facts = facts;
  session.watch();
}

export const client = new Client(part("worker").textContent, tellProgress);

/** Sets the text of the progress, and shows it once the work takes longer than `MOMENT`. */
function tellProgress(progress) {
  say("progress-text", progress);
  if (progress === "") {
    clearTimeout(session.showing);
    session.showing = 0;
    part("progress").hidden = true;
  } else if (session.showing === 0) {
    session.showing = setTimeout(() => { part("progress").hidden = false; }, MOMENT);
  }
}

/** Shows the error of a task beside its field. @param {unknown} error */
export function refuse(error) {
  showRefusal(Refusal.of(error));
}

/** Shows an error, and moves the focus to its field. @param {unknown} error */
export function refuseHere(error) {
  refuse(error);
  const field = fieldOf(Refusal.of(error).field);
  field?.focus();
  if (field === part("questions")) part("question-error").scrollIntoView({ block: "start" });
}

/** Enables a button that was disabled while it worked, and gives it the focus back if nothing else has it. */
export function enable(id) {
  part(id).disabled = false;
  if (document.activeElement === document.body) part(id).focus();
}

/** Forgets the last result before a draw. */
export function forgetResult() {
  session.result = null;
  hideResults();
}

/** Hides the results after a change of the list, as they belong to the list before it. */
export function hideResults() {
  session.turn += 1;
  hideResult(session.result === null ? "" : "The list has changed since the draw. Draw again, or open the list of the draw.");
  part("outcome").hidden = true;
  markResult();
}

/** Shows the last result again if the list is that of its draw. @param {string} digest of the list */
export function recallResult(digest) {
  if (session.result?.list !== digest) return;
  unhideResult();
  markResult();
}

/** After a change of the seed, the count or the announcement, the winners that are shown are marked as those of before. */
export function fieldChanged() {
  session.turn += 1;
  part("outcome").hidden = true;
  markResult();
}

/** Why the winners that are shown are not of what is typed now, for the fields and beside the winners, or null. */
function changeSince({ seed, count, announced }) {
  if (seed !== part("seed").value || count !== part("count").value) {
    return ["The winners below belong to the seed and the number before this change.",
      `These winners belong to the seed ${quotedText(seed)} and the number ${count}, and not to what you have typed ` +
      "since. Press Draw to draw with that."];
  }
  if (announced === digestAnnounced()) return null;
  return ["The record below was made before the announcement was opened or taken away.",
    `This record names ${announced === null ? "no announcement" : `the announcement with the SHA-256 ${announced}`}. ` +
    "Press Draw to draw with what is open now."];
}

/** The SHA-256 of the announcement that is open, or null. */
export function digestAnnounced() {
  return session.announced && session.announced.digest;
}

/** Says so if the winners that are shown are not of the seed, the count and the announcement that are there now. */
export function markResult() {
  const { result } = session;
  const change = result === null || part("result").hidden ? null : changeSince(result);
  say("changed", change === null ? "" : change[0]);
  say("stale", change === null ? "" : change[1]);
}
