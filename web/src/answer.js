// Shows the answer to a check.

import { grouped, itemize, itemOf, nodesOf, noteOf, part, say } from "./view.js";

/** How many entrants of a record the answer shows. */
const ANSWERED = 100;

/** What the answer that is shown says of the occasion, for paper. */
const answered = { occasion: "" };

/** The occasion of the announcement to which the record belongs, quoted, or an empty text. */
export function occasionChecked() {
  return part("outcome").hidden ? "" : answered.occasion;
}

/** @param {import("./check.js").Check} check */
export function showCheck({ outcome, title, findings, reading }) {
  answered.occasion = reading?.occasion ?? "";
  part("outcome").hidden = false;
  part("outcome").dataset.outcome = outcome;
  say("outcome-title", title);
  itemize("findings", findings.filter(({ isWarning }) => !isWarning).map(noteOf));
  itemize("check-warnings", findings.filter(({ isWarning }) => isWarning).map(warningOf));
  part("reading").hidden = reading === null;
  say("unchecked", reading === null ? "" : uncheckedWords(reading));
  if (reading !== null) showReading(reading);
}

/** @param {import("./check.js").Finding} finding */
function warningOf({ text }) {
  return noteOf({ text: `Warning: ${text}` });
}

/** Which lines of the text were not checked. @param {import("./check.js").Reading} reading */
function uncheckedWords({ lines: [first, last], others }) {
  if (others === 0) return "";
  const lines = others === 1 ? "1 other line was" : `${grouped(others)} other lines were`;
  return `Only lines ${first} to ${last} of the text are the record. Its ${lines} not checked, and may say anything.`;
}

/** The heading above the entrants. Nobody is called a winner unless the record agrees with its announcement. */
function titleOfDrawn({ announcement, drawn, winners }) {
  if (winners === drawn) return "Winners";
  if (winners !== null) return `Winners (the first ${grouped(winners)}), and then reserves`;
  return announcement === "none" ? "In the order drawn"
    : "In the order drawn: winners, and then reserves if there are any";
}

/** What the record says. @param {import("./check.js").Reading} reading */
function showReading(reading) {
  const { lines: [first, last], announcement, seed, list, entrants, drawn, named } = reading;
  say("reading-title", `What the record says, in lines ${first} to ${last} of the text:`);
  say("announcement-label", announcement === "none" ? "Announcement" : "SHA-256 of the announcement");
  say("reading-announcement", announcement);
  part("reading-seed").replaceChildren(...nodesOf(seed));
  say("reading-list", list);
  say("reading-count", `${grouped(drawn)} of ${grouped(entrants)}`);
  say("drawn-label", titleOfDrawn(reading));
  itemize("reading-drawn", named.slice(0, ANSWERED).map(itemOf));
  const left = drawn - Math.min(named.length, ANSWERED);
  say("reading-more", left > 0 ? `and ${grouped(left)} more` : "");
}
