// Shows the result of a draw.

import { grouped, itemOf, part, say, unhideResult, withDigests } from "./view.js";

/** The winners that are shown without a box in which they scroll. */
const WITHOUT_BOX = 100;

/** The heading above the entrants drawn. Without an announcement nobody is called a winner. */
function titleOfResult({ entrants, drawn, winners }) {
  if (drawn === 0) return "Nobody was drawn.";
  if (winners === null) return `${grouped(drawn)} of ${grouped(entrants)} drawn, in this order:`;
  return winners === 1 ? "The winner:" : `The ${grouped(winners)} winners, in the order drawn:`;
}

/** The heading above the reserves. @param {number} count */
function titleOfReserves(count) {
  if (count === 0) return "";
  return count === 1 ? "The reserve, who takes the place of a winner who declines:"
    : `The ${grouped(count)} reserves, in the order in which they take the places of winners who decline:`;
}

/**
 * Shows some of the entrants drawn.
 * @param {string} id @param {import("./entrant.js").Shown[]} named @param {number} first the number of the first one
 */
function showNamed(id, named, first) {
  part(id).replaceChildren(...named.map(itemOf));
  part(id).start = first;
  part(id).hidden = named.length === 0;
  part(id).classList.toggle("boxed", named.length > WITHOUT_BOX);
}

/** @param {Object} drawing the worker's answer to a draw. `winners` is null if the draw was not announced. */
export function showResult({ entrants, drawn, winners, named, hasEscapes, record }) {
  const won = winners ?? drawn;
  unhideResult();
  say("publish-words", "Save the record, and publish it beside the list" +
    `${winners === null ? "" : " and the announcement"}.`);
  say("result-title", titleOfResult({ entrants, drawn, winners }));
  showNamed("drawn", named.slice(0, won), 1);
  say("reserves-title", titleOfReserves(drawn - won));
  showNamed("reserves-drawn", named.slice(won), won + 1);
  const left = drawn - named.length;
  say("more", left > 0 ? `and ${grouped(left)} more, in the result that you can save` : "");
  say("chance", drawn === 0 ? "" : `The chance of each entrant: ${grouped(won)} of ${grouped(entrants)}`);
  say("unannounced", winners !== null ? "" : "The record names no announcement. So nothing shows that the list was " +
    "closed before the seed was known.");
  say("escapes", hasEscapes
    ? "In the record, \\x and two digits stand for a byte that is no visible letter, and \\x5c for a backslash." : "");
  part("record").replaceChildren(...withDigests(record));
}
