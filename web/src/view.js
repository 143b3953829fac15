// What the page shows. Nothing here computes.

import { isUnseen } from "./bytes.js";
import { ANNOUNCE_FIELDS } from "./fields.js";
import { nameOf } from "./names.js";

/** @param {string} id @returns {HTMLElement} */
export function part(id) {
  return document.getElementById(id);
}

/** Shows a text, or hides its element if it is empty. @param {string} id @param {string} text */
export function say(id, text) {
  part(id).textContent = text;
  part(id).hidden = text === "";
}

/** As `say`, but leaves a text that is there already, so that screen readers do not read it again at each key. */
export function sayOnce(id, text) {
  if (part(id).textContent !== text) say(id, text);
}

/**
 * A new element with a class and content.
 * @param {string} tag @param {string} name @param {...(string|Node)} content
 */
function made(tag, name, ...content) {
  const element = document.createElement(tag);
  element.className = name;
  element.append(...content);
  return element;
}

/**
 * Shows one item for each element of a list, or hides the list if there are none.
 * @param {string} id @param {HTMLElement[]} items
 */
export function itemize(id, items) {
  part(id).replaceChildren(...items);
  part(id).hidden = items.length === 0;
}

/** The fields that each kind of error can belong to. A list is a pasted text or a file. */
const FIELDS = {
  seed: ["seed"], count: ["count"], list: ["list-text", "open-file"], question: ["questions"],
  record: ["check-text"], "check-announcement": ["check-announcement"], announcement: ["take-away", "open-file"],
  announce: ANNOUNCE_FIELDS, file: ["open-file"], page: [],
};

/** The visible one of these fields. @param {string} kind @returns {HTMLElement|undefined} */
export function fieldOf(kind) {
  return FIELDS[kind].map(part).find((field) => field.getClientRects().length > 0);
}

/** Shows an error beside its field. @param {import("./refusal.js").Refusal} refusal */
export function showRefusal(refusal) {
  say(`${refusal.field}-error`, refusal.words);
  const field = fieldOf(refusal.field);
  if (field?.matches("input, textarea")) field.setAttribute("aria-invalid", "true");
}

/** Removes the errors of some kinds. @param {...string} kinds */
export function clearRefusals(...kinds) {
  for (const kind of kinds) {
    say(`${kind}-error`, "");
    for (const field of FIELDS[kind]) part(field).removeAttribute("aria-invalid");
  }
}

/** The digits in groups of three with narrow spaces, such as 1 000 000. @param {number} number */
export function grouped(number) {
  return String(number).replace(/\B(?=(\d{3})+$)/g, "\u202f");
}

/** The letters with these code points, and the code of each. An invisible one is its code alone. */
function marked(codes) {
  const letters = codes.map((code) => String.fromCodePoint(code)).filter((letter) => !isUnseen(letter));
  return made("mark", "", letters.join(""), made("span", "codes", codes.map(nameOf).join(" ")));
}

/**
 * What `partsOf` returns, as nodes: each invisible character is replaced by its name.
 * @param {(string|number|number[])[]} parts
 */
export function nodesOf(parts) {
  return parts.map((piece) => {
    if (typeof piece === "string") return piece;
    return typeof piece === "number" ? made("span", "unseen", nameOf(piece)) : marked(piece);
  });
}

/** The pieces of a text. Each digest is an element of its own, which the style breaks into rows. */
export function withDigests(text) {
  return text.split(/\b([0-9a-f]{64})$/m).map((piece, index) =>
    (index % 2 === 0 ? piece : made("span", "digest", piece)));
}

/** A list item for an entrant or a line. @param {import("./entrant.js").Shown} shown */
export function itemOf({ isText, parts }) {
  return made("li", isText ? "text" : "bytes", ...nodesOf(parts));
}

/** Lines with their names, one above the other. */
function linesOf(lines) {
  return made("ul", "lines", ...lines.map(({ name, line }) => made("li", "", `${name}: `, ...nodesOf(line.parts))));
}

/** A button that makes a change of the list. @param {{label: string, change?: string}} choice */
function buttonOf({ label, change }) {
  const button = made("button", "", label);
  button.type = "button";
  if (change) button.dataset.change = change;
  return button;
}

/** A warning or a finding as a list item. @param {import("./warnings.js").Warning} note */
export function noteOf({ text, lines = [], cure }) {
  return made("li", "", text, ...(lines.length > 0 ? [linesOf(lines)] : []), ...(cure ? [" ", buttonOf(cure)] : []));
}

/** Shows the name of a file in place of the field for a list, or the field. @param {boolean} isOpened */
export function showOpened(isOpened) {
  part("opened").hidden = !isOpened;
  part("pasted").hidden = isOpened;
}

/** Hides what the page shows about the list. */
export function hideList() {
  say("tidied", "");
  say("entrants", "");
  itemize("list-warnings", []);
  itemize("preview", []);
  showQuestions([]);
  part("list-facts").hidden = true;
}

/** A line of the preview, which has its number. */
function previewItem({ number, line, isCut }) {
  const item = itemOf(line);
  item.value = number;
  if (isCut) item.append(" …");
  return item;
}

/** The preview of a list, with a sign where lines are left out. */
function previewItems(preview) {
  return preview.flatMap((line, index) => {
    const isNext = index === 0 || preview[index - 1].number + 1 === line.number;
    return isNext ? [previewItem(line)] : [made("li", "gap", "…"), previewItem(line)];
  });
}

/** @param {Object} facts the worker's answer to a list */
export function showList({ digest, entrants, preview, warnings }) {
  say("entrants", entrants === 1 ? "1 entrant" : `${grouped(entrants)} entrants`);
  say("list-digest", digest);
  itemize("preview", part("opened").hidden ? [] : previewItems(preview));
  itemize("list-warnings", warnings.map(noteOf));
  part("list-facts").hidden = false;
}

/**
 * Shows the questions that are open. Until they are answered, the page shows nothing to publish.
 * @param {import("./questions.js").Question[]} questions
 */
export function showQuestions(questions) {
  part("list-facts").classList.toggle("waits", questions.length > 0);
  itemize("questions", questions.map(({ id, text, above, lines, choices }) => {
    const question = made("div", "question", made("p", "asked", text),
      ...(above ? [made("p", "hint", above)] : []),
      ...(lines.length > 0 ? [made("ul", "lines", ...lines.map(itemOf))] : []),
      made("p", "buttons", ...choices.map(buttonOf)));
    question.dataset.question = id;
    question.setAttribute("role", "group");
    question.setAttribute("aria-label", text);
    return question;
  }));
}

/** Shows the result of a draw in place of the hint. */
export function unhideResult() {
  part("result").hidden = false;
  part("publish-hint").hidden = true;
  showPaper();
}

/** Hides the result of a draw. @param {string} words why there is none, if there was one */
export function hideResult(words) {
  part("result").hidden = true;
  say("publish-hint", words || "Draw first. The winners and a record appear here.");
  showPaper();
}

/** The texts around the list, for each tab. */
const LIST_WORDS = {
  draw: {
    "list-heading": "1. Close the list",
    "list-hint": "Open the file with the names, one on each line, and correct what the page finds. Then " +
      "publish the list with its SHA-256 (a fingerprint: it changes if a single letter changes), before " +
      "anybody knows the seed.",
    "digest-label": "SHA-256 to publish:",
  },
  check: {
    "list-heading": "The list",
    "list-hint": "Open the list that was published, as a file if there is one: each byte counts.",
    "digest-label": "SHA-256, to compare with the one that was published:",
  },
};

/** Shows the parts of a tab. @param {"draw"|"check"} name */
export function showTab(name) {
  for (const tab of document.querySelectorAll("[role=tab]")) {
    const isChosen = tab.id === `tab-${name}`;
    tab.setAttribute("aria-selected", String(isChosen));
    tab.tabIndex = isChosen ? 0 : -1;
  }
  part("panel").setAttribute("aria-labelledby", `tab-${name}`);
  for (const id of ["draw-step", "publish-step"]) part(id).hidden = name !== "draw";
  part("check-step").hidden = name !== "check";
  for (const [id, words] of Object.entries(LIST_WORDS[name])) say(id, words);
  clearRefusals("file");
  showPaper();
}

/** @returns {"draw"|"check"} the tab that is shown */
export function tabShown() {
  return part("check-step").hidden ? "draw" : "check";
}

/** Moves the focus to a heading, and the heading to the top of the window. @param {string} id */
export function goTo(id) {
  part(id).focus({ preventScroll: true });
  part(id).scrollIntoView({ block: "start" });
}

/** @typedef {"list"|"announcement"|"result"|"check"} Paper */

const PAPERS = { list: "the closed list", announcement: "the announcement", result: "the result", check: "a check" };

/**
 * Decides what is printed, with its title and the date.
 * @param {Paper} [paper] or else the one of the tab, with a result if there is one
 * @returns {Paper}
 */
export function showPaper(paper) {
  const ofDraw = part("result").hidden ? "list" : "result";
  const chosen = paper ?? (tabShown() === "check" ? "check" : ofDraw);
  part("panel").dataset.paper = chosen;
  say("paper-title", `Public draw: ${PAPERS[chosen]}`);
  const date = new Intl.DateTimeFormat("en-GB", { dateStyle: "full", timeStyle: "long" });
  say("paper-date", `Printed on ${date.format(new Date())}`);
  return chosen;
}

/** Tells screen readers something for two seconds. @param {string} text */
export function tell(text) {
  part("heard").textContent = text;
  setTimeout(() => { part("heard").textContent = ""; }, 2000);
}

/** Offers bytes as a file to download. @param {BlobPart} bytes @param {string} name */
export function save(bytes, name) {
  const link = document.createElement("a");
  link.href = URL.createObjectURL(new Blob([bytes], { type: "application/octet-stream" }));
  link.download = name;
  link.click();
  setTimeout(() => URL.revokeObjectURL(link.href), 60000);
  tell(`Saved as ${name}`);
}

/**
 * Copies a text to the clipboard. The button, and screen readers, say whether that worked.
 * @param {HTMLElement} button @param {string} text
 */
export async function copy(button, text) {
  button.dataset.label ??= button.textContent;
  try {
    await navigator.clipboard.writeText(text);
    button.textContent = "Copied";
  } catch {
    button.textContent = "Not copied: select the text";
  }
  tell(button.textContent);
  setTimeout(() => { button.textContent = button.dataset.label; }, 2000);
}
