// The web page: what its fields and buttons do.

import { compareList, compareSeed, occasionOfList, occasionOfResult, openMade, takeAway } from "./announced.js";
import {
  announceList, announceTyped, beginAnnouncing, bytesMade, occasionMade, presetChosen, printAnnouncement,
  saveAnnouncement,
} from "./announcing.js";
import { occasionChecked } from "./answer.js";
import { announcementTyped, checkNow, recordChanged } from "./checking.js";
import { showResult } from "./drawn.js";
import { fileChosen, filesDropped } from "./files.js";
import { keepTexts } from "./filling.js";
import { bitsOfBrowser } from "./module.js";
import {
  answerQuestion, askFirst, askToLeave, closeFile, cure, listBegun, listSent, listTyped, pasteLong, saveList, tidy, undo,
} from "./listing.js";
import { quotedText } from "./quoted.js";
import { Refusal } from "./refusal.js";
import {
  client, digestAnnounced, enable, fieldChanged, forgetResult, markResult, refuse, refuseHere, session,
} from "./session.js";
import { clearRefusals, copy, fieldOf, goTo, part, save, say, showPaper, showTab } from "./view.js";

/** A longer seed than this is shown below its field, which is too short for it on a phone. */
const LONG_SEED = 20;

function seedChanged() {
  fieldChanged();
  clearRefusals("seed");
  const seed = part("seed").value;
  const isOdd = /^\s|\s$| {2}|[^\x20-\x7e]/.test(seed);
  const advice = isOdd ? " Each space, sign and accent counts: others must type exactly the same." : "";
  const isShown = isOdd || seed.length > LONG_SEED;
  say("seed-read", isShown ? `The seed is read as ${quotedText(seed)}.${advice}` : "");
  compareSeed();
}

/** Tells screen readers how the seed is read, once it has been typed. */
function seedTyped() {
  part("heard").textContent = part("seed-read").textContent;
}

function countChanged() {
  fieldChanged();
  clearRefusals("count");
}

async function drawNow() {
  clearRefusals("seed", "count", "question", "page");
  forgetResult();
  const { turn } = session;
  part("draw").disabled = true;
  try {
    if (await listSent()) {
      askFirst();
      const fields = { seed: part("seed").value, count: part("count").value };
      const announced = digestAnnounced();
      const drawing = await client.ask("draw", { ...fields, announced: session.announced && session.announced.bytes });
      if (turn === session.turn) showDrawing(drawing, { ...fields, announced });
    } else if (turn === session.turn) {
      fieldOf("list").focus();
    }
  } catch (error) {
    if (turn === session.turn) refuseHere(error);
  } finally {
    enable("draw");
  }
}

function showDrawing(drawing, fields) {
  session.result = { ...fields, list: drawing.list, bytes: drawing.result };
  showResult(drawing);
  markResult();
  goTo("result-title");
}

/**
 * Starts the module, and shows which one runs. If none can, shows the reason, and rejects every
 * later task with it.
 */
async function start() {
  try {
    const bits = bitsOfBrowser();
    const codes = ["module", "module32"].map((id) => part(id).textContent);
    const { version, module, words } = await client.ask("start", { codes, bits });
    say("maker", `Version ${version}, module SHA-256 ${module}, ${words}`);
    part("draw").disabled = false;
    part("check").disabled = false;
    listBegun();
    seedChanged();
  } catch (error) {
    client.stop(Refusal.of(error));
    refuse(error);
  }
}

/** What a button prints, while it does so. The browser's own menu prints what the tab shows. */
let paperAsked;

/**
 * The occasion of the announcement of what is printed, quoted, or an empty text.
 * @type {Record<import("./view.js").Paper, () => string>}
 */
const OCCASIONS = { list: occasionOfList, announcement: occasionMade, result: occasionOfResult, check: occasionChecked };

/** Shows what is printed, and the occasion if an announcement says it. @param {import("./view.js").Paper} [paper] */
function showPrinted(paper) {
  part("paper-occasion").textContent = OCCASIONS[showPaper(paper)]();
}

/** @param {import("./view.js").Paper} paper */
function printPaper(paper) {
  paperAsked = paper;
  showPrinted(paper);
  print();
  paperAsked = undefined;
}

/** @param {string} id @param {string} event @param {(event: Event) => void} action */
function on(id, event, action) {
  part(id).addEventListener(event, action);
}

/**
 * Moves between the two tabs: an arrow key to the other one, Home to the first, End to the last.
 * @param {KeyboardEvent} event
 */
function moveTab(event) {
  const other = event.target.id === "tab-draw" ? "check" : "draw";
  const name = { ArrowLeft: other, ArrowRight: other, Home: "draw", End: "check" }[event.key];
  if (!name) return;
  event.preventDefault();
  showTab(name);
  part(`tab-${name}`).focus();
}

/**
 * Enter draws, unless it ends a word of an input method: for that Safari sends the code 229.
 * @param {KeyboardEvent} event
 */
function drawOnEnter(event) {
  const isComposing = event.isComposing || event.keyCode === 229;
  if (event.key === "Enter" && !isComposing && !part("draw").disabled) drawNow();
}

on("list-text", "input", () => listTyped());
on("list-text", "paste", pasteLong);
on("open-file", "click", () => part("list-file").click());
on("list-file", "change", fileChosen);
on("close-file", "click", closeFile);
for (const change of ["empty", "trim", "unique"]) on(`tidy-${change}`, "click", () => tidy(change));
on("undo", "click", undo);
on("list-warnings", "click", cure);
on("questions", "click", answerQuestion);
on("seed", "input", seedChanged);
on("seed", "change", seedTyped);
on("count", "input", countChanged);
on("seed", "keydown", drawOnEnter);
on("count", "keydown", drawOnEnter);
for (const name of ["draw", "check"]) {
  on(`tab-${name}`, "click", () => showTab(name));
  on(`tab-${name}`, "keydown", moveTab);
}
document.addEventListener("dragover", (event) => {
  if (event.dataTransfer.types.includes("Files")) event.preventDefault();
});
document.addEventListener("drop", filesDropped);
on("check-text", "input", recordChanged);
on("check-announcement", "input", announcementTyped);
for (const field of part("announce").querySelectorAll("input, textarea")) field.addEventListener("input", announceTyped);
on("preset", "change", presetChosen);
on("announce", "change", keepTexts);
on("save-announcement", "click", saveAnnouncement);
on("print-announcement", "click", () => printAnnouncement(printPaper));
on("open-made", "click", () => openMade(bytesMade()));
on("take-away", "click", takeAway);
on("draw", "click", drawNow);
on("check", "click", checkNow);
on("copy-digest", "click", () =>
  copy(part("copy-digest"), part("list-digest").textContent));
on("copy-record", "click", () => copy(part("copy-record"), part("record").textContent));
on("save-list", "click", saveList);
on("save-record", "click", () => save(part("record").textContent, "record.txt"));
on("save-result", "click", () => save(session.result.bytes, "result.txt"));
for (const [id, paper] of [["print-list", "list"], ["print", "result"], ["print-check", "check"]]) {
  on(id, "click", () => printPaper(paper));
}
addEventListener("beforeprint", () => showPrinted(paperAsked));
addEventListener("afterprint", () => showPrinted());
addEventListener("beforeunload", askToLeave);
session.watch = () => {
  announceList();
  compareList();
};
beginAnnouncing();
showPaper();
start();
