// The list on the page: typed, pasted or opened, changed by buttons, and saved.

import { textOf } from "./bytes.js";
import { kindBelow, kindOfFile } from "./kinds.js";
import { listOfText } from "./list.js";
import { Refusal } from "./refusal.js";
import { client, hideResults, recallResult, refuse, setFacts } from "./session.js";
import {
  clearRefusals, grouped, hideList, part, save, say, showList, showOpened, showQuestions, tabShown,
} from "./view.js";

/** In milliseconds: the pause between the last change of a pasted list and sending it to the worker. */
const PAUSE = 300;
/** The page keeps a paste of this length or more as a file: browsers lay out long fields slowly. */
const LARGE = 100000;
const PASTED = "Pasted text";
/** The name of the file that the page saves. */
const SAVED = "entrants.txt";

/**
 * `file` holds the bytes of the opened file or of a long paste, or is null if the list is the text
 * in the field; `name` is what the page calls the file. `bytes` is the list itself. `origin` says
 * which file has these bytes: the one that was "opened", none ("unsaved"), or one that the page has
 * "saved". `before` has the list before each change that can be undone. `sent` promises whether the
 * worker has the list. `pending` is the timer until a changed list is sent. `turn` counts the changes:
 * an answer to an earlier one is not shown. `questions` are those that are open, and `kept` has those
 * that were answered by keeping the list. `isUnread` says that the file could not be read. `opened` has the files that
 * are being read, and the list to bring back if none of them is a list; or it is null.
 */
const held = {
  file: null, name: "", bytes: new Uint8Array(0), origin: "unsaved", before: [], sent: Promise.resolve(false),
  pending: 0, turn: 0, questions: [], kept: new Set(), isUnread: false, opened: null,
};

/** The list as it is now: the file, or the text in the field. @returns {Uint8Array} */
function listNow() {
  if (held.isUnread) throw new Refusal("list cannot be read");
  return held.file ?? listOfText(part("list-text").value);
}

/**
 * Sends the list to the worker, and shows its answer.
 * @returns {Promise<boolean>} whether the worker has the list and found no error in it
 */
async function sendList() {
  const { turn } = held;
  held.pending = 0;
  try {
    held.bytes = listNow();
    part("tidy").hidden = held.bytes.length === 0 && held.before.length === 0;
    const facts = await client.ask("list", { list: held.bytes });
    if (turn !== held.turn) return true;
    if (held.bytes.length > 0) showFacts(facts);
    else if (held.file !== null) refuse(new Refusal("file is empty"));
    return true;
  } catch (error) {
    if (turn === held.turn) refuse(error);
    return false;
  }
}

/** @param {Object} facts the worker's answer to a list */
function showFacts(facts) {
  showList(facts);
  showOrigin();
  held.questions = facts.questions.filter(({ id }) => !held.kept.has(id));
  showQuestions(held.questions);
  setFacts(facts);
  recallResult(facts.digest);
}

/** Shows which file has the list, or that no file has it yet. */
function showOrigin() {
  const { file, name, origin } = held;
  const isUnsaved = origin === "unsaved";
  const unsaved = name === PASTED ? "not saved yet: save it" : "changed here: save it";
  const state = { opened: "", unsaved, saved: "saved from this page" }[origin];
  const size = file === null ? "" : `${grouped(file.length)} bytes`;
  say("file-name", file === null ? "" : [name, size, state].filter(Boolean).join(", "));
  const pasted = isUnsaved ? "Pasted here: save it, and publish the file that you saved." : `${SAVED}, ${state}`;
  say("unsaved", file === null ? pasted : "");
}

/** Stops the timer until a changed list is sent. */
function stopTimer() {
  clearTimeout(held.pending);
  held.pending = 0;
}

/** Handles a change of the list. Sends it after a pause, in milliseconds, as typing may go on. */
function listChanged(pause) {
  hideResults();
  held.turn += 1;
  held.opened = null;
  held.questions = [];
  setFacts(null);
  stopTimer();
  clearRefusals("list", "question", "page");
  hideList();
  part("tidy").hidden = true;
  part("undo").hidden = true;
  held.pending = setTimeout(() => { held.sent = sendList(); }, pause);
}

/** Begins another list, which has no changes to undo. @param {number} pause @param {"opened"|"unsaved"} origin */
function otherList(pause, origin) {
  held.before = [];
  held.origin = origin;
  held.isUnread = false;
  listChanged(pause);
}

/** Handles a change of the text in the field. @param {number} [pause] */
export function listTyped(pause = PAUSE) {
  otherList(pause, "unsaved");
}

/** Reads the field if no list was opened before the module had started: a browser may have kept its text. */
export function listBegun() {
  if (held.turn === 0) listTyped(0);
}

/**
 * Sends the list at once if it waits for its pause.
 * @returns {Promise<boolean>} whether the worker has the list that the page shows
 */
export function listSent() {
  if (held.pending !== 0) {
    stopTimer();
    held.sent = sendList();
  }
  return held.sent;
}

/** Throws a Refusal if a question about the list is open. */
export function askFirst() {
  if (held.questions.length > 0) throw new Refusal("list is a question");
}

/** The list that is there, to be brought back. */
function listAsItIs() {
  const { file, name, origin, before, kept, isUnread } = held;
  return { file, name, origin, before, kept: new Set(kept), isUnread };
}

/** Brings back a list that was there before. @param {Object} earlier */
function bringBack(earlier) {
  Object.assign(held, earlier);
  if (held.file === null && !held.isUnread) showOpened(false);
  else showFile(held.name);
  listChanged(0);
}

/**
 * Opens a file as the list. If it is none, `takeOther` gets its kind and its bytes, and the list stays.
 * @param {File|undefined} file @param {(kind: import("./kinds.js").Kind, bytes: Uint8Array) => void} takeOther
 */
export function openFile(file, takeOther) {
  if (!file) return;
  const { files, earlier } = held.opened ?? { files: [], earlier: listAsItIs() };
  held.kept.clear();
  otherList(PAUSE, "opened");
  stopTimer();
  const opened = { name: file.name, size: file.size, sent: Promise.resolve(false) };
  held.opened = { files: [...files, opened], earlier };
  opened.sent = readFile(file, opened, takeOther);
  waitFor(opened);
}

/** Shows the file that will be the list if it is one, and waits for it before a draw. */
function waitFor({ name, size, sent }) {
  showFile(name);
  say("file-name", `${name}, ${grouped(size)} bytes`);
  held.sent = sent;
}

/** Reads a file, and takes it as the list or as what it is. @returns {Promise<boolean>} as sendList */
async function readFile(file, opened, takeOther) {
  let bytes = null;
  try {
    bytes = new Uint8Array(await file.arrayBuffer());
  } catch {
    return takeList(opened, { file: null, isUnread: true });
  }
  const first = kindOfFile(bytes);
  const kind = first === "list" && tabShown() === "check" ? kindBelow(bytes) : first;
  if (kind === "list") return takeList(opened, { file: bytes, isUnread: false });
  const isAwaited = leaveOut(opened);
  takeOther(kind, bytes);
  return isAwaited && listSent();
}

/**
 * Takes a file as the list, unless the list has changed since it was opened. If other files were opened since, it is the
 * list to bring back if they are none.
 * @param {Object} opened @param {{file: ?Uint8Array, isUnread: boolean}} list @returns {Promise<boolean>} as sendList
 */
async function takeList(opened, list) {
  const place = held.opened?.files.indexOf(opened) ?? -1;
  if (place < 0) return false;
  const files = held.opened.files.slice(place + 1);
  if (files.length > 0) {
    const earlier = { ...list, name: opened.name, origin: "opened", before: [], kept: new Set() };
    held.opened = { files, earlier };
    return false;
  }
  held.opened = null;
  Object.assign(held, list);
  return sendList();
}

/**
 * Leaves out a file that is no list: another one that is being read may be it, and otherwise the list before comes back.
 * @returns {boolean} whether the list had not changed since the file was opened
 */
function leaveOut(opened) {
  if (!held.opened?.files.includes(opened)) return false;
  const files = held.opened.files.filter((other) => other !== opened);
  if (files.length === 0) bringBack(held.opened.earlier);
  else {
    held.opened.files = files;
    waitFor(files[files.length - 1]);
  }
  return true;
}

/** Shows the name of a file in place of the field. @param {string} name */
function showFile(name) {
  held.name = name;
  showOpened(true);
  say("file-name", name);
}

/** Keeps a long pasted text as if it were a file. @param {ClipboardEvent} event */
export function pasteLong(event) {
  const pasted = event.clipboardData.getData("text/plain");
  if (pasted.length < LARGE) return;
  event.preventDefault();
  const { value, selectionStart, selectionEnd } = part("list-text");
  const text = value.slice(0, selectionStart) + pasted + value.slice(selectionEnd);
  part("list-text").value = "";
  otherList(0, "unsaved");
  try {
    held.file = listOfText(text.replace(/\r\n?/g, "\n"));
    showFile(PASTED);
    showOrigin();
    part("close-file").focus();
  } catch (error) {
    stopTimer();
    held.sent = Promise.resolve(false);
    refuse(error);
  }
}

/** Goes back to the text in the field. A file with changes that are not saved can be brought back. */
export function closeFile() {
  const { file, name, origin, before } = held;
  held.file = null;
  held.kept.clear();
  showOpened(false);
  part("list-text").focus();
  listTyped(0);
  if (origin !== "unsaved") return;
  held.before = [...before, { list: file, isFile: true, name, origin }];
  part("undo").hidden = false;
}

/** Changes the list, and says how many lines changed. @param {string} change as in tidy.js */
export async function tidy(change) {
  const { turn } = held;
  try {
    const list = listNow();
    const tidied = await client.ask("tidy", { list, change });
    if (turn !== held.turn) return;
    if (tidied.changed > 0) {
      const { file, name, origin } = held;
      held.before.push({ list, isFile: file !== null, name, origin });
      replaceList({ list: tidied.list, isFile: file !== null, name, origin: "unsaved" });
    }
    await sayChanged(tidyWords(tidied));
  } catch (error) {
    if (turn === held.turn) refuse(error);
  }
}

/** @param {{changed: number, verb: string}} answer the worker's answer to a change */
function tidyWords({ changed, verb }) {
  if (changed === 0) return "No line was changed: the SHA-256 is as before.";
  const lines = changed === 1 ? "1 line was" : `${grouped(changed)} lines were`;
  return `${lines} ${verb}. The list has a new SHA-256.`;
}

/** Takes back the last change. */
export async function undo() {
  replaceList(held.before.pop());
  await sayChanged("The last change is undone: the list is as it was before.");
}

/** Says what was changed once the changed list is shown, unless the list has changed meanwhile. */
async function sayChanged(words) {
  const { turn } = held;
  await listSent();
  if (turn !== held.turn) return;
  say("tidied", words);
  part("undo").hidden = held.before.length === 0;
  if (document.activeElement === document.body) part(part("undo").hidden ? "tidy-empty" : "undo").focus();
}

/** Puts another list in place of the one that is shown. */
function replaceList({ list, isFile, name, origin }) {
  held.name = name;
  held.origin = origin;
  if (isFile) {
    held.file = list;
    showFile(name);
  } else part("list-text").value = textOf(list);
  listChanged(0);
  showOrigin();
}

/** Makes the change of the button that was pressed in a warning or a question. @param {Event} event */
export function cure({ target }) {
  if (target.dataset.change) tidy(target.dataset.change);
}

/** Keeps the list, or changes it, as the answer to a question says. @param {Event} event */
export function answerQuestion(event) {
  const question = event.target.closest("button")?.closest(".question");
  if (!question) return;
  clearRefusals("question");
  cure(event);
  if (event.target.dataset.change) return;
  held.kept.add(question.dataset.question);
  held.questions = held.questions.filter(({ id }) => !held.kept.has(id));
  showQuestions(held.questions);
  part("copy-digest").focus();
}

/** Saves the list as a file, which then has these bytes. */
export function saveList() {
  save(held.bytes, SAVED);
  if (held.origin === "opened") return;
  held.name = SAVED;
  held.origin = "saved";
  showOrigin();
}

/** Asks before a list is lost that no file has, but not whoever checks a draw. @param {BeforeUnloadEvent} event */
export function askToLeave(event) {
  if (held.origin !== "unsaved" || held.bytes.length === 0 || tabShown() === "check") return;
  event.preventDefault();
  event.returnValue = true;
}
