// Opens files that are chosen or dropped. The first line of each says whether it is the list, the record or the
// announcement.

import { openAnnouncement } from "./announced.js";
import { readForField, showForCheck } from "./checking.js";
import { kindOfFile, START } from "./kinds.js";
import { openFile } from "./listing.js";
import { Refusal } from "./refusal.js";
import { refuse } from "./session.js";
import { clearRefusals, part, tabShown } from "./view.js";

/** @typedef {(kind: "record"|"announcement", bytes: Uint8Array) => void} Take */

/** How often files were opened, and which of these times had the last record and the last announcement. */
const opened = { times: 0, record: 0, announcement: 0 };

/** Takes a file that is no list, as the tab says. @type {Take} */
function takeOther(kind, bytes) {
  if (tabShown() === "check") showForCheck(kind, bytes);
  else if (kind === "announcement") openAnnouncement(bytes);
  else refuse(new Refusal("file is a record"));
}

/** For the files that are opened now. It leaves out those that are read after later ones of their kind. @returns {Take} */
function takeNow() {
  opened.times += 1;
  const { times } = opened;
  return (kind, bytes) => {
    if (times < opened[kind]) return;
    opened[kind] = times;
    takeOther(kind, bytes);
  };
}

/** Resolves once the kinds of all files that were opened so far are known. So the list that is opened last stays. */
let opening = Promise.resolve();

/** Opens files once those that were opened before have been. @param {() => void|Promise<void>} open */
function inTurn(open) {
  opening = opening.then(open, open);
}

/** @param {unknown} error */
function refuseFiles(error) {
  const unread = new Refusal(tabShown() === "check" ? "record cannot be read" : "list cannot be read");
  refuse(error instanceof Refusal ? error : unread);
}

/** @param {File} file @param {import("./kinds.js").Kind} kind @param {Take} take */
async function openAs(file, kind, take) {
  if (kind === "list") openFile(file, take);
  else take(kind, new Uint8Array(await file.arrayBuffer()));
}

/** Throws a Refusal if two files are of one kind. @param {File[]} files @param {import("./kinds.js").Kind[]} kinds */
function refuseTwo(files, kinds) {
  const second = kinds.findIndex((kind, place) => kinds.indexOf(kind) < place);
  if (second < 0) return;
  const kind = kinds[second];
  const names = [files[kinds.indexOf(kind)].name, files[second].name];
  throw new Refusal(tabShown() === "check" ? "two files to check" : "two files", { kind, names });
}

/**
 * Opens each file as what its first line says, or none of them if two are of one kind.
 * @param {File[]} files @param {Take} take
 */
async function openTogether(files, take) {
  try {
    const starts = await Promise.all(files.map((file) => file.slice(0, START).arrayBuffer()));
    const kinds = starts.map((start) => kindOfFile(new Uint8Array(start)));
    refuseTwo(files, kinds);
    for (const [place, file] of files.entries()) openAs(file, kinds[place], take).catch(refuseFiles);
  } catch (error) {
    refuseFiles(error);
  }
}

/** Opens dropped files. One that is dropped alone on a field of the check is for this field. @param {DragEvent} event */
export function filesDropped(event) {
  const files = Array.from(event.dataTransfer.files);
  if (files.length === 0) return;
  event.preventDefault();
  clearRefusals("file", "record", "check-announcement");
  const { target } = event;
  const take = takeNow();
  const isAlone = files.length === 1;
  if (isAlone && ["check-text", "check-announcement"].includes(target.id)) readForField(files[0], target.id, take);
  else if (isAlone && !part("check-step").contains(target)) inTurn(() => openFile(files[0], take));
  else inTurn(() => openTogether(files, take));
}

/** Opens the chosen file. The field forgets it, so that the same file can be opened again once it has changed. */
export function fileChosen() {
  clearRefusals("file");
  const [file] = part("list-file").files;
  const take = takeNow();
  inTurn(() => openFile(file, take));
  part("list-file").value = "";
}
