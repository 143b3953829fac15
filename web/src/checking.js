// The tab that checks a record: its fields, and its answer.

import { showCheck } from "./answer.js";
import { kindOfFile } from "./kinds.js";
import { listSent } from "./listing.js";
import { Refusal } from "./refusal.js";
import { client, enable, refuse, refuseHere, session } from "./session.js";
import { clearRefusals, fieldOf, goTo, part, tell } from "./view.js";

/** The bytes of the announcement that was dropped, and the text that the field then had; or null. */
const dropped = { announcement: null };

/** What is in the two fields. The announcement is null if there is none. */
function typedForCheck() {
  return { text: part("check-text").value, announcement: part("check-announcement").value };
}

/** The announcement as the check takes it: a file that was dropped is read as it is. @param {string} text */
function givenAnnouncement(text) {
  if (text.trim() === "") return null;
  return dropped.announcement?.text === text ? { bytes: dropped.announcement.bytes } : { text };
}

/** The text of a record without the byte order mark at its beginning, which some editors add. @param {string} text */
function withoutOrderMark(text) {
  return text.replace(/^\ufeff/, "");
}

export async function checkNow() {
  clearRefusals("record", "check-announcement", "page");
  part("outcome").hidden = true;
  part("check").disabled = true;
  const { turn } = session;
  const typed = typedForCheck();
  const isLate = () => turn !== session.turn || JSON.stringify(typed) !== JSON.stringify(typedForCheck());
  try {
    if (await listSent()) {
      const announced = givenAnnouncement(typed.announcement);
      const outcome = await client.ask("check", { text: withoutOrderMark(typed.text), announced });
      if (!isLate()) showOutcome(outcome);
    } else if (!isLate()) {
      fieldOf("list").focus();
    }
  } catch (error) {
    if (!isLate()) refuseHere(error);
  } finally {
    enable("check");
  }
}

function showOutcome(outcome) {
  showCheck(outcome);
  goTo("outcome-title");
}

/**
 * Reads a file that was dropped on a field. An announcement is for its own field, and another file is no announcement. A
 * record may have other text above it.
 * @param {File} file @param {"check-text"|"check-announcement"} field @param {import("./files.js").Take} take
 */
export async function readForField(file, field, take) {
  recordChanged();
  try {
    const bytes = new Uint8Array(await file.arrayBuffer());
    const kind = kindOfFile(bytes) === "announcement" ? "announcement" : "record";
    if (kind === "record" && field === "check-announcement") throw new Refusal("file is no announcement");
    take(kind, bytes);
  } catch (error) {
    part(field).value = "";
    const unread = field === "check-text" ? "record cannot be read" : "announcement to check cannot be read";
    refuse(error instanceof Refusal ? error : new Refusal(unread));
  }
}

/** Puts the text of a file into its field. @param {"record"|"announcement"} kind @param {Uint8Array} bytes */
export function showForCheck(kind, bytes) {
  const field = part(kind === "announcement" ? "check-announcement" : "check-text");
  field.value = new TextDecoder("utf-8", { ignoreBOM: true }).decode(bytes);
  const isFile = kindOfFile(bytes) === "announcement";
  if (kind === "announcement") dropped.announcement = isFile ? { bytes, text: field.value } : null;
  recordChanged();
  tell(`Opened as the ${kind}`);
}

/** Handles typing in the announcement's field: its text counts from then on, and not a file that was dropped before. */
export function announcementTyped() {
  dropped.announcement = null;
  recordChanged();
}

/** Handles a change of one of the fields. */
export function recordChanged() {
  clearRefusals("record", "check-announcement");
  part("outcome").hidden = true;
}
