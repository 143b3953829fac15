// Which of the three texts of a draw a file is. Its first line says so.

import { hasAnnouncementBelow, isAnnouncement } from "./announcement.js";

/** @typedef {"list"|"record"|"announcement"} Kind */

/** How many of the first bytes of a file say what it is. */
export const START = 100;

const RECORD_START = /^(?:\xef\xbb\xbf)?[\s>]*nanorand public draw/i;

/** The title of a record in a line of its own, quoted or not. */
const RECORD_BELOW = /(?:^|\n)[ \t>]*nanorand public draw [12][ \t\r]*\n/;

/**
 * The kind of a text that a file has below other text, as a saved mail has it.
 * @param {Uint8Array} bytes @returns {Kind}
 */
export function kindBelow(bytes) {
  if (RECORD_BELOW.test(new TextDecoder("latin1").decode(bytes))) return "record";
  return hasAnnouncementBelow(bytes) ? "announcement" : "list";
}

/** The kind of a file. What has no title is a list. @param {Uint8Array} bytes its first ones, or all @returns {Kind} */
export function kindOfFile(bytes) {
  if (isAnnouncement(bytes)) return "announcement";
  return RECORD_START.test(String.fromCharCode(...bytes.subarray(0, START))) ? "record" : "list";
}
