// What programs do to a record that is pasted through them, and what a reader would not notice.

import { latin } from "./alike.js";
import { isUnseen } from "./bytes.js";
import { nameOf } from "./names.js";

/** Quotation marks that word processors put in place of the plain ones. */
const CURLY = /[\u201c-\u201f\u00ab\u00bb\u2033\uff02]/u;
/** What to do about a text that was changed on its way. */
export const AS_FILE = "Ask for the file, or copy it as plain text.";

/** The first invisible character of a line that is not a plain space. @param {string} line */
function firstInvisible(line) {
  return Array.from(line).find((letter) => letter !== " " && isUnseen(letter));
}

/**
 * Why a line cannot be read, after a space, or an empty text if there is no usual reason.
 * @param {string} line
 */
export function reasonIn(line) {
  if (/^[ \t]/.test(line)) return " The line begins with a space or a tab, which has to be removed.";
  const invisible = firstInvisible(line);
  if (invisible !== undefined) {
    return ` The line has an invisible character, ${nameOf(invisible.codePointAt(0))}. ${AS_FILE}`;
  }
  const [curly] = line.match(CURLY) ?? [];
  if (curly === undefined) return "";
  return ` The line has a curly quotation mark, ${curly}, as word processors make it. ${AS_FILE}`;
}

/** What a reader does not see of a line, or does not look at. */
const HIDDEN = /[^\p{L}\p{N}]|\p{Default_Ignorable_Code_Point}/gu;
/** What begins a new line on paper and in a mail, besides the line feed. */
const LINE_ENDS = /[\v\f\r\u0085\u2028\u2029]/u;
/** Marks that make a line look like another one: they change the order of its letters. */
const REORDERING = /[\u202a-\u202e\u2066-\u2069]/u;
/** A colon, and what looks like one by the list of confusable characters of Unicode (UTS 39). */
const COLONS = /[:\u02d0\u02f8\u0589\u05c3\u0703\u0704\u16ec\u1803\u1809\u205a\u2236\ua4fd\ua789\ufe13\ufe30\ufe55\uff1a]/u;

/**
 * What a reader sees of a text: its letters and digits in lower case, without accents, signs,
 * invisible characters and spaces. Letters that look like Latin ones are Latin ones.
 * @param {string} text
 */
function plain(text) {
  return latin(text).normalize("NFKD").toLowerCase().replace(HIDDEN, "");
}

const TITLE_WORDS = "nanorandpublicdraw";
const ANNOUNCEMENT_TITLE_WORDS = /^nanorandannouncement\d+$/;
const END_WORDS = "endoftherecord";

/** Whether a line begins like the title of a record of this or another format. @param {string} line */
export function isLikeTitle(line) {
  return line.split(LINE_ENDS).some((part) => plain(part).startsWith(TITLE_WORDS));
}

/** What is said of a line that begins an announcement. */
export const BELOW = "this is an announcement: paste it below.";

/** Whether a line looks like the title of an announcement. @param {string} line */
export function isLikeAnnouncement(line) {
  return ANNOUNCEMENT_TITLE_WORDS.test(plain(line));
}

/** Whether a text outside of a record has the words of a title. @param {string} text */
function hasTitle(text) {
  return plain(text).includes(TITLE_WORDS);
}

/**
 * Whether a line outside of a record looks like one of its lines: a name of a value and a colon, the
 * number of a winner and a colon, the number of further ones, or the end of a record.
 * @param {string} line @param {string[]} names of the values
 */
function isLikeLine(line, names) {
  return line.split(LINE_ENDS).some((part) => {
    const [name, ...rest] = part.split(COLONS);
    const before = plain(name);
    const isNumber = /^\p{N}+$/u.test(before) && !/^\p{N}/u.test(rest[0] ?? "");
    return rest.length > 0 && (isNumber || names.some((one) => plain(one) === before)) ||
      /^and\p{N}+more$/u.test(plain(part)) || plain(part) === END_WORDS;
  });
}

/**
 * The index of the first line outside of a record that a reader could take for a part of it, and why;
 * or null.
 * @param {string[]} lines @param {number} first @param {number} end the record is from `first` to before `end`
 * @param {string[]} names of the values in a record @returns {?{index: number, reason: string}}
 */
export function misleadingLine(lines, first, end, names) {
  for (let index = 0; index < lines.length; index += 1) {
    if (first <= index && index < end) continue;
    const isFolded = index + 1 < lines.length && index + 1 !== first &&
      hasTitle(`${lines[index]}${lines[index + 1]}`) && !hasTitle(lines[index + 1]);
    if (hasTitle(lines[index]) || isFolded) {
      return { index, reason: "a second record begins here. Check one record at a time." };
    }
    if (isLikeAnnouncement(lines[index])) return { index, reason: BELOW };
    if (isLikeLine(lines[index], names) || REORDERING.test(lines[index])) {
      return { index, reason: "this line is not part of the record, but looks as if it were. Remove it, and ask who wrote it." };
    }
  }
  return null;
}
