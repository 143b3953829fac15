// Why a value in a record of format 2 is not quoted as it has to be.

import { nameOf } from "./names.js";
import { AS_FILE, reasonIn } from "./pasted.js";
import { bytesShown, escapesOfLetter, isBetweenMarks, NO_ESCAPE, shownText } from "./quoted.js";

/** The first difference between a shown text and the way in which its bytes have to be written. */
function differenceOf(shown) {
  const right = shownText(bytesShown(shown));
  let place = 0;
  while (place < shown.length && shown[place] === right[place]) place += 1;
  if (place === shown.length) return "";
  const letter = String.fromCodePoint(shown.codePointAt(place));
  if (letter === "\\") {
    return ` “${shown.slice(place, place + 4)}” stands for a character that has to be written as it is.`;
  }
  const name = nameOf(letter.codePointAt(0));
  return ` The character ${name} has to be written as ${escapesOfLetter(letter)} here. ${AS_FILE}`;
}

/**
 * Why a text is not quoted as a record requires, after a space, or an empty text if it is.
 * @param {string} text
 */
export function reasonInQuoted(text) {
  if (!isBetweenMarks(text)) return reasonIn(text) || " It has to be between two quotation marks (\").";
  const body = text.slice(1, -1);
  const wrong = body.match(NO_ESCAPE);
  if (wrong !== null) {
    const letters = body.slice(wrong.index, wrong.index + 4);
    return ` “${letters}” is not “\\x” and two digits (0-9, a-f). A backslash is \\x5c.`;
  }
  return differenceOf(body);
}
