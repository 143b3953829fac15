// The errors that the page shows, and their texts.

import { MISPLACED_REFUSALS } from "./misplaced.js";
import { ANNOUNCING_REFUSALS } from "./unannounced.js";

/**
 * Where the error is shown.
 * @typedef {"seed"|"count"|"list"|"file"|"question"|"record"|"check-announcement"|"announce"|"announcement"|
 *   "page"} Field
 */

/** @type {Record<string, {field: Field, words: (values: Object) => string}>} */
const REFUSALS = {
  "seed is empty": {
    field: "seed",
    words: () => "The seed is empty. Type at least one character.",
  },
  "seed has half a character": {
    field: "seed",
    words: () => "The seed has half of a character, as a broken copy leaves it. Type the seed again.",
  },
  "count is empty": {
    field: "count",
    words: () => "Type how many are drawn: a number, or the word all.",
  },
  "count is no number": {
    field: "count",
    words: () => "Type only digits, without a sign, a space or a comma, or the word all.",
  },
  "count is too large": {
    field: "count",
    words: () => "This number is too large: at most 18446744073709551615.",
  },
  "too few entrants": {
    field: "count",
    words: ({ entrants, count }) =>
      `Cannot draw ${count}: the list has only ${entrants === 1 ? "1 entrant" : `${entrants} entrants`}.`,
  },
  "no list": {
    field: "list",
    words: () => "Open or paste the list first.",
  },
  "file is empty": {
    field: "list",
    words: () => "This file is empty.",
  },
  "list is a question": {
    field: "question",
    words: () => "Answer the question about the list first.",
  },
  "line is empty": {
    field: "list",
    words: ({ line }) => `Line ${line} is empty. Each line of the list must have an entrant.`,
  },
  "list has half a character": {
    field: "list",
    words: ({ line }) =>
      `Line ${line} has half of a character, as a broken copy leaves it. Copy the list again.`,
  },
  "list is no text": {
    field: "list",
    words: () => "This file does not seem to be a text. If it is a spreadsheet or a document, save it " +
      "there as text in UTF-8, with one entrant on each line, and open that file.",
  },
  "list cannot be read": {
    field: "list",
    words: () => "The file cannot be read.",
  },
  "record cannot be read": {
    field: "record",
    words: () => "The file cannot be read.",
  },
  ...MISPLACED_REFUSALS,
  ...ANNOUNCING_REFUSALS,
  "words were rejected": {
    field: "page",
    words: () =>
      "128 words in a row were rejected. Nothing is drawn: another seed is needed. This has never been observed.",
  },
  "no memory": {
    field: "page",
    words: () => "The browser does not have enough memory for a list of this size.",
  },
  "no WebAssembly": {
    field: "page",
    words: () =>
      "This browser cannot draw: it has no WebAssembly, or it is switched off. Open the page in " +
      "a newer browser: Chrome, Edge or Chromium from version 97 on, Firefox from version 90 on, " +
      "Safari from version 16 on. Or use the Python code below, which draws the same.",
  },
  "the module failed": {
    field: "page",
    words: ({ reason }) =>
      `The page failed, and nothing is drawn: ${reason}. Reload the page, and try again.`,
  },
};

/** An error that the page shows: why a draw, a list or the module failed. */
export class Refusal extends Error {
  /** @param {string} reason a name in REFUSALS @param {Object} [values] what its text contains */
  constructor(reason, values = {}) {
    super(reason);
    this.reason = reason;
    this.values = values;
  }

  /** @param {unknown} error @returns {Refusal} */
  static of(error) {
    if (error instanceof Refusal) return error;
    if (error instanceof RangeError) return new Refusal("no memory");
    return new Refusal("the module failed", { reason: String(error) });
  }

  /** @returns {Field} */
  get field() {
    return REFUSALS[this.reason].field;
  }

  /** @returns {string} */
  get words() {
    return REFUSALS[this.reason].words(this.values);
  }
}
