// The errors of files that are opened or dropped in a wrong place, or of which two are dropped for one place.

/** @param {{kind: import("./kinds.js").Kind, names: string[]}} values */
function twoWords({ kind, names }) {
  return `Two of these files are for the ${kind}: ${names.join(" and ")}. Drop only one of them.`;
}

/** @type {Record<string, {field: import("./refusal.js").Field, words: (values: Object) => string}>} */
export const MISPLACED_REFUSALS = {
  "file is a record": {
    field: "file",
    words: () => "This is a record of a draw. To check it, use the tab Check a draw.",
  },
  "file is no announcement": {
    field: "check-announcement",
    words: () => "This file is no announcement: it does not begin with “nanorand announcement”.",
  },
  "announcement to check cannot be read": {
    field: "check-announcement",
    words: () => "The file cannot be read.",
  },
  "two files": {
    field: "file",
    words: twoWords,
  },
  "two files to check": {
    field: "record",
    words: twoWords,
  },
};
