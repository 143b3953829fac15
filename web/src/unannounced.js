// The errors of announcements: fields that cannot be saved, files that are none, and draws that were not announced.

const TAKE_AWAY = "or take the announcement away.";

/** @type {Record<string, {field: import("./refusal.js").Field, words: (values: Object) => string}>} */
export const ANNOUNCING_REFUSALS = {
  "field is empty": {
    field: "announce",
    words: ({ name }) => `Type ${name}.`,
  },
  "field has half a character": {
    field: "announce",
    words: ({ name }) => `Type ${name} again: it has half of a character, as a broken copy leaves it.`,
  },
  "field has a blank": {
    field: "announce",
    words: ({ name, blank }) => `Replace ${blank} in ${name}.`,
  },
  "throws differ": {
    field: "announce",
    words: ({ said, throws }) => `The source of the seed says ${said} ${said === "1" ? "throw" : "throws"}, but the ` +
      `number of throws is ${throws}. Change one of them.`,
  },
  "winners are no number": {
    field: "announce",
    words: () => "Type how many winners there are: a number from 1 on, with digits only.",
  },
  "reserves are no number": {
    field: "announce",
    words: () => "Type how many reserves there are: a number, with digits only. 0 means none.",
  },
  "too few for winners": {
    field: "announce",
    words: ({ entrants, winners, reserves }) => `The list has too few entrants for ${winners} winners and ${reserves} ` +
      `reserves: ${entrants}.`,
  },
  "announcement cannot be read": {
    field: "announcement",
    words: ({ reason }) => `This file is not an announcement as the page saves it. ${reason}`,
  },
  "list is not announced": {
    field: "announcement",
    words: ({ announced, digest }) => "This list is not the announced one. The announcement names the SHA-256 " +
      `${announced}, this list has ${digest}. Open the announced list, ${TAKE_AWAY}`,
  },
  "entrants are not announced": {
    field: "announcement",
    words: ({ announced, entrants }) => `The announcement says that the list has ${announced} entrants, but it has ` +
      `${entrants}. Open the right announcement, ${TAKE_AWAY}`,
  },
  "count is not announced": {
    field: "count",
    words: ({ wanted, words }) => `The announcement says ${words}. Type ${wanted}, ${TAKE_AWAY}`,
  },
};
