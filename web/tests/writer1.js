// Writes records of format 1, as earlier versions of the page did. The page itself only reads them.

/** A character as JSON escapes, one for each UTF-16 unit. @param {string} letter */
function escapedUnits(letter) {
  return letter.replace(/[^]/g, (unit) => `\\u${unit.charCodeAt(0).toString(16).padStart(4, "0")}`);
}

/** A seed as a JSON string in which every invisible character except the space is escaped. @param {string} seed */
function writtenSeed1(seed) {
  return Array.from(JSON.stringify(seed), (letter) =>
    (letter !== " " && isUnseen(letter) ? escapedUnits(letter) : letter)).join("");
}

/** A record of format 1. @param {import("../src/record.js").Record} record @returns {string} */
function writeRecord1(record) {
  const values = { version: "1.0.0", ...record, seed: writtenSeed1(record.seed) };
  const lines = LINES1.map(({ property, name }) => `${name}: ${values[property]}`);
  const named = record.named.map((entrant, index) => `${index + 1}: ${printed(entrant)}`);
  return [FORMAT1.title, ...lines, ...named, ...restOf(record.drawn), ""].join("\n");
}
