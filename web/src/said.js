// What a text says of the values of a preset, such as “20 throws”.

/** Finds words where they stand as words of their own, with any white space between them. @param {string} words */
function asWords(words) {
  const pattern = words.replace(/[^\w ]/g, "\\$&").replace(/ /g, "\\s+");
  return new RegExp(`\\b${pattern}(?!\\w)`, "gi");
}

/**
 * A text with other words in the place of words, where these stand.
 * @param {string} text @param {string[]} words @param {string[]} others one for each
 */
export function reworded(text, words, others) {
  return words.reduce((found, one, place) =>
    (one === others[place] ? found : found.replace(asWords(one), () => others[place])), text);
}

/** The words that a source does not have. A blank is none of them. @param {string} source @param {string[]} words */
export function missingIn(source, words) {
  return words.filter((one) => !one.includes("[") && !asWords(one).test(source));
}

/**
 * The number of throws that a source says, if it says only other ones; or null.
 * @param {string} source @param {number} throws @returns {?string}
 */
export function otherThrows(source, throws) {
  const said = Array.from(source.matchAll(/(\d+)\s+throws?\b/gi), ([, count]) => count);
  return said.length === 0 || said.some((count) => Number(count) === throws) ? null : said[0];
}
