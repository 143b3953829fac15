// The sources of seeds that the page offers: what each one fills into the fields of the announcement.

import { setsOf } from "./enough.js";

/** What stands in a text for something that has to be typed. The page saves no text with one of these. */
export const BLANKS = [
  "[place]", "[name of the lottery]", "[date]", "[names of the prices, in order]", "[exchange]", "[publication]",
  "[public key]", "[round]",
];

const THROWS = "4163325614265311624536215142634";
const PRICES = ["1234.56", "87.10", "302.99", "4410.05", "19.84", "655.32"];
/** An example of the randomness of a drand round: 64 digits. */
const RANDOMNESS = "5a0de1b6c9f2437788e14c0d93ab62f70c41d8be2a6f95733ed0417ac8b9e265";

/**
 * What is typed for a source: numbers, and for drand the public key of the chain and the round.
 * @typedef {{throws: number, numbers: number, of: number, prices: number, key: string, round: string}} Values
 */

/**
 * `seeds` is the number of possible seeds, or null if the page cannot know it; `words` says what was counted.
 * @typedef {Object} Preset
 * @property {string[]} asks the names of the values that it needs
 * @property {(values: Values) => string[]} said the words of the source for the values
 * @property {(values: Values) => {source: string, form: string, example: string}} texts
 * @property {(values: Values) => {seeds: ?bigint, words: string}} seeds
 */

/** Items of a row, which begins again once it is used up. */
function repeated(row, count) {
  return Array.from({ length: count }, (_, place) => row[place % row.length]);
}

/** Some increasing numbers up to `of`, spread evenly. */
function increasing(count, of) {
  return Array.from({ length: count }, (_, place) => Math.floor((2 * place + 1) * of / (2 * count)) + 1);
}

/** Prices in hundredths. */
function inHundredths(count) {
  return repeated(PRICES, count).map((price) => price.replace(".", ""));
}

/** @param {number} count */
function numbersSaid(count) {
  return count === 1 ? "1 number" : `${count} numbers`;
}

/** @param {number} count */
function throwsSaid(count) {
  return count === 1 ? "1 throw" : `${count} throws`;
}

/** @param {number} count */
function throwsText(count) {
  return `${throwsSaid(count)} of a die`;
}

const FALLS = "a die that falls off the table is thrown again by somebody else";
const PRICES_TEXT = "the closing prices of [names of the prices, in order] at [exchange] on [date], as first published " +
  "by [publication]";

/** @type {Record<string, Preset>} */
export const PRESETS = {
  die: {
    asks: ["throws"],
    said: ({ throws }) => [throwsSaid(throws)],
    texts: ({ throws }) => ({
      source: `${throwsText(throws)}, in public, in [place]; ${FALLS}`,
      form: "the numbers thrown, in order, with one space between them",
      example: repeated(THROWS, throws).join(" "),
    }),
    seeds: ({ throws }) => ({ seeds: 6n ** BigInt(throws), words: throwsText(throws) }),
  },
  lottery: {
    asks: ["numbers", "of"],
    said: ({ numbers }) => [numbersSaid(numbers)],
    texts: ({ numbers, of }) => ({
      source: `the ${numbersSaid(numbers)} of [name of the lottery], drawn on [date], without additional numbers`,
      form: "the numbers in ascending order, without leading zeros, with one space between them",
      example: increasing(numbers, of).join(" "),
    }),
    seeds: ({ numbers, of }) => ({
      seeds: setsOf(of, numbers) ?? 2n ** 256n,
      words: `${numbersSaid(numbers)} of ${of}`,
    }),
  },
  prices: {
    asks: ["prices"],
    said: () => [],
    texts: ({ prices }) => ({
      source: PRICES_TEXT,
      form: "the prices in this order, each with a point and two decimals, without other signs, with one space " +
        "between them",
      example: repeated(PRICES, prices).join(" "),
    }),
    seeds: ({ prices }) => ({
      seeds: 2n ** BigInt(10 * prices),
      words: `${prices === 1 ? "1 price" : `${prices} prices`}, at about 10 bits each, which is an estimate`,
    }),
  },
  drand: {
    asks: ["key", "round"],
    said: ({ key, round }) => [`round ${round || "[round]"}`, `public key ${key || "[public key]"}`],
    texts: ({ key, round }) => ({
      source: `round ${round || "[round]"} of the drand chain with the public key ${key || "[public key]"}`,
      form: "the randomness of the round: 64 hexadecimal digits, with small letters. It is the SHA-256 of the " +
        "signature of the round, which the public key verifies",
      example: RANDOMNESS,
    }),
    seeds: () => ({ seeds: 2n ** 256n, words: "64 hexadecimal digits" }),
  },
  several: {
    asks: ["numbers", "of", "prices", "throws"],
    said: ({ numbers, throws }) => [numbersSaid(numbers), throwsSaid(throws)],
    texts: ({ numbers, of, prices, throws }) => ({
      source: `first, the ${numbersSaid(numbers)} of [name of the lottery], drawn on [date], without additional ` +
        `numbers; second, ${PRICES_TEXT}; third, ${throwsText(throws)}, thrown in [place] after the first two are published; ` +
        FALLS,
      form: "as RFC 3797 writes it: for each source in this order its numbers, each without leading zeros and with a " +
        "full stop after it, and a slash after each source; the numbers of the lottery in ascending order, the prices " +
        "in hundredths, the throws in order",
      example: [increasing(numbers, of), inHundredths(prices), repeated(THROWS, throws)]
        .map((row) => `${row.map((number) => `${number}.`).join("")}/`).join(""),
    }),
    seeds: (values) => {
      const parts = ["lottery", "prices", "die"].map((name) => PRESETS[name].seeds(values));
      return {
        seeds: parts.reduce((product, { seeds }) => product * seeds, 1n),
        words: parts.map(({ words }) => words).join("; "),
      };
    },
  },
  other: {
    asks: [],
    said: () => [],
    texts: () => ({ source: "", form: "", example: "" }),
    seeds: () => ({ seeds: null, words: "" }),
  },
};
