// Whether a seed has enough possible values: at least as many as there are sets of winners.

/** The number of keys that a seed is turned into. More seeds than these are no use. */
const KEYS = 2n ** 256n;
/** The throws of a die that are advised beyond those that are needed. */
export const MORE_THROWS = 2;

/**
 * The number of sets of `count` out of `all`, or null if there are more than `KEYS`.
 * @param {number} all @param {number} count at most `all` @returns {?bigint}
 */
export function setsOf(all, count) {
  let sets = 1n;
  for (let place = 0; place < Math.min(count, all - count); place += 1) {
    sets = sets * BigInt(all - place) / BigInt(place + 1);
    if (sets > KEYS) return null;
  }
  return sets;
}

/** @param {bigint} number above 0 @returns {number} its logarithm to base 2 */
export function bitsOfNumber(number) {
  const digits = number.toString(16);
  const head = digits.slice(0, 13);
  return Math.log2(Number.parseInt(head, 16)) + 4 * (digits.length - head.length);
}

/** The logarithm to base 2 of the number of sets. @param {number} all @param {number} count @returns {number} */
export function bitsOfSets(all, count) {
  const sets = setsOf(all, count);
  if (sets !== null) return bitsOfNumber(sets);
  let bits = 0;
  for (let place = 0; place < Math.min(count, all - count); place += 1) {
    bits += Math.log2((all - place) / (place + 1));
  }
  return bits;
}

/** The least number of throws of a die with at least as many outcomes as sets. @param {?bigint} sets as of `setsOf` */
export function throwsFor(sets) {
  let throws = 0;
  for (let seeds = 1n; seeds < (sets ?? KEYS); seeds *= 6n) throws += 1;
  return throws;
}

/** The number of throws that the page advises, at least 20. @param {?bigint} sets */
export function advisedThrows(sets) {
  return Math.max(20, sets === null ? throwsFor(sets) : throwsFor(sets) + MORE_THROWS);
}

/** Such as 2^71.8. @param {number} bits */
function asPower(bits) {
  return `2^${bits.toFixed(1)}`;
}

/** How many throws are enough, and how many are not. */
function throwsWords(needed) {
  if (needed === 0) return "";
  const enough = needed === 1 ? "1 throw of a die is enough" : `${needed} throws of a die are enough`;
  return needed === 1 ? ` ${enough}.` : ` ${enough}, ${needed - 1} ${needed === 2 ? "is" : "are"} not.`;
}

const MEANING = " Enough means: at least as many seeds as sets of winners, so that no set is impossible by counting. " +
  "With exactly as many, some sets still come from no seed.";

/** What to add to a seed that is just enough. @param {boolean} isThrown whether there are throws of a die in it */
function adviceOf(isThrown) {
  return isThrown ? ` So throw the die at least ${MORE_THROWS} times more than that.`
    : " So the seed should have 5 bits more than that.";
}

/** @param {?bigint} seeds @param {bigint} sets @param {string} words */
function verdictOf(seeds, sets, words) {
  if (seeds === null) return "How many seeds this form has, the page cannot know. There have to be as many as sets.";
  const has = `The seed has ${bitsOfNumber(seeds).toFixed(1)} bits (${words}).`;
  return `${has} ${seeds >= sets ? "That is enough." : "That is not enough: some sets cannot come."}`;
}

/**
 * Says how many sets of winners there are, and whether the seeds of a form are enough for them.
 * @param {{entrants: number, winners: number}} draw
 * @param {{seeds: ?bigint, words: string}} form how many seeds it has, or null, and what they are
 * @param {boolean} isThrown whether there are throws of a die in a seed
 * @returns {string}
 */
export function enoughWords({ entrants, winners }, { seeds, words }, isThrown) {
  const sets = setsOf(entrants, winners);
  const count = `${winners} of ${entrants}: ${asPower(bitsOfSets(entrants, winners))} sets of winners could come.`;
  if (sets === null) {
    return `${count} That is more than the 2^256 keys that seeds are turned into, so no form of the seed is enough ` +
      `for all sets. ${throwsFor(sets)} throws of a die use all keys that there are.`;
  }
  return `${count} ${verdictOf(seeds, sets, words)}${throwsWords(throwsFor(sets))}${MEANING}${adviceOf(isThrown)}`;
}
