// The texts of the announcement that a preset fills in, and its values. A text that was edited by hand stays, and only
// the words for a value change with it.

import { numberTyped } from "./fields.js";
import { PRESETS } from "./presets.js";
import { missingIn, otherThrows, reworded } from "./said.js";
import { part } from "./view.js";

/** The values that a preset asks for: their least and their greatest number. */
const LIMITS = { throws: [1, 1000], numbers: [1, 100], of: [1, 1000], prices: [1, 100] };
const PRESET_TEXTS = ["source", "form", "example"];

/**
 * `filled` has the texts of the preset, and `words` are those for its values. `last` has the texts that were in the
 * fields last. `edited` has them as they were when a text or a value was last typed, with the words of that time.
 */
const filling = { filled: {}, words: [], last: {}, edited: { texts: {}, words: [] } };

/** @returns {import("./presets.js").Preset} the one that is chosen */
export function preset() {
  return PRESETS[part("preset").value];
}

/**
 * The values for a preset, or null if one is missing or out of its limits.
 * @returns {?import("./presets.js").Values}
 */
export function presetValues() {
  const values = { key: part("preset-key").value.trim(), round: part("preset-round").value.trim() };
  for (const name of preset().asks.filter((one) => one in LIMITS)) {
    values[name] = numberTyped(part(`preset-${name}`).value);
    const [least, most] = LIMITS[name];
    if (!(least <= values[name] && values[name] <= most)) return null;
  }
  return values.numbers > values.of ? null : values;
}

function textsTyped() {
  return Object.fromEntries(PRESET_TEXTS.map((id) => [id, part(id).value]));
}

/** Whether a text is not as the preset filled it in. */
export function isEdited() {
  return PRESET_TEXTS.some((id) => part(id).value !== filling.filled[id]);
}

/** Keeps the texts with the words for the values. These words change while another value is typed. */
export function keepTexts() {
  filling.last = textsTyped();
  filling.edited = { texts: filling.last, words: filling.words };
}

/** Keeps the texts if one of them was changed by hand. */
export function keepEdited() {
  if (PRESET_TEXTS.some((id) => part(id).value !== filling.last[id])) keepTexts();
}

/** The text for a field: that of the preset, or the edited one with the words for the values. */
function textFor(id, filled, words) {
  if (part(id).value === filling.filled[id]) return filled;
  return reworded(filling.edited.texts[id], filling.edited.words, words);
}

/** Fills in all texts of another preset. */
export function fillAnew() {
  filling.filled = textsTyped();
  filling.words = [];
  refill();
}

/** Fills in the texts for the values. */
export function refill() {
  const values = presetValues();
  if (values === null) return;
  const [filled, words] = [preset().texts(values), preset().said(values)];
  for (const id of PRESET_TEXTS) {
    const text = textFor(id, filled[id], words);
    if (part(id).value !== text) part(id).value = text;
  }
  filling.filled = filled;
  filling.words = words;
  filling.last = textsTyped();
}

/** How many words the example has, if it has the form of the preset, but not as many. */
function otherLength() {
  const { form, example } = filling.filled;
  if (example === "" || part("form").value !== form) return [];
  const [found, wanted] = [part("example").value, example].map((text) => text.trim().split(/\s+/).length);
  return found === wanted ? [] : [`The example has ${found} parts between spaces, and not ${wanted}.`];
}

/** In which ways the texts do not agree with the values of the preset, as sentences. @returns {string[]} */
export function disagreements() {
  const values = presetValues();
  if (values === null) return [];
  const missing = missingIn(part("source").value, preset().said(values));
  const sentences = missing.map((words) => `The source of the seed does not say “${words}”. Compare the two.`);
  return [...sentences, ...otherLength()];
}

/** The number of throws that the source says, and that of its field, if they differ; or null. */
export function throwsApart() {
  const throws = numberTyped(part("preset-throws").value);
  if (!preset().asks.includes("throws") || Number.isNaN(throws)) return null;
  const said = otherThrows(part("source").value, throws);
  return said === null ? null : { said, throws };
}
