// The worker holds the module and the list, so that the page stays usable while they are busy.

import { readAnnouncementFile } from "./announcement.js";
import { unannouncedList, refuseOtherDraw } from "./belongs.js";
import { fromBase64, hex, utf8 } from "./bytes.js";
import { check } from "./check.js";
import { draw, resultOf } from "./draw.js";
import { encodingOf } from "./encoding.js";
import { shown } from "./entrant.js";
import { NAMED, RecordError } from "./lines.js";
import { previewOf } from "./list.js";
import { Module, wordsOfModule } from "./module.js";
import { questionsOf } from "./questions.js";
import { writeRecord } from "./record2.js";
import { Refusal } from "./refusal.js";
import { tidied } from "./tidy.js";
import { warningsOf } from "./warnings.js";

/** @type {{module: ?Module, maker: ?import("./check.js").Maker, list: Uint8Array}} */
const held = { module: null, maker: null, list: new Uint8Array(0) };

/**
 * The number of entrants. A file that is no text may have empty lines: then it is said that it is no
 * text.
 */
function countOf(list) {
  try {
    return held.module.count(list);
  } catch (error) {
    const isOfLine = error instanceof Refusal && error.reason === "line is empty";
    throw isOfLine && encodingOf(list) === "unknown" ? new Refusal("list is no text") : error;
  }
}

/**
 * Reads the bytes of an announcement, and computes their SHA-256. Throws a Refusal if they are none.
 * @param {Uint8Array} bytes
 * @returns {{announcement: import("./announcement.js").Announcement, digest: string}}
 */
function announcedIn(bytes) {
  try {
    return { announcement: readAnnouncementFile(bytes), digest: hex(held.module.digest(bytes)) };
  } catch (error) {
    if (!(error instanceof RecordError)) throw error;
    throw new Refusal("announcement cannot be read", { reason: error.message });
  }
}

/** Throws a Refusal if a list is not the announced one. */
function refuseOtherList(announcement, digest) {
  const other = announcement && unannouncedList(announcement, { digest, entrants: countOf(held.list) });
  if (other) throw other;
}

/** The tasks that the page can ask for. Each takes its data and a function to report progress. */
const TASKS = {
  /** `codes` are the modules for 64-bit and 32-bit memory, in base64. The one for `bits` is run. */
  async start({ codes, bits }) {
    const modules = codes.map(fromBase64);
    const [run, other] = bits === 64 ? modules : [...modules].reverse();
    held.module = await Module.from(run, bits);
    held.maker = {
      version: held.module.version(),
      module: hex(held.module.digest(run)),
      otherModule: hex(held.module.digest(other)),
      words: wordsOfModule(bits),
      otherWords: wordsOfModule(bits === 64 ? 32 : 64),
    };
    return held.maker;
  },

  list({ list }, tell) {
    held.list = list;
    tell("Computing the SHA-256 of the list");
    const digest = hex(held.module.digest(list));
    tell("Counting the entrants");
    const entrants = countOf(list);
    tell("Looking for what is worth a second look");
    const preview = encodingOf(list) === "utf-8" ? previewOf(list, entrants) : [];
    return { digest, entrants, preview, questions: questionsOf(list), warnings: warningsOf(list) };
  },

  tidy({ list, change }, tell) {
    tell("Changing the list");
    return tidied(list, change);
  },

  /** The SHA-256 of a text in UTF-8. */
  digest({ text }) {
    return hex(held.module.digest(utf8(text)));
  },

  announcement({ bytes }) {
    return announcedIn(bytes);
  },

  /** `announced` has the bytes of the announcement, or is null. */
  draw({ seed, count, announced }, tell) {
    if (held.list.length === 0) throw new Refusal("no list");
    tell("Drawing");
    const list = hex(held.module.digest(held.list));
    const { announcement, digest } = announced ? announcedIn(announced) : { announcement: null, digest: "none" };
    refuseOtherList(announcement, list);
    const { entrants, drawn } = draw(held.module, held.list, seed, count);
    refuseOtherDraw(announcement, { digest: list, entrants, drawn: drawn.length });
    tell("Writing the result");
    const result = resultOf(drawn);
    const named = drawn.slice(0, NAMED);
    const record = writeRecord({
      announcement: digest,
      seed,
      list,
      entrants,
      drawn: drawn.length,
      version: null,
      module: held.maker.module,
      result: hex(held.module.digest(result)),
      named,
    });
    const hasEscapes = record.includes("\\");
    const winners = announcement === null ? null : announcement.winners;
    return { list, entrants, drawn: drawn.length, winners, named: named.map(shown), hasEscapes, record, result };
  },

  check({ text, announced }, tell) {
    tell("Repeating the draw");
    return check(held.module, held.maker, held.list, { text, announced });
  },
};

/** Does a task, and posts its answer, or the Refusal with which it ended. */
async function answerTo({ number, task, data }) {
  const tell = (progress) => self.postMessage({ number, progress });
  try {
    self.postMessage({ number, answer: await TASKS[task](data, tell) });
  } catch (error) {
    const { reason, values } = Refusal.of(error);
    self.postMessage({ number, refusal: { reason, values } });
  }
}

/** Tasks are done in their order: a list may be opened before the module has started. */
let done = Promise.resolve();
self.onmessage = ({ data }) => { done = done.then(() => answerTo(data)); };
