// Tests scripts of the page, whose code precedes this. Returns the names of the cases, and what was
// found and expected.

const cases = [];
const same = (name, found, wanted) => cases.push([name, found, wanted]);

/** A module with these exports in place of its own. */
function moduleOf(exports) {
  const memory = { buffer: new ArrayBuffer(65536), grow() { throw new RangeError("no room"); } };
  return new Module({ exports: { memory, ...exports } }, 64);
}

/** The reason and the values of the Refusal that an error is turned into. */
function refusalOf(error) {
  const { reason, values } = Refusal.of(error);
  return [reason, values];
}

function errors() {
  same("a refusal", refusalOf(new Refusal("line is empty", { line: 5 })), ["line is empty", { line: 5 }]);
  same("a range", refusalOf(new RangeError("too long")), ["no memory", {}]);
  for (const error of [new Error("a"), new TypeError("b"), new WebAssembly.RuntimeError("c"), "d", null]) {
    same(`the error ${error}`, refusalOf(error), ["the module failed", { reason: String(error) }]);
  }
  try {
    moduleOf({}).digest(new Uint8Array(65536));
    same("memory that does not grow", "", "an error");
  } catch (error) {
    same("memory that does not grow", refusalOf(error), ["no memory", {}]);
  }
}

/** Each status that the export for a draw or a count may return, and the error of the page for it. */
function statuses() {
  const refusedBy = (call) => {
    try {
      return call();
    } catch (error) {
      return refusalOf(error);
    }
  };
  for (let status = 1; status < 12; status += 1) {
    const memory = { buffer: new ArrayBuffer(65536), grow() { this.buffer = new ArrayBuffer(131072); } };
    const exports = { memory, nanorand_v1_lots_count: () => status, nanorand_v1_lots_draw: () => status };
    const module = new Module({ exports }, 64);
    const failed = (name) => ["the module failed", { reason: `status ${status} of ${name}` }];
    same(`a count of status ${status}`, refusedBy(() => module.count(utf8("a\n"))),
      status === 4 ? ["line is empty", { line: "0" }] : failed("count"));
    same(`a draw of status ${status}`, refusedBy(() => module.draw(utf8("a"), 1, 1)),
      status === 8 ? ["words were rejected", {}] : failed("draw"));
  }
}

const RECORD = {
  announcement: "none", seed: "a seed", list: "0".repeat(64), entrants: 9, drawn: 1, version: null,
  module: "1".repeat(64), result: "2".repeat(64), named: [utf8("Ada")],
};
const RECORD1 = { ...RECORD, version: "1.0.0" };
/** Each format with a record, what writes it, and the names of its values. */
const BOTH = [[1, RECORD1, writeRecord1, FORMAT1.names], [2, RECORD, writeRecord, FORMAT2.names]];

function versions() {
  for (const [number, version] of [[0, "0.0.0"], [99, "0.0.99"], [100, "0.1.0"], [10000, "1.0.0"], [10203, "1.2.3"],
    [109900, "10.99.0"], [123456, "12.34.56"], [9999999, "999.99.99"]]) {
    same(`version ${number}`, moduleOf({ nanorand_v1_version: () => number }).version(), version);
    same(`a record of ${version}`, readRecord(writeRecord1({ ...RECORD, version })).version, version);
  }
}

/** The entrants that a record names, as texts, or the line at which it is not a record. */
function namedIn(text) {
  try {
    return readRecord(text).named.map(textOf);
  } catch (error) {
    return error.line;
  }
}

/** In format 1 a long line goes on in the next one. Lines of every length, with text directly below. */
function folds1() {
  for (let length = 40; length < 60; length += 1) {
    const line = "x".repeat(length);
    const isLong = 3 + length >= 50;
    for (const [number, more] of [["", ""], ["\nYours", " Yours"], ["\nYours\nthe clerk", " Yours"]]) {
      const record = writeRecord1({ ...RECORD1, named: [utf8(line)] }).trimEnd();
      same(`${length} letters, then ${number}`, namedIn(record + number), [line + (isLong ? more : "")]);
    }
    const record = writeRecord1({ ...RECORD1, named: [utf8("y".repeat(50))] }).trimEnd();
    const wanted = `${"y".repeat(50)} ${line}${length >= 50 ? " Yours" : ""}`;
    same(`a fold, ${length} letters and more`, namedIn(`${record}\n${line}\nYours\nthe clerk`), [wanted]);
  }
}

/** In format 2 a value goes on until its closing quotation mark. It is folded at any of its spaces, once or more. */
function folds2() {
  const words = "Ada \"the\" first of a\\b and c".split(" ");
  const text = words.join(" ");
  const record = writeRecord({ ...RECORD, seed: text, named: [utf8(text)] });
  for (let folds = 0; folds < 2 ** (words.length - 1); folds += 1) {
    const folded = words.map((word, place) => word + ((folds >> place) % 2 === 0 ? " " : "\n")).join("").slice(0, -1);
    // A quotation mark at the end of a line ends the value.
    const isCut = /"$/m.test(folded);
    const found = namedIn(record.replaceAll(text.replace("\\", "\\x5c"), folded.replace("\\", "\\x5c")));
    same(`folded: ${folded}`, found, isCut ? 4 + folded.slice(0, folded.indexOf("\"\n")).split("\n").length - 1 : [text]);
  }
  const open = writeRecord(RECORD).replace("\"Ada\"", "\"Ada");
  for (const below of ["", "Yours\n", "\"\n", "2: \"\n"]) same(`no mark, and ${below}`, namedIn(open + below), 9);
}

/** A line is continued by whatever follows it, except the beginning of another line of a record. */
function continuations() {
  for (const [number, base, write] of BOTH) continued(number, base, write);
}

function continued(number, base, write) {
  const words = "x".repeat(60);
  for (const next of ["12:30 by the exchange", "3:1", "7:", ":", ": x", "1 : x", "a: b", "seed:", "seeds: 1", "-1: x",
    "and 5 more", "1.: x", "drawn", "entrants 9"]) {
    const seed = `${words} ${next}`;
    const record = write({ ...base, seed, named: [utf8(seed)] });
    const folded = record.replace(new RegExp(`${words} `, "g"), `${words}\n`);
    const read = readRecord(folded);
    same(`format ${number}, a fold before ${next}`, [read.seed, ...read.named.map(textOf)], [seed, seed]);
  }
}

/** The error if a module cannot be created: WebAssembly is missing, or what went wrong. */
async function starts() {
  const [real, validate] = [WebAssembly.instantiate, WebAssembly.validate];
  const { CompileError, LinkError, RuntimeError } = WebAssembly;
  try {
    for (const error of [new CompileError("a"), new EvalError("b"), new RangeError("c"), new RuntimeError("d"),
      new LinkError("e"), new TypeError("f"), new Error("g")]) {
      WebAssembly.instantiate = async () => { throw error; };
      const found = await Module.from(new Uint8Array(8), 64).then(() => "made", refusalOf);
      const isForbidden = error instanceof CompileError || error instanceof EvalError;
      same(`a module that fails by ${error}`, found, isForbidden ? ["no WebAssembly", {}] : refusalOf(error));
    }
    for (const [has, bits] of [[true, 64], [false, 32]]) {
      const asked = [];
      WebAssembly.validate = (code) => asked.push(Array.from(code)) > 0 && has;
      same(`bits where 64 are there: ${has}`, bitsOfBrowser(), bits);
      // A module with one memory, whose limits have the flag of 64-bit addresses.
      same("what is asked for", asked, [[0, 97, 115, 109, 1, 0, 0, 0, 5, 3, 1, 4, 1]]);
    }
  } finally {
    [WebAssembly.instantiate, WebAssembly.validate] = [real, validate];
  }
}

/** The last named entrant may be folded. The line with the number of further entrants is not part of it. */
function restOfLong(lengths) {
  for (const [length, left] of lengths) {
    for (const [number, base, write] of BOTH) {
      const named = Array.from({ length: NAMED }, (_, place) => utf8(`${place} ${"x".repeat(length)}`));
      const record = write({ ...base, entrants: 10 ** 7, drawn: NAMED + left, named });
      const wanted = named.map(textOf);
      same(`${left} more than ${NAMED} of ${length} letters`, namedIn(record), wanted);
      same("a line below", namedIn(`${record}Yours\n`), wanted);
      const [before, after] = number === 1 ? ["", "y"] : ["\"", "y\""];
      const folded = record.replace(`${before}\nand ${left} more`, `\n${after}\nand ${left} more`);
      const isFold = number === 2 || length >= 50;
      if (isFold) same("a fold", namedIn(folded), [...wanted.slice(0, -1), `${wanted[NAMED - 1]} y`]);
    }
  }
}

/**
 * A record with one character added, removed or changed is an error, or has another meaning. Each browser changes some
 * of the places.
 */
function otherTexts(places) {
  for (const [number, base, write, names] of BOTH) othersOf(number, base, write, names, places);
}

function othersOf(number, base, write, names, places) {
  const named = ["Ada", "x".repeat(60), "1: a\\b", "\"é\" ", "\\", "\u200b"].map(utf8);
  const record = write({ ...base, seed: "4 1 \\6", entrants: 12, drawn: named.length, named });
  const read = (text) => {
    try {
      return JSON.stringify(readRecord(text));
    } catch (error) {
      if (!(error instanceof RecordError)) throw error;
      return error.message;
    }
  };
  // What a mail program may do to a line: add spaces at its end or `>` marks, or fold it.
  const plain = (text) => text.replace(/^>[> ]*/gm, "").replace(/[ \t\r]+$/gm, "").replace(/[ \n]+/g, "");
  const wanted = read(record);
  const [title, ...rest] = record.split("\n");
  const start = title.length + 1;
  const taken = [];
  const length = start + rest.join("\n").trimEnd().length;
  same(`format ${number}: places of a record`, length < MOST_PLACES, true);
  for (const place of places) {
    if (place >= length) continue;
    for (const letter of ["", " ", ":", "0", "9", "x", "\"", "\\"]) {
      for (const end of [place, place + 1]) {
        const text = record.slice(0, place) + letter + record.slice(end);
        if (plain(text) !== plain(record) && read(text) === wanted) taken.push([place, letter, end]);
      }
    }
  }
  same(`format ${number}: other texts that are taken for the record`, taken, []);
  for (const name of names) {
    for (const colon of [":", " : ", ":  ", ": : ", "  ", " ", ";"]) {
      const text = record.replace(`${name}: `, `${name}${colon}`);
      same(`${name}${colon}`, [read(text) === wanted, colon], [false, colon]);
    }
  }
}

/** In lists of a few words, the lines that look like an earlier one are those that a plain search finds. */
function alikes(number, browsers) {
  const forms = [(line) => line, (line) => line.replace(/^[\t ]+|[\t ]+$/g, ""), (line) => line.replace(/\u200b/g, ""),
    (line) => line.normalize("NFC"), (line) => line.replace(/\u0430/g, "a"), (line) => line.normalize("NFKC"),
    (line) => line.toLowerCase().normalize("NFC")];
  const formed = (line, index) => forms.slice(0, index + 1).reduce((text, of) => of(text), line);
  const searched = (lines) => {
    const found = forms.map(() => [0, Infinity]);
    lines.forEach((line, place) => {
      const index = forms.findIndex((_, form) =>
        lines.slice(0, place).some((other) => formed(other, form) === formed(line, form)));
      if (index >= 0) found[index] = [found[index][0] + 1, Math.min(found[index][1], place + 1)];
    });
    return found;
  };
  const words = ["a", "A", " a", "\u00e9", "e\u0301", "E\u0301\t", "\u0430", "\uff41", "a\u200b"];
  const differ = [];
  for (let chosen = number; chosen < words.length ** 4; chosen += browsers) {
    const lines = Array.from({ length: 4 }, (_, place) => words[Math.floor(chosen / words.length ** place) % words.length]);
    const found = alikeIn(lines, true).map(({ count, pairs }) => [count, pairs[0]?.[1] ?? Infinity]);
    if (String(found) !== String(searched(lines))) differ.push(lines);
  }
  same("lines alike", differ.slice(0, 3), []);
}

/** A stand-in for a long list, without its memory: a length, and line feeds at these places. A part is its two ends. */
function listOfEnds(length, ends) {
  return {
    length,
    indexOf: (_, from) => ends.find((end) => end >= from) ?? -1,
    subarray: (first, end) => [first, end],
  };
}

/** Lines are found at their offsets, however far from the beginning of a list. */
function farLines() {
  for (const power of [16, 24, 31, 32, 33, 52]) {
    const ends = [0, 1, 3, 6].map((more) => 2 ** power + more);
    for (const length of [ends[3] + 1, ends[3] + 3]) {
      const lines = length > ends[3] + 1 ? [...ends, length] : ends;
      const list = listOfEnds(length, ends);
      const starts = [0, ...lines.map((end) => end + 1)];
      same(`starts about 2^${power}`, Array.from(startsOfLines(list, lines.length)), starts);
      const module = { count: () => lines.length, draw: () => [3n, 1n, 0n, 2n] };
      same(`a draw about 2^${power}`, draw(module, list, "a seed", "4").drawn,
        [3, 1, 0, 2].map((place) => [starts[place], ends[place]]));
    }
  }
}

/** The last bytes of a list, and its length. A long list is not compared as a whole. */
const endOf = (list) => [list.length, Array.from(list.slice(-7))];

/** A result of more than 2^24 bytes has each byte in its place. */
function largeLists() {
  const size = 2 ** 24;
  const lines = [new Uint8Array(size).fill(97), ...["b", "", "cd"].map(utf8)];
  const list = resultOf(lines);
  same("a large result", endOf(list), [size + 7, [10, 98, 10, 10, 99, 100, 10]]);
  same("its feeds", [list.indexOf(10), list.indexOf(98)], [size, size + 1]);
  const { list: tidy, changed } = tidied(list, "empty");
  same("a large list without its empty line", [changed, endOf(tidy)], [1, [size + 6, [97, 10, 98, 10, 99, 100, 10]]]);
  same("a large list that is open", endOf(tidied(list.subarray(0, -1), "empty").list),
    [size + 5, [97, 97, 10, 98, 10, 99, 100]]);
}

/** If the draw of a check fails, the check says so, and not that the record differs. */
function failedChecks() {
  const list = utf8("Ada\nBob\n");
  const sum = new Uint8Array(32).fill(7);
  const record = { ...RECORD, entrants: 2, list: hex(sum) };
  const maker = { version: record.version, module: record.module, otherModule: "", words: "", otherWords: "" };
  const module = { digest: () => sum, count: () => 2, draw: () => [0n] };
  for (const [error, wanted] of [[new RangeError("long"), ["no memory", {}]],
    [new WebAssembly.RuntimeError("trap"), ["the module failed", { reason: "RuntimeError: trap" }]],
    [new Refusal("words were rejected"), ["words were rejected", {}]]]) {
    for (const call of ["count", "draw", "digest"]) {
      const failing = { ...module, [call]: () => { throw error; } };
      try {
        same(`${call} that fails`, check(failing, maker, list, { text: writeRecord(record) }).outcome, "an error");
      } catch (thrown) {
        same(`${call} that fails`, refusalOf(thrown), wanted);
      }
    }
  }
  const few = { ...record, entrants: 3, drawn: 3, named: [utf8("Ada"), utf8("Bob"), utf8("Cid")] };
  same("more than there are", check(module, maker, list, { text: writeRecord(few) }).findings,
    [{ text: "Cannot draw 3: the list has only 2 entrants." }, UNANNOUNCED]);
}

/** An error that is not the record's, while the record is read, is not shown as an error of the record. */
function unreadRecords(lengths) {
  const outcomeOf = (text) => {
    try {
      return check({}, {}, utf8(""), { text }).outcome;
    } catch (error) {
      return refusalOf(error);
    }
  };
  for (const error of [new RangeError("long"), new TypeError("none"), new Error("any"),
    new WebAssembly.RuntimeError("trap")]) {
    const fail = () => { throw error; };
    same(`a text that fails by ${error}`, outcomeOf({ split: fail }), refusalOf(error));
    same(`a line that fails by ${error}`, outcomeOf({ split: () => ["", { slice: fail }] }), refusalOf(error));
  }
  same("a text that is no record", outcomeOf("a\n"), "no record");
  // Browsers differ in how long a line a regular expression accepts. A line that is too long is not
  // the record's error.
  const record = writeRecord({ ...RECORD, named: ["Ada"].map(utf8) });
  for (const length of lengths) {
    same(`a line of ${length}`, outcomeOf(record.replace("Ada", "x".repeat(length))) === "no record", false);
  }
}

/** An invisible character in a record that is not escaped is an error with its line, wherever it is. */
function bareLetters(letters) {
  for (const [number, base, write] of BOTH) bareIn(number, write(base).trimEnd().split("\n"), letters);
}

function bareIn(number, lines, letters) {
  const mark = number === 1 ? "" : "\"";
  const lineOf = (place, line) => namedIn([...lines.slice(0, place), line, ...lines.slice(place + 1)].join("\n"));
  const parts = number === 1
    ? ["", "A", "\\x41", "\\x41\\x64", "\\x41\\x64\\x61\\x41", "\\\\", "\\xe2\\x80"]
    : ["", "A", " ", "\"", "\\x5c", "\\xe2\\x80\\x8b", "\\xe2\\x80"];
  for (const letter of letters) {
    // The reader removes these two at the end of a line, because mail programs add them.
    const isDropped = "\t\r".includes(letter);
    const taken = [];
    const refused = (place, line) => {
      const found = lineOf(place, line);
      if (found !== place + 1) taken.push([line, found]);
    };
    lines.forEach((line, place) => {
      refused(place, letter + line);
      if (!isDropped) refused(place, line + letter);
    });
    for (const before of parts) {
      for (const after of parts.slice(isDropped && number === 1 ? 1 : 0)) {
        refused(8, `1: ${mark}${before}${letter}${after}${mark}`);
      }
    }
    same(`format ${number}, a bare U+${letter.codePointAt(0).toString(16)}`, taken, []);
  }
}

/** Spaces and tabs at the ends of lines cause a warning, whether the list is text or not. */
function spaces() {
  for (const line of [[97], [0xff], [0xc3, 0xa9], [0xc3]]) {
    for (const space of [9, 32]) {
      for (const [place, spaced] of [[0, line], [1, [space, ...line]], [1, [...line, space]], [0, [...line, 13]]]) {
        for (const other of [[98], [0xfe]]) {
          const warnings = warningsOf(Uint8Array.from([...spaced, 10, ...other, 10]));
          const told = warnings.filter(({ text }) => text.includes("a space or a tab")).length;
          same(`spaces of ${spaced} and ${other}`, told, place);
        }
      }
    }
  }
}

/** Lines that differ only in ASCII white space at their ends are alike, and a line of only white space is blank. */
function endings() {
  const isTold = (list, words) => warningsOf(Uint8Array.from(list)).some(({ text }) => text.includes(words));
  for (const line of [[97], [0xff]]) {
    for (let code = 0; code < 128; code += 1) {
      if (code === 10) continue;
      const isSpace = [9, 11, 12, 13, 32].includes(code);
      for (const other of [[code, ...line], [...line, code], [code, code, ...line, code]]) {
        same(`${other} beside ${line}`, isTold([...line, 10, ...other, 10], "the spaces at its ends"), isSpace);
      }
      same(`${code} alone, with ${line}`, isTold([...line, 10, code, 10], "Line 2 has nothing that can be seen"), isSpace);
    }
  }
}

/** The outcome of a promise: its answer, or the reason and the values of its Refusal. */
const ended = (promise) => promise.then((answer) => answer, ({ reason, values }) => [reason, values]);

async function clients() {
  const workers = [];
  const real = window.Worker;
  window.Worker = class {
    constructor() {
      this.sent = [];
      workers.push(this);
    }

    postMessage(message) {
      this.sent.push(message);
    }
  };
  try {
    for (const [message, reason] of [["it stopped", "it stopped"], ["", "the worker cannot start"]]) {
      const told = [];
      const client = new Client("", (progress) => told.push(progress));
      const worker = workers[workers.length - 1];
      const answers = ["start", "list", "draw", "check"].map((task) => ended(client.ask(task, { task })));
      same("what is sent", worker.sent.map(({ number, task }) => [number, task]),
        [[1, "start"], [2, "list"], [3, "draw"], [4, "check"]]);
      worker.onmessage({ data: { number: 2, progress: "Counting" } });
      worker.onmessage({ data: { number: 2, answer: "counted" } });
      worker.onmessage({ data: { number: 1, refusal: { reason: "line is empty", values: { line: 3 } } } });
      const failed = ["the module failed", { reason }];
      worker.onerror({ message });
      same("answers", await Promise.all(answers), [["line is empty", { line: 3 }], "counted", failed, failed]);
      same("progress", told, ["Counting", ""]);
      for (const task of ["list", "draw", "check", "draw"]) {
        const waiting = new Promise((resolve) => setTimeout(resolve, 1000, "no answer"));
        const after = await Promise.race([ended(client.ask(task, {})), waiting]);
        same(`a ${task} after its worker was lost`, after, failed);
      }
    }
    await stopped(workers);
    await unsent(workers);
  } finally {
    window.Worker = real;
  }
}

/** A stopped client rejects every task, earlier and later ones, with the same reason. */
async function stopped(workers) {
  const told = [];
  const client = new Client("", (progress) => told.push(progress));
  const worker = workers[workers.length - 1];
  const asked = ended(client.ask("start", {}));
  worker.onmessage({ data: { number: 1, progress: "Starting" } });
  client.stop(new Refusal("no WebAssembly"));
  same("a start", await asked, ["no WebAssembly", {}]);
  for (const task of ["list", "tidy", "draw", "check"]) {
    same(`a ${task} without a start`, await ended(client.ask(task, {})), ["no WebAssembly", {}]);
  }
  same("what is sent", [worker.sent.length, told], [1, ["Starting", ""]]);
}

/** A message that cannot be sent is rejected, and no task stays open. */
async function unsent(workers) {
  const told = [];
  const client = new Client("", (progress) => told.push(progress));
  const worker = workers[workers.length - 1];
  const send = worker.postMessage;
  worker.postMessage = () => { throw new RangeError("too long"); };
  same("a list that is too long", refusalOf(await client.ask("list", {}).catch((error) => error)), ["no memory", {}]);
  worker.postMessage = send;
  const asked = ended(client.ask("draw", {}));
  worker.onmessage({ data: { number: 2, progress: "Drawing" } });
  worker.onmessage({ data: { number: 2, answer: "drawn" } });
  same("a draw after it", [await asked, told], ["drawn", ["Drawing", ""]]);
}

/** Long lines of spaces take no more than a moment: no search in them is repeated for each space. */
function longSpaces() {
  const spaces = " ".repeat(300000);
  const record = writeRecord({ ...RECORD, named: [utf8("Ada")] });
  for (const [name, act] of [
    ["a record", () => namedIn(record.replace("Ada", `A${spaces}a`))],
    ["a title", () => namedIn(`x${spaces}y\n${record}`)],
    ["a seed", () => namedIn(record.replace('"a seed"', `"a${"\nx".repeat(20000)}`))],
    ["a seed of marks", () => namedIn(record.replace('"a seed"', `"\\x41${'\n"'.repeat(20000)}`))],
    ["an entrant", () => namedIn(record.replace('"Ada"', `"A${"\nx".repeat(20000)}`))],
    ["a heading", () => questionsOf(utf8(`a${spaces}b\nc\nd\n`))],
    ["a list", () => warningsOf(utf8(`a${spaces}b\nc\nd\n`))],
    ["a list to trim", () => tidied(utf8(`a${spaces}b\n`), "trim")],
    ["an entrant of tags", () => shown(utf8(`a${"\u{e0067}".repeat(200000)}b`))],
    ["an entrant of tags after a flag", () => kindsIn(`a\u{1f3f4}${"\u{e0067}".repeat(200000)}b`)],
    ["a seed that does not end", () => namedIn(record.replace('"a seed"', `"x${`\n${"y".repeat(500)}\u200b"`.repeat(1999)}`))],
  ]) {
    const begun = performance.now();
    act();
    const seconds = (performance.now() - begun) / 1000;
    same(`${name} with many spaces`, [seconds < 5, seconds < 5 ? 0 : seconds], [true, 0]);
  }
}

/** Lines of white space only are removed. Empty lines and other lines stay. */
function blankLines() {
  for (const [list, wanted, count] of [["a\n \nb\n", "a\nb\n", 1], ["\t\r\n\v \n a \n", " a \n", 2], ["a\n  ", "a", 1],
    ["a\n\n\u00ff \n", "a\n\n\u00ff \n", 0], [" \n\na", "\na", 1], ["\u00a0\na\n", "\u00a0\na\n", 0], [" \n", "", 1]]) {
    const found = tidied(utf8(list), "blank");
    same(`without blank lines: ${JSON.stringify(list)}`, [textOf(found.list), found.changed], [wanted, count]);
  }
  same("without blank lines, bytes", Array.from(tidied(Uint8Array.of(32, 10, 255, 10), "blank").list), [255, 10]);
}

/** If there is no memory for copies of a list, a check still says that it is another list. */
function copiesWithoutMemory() {
  for (const calls of [1, 2, 3, 5]) {
    let left = calls;
    const module = { digest() {
      if (left === 0) throw new RangeError("no room");
      left -= 1;
      return new Uint8Array(32).fill(7);
    } };
    const maker = { version: null, module: RECORD.module, otherModule: "", words: "", otherWords: "" };
    const { outcome, findings } = check(module, maker, utf8("a\nb\n"), { text: writeRecord(RECORD) });
    same(`memory for ${calls} sums`, [outcome, findings[0].text.startsWith("Another list:"), findings[1].text.includes("line ends")],
      ["differs", true, false]);
  }
}

/** Values at the ends of what is told apart. */
function limits() {
  const cutOf = (length) => previewOf(utf8(`${"a".repeat(length)}\n`), 1)[0].isCut;
  same("a preview of 200 and of 201 bytes", [cutOf(200), cutOf(201)], [false, true]);
  const lengths = (length) => formDifferences("a".repeat(length - 1), "a".repeat(length)).length;
  same("another length of 15 and of 16", [lengths(15), lengths(16)], [0, 1]);
  const isEnough = (seeds) => enoughWords({ entrants: 6, winners: 1 }, { seeds, words: "w" }, true).includes("That is enough.");
  same("as many seeds as sets, and fewer", [isEnough(6n), isEnough(5n)], [true, false]);
  same("U+0000 beside a mark", markedPair("a\0b", "a\0B")[0].parts, ["a", 0, [98]]);
}

errors();
longSpaces();
blankLines();
copiesWithoutMemory();
limits();
statuses();
versions();
folds1();
folds2();
continuations();
restOfLong(arguments[1]);
otherTexts(arguments[2]);
alikes(arguments[3], arguments[4]);
farLines();
largeLists();
failedChecks();
unreadRecords(arguments[5]);
bareLetters(arguments[0]);
spaces();
endings();
return clients().then(starts).then(() => cases);
