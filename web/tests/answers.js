// Runs tests/answers/answers.tsv through the exports of a module, in a web page. The arguments are
// the module in base64, the table, and the width of the module's memory in bits. Returns the number
// of rows that were run, the wrong rows, and the number of rows with a number that a length of this
// width cannot hold.

const [code, table, bits] = arguments;
const bytes = Uint8Array.from(atob(code), (letter) => letter.charCodeAt(0));
const module = new WebAssembly.Module(bytes);
const MASK = 2n ** 64n - 1n;
const ROOM = 1 << 20;
/** The types of this module's pointers and lengths, and of the lengths that it writes. */
const size = bits === 64 ? BigInt : Number;
const Sizes = bits === 64 ? BigUint64Array : Uint32Array;

/** A new instance for each row, with memory for a state, for output and for input. */
function start() {
  const { exports } = new WebAssembly.Instance(module, {});
  const state = exports.memory.buffer.byteLength;
  exports.memory.grow(size(33));
  const memory = new Uint8Array(exports.memory.buffer);
  const numbers = (address, count) => Array.from(new BigUint64Array(memory.buffer, address, count));
  const sizes = (address, count) => Array.from(new Sizes(memory.buffer, address, count));
  return { exports, memory, numbers, sizes, state, out: state + 65536, into: state + 65536 + ROOM };
}

const fromHex = (text) =>
  text === "-" ? [] : text.match(/../g).map((byte) => Number.parseInt(byte, 16));
const toHex = (part) =>
  Array.from(part, (byte) => byte.toString(16).padStart(2, "0")).join("") || "-";
const listed = (numbers) => numbers.join(",") || "-";

/** The generator of a row in C. Only the stream in groups of eight blocks has parts. */
const nameOf = (generator, call) =>
  generator === "stream" && call === "part" ? "keystream" : generator;
/** The number of bytes of a stream that are computed at once. */
const BLOCKS = { stream: 64, keystream: 512 };
const CHACHA = 48;

/** Writes a state with the layout of the C struct. */
function layState(world, generator, before) {
  const state = fromHex(before);
  const block = BLOCKS[generator];
  if (block === undefined) {
    world.memory.set(state, world.state);
    return state.length;
  }
  const buffered = state.slice(CHACHA);
  const end = world.state + CHACHA + block;
  world.memory.set(state.slice(0, CHACHA), world.state);
  world.memory.set(buffered, end - buffered.length);
  world.memory[end] = buffered.length;
  return CHACHA + block + 8;
}

/** The state after a call, as the table writes it. A whole buffered block counts as not drawn. */
function stateOf(world, generator, length) {
  const all = world.memory.slice(world.state, world.state + length);
  const block = BLOCKS[generator];
  if (block === undefined) return toHex(all);
  const end = CHACHA + block;
  const view = new DataView(all.buffer);
  const buffered = view.getBigUint64(end, true);
  view.setBigUint64(CHACHA - 8, view.getBigUint64(CHACHA - 8, true) - buffered / 64n, true);
  const first = end - Number(buffered);
  const rest = toHex(all.slice(first, first + Number(buffered % 64n)));
  return toHex(all.slice(0, CHACHA)) + rest.replace("-", "");
}

/** The calls of the generators: their status, and their result read from memory. */
const CALLS = {
  u64: (call) => ({ result: String(call() & MASK) }),
  fill_bytes: (call, [length], { memory, out }) => {
    call(size(out), size(length));
    return { result: toHex(memory.slice(out, out + Number(length))) };
  },
  block: (call, _, { memory, out }) => {
    call(size(out));
    return { result: toHex(memory.slice(out, out + 64)) };
  },
  range_u32: (call, [first, last], { memory, out }) => {
    const status = call(Number(first) | 0, Number(last) | 0, size(out));
    return { status, result: String(new Uint32Array(memory.buffer, out, 1)[0]) };
  },
  range_u64: (call, [first, last], { numbers, out }) => {
    const status = call(first, last, size(out));
    return { status, result: String(numbers(out, 1)[0]) };
  },
  range_usize: (call, [first, last], { sizes, out }) => {
    const status = call(size(first), size(last), size(out));
    return { status, result: String(sizes(out, 1)[0]) };
  },
  range_i64: (call, [first, last], { numbers, out }) => {
    const status = call(first, last, size(out));
    return { status, result: String(BigInt.asIntN(64, numbers(out, 1)[0])) };
  },
  shuffle: (call, [length], { memory, sizes, out }) => {
    new Sizes(memory.buffer, out, Number(length)).set(
      Array.from({ length: Number(length) }, (_, index) => size(index)));
    return { status: call(size(out), size(length)), result: listed(sizes(out, Number(length))) };
  },
  sample: (call, [count, length], { sizes, out }) => {
    const status = call(size(count), size(out), size(length));
    return { status, result: status === 0 ? listed(sizes(out, Number(length))) : "-" };
  },
  jump: (call, draws, { memory, into }) => {
    if (draws.length === 1) call(draws[0]);
    else {
      new BigUint64Array(memory.buffer, into, 2).set(draws);
      call(size(into));
    }
    return { result: "-" };
  },
  seed_from_u64: (call, [number]) => {
    call(number);
    return { result: "-" };
  },
  part: (call, [index, draws]) => ({ status: call(index, draws), result: "-" }),
};
CALLS.shuffle_full = CALLS.shuffle;

/** The calls for drawing lots. */
const LOTS = {
  digest: (call, [text], { memory, out, into }) => {
    memory.set(text, into);
    call(size(into), size(text.length), size(out));
    return { result: toHex(memory.slice(out, out + 32)) };
  },
  count: (call, [list], { memory, sizes, out, into }) => {
    memory.set(list, into);
    const status = call(size(into), size(list.length), size(out));
    return { status, result: String(sizes(out, 1)[0]), always: true };
  },
  draw: (call, [seed, entrants, count], { memory, sizes, out, into }) => {
    memory.set(seed, into);
    const status = call(size(into), size(seed.length), size(out), size(entrants), size(count));
    return { status, result: listed(sizes(out, Number(entrants))) };
  },
};

function runRow([kind, before, call, given, status, result, after]) {
  const generator = nameOf(kind, call);
  const world = start();
  const length = layState(world, generator, before);
  const name = world.exports[`nanorand_v1_${generator}_${call}`];
  const words = given === "-" && generator !== "lots" ? [] : given.split(",");
  let found;
  if (generator === "lots") {
    found = LOTS[call](name, [fromHex(words[0]), ...words.slice(1).map(BigInt)], world);
  } else if (call === "new_seed") {
    const [seed] = new BigUint64Array([name(BigInt(words[0]))]);
    const state = new Uint8Array(new BigUint64Array([seed]).buffer);
    return status === "0" && result === "-" && toHex(state) === after;
  } else {
    const state = size(world.state);
    found = CALLS[call]((...rest) => name(state, ...rest), words.map(BigInt), world);
  }
  const said = status === "0" || found.always ? found.result : "-";
  const left = before === "-" ? "-" : stateOf(world, generator, length);
  return String(found.status ?? 0) === status && said === result && left === after;
}

/** Whether each length in a row fits into the module's width. */
function fits([generator, , call, given]) {
  const isOfSizes = generator === "lots" || ["range_usize", "sample"].includes(call);
  return !isOfSizes || given.split(",").slice(generator === "lots" ? 1 : 0)
    .every((number) => BigInt(number) < 2n ** BigInt(bits));
}

const all = table.split("\n").filter((line) => line && !line.startsWith("#"))
  .map((line) => line.split("\t"));
const rows = all.filter(fits);
const wrong = rows.filter((row) => {
  try {
    return !runRow(row);
  } catch (error) {
    row.push(String(error));
    return true;
  }
});
return [rows.length, wrong.map((row) => row.join(" ").slice(0, 200)), all.length - rows.length];
