// Watches the calls of module.js, whose code precedes this. Each pointer has to be in memory that
// the module itself never uses, no two areas may overlap, and the module has to read what it was
// given. Returns the number of calls, what is wrong, and the digests.

const [code, bits] = arguments;
const compiled = new WebAssembly.Module(
  Uint8Array.from(atob(code), (letter) => letter.charCodeAt(0)));
const wrong = [];
let calls = 0;

const SIZE = BigInt(bits / 8);

/** The areas of each call: the index of the pointer argument, the length, and whether it is read. */
const AREAS = {
  nanorand_v1_lots_digest: (rest) => [[rest[0], rest[1], true], [rest[2], 32n, false]],
  nanorand_v1_lots_count: (rest) => [[rest[0], rest[1], true], [rest[2], SIZE, false]],
  nanorand_v1_lots_draw: (rest) => [[rest[0], rest[1], true], [rest[2], rest[3] * SIZE, false]],
};

function look(name, exports, own, rest, given) {
  calls += 1;
  const say = (what) => wrong.push(`${name}(${rest.join(", ")}): ${what}`);
  const areas = AREAS[name](rest.map(BigInt));
  for (const [start, length, isRead] of areas) {
    if (start < own) say("in the module's own memory");
    if (start + length > exports.memory.buffer.byteLength) say("outside of memory");
    else if (isRead) {
      const there = new Uint8Array(exports.memory.buffer, Number(start), Number(length));
      if (there.length !== given.length || there.some((byte, index) => byte !== given[index])) {
        say("not the bytes that were given");
      }
    } else if (length !== 32n && start % SIZE !== 0n) say(`not at a multiple of ${SIZE}`);
  }
  const [[one, oneLength], [other, otherLength]] = areas;
  if (one < other + otherLength && other < one + oneLength) say("two areas overlap");
}

/** A module whose calls are watched. `given` has the bytes that the next call gets. */
function watched(given) {
  const { exports } = new WebAssembly.Instance(compiled, {});
  const own = BigInt(exports.memory.buffer.byteLength);
  const calls = Object.keys(AREAS).map((name) => [name, (...rest) => {
    look(name, exports, own, rest, given.bytes);
    return exports[name](...rest);
  }]);
  return new Module({ exports: { ...exports, ...Object.fromEntries(calls) } }, bits);
}

const bytesOf = (length) => Uint8Array.from({ length }, (_, index) => 11 + index % 240);
const seedOf = (length) => new Uint8Array(length).fill(97);
const digests = [];

/** Whether places are so many different ones below a length. */
function areDifferent(places, count, length) {
  const isThere = new Uint8Array(length);
  let there = 0;
  for (const place of places) {
    if (place >= length) return false;
    there += 1 - isThere[Number(place)];
    isThere[Number(place)] = 1;
  }
  return there === count && places.length === count;
}

/** Each call as the first one of a module, and on one module after other calls of all sizes. */
function all(make, lengths) {
  for (const length of lengths) {
    const given = make.given;
    given.bytes = bytesOf(length);
    const digest = make.module().digest(given.bytes);
    const digits = Array.from(digest, (byte) => byte.toString(16).padStart(2, "0"));
    digests.push([length, digits.join("")]);
    const lines = make.module().count(given.bytes);
    if (lines !== Math.min(length, 1)) wrong.push(`count of ${length} bytes: ${lines}`);
    given.bytes = seedOf(length % 300 + 1);
    // Where the places are does not depend on how many of them are asked for.
    for (const count of length < 10_000 ? [0, 1, length] : [length]) {
      if (count > length) continue;
      const places = make.module().draw(given.bytes, length, count);
      if (!areDifferent(places, count, length)) wrong.push(`draw of ${count} places of ${length}`);
    }
  }
}

/** A result must not change when the module is called again. */
function staysAfterCalls(make) {
  const given = make.given;
  given.bytes = seedOf(5);
  const places = make.module().draw(given.bytes, 100, 100);
  given.bytes = bytesOf(70);
  const digest = make.module().digest(given.bytes);
  const before = [places.join(), digest.join()];
  given.bytes = bytesOf(3000);
  make.module().digest(given.bytes);
  if (places.join() !== before[0] || digest.join() !== before[1]) wrong.push("a result changed");
}

const SIZES = [0, 1, 7, 8, 9, 63, 64, 65, 8150, 8191, 8192, 8193];
for (let size = 65536 - 41; size < 65536 + 3; size += 1) SIZES.push(size);
const first = { bytes: null };
all({ given: first, module: () => watched(first) }, SIZES);
const one = { bytes: null };
const kept = watched(one);
all({ given: one, module: () => kept }, [...SIZES].reverse());
staysAfterCalls({ given: one, module: () => kept });
return [calls, wrong.slice(0, 20), digests];
