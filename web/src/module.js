// The two WebAssembly modules of the page: their memory and their calls.

import { Refusal } from "./refusal.js";

const PAGE = 65536;
const DIGEST = 32;

/**
 * For each memory width in bits: the JavaScript type of the module's pointers and lengths, the
 * array type of the places (indices of entrants) that it writes, and its description.
 */
const KINDS = {
  64: { number: BigInt, Places: BigUint64Array, words: "for 64-bit memory, proved" },
  32: {
    number: Number,
    Places: Uint32Array,
    words: "for 32-bit memory: built from the Rust crate, whose functions are compared with the proved ones",
  },
};

/** A module whose only content is a 64-bit memory of one page. */
const SMALLEST = Uint8Array.of(0, 97, 115, 109, 1, 0, 0, 0, 5, 3, 1, 4, 1);

/** @returns {64|32} the memory width of the module to run: 64 bits if the browser supports it */
export function bitsOfBrowser() {
  if (typeof WebAssembly !== "object") throw new Refusal("no WebAssembly");
  return WebAssembly.validate(SMALLEST) ? 64 : 32;
}

/** Describes the module with this memory width. @param {64|32} bits @returns {string} */
export function wordsOfModule(bits) {
  return KINDS[bits].words;
}

export class Module {
  #exports;
  #kind;
  /** The end of the module's initial memory: it never uses addresses from here on by itself. */
  #start;

  /** @param {Uint8Array} code @param {64|32} bits @returns {Promise<Module>} */
  static async from(code, bits) {
    try {
      const { instance } = await WebAssembly.instantiate(code, {});
      return new Module(instance, bits);
    } catch (error) {
      const isForbidden = error instanceof WebAssembly.CompileError || error instanceof EvalError;
      if (isForbidden) throw new Refusal("no WebAssembly");
      throw error;
    }
  }

  /** @param {WebAssembly.Instance} instance @param {64|32} bits */
  constructor(instance, bits) {
    this.#exports = instance.exports;
    this.#kind = KINDS[bits];
    this.#start = this.#exports.memory.buffer.byteLength;
  }

  /** The address of `length` bytes after the module's own. They overlap those of earlier calls. */
  #room(length) {
    const missing = this.#start + length - this.#exports.memory.buffer.byteLength;
    if (missing > 0) this.#exports.memory.grow(this.#kind.number(Math.ceil(missing / PAGE)));
    return this.#start;
  }

  /** Calls an export with pointers and lengths. @param {string} name @param {...number} rest */
  #call(name, ...rest) {
    return this.#exports[`nanorand_v1_${name}`](...rest.map(this.#kind.number));
  }

  /** Writes bytes at an address. */
  #write(bytes, address) {
    new Uint8Array(this.#exports.memory.buffer, address, bytes.length).set(bytes);
  }

  /** The numbers that the module wrote at an address. */
  #places(address, count) {
    return new this.#kind.Places(this.#exports.memory.buffer, address, count).slice();
  }

  /** @returns {string} such as 1.0.0 */
  version() {
    const number = this.#call("version");
    return [Math.floor(number / 10000), Math.floor(number / 100) % 100, number % 100].join(".");
  }

  /** SHA-256. @param {Uint8Array} text @returns {Uint8Array} 32 bytes */
  digest(text) {
    const digest = this.#room(DIGEST + text.length);
    const address = digest + DIGEST;
    this.#write(text, address);
    this.#call("lots_digest", address, text.length, digest);
    return new Uint8Array(this.#exports.memory.buffer, digest, DIGEST).slice();
  }

  /** The number of entrants. Throws a Refusal if a line is empty. @param {Uint8Array} list */
  count(list) {
    const size = this.#kind.Places.BYTES_PER_ELEMENT;
    const number = this.#room(size + list.length);
    const address = number + size;
    this.#write(list, address);
    const status = this.#call("lots_count", address, list.length, number);
    const [value] = this.#places(number, 1);
    if (status === 0) return Number(value);
    if (status === 4) throw new Refusal("line is empty", { line: value.toString() });
    throw new Refusal("the module failed", { reason: `status ${status} of count` });
  }

  /**
   * The places (indices of entrants, from 0) that a seed draws, in the order drawn.
   * @param {Uint8Array} seed @param {number} entrants @param {number} count at most `entrants`
   * @returns {BigUint64Array|Uint32Array}
   */
  draw(seed, entrants, count) {
    const length = this.#kind.Places.BYTES_PER_ELEMENT * entrants;
    const places = this.#room(length + seed.length);
    const address = places + length;
    this.#write(seed, address);
    const status = this.#call("lots_draw", address, seed.length, places, entrants, count);
    if (status === 8) throw new Refusal("words were rejected");
    if (status !== 0) {
      throw new Refusal("the module failed", { reason: `status ${status} of draw` });
    }
    return this.#places(places, count);
  }
}
