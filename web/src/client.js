// The page's side of the worker: each task is a promise, and its progress is reported meanwhile.

import { Refusal } from "./refusal.js";

export class Client {
  #worker;
  #tell;
  #open = new Map();
  #last = 0;
  /** Why the worker cannot be used, or null while it works. @type {?Refusal} */
  #lost = null;

  /**
   * @param {string} code the worker's JavaScript
   * @param {(progress: string) => void} tell gets an empty text once no task is open
   */
  constructor(code, tell) {
    const address = URL.createObjectURL(new Blob([code], { type: "text/javascript" }));
    this.#tell = tell;
    this.#worker = new Worker(address);
    this.#worker.onmessage = ({ data }) => this.#receive(data);
    this.#worker.onerror = (event) => {
      const reason = event.message || "the worker cannot start";
      this.stop(new Refusal("the module failed", { reason }));
    };
  }

  /**
   * @param {"start"|"list"|"tidy"|"digest"|"announcement"|"draw"|"check"} task @param {Object} data
   * @returns {Promise<Object>} rejected with a Refusal, or with the error of a message that cannot be sent
   */
  ask(task, data) {
    if (this.#lost) return Promise.reject(this.#lost);
    this.#last += 1;
    const number = this.#last;
    return new Promise((resolve, reject) => {
      this.#worker.postMessage({ number, task, data });
      this.#open.set(number, { resolve, reject });
    });
  }

  /** Rejects all open tasks and every later one. @param {Refusal} refusal */
  stop(refusal) {
    this.#lost = refusal;
    for (const { reject } of this.#open.values()) reject(refusal);
    this.#open.clear();
    this.#tell("");
  }

  #receive({ number, progress, answer, refusal }) {
    if (progress) {
      this.#tell(progress);
      return;
    }
    const asked = this.#open.get(number);
    this.#open.delete(number);
    if (this.#open.size === 0) this.#tell("");
    if (refusal) asked?.reject(new Refusal(refusal.reason, refusal.values));
    else asked?.resolve(answer);
  }
}
