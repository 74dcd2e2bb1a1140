// Moments, pauses and turns. Times are in milliseconds. Used by: the other files of this folder but errors.js and protocol.js. The pauses are
// the same in each client: change them together.
import { Lost } from './errors.js';

const FIRST_PAUSE = 1;
const LONGEST_PAUSE = 250;

export function now() {
  return performance.now();
}

// What happens first: the promise, or that a signal is over. Then it is a failure that nothing was sent.
export function unlessAborted(promise, signal) {
  if (!signal) {
    return promise;
  }
  return new Promise((resolve, reject) => {
    const abort = () => reject(new Lost('not sent: the signal is aborted', { cause: signal.reason }));
    if (signal.aborted) {
      abort();
      return;
    }
    signal.addEventListener('abort', abort, { once: true });
    promise.then(resolve, reject).finally(() => signal.removeEventListener('abort', abort));
  });
}

// Pauses that grow, and are partly random, up to an end.
export class Pause {
  #next = FIRST_PAUSE;
  #end;

  constructor(end) {
    this.#end = end;
  }

  // Lets some time pass. false, at once, if the end has come or the signal is aborted.
  async wait(signal) {
    const left = this.#end - now();
    if (left <= 0 || signal?.aborted) {
      return false;
    }
    const length = Math.min(left, this.#next * (0.5 + Math.random() / 2));
    this.#next = Math.min(LONGEST_PAUSE, 2 * this.#next);
    return sleep(Math.ceil(length), signal);
  }
}

// Whether so much time has passed before the signal was aborted.
function sleep(length, signal) {
  return new Promise((resolve) => {
    const end = (isOver) => {
      clearTimeout(timer);
      signal?.removeEventListener('abort', abort);
      resolve(isOver);
    };
    const abort = () => end(false);
    const timer = setTimeout(() => end(true), length);
    signal?.addEventListener('abort', abort, { once: true });
  });
}

// Lets one piece of work run at a time, in the order in which they came.
export class Turn {
  #last = Promise.resolve();

  // Does the work once all before it is done. If the signal is aborted before that, the work isn't done.
  async run(signal, work) {
    const before = this.#last;
    let give;
    this.#last = new Promise((resolve) => {
      give = resolve;
    });
    try {
      await unlessAborted(before, signal);
    } catch (error) {
      before.then(give);
      throw error;
    }
    try {
      return await work();
    } finally {
      give();
    }
  }
}
