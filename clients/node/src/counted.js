// Changes of which it is found out whether they were made. index.d.ts says what each call does. Used by: programs, by index.js. What a call
// tells is the same in each client: change them together, with a case in clients/cases/counted.txt.
import { Busy, Fault, Lost, Moved, Unknown, Worn } from './errors.js';
import { checkedEntries } from './protocol.js';
import { checkTime } from './session.js';
import { Pause, Turn, now } from './time.js';

function isGone(error) {
  return error instanceof Lost || error instanceof Unknown;
}

export class Counted {
  #client;
  #address;
  #wait;
  #turn = new Turn();
  #count = 0;
  // A change is noted as undecided before it is sent.
  #isUndecided = false;
  // Whether the last change was made, or, if it is undecided, may have been.
  #isMade = false;

  constructor(client, address, wait) {
    checkTime('wait', wait);
    this.#client = client;
    this.#address = address;
    this.#wait = wait;
  }

  static async begin(client, address, { wait = 30_000, signal } = {}) {
    const counted = new Counted(client, address, wait);
    await counted.#begin(signal);
    return counted;
  }

  async #begin(signal) {
    for (;;) {
      const { value, isMoved } = await this.#move(signal);
      this.#count = value;
      if (isMoved) {
        return;
      }
    }
  }

  cas(entries, { signal } = {}) {
    return this.#turn.run(signal, () => this.#change([...entries], signal));
  }

  settle({ signal } = {}) {
    return this.#turn.run(signal, () => this.#settle(signal));
  }

  async #change(entries, signal) {
    this.#isMade = false;
    await this.#makeReady(signal);
    const all = [...entries, { address: this.#address, expected: this.#count, value: this.#count + 2 }];
    checkedEntries(all, this.#client.words);
    this.#isUndecided = true;
    this.#isMade = true;
    try {
      return this.#decided(await this.#client.cas(all, { signal }));
    } catch (error) {
      if (error instanceof Moved) {
        throw error;
      }
      return this.#afterFailure(error, signal);
    }
  }

  // Notes what an answer says of the change.
  #decided(outcome) {
    this.#isUndecided = false;
    this.#isMade = outcome.made;
    if (outcome.made) {
      this.#count += 2;
    } else if (outcome.address === this.#address) {
      throw this.#movedByAnother();
    }
    return outcome;
  }

  async #afterFailure(error, signal) {
    if (isGone(error)) {
      return { made: await this.#settle(signal) };
    }
    if (error instanceof Fault || error instanceof Worn) {
      throw this.#undecided(error);
    }
    this.#isUndecided = false;
    this.#isMade = false;
    throw error;
  }

  async #settle(signal) {
    try {
      await this.#findOut(signal);
    } catch (error) {
      throw this.#undecided(error);
    }
    return this.#isMade;
  }

  #movedByAnother() {
    return new Moved(`something else has moved the count at ${this.#address}`);
  }

  // What is told if this leaves the last change undecided.
  #undecided(cause) {
    const text = `the last change with the count at ${this.#address}: ${cause.message}`;
    return cause instanceof Moved ? cause : new Unknown(text, { cause });
  }

  // Settles the change before. A new one that waits for this was not sent, so it isn't Unknown.
  async #makeReady(signal) {
    try {
      await this.#findOut(signal);
    } catch (error) {
      throw error instanceof Unknown ? new Lost(`not sent: ${error.message}`, { cause: error }) : error;
    }
  }

  // Finds out whether the last change was made, if it is undecided.
  async #findOut(signal) {
    if (!this.#isUndecided) {
      return;
    }
    const { value } = await this.#move(signal);
    if (value <= this.#count || value > this.#count + 2) {
      throw this.#movedByAnother();
    }
    this.#isMade = this.#isMade && value === this.#count + 2;
    this.#count = value;
    this.#isUndecided = false;
  }

  // Moves the count by 1, and tells its value then; or the other value that it has. While the server is busy or there is no
  // connection it asks again, for `wait`.
  async #move(signal) {
    const end = now() + this.#wait;
    const pause = new Pause(end);
    const entry = { address: this.#address, expected: this.#count, value: this.#count + 1 };
    for (;;) {
      try {
        const { made, value } = await this.#client.cas([entry], { signal });
        return { value: made ? entry.value : value, isMoved: made };
      } catch (error) {
        if ((!isGone(error) && !(error instanceof Busy)) || !(await pause.wait(signal))) {
          throw error;
        }
        if (isGone(error)) {
          await this.#client.reconnect(Math.max(0, end - now()), { signal });
        }
      }
    }
  }
}
