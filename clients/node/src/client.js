// The calls of a tenant and of the administrator. index.d.ts says what each does. Used by: programs, by index.js. A further call is one of
// each client, has a case in play.js, and cases in clients/cases.
import { Busy, Invalid, Lost, Unknown } from './errors.js';
import {
  MAX_ENTRIES, administratorGreeting, casQuestion, checkAddresses, checkedEntries, getQuestion, reportQuestion, tenantGreeting,
} from './protocol.js';
import { Session } from './session.js';
import { now } from './time.js';

// Only this module makes clients: whoever has this key.
const KEY = Symbol('of a client');

class Ender {
  #session;

  constructor(key, session) {
    if (key !== KEY) {
      throw new TypeError('a client is made by connect');
    }
    this.#session = session;
  }

  close() {
    return this.#session.close();
  }

  async reconnect(within = 0, { signal } = {}) {
    await this.#session.reconnect(within, signal);
  }
}

export class Client extends Ender {
  #session;

  constructor(key, session) {
    super(key, session);
    this.#session = session;
  }

  static async connect(server, tenant, { signal, ...options } = {}) {
    const session = new Session(server, tenantGreeting(tenant), options);
    return new Client(KEY, await session.begin(signal));
  }

  get words() {
    return this.#session.words;
  }

  async get(address, { signal } = {}) {
    const [value] = await this.getMany([address], { signal });
    return value;
  }

  async getMany(addresses, { signal } = {}) {
    const all = [...addresses];
    checkAddresses(all, this.words);
    return all.length ? this.#session.ask(getQuestion(all), signal) : [];
  }

  async stable(addresses, { signal } = {}) {
    const end = now() + this.#session.options.patience;
    const all = [...addresses];
    // The server answers a line before it looks at the next one, so two readings may be sent together.
    const both = await this.getMany([...all, ...all], { signal });
    let before = both.slice(0, all.length);
    let values = both.slice(all.length);
    while (values.some((value, k) => value !== before[k])) {
      this.#checkPatience(end);
      before = values;
      values = await this.getMany(all, { signal });
    }
    return values;
  }

  async read(addresses, { signal } = {}) {
    const all = [...addresses];
    checkAddresses(all, this.words);
    const different = [...new Set(all)].sort((one, other) => one - other);
    if (different.length < 1 || different.length > MAX_ENTRIES) {
      throw new Invalid(`one to ${MAX_ENTRIES} different words are read at a time`);
    }
    const end = now() + this.#session.options.patience;
    const values = await this.getMany(different, { signal });
    const known = new Map(different.map((address, k) => [address, values[k]]));
    if (different.length > 1) {
      await this.#confirm(known, end, signal);
    }
    return all.map((address) => known.get(address));
  }

  // Asks for the change that writes to each word its guessed value, and mends guesses that have gone stale, up to the end.
  async #confirm(known, end, signal) {
    for (;;) {
      const entries = [...known].map(([address, value]) => ({ address, expected: value, value }));
      const outcome = await this.#session.askPatiently(casQuestion(entries, Lost), end, signal);
      if (outcome.made) {
        return;
      }
      this.#checkPatience(end);
      known.set(outcome.address, outcome.value);
    }
  }

  #checkPatience(end) {
    if (now() >= end) {
      throw new Busy(`the words changed for ${this.#session.options.patience} milliseconds`);
    }
  }

  async cas(entries, { signal } = {}) {
    const checked = checkedEntries(entries, this.words);
    const end = now() + this.#session.options.patience;
    return this.#session.askPatiently(casQuestion(checked, Unknown), end, signal);
  }
}

export class Administrator extends Ender {
  #session;

  constructor(key, session) {
    super(key, session);
    this.#session = session;
  }

  static async connect(server, { signal, ...options } = {}) {
    const session = new Session(server, administratorGreeting, options);
    return new Administrator(KEY, await session.begin(signal));
  }

  async report({ signal } = {}) {
    return this.#session.ask(reportQuestion, signal);
  }
}
