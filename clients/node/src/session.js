// A session: it connects, asks, asks again, and tells how a lost connection counts. Used by: client.js, counted.js, and programs for its
// limits. When it asks again is the same in each client: change them together, with a case in clients/cases.
import { Busy, Full, Invalid, Lost, MondlexiError } from './errors.js';
import { Aborted, Late, Link, Unsent, strange } from './link.js';
import { failureOf, placeOf } from './protocol.js';
import { Pause, Turn, now } from './time.js';

export const MAX_TIME = 1_000_000_000;
export const MAX_RECONNECTS = 1000;
export const DEFAULTS = Object.freeze({ timeout: 10_000, patience: 5_000, within: 0, reconnects: 1 });
const GOODBYE = 1_000;
// Failures after which a question isn't asked again over a new connection.
const final = new WeakSet();

// Invalid unless this is a time from `least` on.
export function checkTime(name, time, least = 0) {
  if (typeof time !== 'number' || !(time >= least && time <= MAX_TIME)) {
    throw new Invalid(`${name} has to be from ${least} to ${MAX_TIME} milliseconds`);
  }
}

function checkedOptions(given, place) {
  const options = { ...DEFAULTS, ...given };
  checkTime('timeout', options.timeout, 1);
  checkTime('patience', options.patience);
  checkTime('within', options.within);
  if (!Number.isInteger(options.reconnects) || options.reconnects < 0 || options.reconnects > MAX_RECONNECTS) {
    throw new Invalid(`reconnects has to be from 0 to ${MAX_RECONNECTS}`);
  }
  if (options.tls && place.path !== undefined) {
    throw new Invalid('TLS is for TCP, not for a local socket');
  }
  return options;
}

// A session, over one connection after the other. Whatever uses the connection has the turn.
export class Session {
  #place;
  #greeting;
  #turn = new Turn();
  #state = 'closed';
  #link;
  // What the last greeting told: how many words the tenant has, 0 of the administrator.
  words = 0;

  constructor(server, greeting, options) {
    this.#place = placeOf(server);
    this.#greeting = greeting;
    this.options = checkedOptions(options, this.#place);
  }

  // Connects, and tries again for as long as the options say.
  async begin(signal) {
    await this.#beginUntil(now() + this.options.within, signal, false);
    return this;
  }

  // Ends a session that there is, and begins anew.
  async reconnect(within, signal) {
    checkTime('within', within);
    const end = now() + within;
    await this.close();
    await this.#beginUntil(end, signal, false);
  }

  // Ends the session, and waits for the server's goodbye, a second at most.
  close() {
    return this.#turn.run(undefined, async () => {
      if (this.#state === 'open') {
        await this.#link.finish(now() + Math.min(GOODBYE, this.options.timeout));
      }
      this.#drop();
      this.#state = 'closed';
    });
  }

  #drop() {
    this.#link?.close();
    this.#link = undefined;
    this.#state = 'broken';
  }

  // Begins; if there is no connection it tries again, with growing pauses, up to the end. A repair leaves a session alone that
  // another call has repaired or closed.
  async #beginUntil(end, signal, isRepair) {
    const pause = new Pause(end);
    for (;;) {
      try {
        await this.#turn.run(signal, () => (isRepair && this.#state !== 'broken' ? undefined : this.#beginOnce(signal)));
        return;
      } catch (error) {
        if (!(error instanceof Lost) || !(await pause.wait(signal))) {
          throw error;
        }
      }
    }
  }

  // Makes a new connection and its greeting, in place of what there was.
  async #beginOnce(signal) {
    const { tls, timeout } = this.options;
    this.#drop();
    try {
      this.#link = await Link.connect(this.#place, tls === true ? {} : tls, now() + timeout, signal);
    } catch (error) {
      const Kind = error.code === 'ECONNRESET' && !tls ? Full : Lost;
      throw new Kind(`connecting: ${error.message}`, { cause: error.cause ?? error });
    }
    try {
      this.words = await this.#answer(this.#greeting, signal);
    } catch (error) {
      this.#drop();
      throw error;
    }
    this.#state = 'open';
  }

  // Asks a question. If it can change nothing and the connection has broken, it is asked again over a new one, as often as the
  // options say. A reply that is late isn't waited for again.
  async ask(question, signal) {
    for (let left = question.gone === Lost ? this.options.reconnects : 0; ; left -= 1) {
      try {
        return await this.#turn.run(signal, () => this.#askOnce(question, signal));
      } catch (error) {
        if (!(error instanceof Lost) || left === 0 || signal?.aborted || final.has(error)) {
          throw error;
        }
      }
      await this.#beginUntil(now() + this.options.within, signal, true);
    }
  }

  // Asks again while the server is busy, up to the end.
  async askPatiently(question, end, signal) {
    const pause = new Pause(end);
    for (;;) {
      try {
        return await this.ask(question, signal);
      } catch (error) {
        if (!(error instanceof Busy) || !(await pause.wait(signal))) {
          throw error;
        }
      }
    }
  }

  // Asks over the connection that there is.
  #askOnce(question, signal) {
    if (this.#state === 'open') {
      return this.#answer(question, signal);
    }
    const isClosed = this.#state === 'closed';
    const error = new Lost(`${question.lines[0]}: not sent, the client ${isClosed ? 'is closed' : 'has lost its connection'}`);
    if (isClosed) {
      final.add(error);
    }
    throw error;
  }

  // The answer. Whatever ends the exchange before its last reply closes the connection, because a late reply would be taken for that
  // of the next line.
  async #answer(question, signal) {
    try {
      const replies = await this.#link.exchange(question, this.options.timeout, signal);
      throwFailure(question.lines, replies);
      const answer = question.meaning(replies);
      if (answer === undefined) {
        throw strange(replies[0].join('; '));
      }
      return answer;
    } catch (error) {
      throw error instanceof MondlexiError ? error : this.#gone(question, error);
    }
  }

  // Closes the connection, and gives what that means.
  #gone(question, error) {
    const isLate = error instanceof Late;
    const isFull = this.#link.isSilent && !isLate;
    const Kind = error instanceof Unsent ? Lost : question.gone;
    const text = isLate && !(error instanceof Aborted) ? noReply(this.#link.isSilent, this.options.timeout) : error.message;
    const failure = new (isFull ? Full : Kind)(`${question.lines[0]}: ${text}`, { cause: error.cause ?? error });
    if (isLate) {
      final.add(failure);
    }
    this.#drop();
    return failure;
  }
}

// What is told of a reply that did not come in time.
function noReply(isSilent, timeout) {
  return `connected, but no reply in ${timeout} ms${isSilent ? '; perhaps all sessions are taken (mwserve --clients)' : ''}`;
}

// Throws the first failure that a reply tells, if one does.
function throwFailure(lines, replies) {
  const failures = replies.map((reply, k) => failureOf(lines[k], reply.at(-1)));
  const first = failures.find((it) => it);
  if (first) {
    throw first;
  }
}
