// One connection over TCP, with TLS if that is wanted, or to a local socket, with limits of time. Used by: session.js. The limits are the
// same in each client: change them together, with a case in clients/cases.
import net from 'node:net';
import tls from 'node:tls';
import { LINES_AT_ONCE, MAX_REPLY, isLast, isTooLong } from './protocol.js';
import { Pause, now } from './time.js';

// The time of a wait is over, or its signal is aborted.
export class Late extends Error {}

// The signal of a wait is aborted.
export class Aborted extends Late {}

// The connection had ended before anything was sent.
export class Unsent extends Error {}

function aborted(signal) {
  return new Aborted('the signal is aborted', { cause: signal.reason });
}

export function strange(text) {
  return new Error(`not a reply of the protocol: ${JSON.stringify(text)}`);
}

// Waits for what `begin` tells by one of the functions that it is given; Late if the end has come or the signal is aborted first.
function limited(end, signal, begin) {
  return new Promise((resolve, reject) => {
    const over = (tell) => (value) => {
      clearTimeout(timer);
      signal?.removeEventListener('abort', abort);
      tell(value);
    };
    const fail = over(reject);
    const abort = () => fail(aborted(signal));
    // The loop may have been held up: what has come meanwhile is taken before the time is over.
    const timer = setTimeout(() => setImmediate(() => fail(new Late('timed out'))), Math.max(0, Math.ceil(end - now())));
    signal?.addEventListener('abort', abort, { once: true });
    begin(over(resolve), fail);
    if (signal?.aborted) {
      abort();
    }
  });
}

// A socket once it is connected. It is destroyed if it isn't in time.
async function connected(socket, event, end, signal) {
  try {
    await limited(end, signal, (done, failed) => {
      socket.once(event, done);
      socket.once('error', failed);
    });
  } catch (error) {
    socket.on('error', () => {});
    socket.destroy();
    throw error;
  }
  return socket;
}

async function overTcp(place, end, signal) {
  const socket = await connected(net.connect({ ...place, noDelay: true, allowHalfOpen: true }), 'connect', end, signal);
  // The system may connect a socket to itself if nobody listens at a port of this machine.
  if (socket.localPort === socket.remotePort && socket.localAddress === socket.remoteAddress) {
    socket.destroy();
    throw new Error('nobody listens');
  }
  return socket;
}

// A connection to a local socket. While as many wait there as the system lets wait, it tries again.
async function atPath(place, end, signal) {
  const pause = new Pause(end);
  for (;;) {
    try {
      return await connected(net.connect({ ...place, allowHalfOpen: true }), 'connect', end, signal);
    } catch (error) {
      if (error.code !== 'EAGAIN' || !(await pause.wait(signal))) {
        throw error.code === 'EAGAIN' ? new Late('the local socket is full', { cause: error }) : error;
      }
    }
  }
}

function speakTls(socket, host, options, end, signal) {
  const servername = net.isIP(host) ? '' : host;
  return connected(tls.connect({ servername, host, ...options, socket }), 'secureConnect', end, signal);
}

export class Link {
  #socket;
  #rest = '';
  #failure;
  #changed = () => {};
  #isTls;
  // Whether no byte has come yet.
  isSilent = true;

  constructor(socket, isTls) {
    this.#socket = socket;
    this.#isTls = isTls;
    socket.setEncoding('latin1');
    socket.on('data', (text) => {
      this.#rest += text;
      this.isSilent = false;
      this.#changed();
    });
    socket.on('error', (error) => this.#end(error));
    socket.on('end', () => this.#end(new Error('the server closed the connection')));
    socket.on('close', () => this.#end(new Error('the connection is closed')));
  }

  // Connects to a server. `options`: of TLS, or undefined.
  static async connect(place, options, end, signal) {
    if (place.path !== undefined) {
      return new Link(await atPath(place, end, signal), false);
    }
    const socket = await overTcp(place, end, signal);
    return options ? new Link(await speakTls(socket, place.host, options, end, signal), true) : new Link(socket, false);
  }

  #end(error) {
    this.#failure ??= error;
    this.#changed();
  }

  // The replies to these lines, each within `timeout`.
  async exchange({ lines, isReport }, timeout, signal) {
    const replies = [];
    while (replies.length < lines.length) {
      const some = lines.slice(replies.length, replies.length + LINES_AT_ONCE);
      this.#send(`${some.join('\n')}\n`, signal);
      replies.push(...(await this.#replies(some.length, isReport, timeout, signal)));
    }
    if (this.#rest !== '') {
      throw strange(this.#rest);
    }
    return replies;
  }

  #send(text, signal) {
    if (signal?.aborted) {
      throw aborted(signal);
    }
    if (this.#failure) {
      throw new Unsent(this.#failure.message, { cause: this.#failure });
    }
    this.#socket.write(text, 'latin1');
  }

  async #replies(count, isReport, timeout, signal) {
    const found = [];
    while (found.length < count) {
      found.push(await this.#reply(isReport, now() + timeout, signal));
    }
    return found;
  }

  async #reply(isReport, end, signal) {
    const lines = [];
    do {
      if (isTooLong(lines)) {
        throw strange(lines.join('; '));
      }
      lines.push(await this.#line(end, signal));
    } while (!isLast(lines.at(-1), isReport));
    return lines;
  }

  // The next line, without its line feed.
  async #line(end, signal) {
    for (;;) {
      const stop = this.#rest.indexOf('\n');
      if ((stop < 0 ? this.#rest.length : stop) > MAX_REPLY) {
        throw strange(this.#rest.slice(0, MAX_REPLY));
      }
      if (stop >= 0) {
        const line = this.#rest.slice(0, stop);
        this.#rest = this.#rest.slice(stop + 1);
        return line;
      }
      await this.#more(end, signal);
    }
  }

  // Waits until more has come.
  #more(end, signal) {
    return limited(end, signal, (done, failed) => {
      this.#changed = () => (this.#failure ? failed(this.#failure) : done());
      if (this.#failure) {
        failed(this.#failure);
      }
    });
  }

  // Says QUIT, ends the writing side, and reads to the end; over TLS it reads a line.
  async finish(end) {
    try {
      this.#send('QUIT\n');
      if (this.#isTls) {
        await this.#line(end);
        return;
      }
      this.#socket.end();
      for (;;) {
        this.#rest = '';
        await this.#more(end);
      }
    } catch {
      // It ends so in any case, if only since the server has closed the connection.
    }
  }

  close() {
    this.#socket.destroy();
  }
}
