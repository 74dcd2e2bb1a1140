// The types of index.js, and what each call does. Used by: programs; test/types.ts, which tries them. Change it with index.js and src.
/**
 * A client of Mondlexi, a server of durable words, with Node's own modules alone.
 *
 * A tenant owns words at the addresses 0, 1, 2 and so on, at most 4,096 of them. Each word has a value from 0 to 2^48 - 1, a number,
 * and is 0 at first. A change compares up to sixteen words with the values that are expected of them, and, if all are equal, writes a
 * new value to each: durably, and wholly or not at all.
 *
 * A client has one connection, and holds one of the server's sessions until it is closed. Calls may be made before the last one has
 * ended: each is sent when the one before it is answered. Times are in milliseconds.
 *
 * Any failure is a `MondlexiError`. What each kind says of a change (undecided: it was made, or it was not, or it will still be made):
 *
 * | kind                 | after `Client.cas` | after `Counted.cas` | the connection |
 * |----------------------|--------------------|---------------------|----------------|
 * | `Lost`, `Full`       | not made           | not made            | is closed      |
 * | `Unknown`            | undecided          | undecided           | is closed      |
 * | `Busy`               | not made           | not made            | stays          |
 * | `Fault`, `Worn`      | undecided          | not made            | stays          |
 * | `Refused`, `Invalid` | not made           | not made            | stays          |
 * | `Moved`              |                    | not known           | stays          |
 */
import type { ConnectionOptions } from 'node:tls';

/** The greatest value of a word. */
export const MAX_VALUE: number;
/** The most words that a tenant can have; the greatest address is one less. */
export const MAX_WORDS: number;
/** The most words of one change, or of one `read`. */
export const MAX_ENTRIES: number;
/** The longest time of an option. */
export const MAX_TIME: number;
/** The most times that one call may connect anew. */
export const MAX_RECONNECTS: number;
/** What an option is that isn't given. */
export const DEFAULTS: Readonly<Required<Omit<Options, 'tls' | 'signal'>>>;

/** Any failure of a call. */
export class MondlexiError extends Error {}
/** There is no connection, or it broke or timed out, or a signal was aborted, before a reply. Nothing was changed. */
export class Lost extends MondlexiError {}
/** The server closed a new connection before it gave any reply, as one does that is full. Connect again later. */
export class Full extends Lost {}
/**
 * The connection broke or timed out, or a signal was aborted, before a change was answered. Of a `Counted` its `cause` is the
 * `MondlexiError` that leaves the change undecided.
 */
export class Unknown extends MondlexiError {}
/** The server was busy, or the words changed, for as long as the client has patience. Nothing was changed. */
export class Busy extends MondlexiError {}
/** The tenant's file has failed or did not open: all calls end so until the server is started again. */
export class Fault extends MondlexiError {}
/** A number of the server has come to its end. After a restart the server counts from 0 again. */
export class Worn extends MondlexiError {}
/** The server refuses the line, and has done nothing. */
export class Refused extends MondlexiError {
  /** The number of its `ERR`, 1 to 99: docs/PROTOCOL.md says what each stands for. 5: no tenant has the name. */
  readonly number: number;
}
/** An argument is out of its range. Nothing was sent. */
export class Invalid extends MondlexiError {}
/** Something else has moved a count. */
export class Moved extends MondlexiError {}

/** What ends a call early: then the connection is closed, if it has asked already. The failure's `cause` is the signal's reason. */
export interface Signal {
  signal?: AbortSignal | undefined;
}

/** How long a client waits, and how often it asks. Times are up to `MAX_TIME`. */
export interface Options extends Signal {
  /** How long to wait for a connection, and then for each reply, 1 or more; 10 seconds. */
  timeout?: number;
  /** For how long `cas`, `read` and `stable` ask again, with growing pauses, while the server is busy; 5 seconds. */
  patience?: number;
  /** For how long to try again if connecting fails, also when a call connects anew; 0. */
  within?: number;
  /**
   * How often one call of `get`, `getMany`, `read`, `stable` or `report` connects anew and asks again if the connection has broken, 0
   * to `MAX_RECONNECTS`; 1. A reply that doesn't come in time isn't asked for again.
   */
  reconnects?: number;
  /**
   * Speaks TLS over TCP, with these options of `tls.connect`; true for none. `servername` is for a certificate with another name than
   * the host. The server itself has no TLS: a proxy in front of it has.
   */
  tls?: ConnectionOptions | boolean;
}

/** A part of a change. */
export interface Entry {
  /** The word's, from 0 to the tenant's words - 1. */
  address: number;
  /** The value that the word must have, 0 to `MAX_VALUE`. */
  expected: number;
  /** The new one, in the same range. It may be equal to the one expected, to compare only. */
  value: number;
}

/** The change was made, durably. */
export interface Made {
  made: true;
  address?: undefined;
  value?: undefined;
}
/** Nothing was changed: the word at `address` had `value`, not the one expected. If several differ it is any. */
export interface NotMade {
  made: false;
  address: number;
  value: number;
}
/** Nothing was changed. A `Counted` knows no word if a reply was lost: perhaps none differs. */
export interface NotMadeUnseen {
  made: false;
  address?: undefined;
  value?: undefined;
}

/** How one tenant is. */
export interface TenantReport {
  name: string;
  /** 1 to `MAX_WORDS`. */
  words: number;
  /** How many changes it may have under way at a time, 1 to 64. */
  quota: number;
  /** The greatest quota that a start of the server may give it; 0 if its file didn't open or doesn't fit its line. */
  places: number;
  /** How many changes are under way. */
  underWay: number;
  /** Whether it is served; if not, its calls end as `Fault`. */
  up: boolean;
}

/** How all tenants are, in the order of the server's tenants file. Each number is of its own moment. */
export interface Report {
  tenants: TenantReport[];
  /** How many more changes the server has room for. */
  free: number;
}

/** A session for one tenant, whose words it reads and changes. */
export class Client {
  private constructor();

  /**
   * Connects to a server, and speaks for a tenant from then on.
   *
   * `server` is where it listens. `HOST:PORT`: a name, or an address (of IPv6 in brackets), and a port from 1 to 65535; or
   * `unix:PATH`: the path of a local socket, 1 to 107 bytes. `tenant`: a letter a to z, then up to 15 of a to z, 0 to 9 and "-". The
   * signal is for connecting alone.
   *
   * Its failures: `Invalid`, with nothing sent; `Lost`; `Full`; `Refused`, with number 5, if no tenant has the name.
   */
  static connect(server: string, tenant: string, options?: Options): Promise<Client>;

  /** How many words the tenant has, 1 to `MAX_WORDS`, as the server said when it was connected. It asks nobody. */
  get words(): number;

  /**
   * The value of the word at an address: durable, and no older than what this connection was told before. It costs no disk access.
   *
   * If the connection has broken, it connects anew and asks again, as often as the options say. Its failures: `Invalid`; `Lost`;
   * `Fault`; and, when it connects anew, `Full` or `Refused`.
   */
  get(address: number, options?: Signal): Promise<number>;

  /** The values of any number of words, each of its own moment, by one round trip for up to 512. Its failures are those of `get`. */
  getMany(addresses: Iterable<number>, options?: Signal): Promise<number[]>;

  /**
   * The values of any number of words, all of one moment, without the disk: it reads them until two readings are equal.
   *
   * This is right only if no word that is read ever returns to an earlier value; put a word that only grows beside those that may.
   * Its failures are those of `get`, and `Busy` if the words changed for as long as the client has patience.
   */
  stable(addresses: Iterable<number>, options?: Signal): Promise<number[]>;

  /**
   * The values of one to sixteen different words, all of one moment; one may come again.
   *
   * A single word is read by `get`. Several are guessed, then confirmed by a change that writes to each the value that it has. So it
   * costs the disk as much as a change, and beside many writers it may end as `Busy`. Its failures are those of `get`, `Busy` and
   * `Worn`. It changes no word.
   */
  read(addresses: Iterable<number>, options?: Signal): Promise<number[]>;

  /**
   * Compares and swaps: writes each entry's new value if all the words have the values expected, else nothing. One to sixteen entries
   * in any order, each of another word. While the server is busy it asks again.
   *
   * Its failures: `Invalid`, with nothing sent; `Lost`, `Busy`, `Refused`: not made. `Unknown`, `Fault`, `Worn`: undecided. It never
   * connects anew.
   */
  cas(entries: Iterable<Entry>, options?: Signal): Promise<Made | NotMade>;

  /**
   * Connects anew, after `Lost`, `Unknown` or `close`. A connection that there is, is closed first. `within` is for how long to try
   * again, with growing pauses, if that fails; 0.
   *
   * Its failures: `Invalid`, with nothing done; `Lost` or `Full`; `Refused` at once.
   */
  reconnect(within?: number, options?: Signal): Promise<void>;

  /**
   * Ends the session and closes the connection. It waits for calls before it to end, and then for the server's goodbye, a second at
   * most. Each further call ends as `Lost`, until `reconnect`. It never fails.
   */
  close(): Promise<void>;
}

/** A session of the administrator, who asks how the tenants are and sees no words. */
export class Administrator {
  private constructor();

  /** Connects to a server, perhaps at a place for the administrator alone. Otherwise as `Client.connect`. */
  static connect(server: string, options?: Options): Promise<Administrator>;

  /**
   * How each tenant is, and the room of the server. It connects anew as `get` of a client does. Its failures: `Lost`, `Full`,
   * `Refused`.
   */
  report(options?: Signal): Promise<Report>;

  /** As that of a client. */
  reconnect(within?: number, options?: Signal): Promise<void>;

  /** As that of a client. */
  close(): Promise<void>;
}

/**
 * Makes changes of which it is found out whether they were made, if replies are lost and servers end.
 *
 * Each also moves a count by 2: a word, of any value at first, that nothing else writes. While a change is undecided, one of the
 * count alone, by 1, is asked for until that is answered: either it is made, and the other never can be, or the count tells that the
 * other was. One process at a time has a count, and one `Counted` of it; several of these may share a client, each with a count of
 * its own.
 */
export class Counted {
  private constructor();

  /**
   * Begins, at the count's address. `wait` is for how long to connect the client anew and ask again, while that fails or the server
   * is busy; 30 seconds.
   *
   * It moves the count: from then on no change of an earlier `Counted` of it is made any more. Its failures are those of
   * `Client.cas`.
   */
  static begin(client: Client, address: number, options?: Signal & { wait?: number }): Promise<Counted>;

  /**
   * As `Client.cas`, of up to fifteen entries; but after `Lost` or `Unknown` it connects the client anew and finds out. It first does
   * so for the change before, if that is undecided, and forgets its outcome: call `settle` first. What it tells as not made never will
   * be. If a reply was lost it tells no word then, and perhaps none differs: read again, or send it again.
   *
   * Its failures: `Unknown`, with its `cause`, if its change stays undecided: then `settle` tells. `Moved` if something else writes
   * the count. After any other its change was not made, and never will be.
   */
  cas(entries: Iterable<Entry>, options?: Signal): Promise<Made | NotMade | NotMadeUnseen>;

  /**
   * Whether the last change was made, whatever its `cas` told; if not, it never will be. It is false before the first one.
   *
   * Its failures: `Unknown`, with its `cause`, as long as it can't tell: after `wait`, or at once from `Fault`, `Worn` and `Refused`.
   * `Moved` if something else writes the count.
   */
  settle(options?: Signal): Promise<boolean>;
}
