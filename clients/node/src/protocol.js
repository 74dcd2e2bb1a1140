// The protocol without a connection: which arguments are allowed, the line of each question, and what its reply means.
// docs/PROTOCOL.md has the grammar. Used by: client.js, counted.js, link.js, session.js, and programs for the limits. A command or limit that
// the page gains is added here, in the file of this name of each other client, and has cases in clients/cases.
import { Busy, Fault, Invalid, Lost, Refused, Worn } from './errors.js';

export const MAX_VALUE = 2 ** 48 - 1;
export const MAX_WORDS = 4096;
export const MAX_ENTRIES = 16;
// Bytes of a line from the server, without its line feed.
export const MAX_REPLY = 35;
// Lines sent before their replies are read: each socket has room for so many lines of GET.
export const LINES_AT_ONCE = 512;
const MAX_PATH = 107;
const MAX_TENANTS = 16;
// The last line of a report alone has at most so many bytes.
const REPORT_END = 8;

const PORT = /^(?:([^[\]:\s\0]+)|\[([^[\]\s\0]+)\]):([0-9]{1,5})$/;
const TENANT = /^[a-z][a-z0-9-]{0,15}$/;
const NUMBER = /^(?:0|[1-9][0-9]{0,14})$/;

// Where a server listens: `{ host, port }` or `{ path }`.
export function placeOf(server) {
  if (typeof server === 'string' && server.startsWith('unix:')) {
    const path = server.slice('unix:'.length);
    if (path === '' || Buffer.byteLength(path) > MAX_PATH || path.includes('\0')) {
      throw new Invalid(`the path of a local socket has 1 to ${MAX_PATH} bytes, and none is 0`);
    }
    return { path };
  }
  const found = PORT.exec(server);
  const port = found ? Number(found[3]) : 0;
  if (typeof server !== 'string' || port < 1 || port > 65535) {
    throw new Invalid('a server listens at HOST:PORT, with a port from 1 to 65535, at [HOST]:PORT for IPv6, or at unix:PATH');
  }
  return { host: found[1] ?? found[2], port };
}

function isUpTo(value, most) {
  return Number.isInteger(value) && value >= 0 && value <= most;
}

// Invalid unless each is an address of a tenant of so many words.
export function checkAddresses(addresses, words) {
  const k = addresses.findIndex((it) => !isUpTo(it, words - 1));
  if (k >= 0) {
    throw new Invalid(`the tenant has the addresses 0 to ${words - 1}, not ${String(addresses[k])}`);
  }
}

// These entries, sorted by address, if a tenant of so many words can be asked for them in one change.
export function checkedEntries(entries, words) {
  const sorted = [...entries].sort((one, other) => one.address - other.address);
  if (sorted.length < 1 || sorted.length > MAX_ENTRIES) {
    throw new Invalid(`a change has one to ${MAX_ENTRIES} entries`);
  }
  checkAddresses(sorted.map((it) => it.address), words);
  if (!sorted.every((it) => isUpTo(it.expected, MAX_VALUE) && isUpTo(it.value, MAX_VALUE))) {
    throw new Invalid(`a value is from 0 to ${MAX_VALUE}`);
  }
  const twice = sorted.find((it, k) => k > 0 && sorted[k - 1].address === it.address);
  if (twice) {
    throw new Invalid(`two entries have the address ${twice.address}`);
  }
  return sorted;
}

// Questions: lines that are sent together; `gone`, what is told if the connection ends before the last reply, Unknown of a change,
// Lost if nothing can be changed; `meaning`, which takes the replies, and gives undefined if no server says so.

export function tenantGreeting(name) {
  if (typeof name !== 'string' || !TENANT.test(name)) {
    throw new Invalid('a tenant has a name of a to z, then up to 15 of a to z, 0 to 9 and "-"');
  }
  return { lines: [`TENANT ${name}`], gone: Lost, meaning: ([[line]]) => numberAfter('OK ', line, MAX_WORDS) || undefined };
}

export const administratorGreeting = { lines: ['ADMIN'], gone: Lost, meaning: ([[line]]) => (line === 'OK ADMIN' ? 0 : undefined) };

export function getQuestion(addresses) {
  const meaning = (replies) => {
    const values = replies.map(([line]) => numberAfter('VAL ', line, MAX_VALUE));
    return values.includes(undefined) ? undefined : values;
  };
  return { lines: addresses.map((it) => `GET ${it}`), gone: Lost, meaning };
}

export function casQuestion(entries, gone) {
  const line = ['CAS', ...entries.map((it) => `${it.address}:${it.expected}:${it.value}`)].join(' ');
  return { lines: [line], gone, meaning: ([[reply]]) => outcomeOf(reply, entries) };
}

export const reportQuestion = { lines: ['REPORT'], gone: Lost, isReport: true, meaning: ([lines]) => reportOf(lines) };

// Whether a line is the last one of its reply.
export function isLast(line, isReport) {
  return !isReport || line.length <= REPORT_END;
}

export function isTooLong(lines) {
  return lines.length > MAX_TENANTS;
}

// What any line may be answered; undefined if this is none of it.
export function failureOf(line, reply) {
  const kinds = { BUSY: Busy, FAULT: Fault, WORN: Worn };
  if (Object.hasOwn(kinds, reply)) {
    return new kinds[reply](`${line}: ${reply}`);
  }
  const number = numberAfter('ERR ', reply, 99);
  return number ? new Refused(`${line}: ${reply}`, number) : undefined;
}

function numberOf(text, most) {
  return NUMBER.test(text) && Number(text) <= most ? Number(text) : undefined;
}

function numberAfter(word, text, most) {
  return text.startsWith(word) ? numberOf(text.slice(word.length), most) : undefined;
}

function outcomeOf(reply, entries) {
  if (reply === 'YES') {
    return { made: true };
  }
  const [no, first, second, ...others] = reply.split(' ');
  if (no !== 'NO' || second === undefined || others.length) {
    return undefined;
  }
  const address = numberOf(first, MAX_WORDS);
  const value = numberOf(second, MAX_VALUE);
  const entry = entries.find((it) => it.address === address);
  return entry && value !== undefined && value !== entry.expected ? { made: false, address, value } : undefined;
}

function reportOf(lines) {
  const tenants = lines.slice(0, -1).map(tenantOf);
  const free = numberAfter('free ', lines.at(-1), 2 ** 32);
  return tenants.length === 0 || tenants.includes(undefined) || free === undefined ? undefined : { tenants, free };
}

// A tenant's line of a report, in its columns.
function tenantOf(line) {
  const [name, ...parts] = line.trim().split(/ +/);
  const [words, quota, places, underWay] = parts.map((it) => numberOf(it, 9999));
  const state = parts[4];
  if (parts.length !== 5 || !TENANT.test(name) || !['up', 'down'].includes(state)) {
    return undefined;
  }
  const columns = [name.padEnd(16), pad(words, 4), pad(quota, 2), pad(places, 2), pad(underWay, 2), state];
  return columns.join(' ') === line ? { name, words, quota, places, underWay, up: state === 'up' } : undefined;
}

function pad(number, width) {
  return String(number).padStart(width);
}
