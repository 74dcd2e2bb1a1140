// A client of Mondlexi, a server of durable words, with Node's own modules alone. index.d.ts says what each call does.
// Used by: programs. What is added here is added there, to test/types.ts, and to each client.
export { Administrator, Client } from './src/client.js';
export { Counted } from './src/counted.js';
export { Busy, Fault, Full, Invalid, Lost, MondlexiError, Moved, Refused, Unknown, Worn } from './src/errors.js';
export { MAX_ENTRIES, MAX_VALUE, MAX_WORDS } from './src/protocol.js';
export { DEFAULTS, MAX_RECONNECTS, MAX_TIME } from './src/session.js';
