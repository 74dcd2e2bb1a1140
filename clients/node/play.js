// The client for Node, as the program of clients/cases/README.md: it reads calls, one a line, and tells what each tells.
//
// Used by: scripts/check-clients. A further call of that page is a case here, and in play of each language. A failure is told by the name
// of its class (src/errors.js). Status 0.
import readline from 'node:readline';
import { Administrator, Client, Counted, MondlexiError, Refused, Unknown } from './index.js';

let last;
let counted;

function optionsOf(words) {
  return Object.fromEntries(words.map((word) => word.split('=')).map(([name, value]) => [name, Number(value)]));
}

function entriesOf(words) {
  return words.map((word) => word.split(':').map(Number)).map(([address, expected, value]) => ({ address, expected, value }));
}

function toldFailure(error) {
  if (error instanceof Refused) {
    return `refused ${error.number}`;
  }
  if (error instanceof Unknown && error.cause instanceof MondlexiError) {
    return `unknown from ${toldFailure(error.cause)}`;
  }
  if (!(error instanceof MondlexiError)) {
    throw error;
  }
  return error.name.toLowerCase();
}

function toldValues(values) {
  return ['values', ...values].join(' ');
}

function toldOutcome({ made, address, value }) {
  if (made) {
    return 'made';
  }
  return address === undefined ? 'not' : `not ${address} ${value}`;
}

function toldReport({ tenants, free }) {
  const told = tenants.map((it) => ['tenant', it.name, it.words, it.quota, it.places, it.underWay, it.up ? 'up' : 'down'].join(' '));
  return [...told, `free ${free}`].join('; ');
}

const calls = {
  async client([server, tenant, ...options]) {
    last = await Client.connect(server, tenant, optionsOf(options));
    return `words ${last.words}`;
  },
  async administrator([server, ...options]) {
    last = await Administrator.connect(server, optionsOf(options));
    return 'connected';
  },
  get: async ([address]) => toldValues([await last.get(Number(address))]),
  get_many: async (words) => toldValues(await last.getMany(words.map(Number))),
  read: async (words) => toldValues(await last.read(words.map(Number))),
  stable: async (words) => toldValues(await last.stable(words.map(Number))),
  cas: async (words) => toldOutcome(await last.cas(entriesOf(words))),
  async counted([address, ...options]) {
    counted = await Counted.begin(last, Number(address), optionsOf(options));
    return 'counted';
  },
  counted_cas: async (words) => toldOutcome(await counted.cas(entriesOf(words))),
  settle: async () => ((await counted.settle()) ? 'made' : 'not'),
  report: async () => toldReport(await last.report()),
  async reconnect([within]) {
    await last.reconnect(Number(within));
    return 'connected';
  },
  async close() {
    await last?.close();
    return 'closed';
  },
};

for await (const line of readline.createInterface({ input: process.stdin })) {
  const [name, ...words] = line.trim().split(' ');
  const told = await calls[name](words).catch(toldFailure);
  process.stdout.write(`${told}\n`);
}
process.exit(0);
