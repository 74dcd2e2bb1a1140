// What clients/cases doesn't have: the texts of late replies; and signals, calls that overlap, and TLS. Used by: `node --test`, which
// scripts/check-clients runs.
import assert from 'node:assert/strict';
import { execFileSync } from 'node:child_process';
import { mkdtempSync, readFileSync, rmSync } from 'node:fs';
import net from 'node:net';
import { tmpdir } from 'node:os';
import path from 'node:path';
import readline from 'node:readline';
import { test } from 'node:test';
import tls from 'node:tls';
import { Client, Counted, Full, Invalid, Lost, Unknown } from '../index.js';

const USUAL = { 'TENANT t': 'OK 9\n', 'GET 7': 'VAL 5\n', QUIT: 'BYE\n' };

// Where a server listens that answers each line by the function, and what was sent; no answer if that gives nothing.
async function serve(t, answer, server = net.createServer(), event = 'connection') {
  const sent = [];
  const open = new Set();
  server.on(event, (socket) => {
    open.add(socket.on('error', () => {}));
    readline.createInterface({ input: socket }).on('line', (line) => {
      sent.push(line);
      socket.write(answer(line) ?? '');
    }).on('error', () => {});
  });
  await new Promise((resolve) => server.listen(0, '127.0.0.1', resolve));
  t.after(() => {
    server.close();
    open.forEach((socket) => socket.destroy());
  });
  return { at: `127.0.0.1:${server.address().port}`, sent };
}

const usual = (line) => USUAL[line];

test('a signal that is aborted ends a change', async (t) => {
  const { at } = await serve(t, usual);
  const client = await Client.connect(at, 't');
  const signal = AbortSignal.timeout(50);
  await assert.rejects(client.cas([{ address: 0, expected: 0, value: 1 }], { signal }), (error) => {
    return error instanceof Unknown && error.cause === signal.reason;
  });
  await assert.rejects(client.cas([{ address: 0, expected: 0, value: 1 }]), Lost);
  assert.equal(await client.get(7), 5);
  await client.close();
});

test('a reply that is late', async (t) => {
  const { at } = await serve(t, usual);
  const client = await Client.connect(at, 't', { timeout: 300 });
  await assert.rejects(client.get(3), (error) => {
    return error instanceof Lost && error.message === 'GET 3: connected, but no reply in 300 ms';
  });
  await client.close();
  const silent = await serve(t, () => undefined);
  const wanted = 'TENANT t: connected, but no reply in 300 ms; perhaps all sessions are taken (mwserve --clients)';
  await assert.rejects(Client.connect(silent.at, 't', { timeout: 300 }), (error) => error instanceof Lost && error.message === wanted);
});

test('a signal that is aborted before a call', async (t) => {
  const { at, sent } = await serve(t, usual);
  const client = await Client.connect(at, 't');
  const signal = AbortSignal.abort();
  await assert.rejects(client.get(7, { signal }), Lost);
  await assert.rejects(client.cas([{ address: 0, expected: 0, value: 1 }], { signal }), Lost);
  await assert.rejects(Client.connect(at, 't', { signal, within: 60_000 }), Lost);
  assert.deepEqual(sent, ['TENANT t']);
  await client.close();
});

test('a signal ends the wait for another call, and a pause', async (t) => {
  const { at, sent } = await serve(t, (line) => (line.startsWith('CAS 1') ? 'BUSY\n' : USUAL[line]));
  const client = await Client.connect(at, 't', { patience: 60_000, timeout: 400 });
  const first = client.cas([{ address: 0, expected: 0, value: 1 }]);
  await assert.rejects(client.get(7, { signal: AbortSignal.timeout(30) }), Lost);
  await assert.rejects(first, Unknown);
  await client.reconnect(1_000);
  await assert.rejects(client.cas([{ address: 1, expected: 0, value: 1 }], { signal: AbortSignal.timeout(100) }));
  assert.equal(sent.includes('GET 7'), false);
  await client.close();
});

test('a count whose signal is aborted', async (t) => {
  const { at, sent } = await serve(t, (line) => (['CAS 5:0:1', 'CAS 5:1:2'].includes(line) ? 'YES\n' : USUAL[line]));
  const client = await Client.connect(at, 't');
  const own = await Counted.begin(client, 5);
  await assert.rejects(own.cas([{ address: 2, expected: 0, value: 1 }], { signal: AbortSignal.timeout(50) }), Unknown);
  assert.equal(await own.settle(), false);
  assert.deepEqual(sent, ['TENANT t', 'CAS 5:0:1', 'CAS 2:0:1 5:1:3', 'TENANT t', 'CAS 5:1:2']);
  await client.close();
});

test('calls that overlap are sent one after the other', async (t) => {
  const { at } = await serve(t, usual);
  const client = await Client.connect(at, 't');
  const values = await Promise.all(Array.from({ length: 200 }, () => client.get(7)));
  assert.deepEqual(new Set(values), new Set([5]));
  await client.close();
});

test('a change over a connection that is known to have ended is not made', async (t) => {
  const server = net.createServer();
  const { at } = await serve(t, usual, server);
  const ended = new Promise((resolve) => {
    server.on('connection', (socket) => setTimeout(() => socket.end(resolve), 50));
  });
  const client = await Client.connect(at, 't');
  await ended;
  // Between two timers the loop looks at what has come.
  await new Promise((resolve) => {
    setTimeout(resolve, 50);
  });
  await assert.rejects(client.cas([{ address: 0, expected: 0, value: 1 }]), Lost);
  await client.close();
});

test('arguments of other types', async (t) => {
  const { at, sent } = await serve(t, usual);
  const client = await Client.connect(at, 't');
  const wrong = [[-1], ['7'], [1.5], [NaN], [undefined]];
  for (const addresses of wrong) {
    await assert.rejects(client.getMany(addresses), Invalid);
  }
  await assert.rejects(client.cas([{ address: 0, expected: -1, value: 0 }]), Invalid);
  await assert.rejects(client.cas([{ address: 0, expected: 0, value: 1n }]), Invalid);
  await assert.rejects(Client.connect(at, 't', { patience: '5' }), Invalid);
  await assert.rejects(Client.connect(undefined, 't'), Invalid);
  assert.throws(() => new Client(), TypeError);
  assert.deepEqual(sent, ['TENANT t']);
  await client.close();
});

// A key, and a certificate for this machine.
function certificate() {
  const folder = mkdtempSync(path.join(tmpdir(), 'client-'));
  const [key, cert] = ['key.pem', 'cert.pem'].map((name) => path.join(folder, name));
  const words = ['req', '-x509', '-newkey', 'ec', '-pkeyopt', 'ec_paramgen_curve:prime256v1', '-nodes', '-days', '2', '-subj',
    '/CN=server', '-addext', 'subjectAltName=IP:127.0.0.1', '-keyout', key, '-out', cert];
  try {
    execFileSync('openssl', words, { stdio: 'pipe' });
    return { key: readFileSync(key), cert: readFileSync(cert) };
  } catch (error) {
    return error.code === 'ENOENT' ? undefined : Promise.reject(error);
  } finally {
    rmSync(folder, { recursive: true });
  }
}

test('TLS', async (t) => {
  const own = await certificate();
  if (!own) {
    t.skip('there is no openssl');
    return;
  }
  const { at } = await serve(t, usual, tls.createServer(own), 'secureConnection');
  const client = await Client.connect(at, 't', { tls: { ca: own.cert } });
  assert.equal(await client.get(7), 5);
  await client.close();
  await assert.rejects(Client.connect(at, 't', { tls: true }), (error) => error instanceof Lost && !(error instanceof Full));
  await assert.rejects(Client.connect('unix:s', 't', { tls: true }), Invalid);
});
