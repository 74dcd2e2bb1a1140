// Uses each call as a program in TypeScript does; it is only looked at by the compiler. Used by: scripts/check-clients. A further call of
// index.d.ts is used here.
import { Administrator, Client, Counted, DEFAULTS, MAX_VALUE, Refused, Unknown, type Entry, type Report } from 'mondlexi';

export async function useAll(signal: AbortSignal): Promise<number> {
  const client = await Client.connect('unix:s', 't', { ...DEFAULTS, within: 5, tls: { servername: 'x' }, signal });
  const entry: Entry = { address: 0, expected: await client.get(0, { signal }), value: MAX_VALUE };
  const outcome = await client.cas([entry]);
  // A change that wasn't made always tells a word.
  const found: number = outcome.made ? 0 : outcome.value;
  const counted = await Counted.begin(client, 1, { wait: 5 });
  const counts = await counted.cas(new Set([entry]));
  // @ts-expect-error After a lost reply no word is known.
  const other: number = counts.made ? 0 : counts.value;
  const values: number[][] = [await client.getMany([0]), await client.read([0]), await client.stable([0])];
  await client.reconnect();
  await client.close();
  return found + other + values.length + Number(await counted.settle());
}

export async function ask(): Promise<Report | number> {
  const administrator = await Administrator.connect('[::1]:7000', { tls: true });
  try {
    return await administrator.report();
  } catch (error) {
    return error instanceof Refused ? error.number : error instanceof Unknown ? 1 : 2;
  } finally {
    await administrator.close();
  }
}

// @ts-expect-error A client is made by connect.
new Client();
