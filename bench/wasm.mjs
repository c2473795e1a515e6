// Compares the engine in WebAssembly with the same engine on x86-64: the answers on all records of bench/run first, then the times.
// node bench/wasm.mjs PROGRAM MODULE, where PROGRAM is bench's own, which gives the native answers and times.
import fs from 'fs';
import { spawn } from 'child_process';

const [program, module] = process.argv.slice(2);
const SIZES = [[64, 124], [21, 377], [6, 1257]], RECORDS = 8, ROUNDS = 400, BAR = 2.2;
const ANSWER = 1896, UNUSED = 57, UNTOUCHED = 4000000007; // bytes of an answer, the one of them that belongs to no field, and what lists hold before
const { exports: wasm } = new WebAssembly.Instance(new WebAssembly.Module(fs.readFileSync(module)), {});

// Memory of the module, after its own.
const first = wasm.memory.buffer.byteLength;
wasm.memory.grow(32);
const answer = first, list = answer + 4096, record = list + 65536;
const bytes = (at, count) => new Uint8Array(wasm.memory.buffer, at, count);
const run = (at, size, count) => wasm.nobyaluk_run(answer, at, BigInt(size), at, 0n, list, BigInt(count));

// Parts of a process's output: a given number of bytes, or those after their count.
class Output {
  constructor(...words) {
    this.process = spawn(program, words, { stdio: ['pipe', 'pipe', 'inherit'] });
    this.ended = new Promise((resolve) => this.process.on('close', resolve));
    this.chunks = this.process.stdout[Symbol.asyncIterator]();
    this.left = Buffer.alloc(0);
  }
  async take(count) {
    const parts = [this.left];
    for (let size = this.left.length; size < count;) {
      const { value, done } = await this.chunks.next();
      if (done) return undefined;
      parts.push(value);
      size += value.length;
    }
    const all = parts.length > 1 ? Buffer.concat(parts) : this.left;
    this.left = all.subarray(count);
    return all.subarray(0, count);
  }
  async part() { const head = await this.take(4); return head && this.take(head.readUInt32LE(0)); }
}

async function compare() {
  const native = new Output('answers');
  let count = 0;
  for (let given; (given = await native.part()); count++) {
    const said = await native.part(), outflows = await native.part();
    bytes(record, given.length).set(given);
    new Uint32Array(wasm.memory.buffer, list, outflows.length / 4).fill(UNTOUCHED);
    run(record, given.length, outflows.length / 4);
    bytes(answer, ANSWER)[UNUSED] = 0;
    if (said.compare(bytes(answer, ANSWER)) || outflows.compare(bytes(list, outflows.length))) throw new Error(`record ${count} has another answer`);
  }
  const status = await native.ended;
  if (status || !count) throw new Error(`${program} answers: status ${status}, ${count} records`);
  console.log(`${count} records, the same answers and outflows`);
}

const median = (times) => times.sort((a, b) => a - b)[times.length >> 1];

// In turns, the native engine in its own process: a turn runs all records once untimed, so that they are in the cache, and once timed.
async function time(n, steps) {
  const native = new Output('turns', n, steps), places = [];
  for (let k = 0, at = record; k < RECORDS; k++) {
    const given = await native.part();
    bytes(at, given.length).set(given);
    places.push([at, given.length]);
    at += (given.length + 15) & ~15;
  }
  const pass = () => { for (const [at, size] of places) run(at, size, steps * (n + 1)); };
  const turn = () => { pass(); const begin = process.hrtime.bigint(); pass(); return Number(process.hrtime.bigint() - begin); };
  for (const end = Date.now() + 1000; Date.now() < end;) turn(); // until the compiler of node has made its fast code
  const here = [], there = [];
  for (let round = 0; round < ROUNDS; round++) {
    here.push(turn());
    native.process.stdin.write('.');
    there.push(Number((await native.take(8)).readBigUInt64LE(0)));
  }
  native.process.stdin.end();
  await native.ended;
  const cells = n * steps * RECORDS, [mine, theirs] = [median(here) / cells, median(there) / cells], ratio = mine / theirs;
  console.log(`n ${n} T ${steps}: WebAssembly ${mine.toFixed(2)}, native ${theirs.toFixed(2)} ns a step-cell, ratio ${ratio.toFixed(2)}, ${ratio <= BAR ? 'within' : 'ABOVE'} ${BAR}`);
}

await compare();
for (const [n, steps] of SIZES) await time(n, steps);
