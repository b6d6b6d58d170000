// Refuses growths of memory: with so many pages at most, for each number of them, each answer is right or memory has run out.
// Arguments: the folder of the package, a registry, and by how many pages each turn has more.
import assert from 'node:assert/strict';
import { readFileSync } from 'node:fs';
import { createRequire } from 'node:module';

const [folder, path, step] = process.argv.slice(2);
const { callsOf } = createRequire(`${folder}/`)('./calls.js');
const bytes = readFileSync(`${folder}/bcp47.wasm`), registry = readFileSync(path);

/** A number of 32 bits in groups of seven, as the module has it; and how many bytes it takes. */
const leb = (at) => {
  let value = 0, size = 0;
  do value += (bytes[at + size] & 127) * 2 ** (7 * size); while (bytes[at + size++] & 128);
  return [value, size];
};
// The limits of the memory are in the section 5: a one for the count, a one for that there is a most, the least, the most.
let at = 8, section = 0, size = 0, head = 0;
while (at < bytes.length) {
  section = bytes[at];
  [size, head] = leb(at + 1);
  if (section === 5) break;
  at += 1 + head + size;
}
assert.equal(section, 5);
const limits = at + 1 + head;
assert.deepEqual([...bytes.subarray(limits, limits + 2)], [1, 1]);
const [least, width] = leb(limits + 2), [most, room] = leb(limits + 2 + width);
assert.deepEqual([most, room], [32768, 3]);

const OUT_OF_MEMORY = 4, NO_ROOM = 15;
const tag = `en-u-${Array.from({ length: 60 }, (_, i) => `z${String(60 - i).padStart(2, '0')}`).join('-')}`;
let refused = 0, wanted;
/** What a call answers; memory that has run out is none. */
const said = (call) => {
  try {
    const answer = call(), code = Array.isArray(answer) ? answer[0] : answer;
    if (code % 32 !== OUT_OF_MEMORY && code % 32 !== NO_ROOM) return answer;
  } catch (error) {
    assert.deepEqual([error.name, error.message], ['RangeError', 'out of memory']);
  }
  refused++;
  return undefined;
};
let turns = 0;
for (let pages = least; !wanted?.every((answer) => answer !== undefined); pages += Number(step), turns++) {
  const limited = Buffer.from(bytes);
  for (let i = 0, rest = pages; i < room; i++, rest >>= 7) limited[limits + 2 + width + i] = (rest & 127) | (i < room - 1 ? 128 : 0);
  const calls = said(() => callsOf(new WebAssembly.Instance(new WebAssembly.Module(limited)).exports));
  const held = calls && said(() => calls.open(registry));
  if (!held) continue;
  // two of them, so that the second is refused for a while
  const second = said(() => calls.open(registry));
  const answers = [held, second ?? held].flatMap((it) => [
    () => calls.canonical(it, 'zh-yue'), () => String(calls.explain(it, tag, 20_000)), () => calls.show(it, 'zh-yue-Hant'), () => calls.match(it, `${'*-'.repeat(70_000)}zz`, 'en', 1),
    () => calls.canonical(it, tag), () => calls.validate(it, 'xx'), () => calls.parts('en-x-a'),
  ].map(said));
  wanted = answers;
  if (second) calls.close(second);
  calls.close(held);
  // what was let go serves again
  assert.equal(typeof said(() => calls.open(registry)), 'object');
  for (const [i, answer] of answers.entries()) {
    const right = ['yue', /^10,3,0,en-u-z59-.*,en-u-z01-[^,]*,en-u-z01-[^,]*$/, /^\[\{"place":1,/, true, /^en-u-z01-/, undefined, /^en-x-a\./][i % 7];
    if (answer === undefined) continue;
    if (right instanceof RegExp) assert.match(answer, right);
    else if (i % 7 === 5) assert.equal(typeof answer, 'number');
    else assert.equal(answer, right);
  }
}
console.log(`growths.mjs: ${turns} memories, ${refused} refusals`);
