// Asks bcp47.wasm and the addon the same: each call over the lines of a file, and registries with bytes that are changed.
// Arguments: the folder of the package with both, a registry, tags, another registry to change, and how often.
import assert from 'node:assert/strict';
import { readFileSync } from 'node:fs';
import { createRequire } from 'node:module';

const [folder, path, lines, sample, times] = process.argv.slice(2);
const require = createRequire(`${folder}/`);
const addon = require('./bcp47.node');
const module = new WebAssembly.Module(readFileSync(`${folder}/bcp47.wasm`));
assert.deepEqual(WebAssembly.Module.imports(module), []);
const { callsOf } = require('./calls.js');
const wasm = callsOf(new WebAssembly.Instance(module).exports);
assert.deepEqual(Object.keys(wasm).sort(), Object.keys(addon).sort());

/** What a call of either answers, or throws. */
const said = (call) => {
  try {
    return call();
  } catch (error) {
    return `${error.name}: ${error.message}`;
  }
};
/** Compares a call, by the addon and its registry and by WebAssembly and its own. */
const same = (name, [theirs, ours], ...given) => {
  const wanted = said(() => addon[name](...(theirs ? [theirs] : []), ...given)), got = said(() => wasm[name](...(ours ? [ours] : []), ...given));
  if (wanted !== got) assert.deepEqual(got, wanted, `${name} ${given}`);
};
const open = (bytes) => [addon, wasm].map((by) => by.open(bytes));
const ask = (held, tag) => {
  for (const name of ['canonical', 'variant', 'extlang', 'validate']) same(name, held, tag);
  for (const name of ['parts', 'parent']) same(name, [], tag);
  same('explain', held, tag, 100);
  for (const scheme of [0, 1, 2, 3]) same('match', held, 'zh-yue', tag, scheme);
  same('match', held, tag, 'de-DE', 2);
};

assert.equal(wasm.version, addon.version);
for (let which = 0; which < 6; which++) assert.deepEqual(wasm.names(which), addon.names(which));
const held = open(readFileSync(path));
assert.deepEqual(wasm.facts(held[1]).map(String), addon.facts(held[0]).map((it) => String(Buffer.isBuffer(it) ? [...it] : it)));
for (let number = 0; number < 10000; number += 7) same('record', held, number);
const tags = readFileSync(lines, 'utf8').split('\n').slice(0, -1);
for (const tag of tags) ask(held, tag);
for (const tag of tags.slice(0, 5000)) same('show', held, tag);
const odd = ['', '-', 'en-', 'a'.repeat(31), 'a'.repeat(32), 'a'.repeat(33), 'en-'.repeat(400), 'a'.repeat(4094), 'a'.repeat(4095), 'a'.repeat(100_000), 'en\0', 'en\ud800',
  'é', `${'a'.repeat(4093)}é`, `${'a'.repeat(31)}é`, '\u{1f600}', 7, null, undefined, {}, ['en'], `x-${'a-'.repeat(510)}a`, `en-x-${'abcdefgh-'.repeat(112)}a`];
for (const tag of odd) ask(held, tag);
for (const wrong of ['bytes', new Uint16Array(3), null, undefined, {}]) same('open', [], wrong);
for (const name of ['canonical', 'variant', 'extlang', 'validate', 'explain', 'facts', 'close', 'show']) same(name, [], {}, 'en', 3);
for (const offered of [[], ['de'], ['en-GB', 'zh-yue', 'de'], tags.filter((tag) => typeof addon.canonical(held[0], tag) === 'string').slice(0, 300)]) {
  const available = [addon, wasm].map((by, i) => by.available(held[i], offered));
  for (const accept of ['de-CH, de;q=0.8, en;q=0.5', '*', '', 'zh', 'de;q=0, *', 'e_n', 'en;q=2', 'é', '\ud800', 7, null, ...tags.slice(0, 300)])
    for (const name of ['best', 'filter']) same(name, available, accept);
  available.forEach((it, i) => [addon, wasm][i].close(it));
}
for (const part of [0, 1, 3, 4, 5, 6, 18]) for (const value of ['', 'de', 'Latn', 'AT', 'x-a', 'u-co-phonebk', 'é', 7]) for (const tag of tags.slice(0, 50)) same('with', [], tag, part, value);
for (const name of ['C', 'de_AT', 'sr_RS.UTF-8@latin', 'x@y', '', 7]) same('posix', [], name);
same('available', [], {}, ['en']);
for (const name of ['best', 'filter']) same(name, [], {}, 'en');
console.log(`beside.mjs: ${tags.length} tags by each call`);

// registries: a byte that is another, a line that is lost, said twice or put elsewhere
let seed = 1;
const number = (below) => (seed = (Math.imul(seed, 1664525) + 1013904223) >>> 0) % below;
const whole = readFileSync(sample, 'latin1');
let opened = 0;
for (let turn = 0; turn < Number(times); turn++) {
  const all = whole.split('\n');
  for (let k = number(3) + 1; k; k--) {
    const [i, j] = [number(all.length), number(all.length)];
    if (turn % 4 === 0) all.splice(i, 1);
    else if (turn % 4 === 1) all.splice(i, 0, all[j]);
    else if (turn % 4 === 2) all[i] = all[j];
    else all[i] = all[i].slice(0, j % 9) + String.fromCharCode(number(256)) + all[i].slice((j % 9) + number(2));
  }
  const both = open(Buffer.from(all.join('\n'), 'latin1'));
  if (Array.isArray(both[0]) || Array.isArray(both[1])) {
    assert.deepEqual(both[1], both[0]);
    continue;
  }
  opened++;
  for (let k = 0; k < 5; k++) ask(both, tags[number(tags.length)]);
  both.forEach((it, i) => [addon, wasm][i].close(it));
}
console.log(`beside.mjs: ${times} registries, ${opened} of them opened`);
