// Calls that the end of JavaScript's stack cuts off, ever deeper: what is answered afterwards is right. Arguments: the folder of the package, a registry.
import assert from 'node:assert/strict';
import { readFileSync } from 'node:fs';
import { createRequire } from 'node:module';

const [folder, path] = process.argv.slice(2);
const { callsOf } = createRequire(`${folder}/`)('./calls.js');
const calls = callsOf(new WebAssembly.Instance(new WebAssembly.Module(readFileSync(`${folder}/bcp47.wasm`))).exports);
const held = calls.open(readFileSync(path));
const BUSY = 15;
let cut = 0, busy = 0;
const asks = [
  [() => calls.canonical(held, 'zh-yue'), 'yue'], [() => calls.canonical(held, 'i-klingon'), 'tlh'], [() => calls.explain(held, 'sgn-dd', 9), /^4,2,27,sgn-DE,7,1,44,gsg,gsg$/],
  [() => calls.show(held, 'de-Latn'), /^\[\{"place":1,/], [() => calls.match(held, 'zh-yue', 'yue-GB', 1), true], [() => calls.parts('en-x-a'), /^en-x-a\./],
];
function check([ask, wanted]) {
  const answer = ask();
  if (answer === BUSY) busy++;
  else if (wanted instanceof RegExp) assert.match(String(answer), wanted);
  else assert.equal(answer, wanted);
}
/** Goes down to the end of the stack, and asks at each of the 300 levels on the way back; how many were asked. */
function descend(call) {
  let asked = 0;
  try {
    asked = descend(call);
  } catch (error) {
    if (!(error instanceof RangeError)) throw error;
    cut++;
  }
  if (asked < 300) check(call);
  return asked + 1;
}
/** The same with so many frames of another size above, so that calls are cut off elsewhere. */
const below = (depth, call) => (depth ? [below(depth - 1, call)].length : descend(call));
for (let turn = 0; turn < 100; turn++) {
  for (const call of asks) {
    below(turn, call);
    check(call);
  }
}
assert.ok(cut > 1000, `${cut}`);
console.log(`cut_off.mjs: ${cut} calls cut off, ${busy} answers are Busy`);
