// Calls each export of bcp47.wasm as heap.c calls the library of this machine, and prints the same sum over what they answer.
// Arguments: bcp47.wasm, a registry, tags.
import { readFileSync } from 'node:fs';

const { exports: of } = (await WebAssembly.instantiate(readFileSync(process.argv[2]))).instance;
const [file, lines] = process.argv.slice(3).map((path) => readFileSync(path));
const outcome = of.bcp47_outcome(), [ROOM, PARTS, PART] = [4096, 512, 24];
const [given, to, parts, steps] = [ROOM, ROOM, PARTS * PART, 24].map(of.bcp47_allocate);
const bytes = () => new Uint8Array(of.memory.buffer), word = (place) => new DataView(of.memory.buffer).getUint32(place, true);
const put = (text, place) => (bytes().set(text, place), [place, text.length]);

let sum = 0x811c9dc5;
const add = (place, count) => {
  for (const byte of bytes().subarray(place, place + count)) sum = Math.imul(sum ^ byte, 16777619);
};
/** Adds the outcome of a call, and gives its status. */
const told = (status) => {
  add(outcome, 28);
  if (status !== word(outcome)) throw new Error(`${status} is no status of ${word(outcome)}`);
  return status;
};
const written = (status) => (told(status), add(to, word(outcome + 16)));
/** Adds the text that a call gave, which is freed. */
const taken = (place) => {
  told(word(outcome));
  if (place) add(place, word(outcome + 16));
  of.bcp47_free(place);
};

const room = of.bcp47_allocate(file.length);
const registry = of.bcp47_open(...put(file, room), to, ROOM);
of.bcp47_free(room);
// the steps of heap.c, a region by the record 27 and a whole tag by the record 44
const kinds = Array.from({ length: 15 }, (_, i) => Buffer.from(of.memory.buffer, of.bcp47_kind_name(i), 6).toString());
for (const [i, [kind, place, number]] of [['Region', 2, 27], ['Whole\0', 1, 44]].entries()) {
  put([kinds.indexOf(kind)], steps + 12 * i);
  put([place, 0, 0, 0, number, 0, 0, 0], steps + 12 * i + 4);
}

let tested = 0;
for (let at = 0, end; (end = lines.indexOf(10, at)) >= 0; at = end + 1, tested++) {
  const tag = put(lines.subarray(at, end), given), asked = [registry, ...tag, to, ROOM];
  written(of.bcp47_canonical(...asked));
  written(of.bcp47_extlang(...asked));
  written(of.bcp47_classify(0, ...tag, to, ROOM));
  written(of.bcp47_classify(...asked));
  for (const count of [0, 2]) told(of.bcp47_verify(registry, ...tag, steps, count, ...tag));
  written(of.bcp47_parent(...tag, to, ROOM));
  const value = put(Buffer.from('gsw-x-own'), given + 2048)[0];
  for (const part of [1, 0]) written(of.bcp47_with(...tag, part, value, 3, to, ROOM));
  written(of.bcp47_posix(...tag, to, ROOM));
  told(of.bcp47_validate(registry, ...tag));
  const range = put(Buffer.from('zh-yue'), given + 2048);
  told(of.bcp47_equivalent(registry, ...tag, ...range, to, ROOM));
  for (const scheme of [0, 1, 2, 3]) told(of.bcp47_match(registry, scheme, range[0], 2, ...tag, to, ROOM));
  const status = of.bcp47_parts(...tag, to, ROOM, parts, PARTS);
  written(status);
  for (let i = 0; !status && i < word(outcome + 8); i++) {
    add(parts + PART * i, 1);
    add(parts + PART * i + 8, 16);
  }
  const list = of.bcp47_steps(registry, ...tag, 3), count = told(word(outcome)) ? 0 : word(outcome + 8);
  for (let i = 0; list && i < count; i++) {
    add(list + 12 * i, 1);
    add(list + 12 * i + 4, 8);
  }
  for (let i = 0, text = list + 12 * count; list && i <= count; i++) {
    const end = bytes().indexOf(0, text);
    add(text, end - text);
    text = end + 1;
  }
  of.bcp47_free(list);
  taken(of.bcp47_show(registry, ...tag));
}
for (let number = 0; number < 10000; number++) {
  const fields = of.bcp47_record(registry, number);
  told(word(outcome));
  const count = word(outcome + 8);
  let whole = 16 * count;
  for (let i = 0; i < count; i++) whole += word(fields + 16 * i) + word(fields + 16 * i + 8) + 2;
  add(fields, whole);
  of.bcp47_free(fields);
}
put(Buffer.from('en-GBzh-yuede'), given);
for (const [i, [from, length]] of [[0, 5], [5, 6], [11, 2]].entries()) {
  const numbers = new DataView(of.memory.buffer);
  numbers.setBigUint64(given + 1024 + 8 * i, BigInt(given + from), true);
  numbers.setBigUint64(given + 1048 + 8 * i, BigInt(length), true);
}
const available = of.bcp47_available_open(registry, given + 1024, given + 1048, 3);
told(word(outcome));
for (const text of ['de-CH, de;q=0.8, en;q=0.5', 'zh', 'fr', '*', '', 'en, de;q=2']) {
  const header = put(Buffer.from(text), given + 2048);
  told(of.bcp47_best(available, ...header));
  const status = told(of.bcp47_filter(available, ...header, given + 1072, 3));
  add(given + 1072, status ? 0 : 8 * word(outcome + 8));
}
of.bcp47_available_close(available);
told(of.bcp47_upgrade_check(registry, registry));
const names = ['status_name', 'fault_name', 'kind_name', 'part_kind_name', 'status_help', 'fault_help'].map((name) => of[`bcp47_${name}`]);
for (let i = -1; i < 70; i++) {
  for (const name of names) add(name(i), bytes().indexOf(0, name(i)) - name(i));
}
of.bcp47_close(registry);
console.log(`${tested} tags, ${(sum >>> 0).toString(16).padStart(8, '0')}`);
