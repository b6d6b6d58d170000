// Calls a second of the package for Node.js, by its addon and, where `make lib-wasm` built it, by WebAssembly, beside those of Intl.
// Arguments: registry, tags.
import { existsSync, readFileSync } from 'node:fs';
import { Registry, Tag } from '../../bindings/node/index.mjs';

const registry = Registry.fromFile(process.argv[2]);
const all = readFileSync(process.argv[3], 'utf8').split('\n').filter(Boolean);
const tags = all.filter((tag) => registry.isValid(tag));
const refused = Array.from({ length: 20 }, () => all.filter((tag) => !registry.isValid(tag))).flat();

function measure(name, some, ask) {
  let best = Infinity;
  for (let round = 0; round < 5; round++) {
    const begun = process.cpuUsage();
    ask(some);
    const { user, system } = process.cpuUsage(begun);
    best = Math.min(best, (user + system) / 1e6);
  }
  console.log(`Node.js, ${name}: ${(some.length / best / 1e6).toFixed(2)} million a second`);
}

/** What a call answers to each, where it throws too. */
const each = (ask) => (some) => {
  for (const tag of some) {
    try {
      ask(tag);
    } catch {
      // a tag that it refuses
    }
  }
};

const offered = 'ar de en en-GB es fr he ja pt-BR ru zh-Hans zh-Hant'.split(' ');
const headers = Array.from({ length: 5000 }, () => ['de-CH, de;q=0.8, en;q=0.5', 'pt-BR, pt;q=0.9, en;q=0.8', 'zh-TW, zh-Hant;q=0.9, en;q=0.1', 'nl, fr-CA;q=0.7, fr;q=0.3']).flat();
const wasm = new URL('../../build/wasm/', import.meta.url), backends = [['', registry, Tag]];
if (existsSync(new URL('load.mjs', wasm))) {
  const { load } = await import(new URL('load.mjs', wasm));
  const other = await load(readFileSync(new URL('bcp47.wasm', wasm)));
  backends.push([' by WebAssembly', new other.Registry(readFileSync(process.argv[2])), other.Tag]);
}
for (const [by, registry, Tag] of backends) {
  measure(`registry.canonical${by}, valid tags`, tags, each((tag) => registry.canonical(tag)));
  measure(`registry.canonicalMany${by}, valid tags`, tags, (some) => registry.canonicalMany(some));
  measure(`registry.canonical${by}, refused tags`, refused, each((tag) => registry.canonical(tag)));
  measure(`registry.canonicalMany${by}, refused tags`, refused, (some) => registry.canonicalMany(some));
  measure(`Tag and its parts${by}, valid tags`, tags, each((tag) => new Tag(tag).parts));
  const available = registry.available(offered);
  measure(`best${by}, headers of three ranges over twelve tags`, headers, each((header) => available.best(header)));
}
measure('Intl.getCanonicalLocales, valid tags', tags, each((tag) => Intl.getCanonicalLocales(tag)));
measure('Intl.getCanonicalLocales, refused tags', refused, each((tag) => Intl.getCanonicalLocales(tag)));
