// The tag that is served to a reader: headers of browsers by docs/NODE.md's middleware, and lookup as ECMA-402 has it beside it (LookupMatcher, by
// Intl's canonical forms), each difference with its reason. Arguments: the module of the page's program, IANA's registry.
import assert from 'node:assert/strict';
import { createServer } from 'node:http';
import { createRequire } from 'node:module';

const [program, path] = process.argv.slice(2);
const { localized } = await import(program);
const { Registry } = createRequire(program)('bcp47');
const registry = Registry.fromFile(path);

// What browsers send, as they are set up in a country, and the tag of en, de and zh-Hant that is served.
const BROWSERS = [
  ['Chrome, Germany', 'de-DE,de;q=0.9,en-US;q=0.8,en;q=0.7', 'de'],
  ['Firefox, Switzerland', 'de-CH,de;q=0.8,en-US;q=0.5,en;q=0.3', 'de'],
  ['Safari, Taiwan', 'zh-TW,zh-Hant;q=0.9', 'zh-Hant'],
  ['Edge, United Kingdom', 'en-GB,en;q=0.9,en-US;q=0.8,de;q=0.7', 'en'],
  ['Chrome on a telephone, Brazil', 'pt-BR,pt;q=0.9,en-US;q=0.8,en;q=0.7', 'en'],
];
const server = createServer((request, response) => localized(request, response, () => response.end(request.language)));
await new Promise((done) => server.listen(0, '127.0.0.1', done));
const ask = async (header) => {
  const answer = await fetch(`http://127.0.0.1:${server.address().port}/`, { headers: { 'accept-language': header } });
  const text = await answer.text();
  assert.deepEqual(['content-language', 'vary'].map((name) => answer.headers.get(name)), [text, 'Accept-Language']);
  return text;
};
for (const [name, header, wanted] of BROWSERS) assert.equal(await ask(header), wanted, name);
for (const odd of ['', 'de;q=2', '\xff', 'de'.repeat(5000)]) assert.equal(await ask(odd), 'en', odd);
await Promise.all(Array.from({ length: 200 }, async (_, i) => assert.equal(await ask(BROWSERS[i % 5][1]), BROWSERS[i % 5][2])));
server.close();

/** The first of the tags that lookup finds, as ECMA-402, 9.2.3, has it. */
const lookup = (range, tags) => {
  try {
    const all = tags.map((tag) => Intl.getCanonicalLocales(tag)[0]);
    for (let rest = Intl.getCanonicalLocales(range)[0]; rest; rest = rest.replace(/(?:-[^-])?-?[^-]+$/, '')) if (all.includes(rest)) return tags[all.indexOf(rest)];
    return null;
  } catch (error) {
    return error.name;
  }
};
const [ALIKE, REFUSED, FORMS, LONGER, CLDR] = ['', 'Intl refuses extlangs and most grandfathered tags', 'extlang forms', 'a range serves a longer tag', 'CLDR replaces what IANA does not'];
for (const [range, tags, theirs, ours, why] of [
  ['de-CH', 'de en', 'de', 'de', ALIKE], ['de-CH-1996', 'de-CH de', 'de-CH', 'de-CH', ALIKE], ['iw', 'he en', 'he', 'he', ALIKE], ['de-DD', 'de-DE de', 'de-DE', 'de-DE', ALIKE],
  ['sgn-DE', 'gsg en', 'gsg', 'gsg', ALIKE], ['art-lojban', 'jbo en', 'jbo', 'jbo', ALIKE], ['mo', 'ro en', 'ro', 'ro', ALIKE], ['zh-Hant-TW', 'zh-Hans zh', 'zh', 'zh', ALIKE],
  ['en-u-nu-latn', 'en de', 'en', 'en', ALIKE], ['zh-TW', 'zh-Hant en', null, null, ALIKE],
  ['zh-yue-HK', 'yue en', 'RangeError', 'yue', REFUSED], ['i-klingon', 'tlh en', 'RangeError', 'tlh', REFUSED],
  ['yue-HK', 'zh en', null, 'zh', FORMS], ['zh', 'yue en', null, 'yue', FORMS], ['de', 'de-CH en', null, 'de-CH', LONGER],
  ['sh', 'sr-Latn en', 'sr-Latn', null, CLDR], ['tl', 'fil en', 'fil', null, CLDR],
]) {
  assert.deepEqual([lookup(range, tags.split(' ')), registry.available(tags.split(' ')).best(range)], [theirs, ours], range);
  assert.equal(theirs === ours, why === ALIKE, range);
}
console.log('served');
