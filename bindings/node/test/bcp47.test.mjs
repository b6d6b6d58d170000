// Tests of the package. They take the registries of examples/.
import assert from 'node:assert/strict';
import { createHash } from 'node:crypto';
import { readFileSync } from 'node:fs';
import { createRequire } from 'node:module';
import { test } from 'node:test';
import { inspect } from 'node:util';
import { setFlagsFromString } from 'node:v8';
import { runInNewContext } from 'node:vm';
import { Worker } from 'node:worker_threads';
import { Refusal, Refused, RefusedRegistry, RefusedTag, Registry, Tag, version } from '../index.mjs';

const sample = new URL('../../../examples/sample-registry.txt', import.meta.url);
const registry = Registry.fromFile(sample);

test('texts are made canonical', () => {
  assert.equal(registry.canonical('zh-yue'), 'yue');
  assert.equal(registry.canonical('en-t-iw-t0-und'), 'en-t-he-t0-und');
  assert.equal(registry.extlang('yue'), 'zh-yue');
  assert.equal(registry.equivalent('I-KLINGON', new Tag('tlh')), true);
  assert.equal(registry.equivalent('zh', 'yue'), false);
  const answers = registry.canonicalMany(['iw', null, 'en_US', undefined, new Tag('YUE')]);
  assert.deepEqual(answers.map((it) => it && (it.message ?? it)), ['he', null, 'BadByte 1', null, 'yue']);
  assert.deepEqual(registry.canonicalMany([]), []);
  for (const wrong of ['iw', new Tag('iw'), null, {}, 7, [7]]) assert.throws(() => registry.canonicalMany(wrong), TypeError);
});

test('ranges match', () => {
  const schemes = ['basic', 'extended', 'lookup'];
  for (const [range, tag, wanted] of [
    ['zh-yue', 'yue-GB', [true, true, false]], ['yue-GB', new Tag('zh-yue'), [false, false, true]],
    ['de-DE', 'de-Latn-DE', [false, true, false]], ['zh-*', 'zh-Hans', [true, true, false]],
    ['*', 'de', [true, true, false]], [new Tag('en'), 'de', [false, false, false]],
  ]) assert.deepEqual(schemes.map((scheme) => registry.matches(range, tag, scheme)), wanted, `${range} ${tag}`);
  assert.equal(registry.matches('de-DE', 'de-Latn-DE'), true);
  for (const range of ['*-'.repeat(2050) + 'zz', 'en-' + '*-'.repeat(2050) + 'zz']) assert.equal(registry.matches(range, 'en'), false);
  for (const [range, tag, message, refused] of [
    ['e_n', 'e_n', 'BadByte 0', 'e_n'], ['en', 'e_n', 'BadByte 1', 'e_n'], ['en', 'xx', 'UnknownLanguage 1', 'xx'],
    ['ja-Latn-hepburn-alalc97-heploc', 'ja', 'ReplacementRepeats alalc97', 'ja-Latn-hepburn-alalc97-heploc'],
  ]) assert.throws(() => registry.matches(range, tag, 'basic'), { message, tag: refused });
  for (const wrong of ['', 'Basic', 1, null]) assert.throws(() => registry.matches('en', 'en', wrong), TypeError);
  for (const wrong of [null, 7]) assert.throws(() => registry.matches('en', wrong), TypeError);
  assert.throws(() => registry.matches(undefined, 'en'), TypeError);
});

test('the tag that is served', () => {
  const tags = ['en-GB', new Tag('zh-yue'), 'de'], available = registry.available(tags);
  assert.equal(available.best('de-CH, de;q=0.8, en;q=0.5'), 'de');
  assert.equal(available.best('YUE-HK'), tags[1]);
  assert.deepEqual(['en', '*', null, undefined, 'fr', 'de;q=0', ''].map((accept) => available.best(accept)), ['en-GB', 'en-GB', 'en-GB', 'en-GB', null, null, null]);
  assert.equal(available.best('fr', 'none'), 'none');
  assert.deepEqual(available.filter('de, en;q=0.5'), ['de', 'en-GB']);
  assert.deepEqual([available.filter('fr'), available.tags], [[], tags]);
  for (const ask of ['best', 'filter']) {
    assert.throws(() => available[ask]('en, de;q=2'), { name: 'RefusedTag', status: 'BadHeader', fault: 'BadWeight', place: 2, tag: 'en, de;q=2' });
    assert.throws(() => available[ask]('de, e_n'), { fault: 'BadByte' });
    assert.throws(() => available[ask](7), TypeError);
  }
  const none = registry.available([]);
  assert.deepEqual([none.best('de'), none.filter('*')], [null, []]);
  assert.throws(() => registry.available(['en', 'e_n']), { message: 'BadByte 1', tag: 'e_n' });
  for (const wrong of ['en', null, 7, [7]]) assert.throws(() => registry.available(wrong), TypeError);
});

test('tags that are served outlive their registry', () => {
  const own = Registry.fromFile(sample), available = own.available(['de', 'en']);
  own.close();
  assert.equal(available.best('en'), 'en');
  assert.throws(() => own.available(['de']), { message: 'the registry is closed' });
});

test('tags with other parts', () => {
  const tag = new Tag('zh-yue-TW-x-a');
  assert.equal(`${tag.with({ script: 'HANT', region: 'hk' })}`, 'zh-yue-Hant-HK-x-a');
  assert.equal(`${tag.with({ region: null, privateUse: [], language: 'de' })}`, 'de');
  assert.equal(`${Tag.fromParts({ language: 'sl', variants: ['rozaj', 'biske'], extensions: 'u-co-phonebk', privateUse: ['own'] })}`, 'sl-rozaj-biske-u-co-phonebk-x-own');
  assert.throws(() => tag.with({ script: 'Latin' }), { tag: 'Latin' });
  assert.throws(() => new Tag('x-own').with({ script: 'Latn' }), { tag: 'x-own' });
  assert.throws(() => tag.with({ scripts: 'Latn' }), TypeError);
});

test('a part that is undefined is as if it were not given', () => {
  const tag = new Tag('zh-yue-TW-x-a');
  assert.deepEqual(tag.with({ region: undefined, script: 'Hant', extensions: undefined }), new Tag('zh-yue-Hant-TW-x-a'));
  assert.deepEqual([tag.with({}), tag.with({ privateUse: null })], [tag, new Tag('zh-yue-TW')]);
  assert.deepEqual(Tag.fromParts({ language: 'de', region: undefined }), new Tag('de'));
  const made = [Tag.fromParts({ language: 'art', variants: ['lojban'], privateUse: 'own' }), new Tag('de-gaulish').with({ language: 'cel', region: 'FR' }),
    new Tag('art-lojban-x-own').with({ privateUse: null, region: 'US' })];
  assert.deepEqual(made.map(String), ['art-lojban-x-own', 'cel-FR-gaulish', 'art-US-lojban']);
});

test('parts of a wrong type', () => {
  const tag = new Tag('de'), code = 'ERR_INVALID_ARG_TYPE';
  for (const [parts, name, received] of [[{ region: 7 }, 'region', 'type number (7)'], [{ variants: ['1996', {}] }, 'variants', 'an instance of Object'],
    [{ region: {} }, 'region', 'an instance of Object'], [{ extensions: { u: 7 } }, 'extensions', 'type number (7)']])
    assert.throws(() => tag.with(parts), { name: 'TypeError', code, message: `The "${name}" argument must be of type string or an instance of Tag or Intl.Locale. Received ${received}` });
  assert.throws(() => Tag.fromParts({ region: 'AT' }), { code, message: /^The "language" argument .* Received undefined$/ });
  for (const name of ['regoin', 'toString'])
    assert.throws(() => tag.with({ [name]: 'AT' }), { name: 'TypeError', message: `no part of a tag is named '${name}': language, script, region, variants, extensions, privateUse` });
  assert.throws(() => Tag.fromPosix(null), { code, message: 'The "name" argument must be of type string. Received null' });
});

test('an argument of a wrong type is named, and what was given', () => {
  const wanted = 'must be of type string or an instance of Tag or Intl.Locale. Received', code = 'ERR_INVALID_ARG_TYPE', available = registry.available(['en']);
  for (const [value, received] of [[7, 'type number (7)'], [null, 'null'], [undefined, 'undefined'], [{}, 'an instance of Object'], [['en'], 'an instance of Array'],
    [Symbol('en'), 'type symbol (Symbol(en))'], [() => 'en', 'an instance of Function'], [Object.create(null), 'an instance of Object']]) {
    for (const [call, name] of [
      [() => registry.canonical(value), 'tag'], [() => registry.extlang(value), 'tag'], [() => registry.validate(value), 'tag'], [() => registry.isValid(value), 'tag'],
      [() => registry.explain(value), 'tag'], [() => registry.show(value), 'tag'], [() => new Tag(value), 'text'], [() => registry.equivalent(value, 'en'), 'first'],
      [() => registry.equivalent('en', value), 'second'], [() => registry.matches(value, 'en'), 'range'], [() => registry.matches('en', value), 'tag'],
      [() => registry.available(['en', value]), 'tags[1]'], [() => (value ?? true) === true || registry.canonicalMany(['en', null, value]), 'tags[2]'],
    ]) {
      if (name === 'tags[2]' && (value ?? true) === true) assert.equal(registry.canonicalMany([value])[0], null);
      else assert.throws(call, { name: 'TypeError', code, message: `The "${name}" argument ${wanted} ${received}` });
    }
    for (const call of [registry.canonicalMany, registry.available])
      if (!Array.isArray(value)) assert.throws(() => call.call(registry, value), { code, message: `The "tags" argument must be an iterable of tags. Received ${received}` });
    for (const call of ['best', 'filter'])
      if (value !== null && value !== undefined) assert.throws(() => available[call](value), { code, message: `The "accept" argument must be of type string. Received ${received}` });
    assert.throws(() => new Registry(value), { code, message: `The "bytes" argument must be an instance of Buffer or Uint8Array. Received ${received}` });
  }
  assert.throws(() => registry.canonicalMany('en'), { code, message: `The "tags" argument must be an iterable of tags. Received type string (en)` });
  for (const wrong of ['1', null, undefined]) assert.throws(() => registry.record(wrong), { code, message: /^The "number" argument must be of type number/ });
  assert.throws(() => registry.explain('en', '7'), { code, message: 'The "most" argument must be of type number. Received type string (7)' });
  assert.equal(runInNewContext('ask(new Uint8Array(content))', { content: readFileSync(sample), ask: (bytes) => new Registry(bytes).canonical('iw') }), 'he');
});

test('tags of POSIX', () => {
  assert.deepEqual(['sr_RS.UTF-8@latin', 'C', 'de_AT'].map((name) => `${Tag.fromPosix(name)}`), ['sr-Latn-RS', 'en-US-u-va-posix', 'de-AT']);
  assert.equal(`${Tag.fromPosix(`sr_RS.${'x'.repeat(5000)}@latin`)}`, 'sr-Latn-RS');
  assert.throws(() => Tag.fromPosix('en_US@klingon'), { message: 'BadByte 0' });
});

test('refusals in a list are answers', () => {
  const repeats = 'ja-Latn-hepburn-alalc97-heploc';
  const [bad, repeated] = registry.canonicalMany(['en_US', repeats]);
  assert.ok(bad instanceof Refusal && !(bad instanceof Error) && bad.stack === undefined);
  assert.deepEqual({ ...bad }, { status: 'NotATag', fault: 'BadByte', place: 1, tag: 'en_US' });
  assert.deepEqual([`${bad}`, bad.message, repeated.message, repeated.variant], ['! BadByte 1', 'BadByte 1', 'ReplacementRepeats alalc97', 'alalc97']);
  assert.ok(bad.help.includes('hyphen') && repeated.help.includes('repeat the variant'));
});

test('a refused tag in a list costs not much more than a valid one', () => {
  const cost = (tag) => {
    const tags = Array(10_000).fill(tag), times = [];
    for (let round = 0; round < 7; round++) {
      const begun = process.cpuUsage();
      registry.canonicalMany(tags);
      const { user, system } = process.cpuUsage(begun);
      times.push(user + system);
    }
    return Math.min(...times);
  };
  const [valid, refused] = [cost('zh-yue'), cost('zh_yue')];
  assert.ok(refused < 6 * valid, `${refused} µs, where valid ones take ${valid}`);
});

test('a refusal crosses to another thread by its cause', () => {
  const sent = structuredClone(new RefusedTag(registry.canonicalMany(['en_US'])[0]));
  assert.deepEqual([sent.message, { ...sent.cause }], ['BadByte 1', { status: 'NotATag', fault: 'BadByte', place: 1, tag: 'en_US' }]);
});

test('a refusal keeps no more of a text than a tag can have', () => {
  assert.throws(() => registry.canonical('a'.repeat(100_000_000)), ({ tag }) => tag === 'a'.repeat(1024));
  assert.equal(registry.canonicalMany(['a'.repeat(1025)])[0].tag.length, 1024);
});

test('a longer text is let go', () => {
  setFlagsFromString('--expose-gc');
  const gc = runInNewContext('gc'), used = () => (gc(), process.memoryUsage().heapUsed), before = used();
  const kept = Array.from({ length: 20 }, (_, i) => registry.canonicalMany([`${i}${'a'.repeat(5_000_000)}`])[0]);
  assert.ok(used() - before < 20_000_000 && kept.length === 20, `${used() - before} bytes`);
});

test('the longest text has room', () => {
  const numbers = Array.from({ length: 204 }, (_, n) => String(n).padStart(3, '0'));
  const records = numbers.map((n) => `%%\nType: variant\nSubtag: 1${n}\nPreferred-Value: value${n}\n%%\nType: variant\nSubtag: value${n}\n`);
  const own = new Registry(Buffer.from(`Type: language\nSubtag: aa\n${records.join('')}`));
  const [tag, canonical] = ['1', 'value'].map((front) => ['aa', ...numbers.map((n) => front + n)].join('-'));
  assert.deepEqual([tag.length, canonical.length], [1022, 1838]);
  assert.equal(own.canonical(tag), canonical);
  own.close();
});

test('refusals say why', () => {
  assert.throws(() => registry.canonical('en_US'), (error) =>
    error instanceof RefusedTag && error instanceof Refused && error instanceof Error && error.name === 'RefusedTag' &&
    error.message === 'BadByte 1' && error.fault === 'BadByte' && error.place === 1 && error.status === 'NotATag' &&
    error.tag === 'en_US' && error.help.includes('hyphen'));
  assert.throws(() => registry.validate('xx'), { message: 'UnknownLanguage 1', status: 'Invalid' });
  assert.throws(() => registry.equivalent('en', 'e_n'), { tag: 'e_n' });
  assert.throws(() => registry.canonical('a'.repeat(100000)), { message: 'TooLong 0' });
  assert.throws(() => registry.canonical('en\ud800'), { message: 'BadByte 1' });
  assert.equal(registry.isValid('zh-yue'), true);
  assert.equal(registry.isValid('xx'), false);
  for (const wrong of [null, undefined, 7, {}, ['en']]) assert.throws(() => registry.canonical(wrong), TypeError);
  assert.throws(() => new Registry(Buffer.from('no registry\n')), (error) =>
    error instanceof RefusedRegistry && error.message === 'jar BadLine line 1');
  for (const empty of ['', 'File-Date: 2000-01-01\n'])
    assert.throws(() => new Registry(Buffer.from(empty)), { name: 'RefusedRegistry', message: 'NoEntries', fault: 'NoEntries', place: 0 });
  assert.throws(() => new Registry('text'), TypeError);
  assert.throws(() => new Registry(new Uint16Array(8)), TypeError);
  assert.throws(() => Registry.fromFile('/no/such/file'), { code: 'ENOENT' });
});

test('explanations', () => {
  assert.deepEqual(registry.explain('sgn-dd'), {
    steps: [{ kind: 'Region', place: 2, number: 27, tag: 'sgn-DE' }, { kind: 'Whole', place: 1, number: 44, tag: 'gsg' }],
    canonical: 'gsg',
  });
  assert.deepEqual(registry.explain('en'), { steps: [], canonical: 'en' });
  for (const few of [1, 0, -1]) assert.throws(() => registry.explain('sgn-dd', few), { message: 'TooManySteps' });
  assert.equal(registry.explain('sgn-dd', Infinity).steps.length, 2);
  const many = Array.from({ length: 210 }, (_, i) => String.fromCharCode(122 - i / 26, 122 - (i % 26))).join('-');
  assert.throws(() => registry.explain(`en-u-${many}`), { message: 'TooManySteps' });
  for (const wrong of [NaN, 'a', null]) assert.throws(() => registry.explain('sgn-dd', wrong), TypeError);
  assert.throws(() => registry.explain('en_US'), { message: 'BadByte 1' });
  assert.throws(() => registry.explain('ja-Latn-hepburn-alalc97-heploc'), { message: 'ReplacementRepeats alalc97', variant: 'alalc97' });
});

test('what records say', () => {
  const own = new Registry(Buffer.from('File-Date: 2000-01-01\n%%\nType: language\nSubtag: nb\nDescription: Norsk bokmål\nAdded: 2005-10-16\n'));
  assert.deepEqual(own.show('nb-Zzyx'), [
    { place: 1, kind: 'Language', text: 'nb', listing: 'Record', record: 2, fields: [{ name: 'Description', body: 'Norsk bokmål' }] },
    { place: 2, kind: 'Script', text: 'Zzyx', listing: 'Unregistered', record: null, fields: [] },
  ]);
  assert.throws(() => own.show('en_US'), { message: 'BadByte 1' });
  own.close();
});

test('tags', () => {
  const tag = new Tag('ZH-yue-hANT-hk');
  assert.deepEqual([`${tag}`, tag.kind, JSON.stringify({ tag })], ['zh-yue-Hant-HK', 'langtag', '{"tag":"zh-yue-Hant-HK"}']);
  assert.deepEqual(tag.parts.map(({ kind, text }) => `${kind} ${text}`), ['Language zh', 'Extlang yue', 'Script Hant', 'Region HK']);
  assert.deepEqual(new Tag('I-klingon').parts, [{ kind: 'Grandfathered', text: 'i-klingon' }]);
  assert.deepEqual(['X-own', 'i-klingon'].map((text) => new Tag(text).kind), ['privateuse', 'grandfathered']);
  assert.throws(() => { tag.kind = 'x'; }, TypeError);
  assert.throws(() => new Tag('e'), RefusedTag);
});

test('tags are seen, compared and sent by their texts', () => {
  const tag = new Tag('zh-hant');
  assert.throws(() => assert.deepStrictEqual(new Tag('en'), new Tag('de')));
  assert.deepStrictEqual(new Tag('EN'), new Tag('en'));
  assert.equal(inspect(registry), 'Registry of 2024-01-01, 46 entries');
  assert.equal(inspect({ tag }), "{ tag: Tag 'zh-Hant' }");
  assert.deepEqual(structuredClone(tag), { text: 'zh-Hant' });
  assert.throws(() => { tag.text = 'en'; }, TypeError);
  assert.throws(() => { tag.parts[0].text = 'en'; }, TypeError);
});

test('parts by their kinds', () => {
  const { language, extlangs, script, region, variants, privateUse } = new Tag('zh-yue-hant-hk-1994-x-own-1');
  assert.deepEqual([language, extlangs, script, region, variants, privateUse], ['zh', ['yue'], 'Hant', 'HK', ['1994'], ['own', '1']]);
  const none = new Tag('i-klingon');
  assert.deepEqual([none.language, none.script, none.region, none.variants], [undefined, undefined, undefined, []]);
});

test('extensions, attributes and keywords', () => {
  const tag = new Tag('zh-YUE-hant-hk-1994-a-bbb-u-ATTR-co-phonebk-ca-buddhist-foo-x-own');
  assert.deepEqual(tag.extensions, { a: ['bbb'], u: ['attr', 'co', 'phonebk', 'ca', 'buddhist', 'foo'] });
  assert.deepEqual([tag.attributes, tag.keywords, tag.privateUse], [['attr'], { co: ['phonebk'], ca: ['buddhist', 'foo'] }, ['own']]);
  assert.deepEqual(new Tag('und-t-und-cyrl-m0-ungegn').extensions, { t: ['und', 'cyrl', 'm0', 'ungegn'] });
  assert.deepEqual(new Tag('en-u-co-co-aaa').keywords, { co: [] });
  const none = new Tag('i-klingon');
  assert.deepEqual([none.extensions, none.attributes, none.keywords], [{}, [], {}]);
  assert.deepEqual(new Tag('de').with({ extensions: new Tag('en-a-bbb-u-co-phonebk').extensions }), new Tag('de-a-bbb-u-co-phonebk'));
});

test('locales, in and out', () => {
  assert.equal(registry.canonical(new Intl.Locale('iw')), 'he');
  assert.equal(new Tag(new Intl.Locale('ZH-hant')).text, 'zh-Hant');
  assert.equal(new Tag('zh-Hant-TW').toLocale().region, 'TW');
  assert.throws(() => new Tag('x-own').toLocale(), RangeError);
});

test('which registry it is', () => {
  const content = readFileSync(sample);
  assert.deepEqual(registry.info, {
    fileDate: '2024-01-01', entries: content.toString().split('%%').length - 1,
    sha256: createHash('sha256').update(content).digest('hex'),
  });
  assert.match(version, /^\d+\.\d+\.\d+$/);
});

test('a registry that is closed', () => {
  assert.equal(Registry.prototype[Symbol.dispose ?? 'close'], Registry.prototype.close);
  const own = Registry.fromFile(sample);
  own.close();
  own.close();
  assert.equal(inspect(own), 'Registry, closed');
  for (const ask of [() => own.canonical('en'), () => own.canonicalMany(['en']), () => own.explain('en'), () => own.show('en'), () => own.matches('en', 'en'), () => own.info])
    assert.throws(ask, { name: 'TypeError', message: 'the registry is closed' });
  const closing = Registry.fromFile(sample);
  const tags = function* () { yield 'en'; closing.close(); yield 'de'; };
  assert.throws(() => closing.canonicalMany(tags()), { name: 'TypeError', message: 'the registry is closed' });
});

test('what nobody holds is collected before it is much', async () => {
  const content = readFileSync(new URL('iana-2025-05-15.txt', sample));
  // a list has what its registry had, also where that is closed
  const listed = () => {
    const own = new Registry(content);
    const available = own.available(['en']);
    own.close();
    return available;
  };
  for (const make of [() => new Registry(content), listed]) {
    let held = 0, most = 0;
    const watch = new FinalizationRegistry(() => held--);
    for (let i = 0; i < 200; i++) {
      watch.register(make());
      most = Math.max(most, ++held);
      await new Promise(setImmediate);
    }
    assert.ok(most < 100, `${most} at once`);
  }
});

test('memory that runs out is no answer', () => {
  const native = createRequire(import.meta.url)('../native.js');
  const calls = { ...native };
  for (const call of ['canonical', 'validate', 'parts']) native[call] = () => 4;
  try {
    for (const call of [() => registry.canonicalMany(['en']), () => registry.isValid('en'), () => new Tag('en')])
      assert.throws(call, RangeError);
  } finally {
    Object.assign(native, calls);
  }
});

test('tags have parents', () => {
  assert.equal(`${new Tag('zh-Hant-CN-x-private1').parent}`, 'zh-Hant-CN');
  assert.equal(new Tag('zh').parent, null);
});

test('records have fields', () => {
  const registry = Registry.fromFile(sample);
  assert.deepEqual(registry.record(1), [{ name: 'File-Date', body: '2024-01-01' }]);
  assert.deepEqual([4e9, 2 ** 32 + 1, 1.5, 0, -1, NaN].map((number) => registry.record(number)), Array(6).fill([]));
  const own = new Registry(Buffer.from('Type: language\nSubtag: nb\nDescription: Norsk bokmål\nDescription: \ufeffb\n'));
  assert.deepEqual(own.record(1).map(({ body }) => body), ['language', 'nb', 'Norsk bokmål', '\ufeffb']);
  own.close();
});

test('CommonJS', () => {
  const bcp47 = createRequire(import.meta.url)('../index.js');
  assert.equal(bcp47.Registry, Registry);
});

test('workers', async () => {
  const source = `
    const { parentPort, workerData } = require('node:worker_threads');
    const { Registry } = require(workerData.module);
    const registry = Registry.fromFile(workerData.sample);
    let wrong = 0;
    for (let i = 0; i < 20000; i++) if (registry.canonical('zh-yue') !== 'yue') wrong++;
    parentPort.postMessage(wrong);`;
  const workerData = { module: new URL('../index.js', import.meta.url).pathname, sample: sample.pathname };
  const answers = await Promise.all(Array.from({ length: 4 }, () => new Promise((done, failed) => {
    const worker = new Worker(source, { eval: true, workerData });
    worker.on('message', done);
    worker.on('error', failed);
  })));
  assert.deepEqual(answers, [0, 0, 0, 0]);
});
