// SPDX-License-Identifier: MIT OR Apache-2.0
'use strict';

const { readFileSync } = require('node:fs');
const native = require('./native.js');

const [STATUSES, STATUS_HELP, FAULTS, FAULT_HELP, KINDS, STEPS] = [0, 1, 2, 3, 4, 5].map(native.names);
const [REPEATS, OUT_OF_MEMORY] = ['ReplacementRepeats', 'OutOfMemory'].map((name) => STATUSES.indexOf(name));
const SCHEMES = ['basic', 'extended', 'lookup'];
const CLASSES = { Language: 'langtag', PrivateUseSingleton: 'privateuse', Grandfathered: 'grandfathered' };
const INSPECT = Symbol.for('nodejs.util.inspect.custom');
// The most bytes of a tag; of a text that is refused no more is kept.
const LONGEST = 1024;

/** A text without the longer one that it may be a slice of. */
const front = (text) => (text.length > LONGEST ? ` ${text.slice(0, LONGEST)}`.slice(1) : text);

class Refusal {
  constructor(code, tag, text) {
    const [status, fault] = [code % 32, Math.floor(code / 128) % 256];
    this.status = STATUSES[status];
    this.fault = FAULTS[fault] ?? this.status;
    this.place = Math.floor(code / 32768);
    if (tag !== undefined) this.tag = front(String(tag));
    if (status === REPEATS) this.variant = text;
  }

  get message() {
    if (this.variant !== undefined) return `${this.fault} ${this.variant}`;
    return this.fault === this.status ? this.fault : `${this.fault} ${this.place}`;
  }

  get help() {
    return this.fault === this.status ? STATUS_HELP[STATUSES.indexOf(this.status)] : FAULT_HELP[FAULTS.indexOf(this.fault)];
  }

  toString() {
    return `! ${this.message}`;
  }
}

class Refused extends Error {
  constructor(refusal, line) {
    super(line || refusal.message, { cause: refusal });
  }

  get name() {
    return this.constructor.name;
  }
}
for (const fact of ['status', 'fault', 'place', 'tag', 'variant', 'help'])
  Object.defineProperty(Refused.prototype, fact, { get() { return this.cause[fact]; } });

class RefusedTag extends Refused {}
class RefusedRegistry extends Refused {}

/** Throws where memory ran out, which is no refusal, and gives what a call answers. */
function checked(answer) {
  if (typeof answer === 'number' && answer % 32 === OUT_OF_MEMORY) throw new RangeError('out of memory');
  return answer;
}

/** The TypeError for an argument of a wrong type, as Node.js has it. */
function wrongType(name, wanted, value) {
  const type = typeof value;
  const given = value === null || value === undefined ? value
    : type === 'object' || type === 'function' ? `an instance of ${value.constructor?.name ?? 'Object'}`
    : `type ${type} (${String(value).slice(0, 25)})`;
  return Object.assign(new TypeError(`The "${name}" argument must be ${wanted}. Received ${given}`), { code: 'ERR_INVALID_ARG_TYPE' });
}

function stringOf(text, name) {
  if (typeof text !== 'string') throw wrongType(name, 'of type string', text);
  return text;
}

/** The text of an argument that is a text, a tag or a locale. */
function textOf(tag, name = 'tag') {
  if (typeof tag === 'string') return tag;
  if (tag instanceof Tag || tag instanceof Intl.Locale) return tag.toString();
  throw wrongType(name, 'of type string or an instance of Tag or Intl.Locale', tag);
}

/** The items of an argument that is a list and no text. */
function listOf(tags) {
  if (typeof tags === 'string' || typeof tags?.[Symbol.iterator] !== 'function') throw wrongType('tags', 'an iterable of tags', tags);
  return [...tags];
}

/** The refusal that a number tells, of one of the tags that were asked. */
function refusalOf(held, code, ...tags) {
  const tag = tags[Math.floor(code / 32) % 4 === 2 ? 1 : 0];
  return new Refusal(code, tag, held && code % 32 === REPEATS ? native.variant(held, String(tag)) : undefined);
}

/** Throws what a call refuses. */
function answered(held, answer, ...tags) {
  if (typeof checked(answer) !== 'number') return answer;
  throw new RefusedTag(refusalOf(held, answer, ...tags));
}

// The number of each part that is replaced, in the order of a tag.
const REPLACED = { language: 1, script: 3, region: 4, variants: 5, extensions: 6, privateUse: 18 };

/** The text of a part with a name. */
function joined(value, name) {
  if (value === null) return '';
  if (typeof value !== 'string' && typeof value[Symbol.iterator] === 'function') return Array.from(value, (subtag) => textOf(subtag, name)).join('-');
  if (name !== 'extensions' || typeof value !== 'object') return textOf(value, name);
  return Object.entries(value).map(([singleton, subtags]) => `${singleton}-${joined(subtags, name)}`).join('-');
}

class Tag {
  #kinds;
  #parts;

  constructor(text) {
    const shown = answered(null, native.parts(textOf(text, 'text')), text);
    const point = shown.indexOf('.');
    this.text = shown.slice(0, point);
    this.#kinds = shown.slice(point + 1);
    Object.freeze(this);
  }

  static fromParts({ language, ...parts }) {
    return new Tag(textOf(language, 'language')).with(parts);
  }

  static fromPosix(name) {
    return new Tag(answered(null, native.posix(stringOf(name, 'name')), name));
  }

  with(parts) {
    const names = Object.keys(REPLACED), wrong = Object.keys(parts).find((name) => !names.includes(name));
    if (wrong !== undefined) throw new TypeError(`no part of a tag is named '${wrong}': ${names.join(', ')}`);
    const steps = Object.keys(REPLACED).filter((name) => parts[name] !== undefined).map((name) => [name, joined(parts[name], name)]);
    if (steps.length > 1 && this.language) {
      // the language comes last, so that no text on the way is a grandfathered tag, as art-lojban is
      const last = parts.language === undefined ? ['language', [this.language, ...this.extlangs].join('-')] : steps.shift();
      steps.unshift(['language', 'und']);
      steps.push(last);
    }
    let text = this.text;
    for (const [name, value] of steps) {
      const part = value && name === 'privateUse' ? `x-${value}` : value;
      text = answered(null, native.with(text, REPLACED[name], part), text, part);
    }
    return new Tag(text);
  }

  get parent() {
    const text = native.parent(this.text);
    return text ? new Tag(text) : null;
  }

  get parts() {
    // a grandfathered tag is one part
    const texts = this.#kinds.length === 1 ? [this.text] : this.text.split('-');
    const kindOf = (i) => KINDS[this.#kinds.charCodeAt(i) - 64];
    return (this.#parts ??= Object.freeze(texts.map((text, i) => Object.freeze({ kind: kindOf(i), text }))));
  }

  get kind() {
    return CLASSES[this.parts[0].kind];
  }

  #all(kind) {
    return this.parts.filter((part) => part.kind === kind).map((part) => part.text);
  }

  get language() {
    return this.#all('Language')[0];
  }

  get extlangs() {
    return this.#all('Extlang');
  }

  get script() {
    return this.#all('Script')[0];
  }

  get region() {
    return this.#all('Region')[0];
  }

  get variants() {
    return this.#all('Variant');
  }

  get attributes() {
    return this.#all('Attribute');
  }

  get privateUse() {
    return this.#all('PrivateUse');
  }

  /** The texts that follow each part of a kind within its extension. Of two that are alike the first counts. */
  #groups(begins) {
    const groups = {};
    let group = [];
    for (const { kind, text } of this.parts) {
      if (kind !== begins && kind !== 'Singleton' && kind !== 'PrivateUseSingleton') {
        group.push(text);
        continue;
      }
      group = [];
      if (kind === begins) groups[text] ??= group;
    }
    return groups;
  }

  get extensions() {
    return this.#groups('Singleton');
  }

  get keywords() {
    return this.#groups('Key');
  }

  toLocale() {
    return new Intl.Locale(this.text);
  }

  toString() {
    return this.text;
  }

  toJSON() {
    return this.text;
  }

  [INSPECT]() {
    return `Tag '${this.text}'`;
  }
}

class Available {
  #held;

  constructor(held, tags) {
    this.#held = held;
    this.tags = tags;
    Object.freeze(this);
  }

  #served(call, accept) {
    return answered(null, call(this.#held, stringOf(accept ?? '*', 'accept')), accept).map((number) => this.tags[number - 1]);
  }

  best(accept, other = null) {
    const [tag = other] = this.#served(native.best, accept);
    return tag;
  }

  filter(accept) {
    return this.#served(native.filter, accept);
  }
}

class Registry {
  #held;

  constructor(bytes) {
    if (bytes?.[Symbol.toStringTag] !== 'Uint8Array') throw wrongType('bytes', 'an instance of Buffer or Uint8Array', bytes);
    const answer = native.open(bytes);
    if (Array.isArray(answer)) throw new RefusedRegistry(new Refusal(checked(answer[0])), answer[1]);
    this.#held = answer;
  }

  static fromFile(path) {
    return new Registry(readFileSync(path));
  }

  static bundled() {
    return Registry.fromFile(require('bcp47-registry').path);
  }

  get #open() {
    if (!this.#held) throw new TypeError('the registry is closed');
    return this.#held;
  }

  close() {
    if (this.#held) native.close(this.#held);
    this.#held = null;
  }

  /** What a call answers for a tag. */
  #ask(call, tag, ...others) {
    return answered(this.#open, call(this.#open, textOf(tag), ...others), tag);
  }

  canonical(tag) {
    return this.#ask(native.canonical, tag);
  }

  extlang(tag) {
    return this.#ask(native.extlang, tag);
  }

  canonicalMany(tags) {
    return listOf(tags).map((tag, i) => {
      if (tag === null || tag === undefined) return null;
      const answer = checked(native.canonical(this.#open, textOf(tag, `tags[${i}]`)));
      return typeof answer === 'number' ? refusalOf(this.#open, answer, tag) : answer;
    });
  }

  validate(tag) {
    this.#ask(native.validate, tag);
  }

  isValid(tag) {
    return checked(native.validate(this.#open, textOf(tag))) === undefined;
  }

  equivalent(first, second) {
    return answered(this.#open, native.match(this.#open, textOf(first, 'first'), textOf(second, 'second'), 0), first, second);
  }

  matches(range, tag, scheme = 'extended') {
    const number = SCHEMES.indexOf(scheme) + 1;
    if (!number) throw new TypeError(`a scheme is basic, extended or lookup, not ${String(scheme)}`);
    return answered(this.#open, native.match(this.#open, textOf(range, 'range'), textOf(tag), number), range, tag);
  }

  available(tags) {
    const all = Object.freeze(listOf(tags)), texts = all.map((tag, i) => textOf(tag, `tags[${i}]`));
    texts.forEach((tag) => this.canonical(tag));
    return new Available(answered(null, native.available(this.#open, texts)), all);
  }

  explain(tag, most = 20_000) {
    if (typeof most !== 'number' || Number.isNaN(most)) throw wrongType('most', 'of type number', most);
    const facts = this.#ask(native.explain, tag, Math.min(Math.max(most, 0), 0xffffffff)), canonical = facts.pop(), steps = [];
    for (let i = 0; i < facts.length; i += 4) steps.push({ kind: STEPS[facts[i]], place: facts[i + 1], number: facts[i + 2], tag: facts[i + 3] });
    return { canonical, steps };
  }

  record(number) {
    if (typeof number !== 'number') throw wrongType('number', 'of type number', number);
    const held = this.#open, isNumbered = Number.isInteger(number) && number > 0 && number <= 0xffffffff;
    const texts = isNumbered ? answered(held, native.record(held, number)) : [];
    return texts.filter((_, i) => i % 2 === 0).map((name, i) => ({ name, body: texts[2 * i + 1] }));
  }

  show(tag) {
    return JSON.parse(this.#ask(native.show, tag));
  }

  get info() {
    const [fileDate, entries, digest] = native.facts(this.#open);
    return { fileDate, entries, sha256: Array.from(digest, (byte) => byte.toString(16).padStart(2, '0')).join('') };
  }

  [INSPECT]() {
    return this.#held ? `Registry of ${this.info.fileDate || 'no date'}, ${this.info.entries} entries` : 'Registry, closed';
  }
}
if (Symbol.dispose) Registry.prototype[Symbol.dispose] = Registry.prototype.close;

module.exports = { Available, Refusal, Refused, RefusedRegistry, RefusedTag, Registry, Tag, version: native.version };
