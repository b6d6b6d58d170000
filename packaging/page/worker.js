// What the page asks is answered here, beside it, so that it stays quick: a message is [number, call, arguments], an answer [number, what it is].
let Registry, Tag, registry, names, latest, ready;
const reader = new TextDecoder('utf-8', { ignoreBOM: true }), encoder = new TextEncoder(), MOST = 200;

const unpacked = async (text) => new Uint8Array(await new Response(new Blob([Uint8Array.from(atob(text), (it) => it.charCodeAt(0))])
  .stream().pipeThrough(new DecompressionStream('gzip'))).arrayBuffer());

/** What a call gives, or else why it is refused. */
function tried(call) {
  try {
    return { value: call() };
  } catch ({ cause, message }) {
    if (!cause) throw new Error(message);
    const { status, fault, place, variant, help } = cause;
    return { why: { status, fault, place, variant, help, line: message } };
  }
}

/** The subtags of languages by their names in the registry, in lower case. */
const named = (bytes) => new Map(reader.decode(bytes).split(/^%%.*$/m).flatMap((record) => {
  const subtag = /^Type: *language\s+Subtag: *(\w+)/m.exec(record)?.[1];
  return subtag ? Array.from(record.matchAll(/^Description: *(.*\S)/gm), ([, name]) => [name.toLowerCase(), subtag]) : [];
}).reverse());

/** A text with another subtag at a place; by the browser's data, which are CLDR's, where it knows a code by another, such as eng. */
const put = (text, place, subtag) => text.split('-').map((it, i) => (i === place - 1 ? subtag : it)).filter((it) => it !== undefined).join('-');
function alias(text, place, whole, part) {
  try {
    return put(text, place, new Intl.Locale(whole + text.split('-')[place - 1])[part]);
  } catch {
    return undefined;
  }
}
/** By the fault: the text with that fault mended, where it is plain how. */
const MENDS = {
  BadByte: (text) => text.replace(/^["'\s\uFEFF]+|["'\s]+$|[.@].*$/g, '').replace(/\s*[_\s\u2010-\u2015]\s*/g, '-'),
  EmptySubtag: (text) => text.split('-').filter(Boolean).join('-'),
  Unfinished: (text) => put(text, text.split('-').length),
  DuplicateVariant: put,
  UnknownLanguage: (text, place) => alias(text, place, '', 'language'),
  UnknownRegion: (text, place) => alias(text, place, 'und-', 'region'),
  // a script after the region
  Misplaced: (text, place) => (/^[a-z]{4}$/i.test(text.split('-')[place - 1]) ? put(text, place).replace('-', `-${text.split('-')[place - 1]}-`) : undefined),
};
/** The tag that was meant by a text that is refused, where that is plain. The registry has the last word. */
function meant(text) {
  let now = names.get(text.trim().toLowerCase()) ?? text;
  for (let turn = 0; turn < 5 && now; turn++) {
    const { value, why } = tried(() => registry.canonical(now));
    if (!why) return value;
    now = MENDS[why.fault]?.(now, why.place);
  }
  return undefined;
}

/** The longest tag that a text begins with and that ends at one of its hyphens. */
function front(text) {
  const pieces = text.slice(0, 1024).split('-');
  while (pieces.pop() !== undefined && pieces.length) if (tried(() => new Tag(pieces.join('-'))).value) return pieces.join('-');
  return undefined;
}

/** Where the record that begins at a byte ends, and its fields. A quote opens where a field begins or one has just closed. */
function recordAt(bytes, at, delimiter, quote) {
  const ends = [];
  let quoted = false, opens = true, returns = 0, i = at;
  for (; i < bytes.length; i++) {
    const byte = bytes[i];
    if (byte === quote && (quoted || opens)) [quoted, opens] = [!quoted, true];
    else if (!quoted) {
      if (byte === 10) break;
      if (byte === 13) returns++;
      opens = byte === delimiter;
      if (opens) ends.push(i);
    }
  }
  if (quoted) throw new Error('The file ends within quotes: see where a quote is missing.');
  const end = i > at && bytes[i - 1] === 13 ? i - 1 : i;
  ends.push(end);
  return { ends, end, next: i + 1, broken: quote > 0 && returns > i - end };
}

/** Where a field is, without quotes around it. */
function fieldOf(bytes, at, { ends }, place, quote) {
  const [from, to] = [place ? ends[place - 1] + 1 : at, ends[place]];
  return to - from > 1 && bytes[from] === quote && bytes[to - 1] === quote ? [from + 1, to - 1] : [from, to];
}

const textAt = (bytes, where) => reader.decode(bytes.subarray(...where));

/** How a list is laid out: its first byte, the columns of its heading if it is a table, and which of them has tags by its first rows. */
function layout(bytes, table) {
  if (bytes[1] === 0 || (bytes[0] ^ bytes[1]) === 1 && bytes[0] > 0xfd) throw new Error('The file is in UTF-16: save it as CSV in UTF-8.');
  const begin = bytes[0] === 0xef && bytes[1] === 0xbb && bytes[2] === 0xbf ? 3 : 0;
  const heading = [44, 59, 9].map((delimiter) => ({ delimiter, ...recordAt(bytes, begin, delimiter, 34) })).reduce((a, b) => (b.ends.length > a.ends.length ? b : a));
  if (heading.ends.length < 2 && !table) return { begin, columns: [], column: -1 };
  const columns = heading.ends.map((_, i) => textAt(bytes, fieldOf(bytes, begin, heading, i, 34)).replaceAll('""', '"'));
  const scores = columns.map((name) => (/lang|sprach|idiom|tag\b|^041/i.test(name) ? 20 : 0));
  for (let at = heading.next, n = 0; at < bytes.length && n < 50; n++) {
    const record = recordAt(bytes, at, heading.delimiter, 34);
    for (let i = Math.min(columns.length, record.ends.length); i--;) scores[i] += registry.isValid(textAt(bytes, fieldOf(bytes, at, record, i, 34)));
    at = record.next;
  }
  return { begin, columns, delimiter: heading.delimiter, column: scores.indexOf(Math.max(...scores)) };
}

const ODD = { NoColumn: 'The row has too few fields: take another column, or mend the row.',
  BadReturn: 'A carriage return stands within the row: mend the ends of the lines.' };
/** What becomes of a list: of a column, or else of its lines. What is written is what `langtag csv` and `langtag canon` write. */
async function many(bytes, { begin, delimiter }, column, id) {
  latest = id;
  const lines = column < 0, quote = lines ? -1 : 34, found = new Map(), end = encoder.encode('\n');
  let out = new Uint8Array(bytes.length + 65536), used = 0, rows = 0;
  const write = (from, begins = 0, ends = from.length) => {
    if (used + ends - begins > out.length) {
      const old = out;
      out = new Uint8Array(2 * (old.length + ends - begins));
      out.set(old);
    }
    for (let i = begins; i < ends; i++) out[used++] = from[i];
  };
  /** What becomes of a text, or of a row that has none by its fault: what is written in its place, and at the end of its row. */
  const answerOf = (text, fault) => {
    const { value: tag, why } = fault ? { why: { fault, line: fault, help: ODD[fault] } } : tried(() => registry.canonical(text));
    const [instead, tail] = lines ? [tag ?? `! ${why.line}`, ''] : [tag, String.fromCharCode(delimiter) + (why?.line ?? '')];
    return { text, tag, why, first: rows, rows: 0, instead: instead === undefined ? undefined : encoder.encode(instead), tail: encoder.encode(tail) };
  };
  write(bytes, 0, begin);
  for (let at = begin; at < bytes.length;) {
    const record = recordAt(bytes, at, lines ? -1 : delimiter, quote);
    const heading = ++rows === 1 && !lines, short = column >= record.ends.length;
    const fault = record.broken ? 'BadReturn' : heading ? 'langtag_fault' : short ? 'NoColumn' : undefined;
    const [from, to] = fault ? [record.end, record.end] : fieldOf(bytes, at, record, Math.max(column, 0), quote);
    const text = fault ? undefined : textAt(bytes, [from, to]), key = heading ? '\n' : text ?? `\n${fault}`;
    if (!found.has(key)) found.set(key, answerOf(text, fault));
    const one = found.get(key);
    one.rows++;
    write(bytes, at, from);
    write(one.instead ?? bytes, one.instead ? 0 : from, one.instead ? undefined : to);
    write(bytes, to, record.end);
    write(one.tail);
    if (!lines) write(bytes, record.end, Math.min(record.next - 1, bytes.length));
    write(end);
    at = record.next;
    if (rows % 20000) continue;
    postMessage([0, at / bytes.length]);
    await new Promise((go) => setTimeout(go));
    if (latest !== id) return null;
  }
  found.delete('\n');
  return { ...summary([...found.values()]), rows: rows - !lines, result: new Blob([out.subarray(0, used)]) };
}

/** The first of many, those with the most rows before others, and how many there are. */
const most = (all, then, end = MOST) => ({ count: all.length, those: all.sort((a, b) => b.rows - a.rows).slice(0, end).map(then) });
function summary(texts) {
  const [faults, tags, counts] = [new Map(), new Map(), { stays: 0, changes: 0, refused: 0 }];
  for (const one of texts) {
    const [groups, key] = one.why ? [faults, one.why.fault] : [tags, one.tag];
    const group = groups.get(key) ?? { key, rows: 0, first: one.first, help: one.why?.help, texts: [] };
    groups.set(key, group);
    group.rows += one.rows;
    group.texts.push(one);
    counts[one.why ? 'refused' : one.tag === one.text ? 'stays' : 'changes'] += one.rows;
  }
  const few = (group) => ({ ...group, texts: most(group.texts, (it) => it, 20) }), all = [...tags.values()];
  return { counts, before: texts.filter((it) => !it.why).length, after: tags.size, faults: most([...faults.values()], few),
    refused: most(texts.filter((it) => it.why && it.text !== undefined), (it) => ({ ...it, meant: meant(it.text) })),
    became: most(all.filter((it) => it.texts.length > 1), few),
    changed: most(all.filter((it) => it.texts.length === 1 && it.texts[0].text !== it.key), few) };
}

const CALLS = {
  layout,
  many,
  async start(wasm, jar) {
    ({ Registry, Tag } = classesOf(callsOf((await WebAssembly.instantiate(await unpacked(wasm))).instance.exports)));
    return CALLS.open(await unpacked(jar));
  },
  open(bytes) {
    const { value, why } = tried(() => new Registry(bytes));
    if (why) return { why };
    registry?.close();
    [registry, names] = [value, named(bytes)];
    return registry.info;
  },
  canonical(text) {
    const { value, why } = tried(() => registry.canonical(text));
    return { text, canonical: value, why, meant: why && meant(text) };
  },
  one(text) {
    const answer = CALLS.canonical(text), whole = tried(() => new Tag(text)).value;
    const tag = whole ? text : answer.why.fault === 'TooLong' ? undefined : front(text);
    let before = whole?.text;
    const steps = answer.why ? undefined : tried(() => registry.explain(text, MOST)).value?.steps.map((step) => {
      const record = step.number ? registry.show(before).find((it) => it.record === step.number) : undefined;
      const changed = step.kind === 'Whole' ? before : before.split('-')[step.place - 1];
      before = step.tag;
      return { ...step, changed, record };
    });
    return { ...answer, kind: whole?.kind, subtags: tag ? registry.show(tag) : [], steps };
  },
};
onmessage = ({ data: [id, call, ...words] }) => {
  ready ??= CALLS[call](...words);
  ready.then((first) => (call === 'start' ? first : CALLS[call](...words, id)))
    .then((answer) => postMessage([id, answer]), (error) => postMessage([id, undefined, error.message]));
};
