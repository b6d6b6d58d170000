// SPDX-License-Identifier: MIT OR Apache-2.0
// The calls of the addon bcp47.node by bcp47.wasm, whose exports docs/WASM.md describes: the same names, arguments and answers.
'use strict';

// Room for the text of any tag, for its canonical text and for its parts. What is longer is no tag, which the library says of its front.
const ROOM = 4096, PARTS = 512;
// What a part, a field and a step take, in bytes.
const [PART, FIELD, STEP] = [24, 16, 12];
const [DONE, REPEATS, DIFFERENT] = [0, 3, 6];

function callsOf(wasm) {
  const encoder = new TextEncoder(), decoder = new TextDecoder('utf-8', { ignoreBOM: true });
  const outcome = wasm.bcp47_outcome() / 4;
  let bytes = new Uint8Array(0), words;
  /** Looks at the memory anew where it has grown, which takes older views away. */
  const look = () => {
    if (bytes.buffer === wasm.memory.buffer) return;
    bytes = new Uint8Array(wasm.memory.buffer);
    words = new Uint32Array(wasm.memory.buffer);
  };
  const allocate = (length) => {
    const place = wasm.bcp47_allocate(length);
    if (!place) throw new RangeError('out of memory');
    look();
    return place;
  };
  const [input, output, parts] = [ROOM, ROOM, PART * PARTS].map(allocate);

  /** A text in memory. The decoder is slow to begin. */
  const read = (place, length) => {
    const end = place + length;
    let text = '', i = length > 32 ? end + 1 : place;
    for (; i < end && bytes[i] < 128; i++) text += String.fromCharCode(bytes[i]);
    return i === end ? text : decoder.decode(bytes.subarray(place, end));
  };
  const zeroEnded = (place) => read(place, bytes.indexOf(0, place) - place);
  const textOf = (text) => {
    if (typeof text !== 'string') throw new TypeError('a tag is a string or a Tag');
    return text;
  };
  /** Writes a text, or its front, and gives its length. */
  const write = (text, place) => {
    let i = 0;
    look();
    for (; i < textOf(text).length && i < 32; i++) {
      const code = text.charCodeAt(i);
      if (code > 127) break;
      bytes[place + i] = code;
    }
    return i === text.length ? i : encoder.encodeInto(text, bytes.subarray(place, place + ROOM - 1)).written;
  };
  /** What a call answers to bytes that are in memory for so long. */
  const lend = (given, call) => {
    const place = allocate(given.length);
    bytes.set(given, place);
    try {
      return call(place, given.length);
    } finally {
      wasm.bcp47_free(place);
    }
  };

  const lendText = (text, call) => lend(encoder.encode(textOf(text)), call);

  /** The number of the refusal that the outcome tells. */
  const refusal = () => ((words[outcome + 2] * 256 + words[outcome + 1]) * 4 + words[outcome + 6]) * 32 + words[outcome];
  /** What a call gave. */
  const ended = (given) => {
    look();
    return given;
  };
  /** The text that a call wrote, where it ended with a status. */
  const written = (status, wanted = DONE) => (ended(status) === wanted ? read(output, words[outcome + 4]) : refusal());
  /** What is read of what a call gave, which is freed: so many as the outcome tells. */
  const taken = (place, reads) => {
    look();
    const answer = words[outcome] ? refusal() : reads(place, words[outcome + 2]);
    wasm.bcp47_free(place);
    return answer;
  };

  const lost = new FinalizationRegistry(([closes, place]) => closes(place));
  /** What holds a registry, or so many tags of which one is served, until it is closed or collected. */
  class Held {
    constructor(closes, place, count) {
      Object.assign(this, { closes, place, count });
      lost.register(this, [closes, place], this);
    }
  }
  const placeOf = (held) => {
    if (!(held instanceof Held)) throw new TypeError('a Registry is wanted');
    return held.place;
  };
  const byRegistry = (writes, wanted) => (held, tag) => written(writes(placeOf(held), input, write(tag, input), output, ROOM), wanted);
  const alone = (writes) => (text) => written(writes(input, write(text, input), output, ROOM));
  const names = ['status_name', 'status_help', 'fault_name', 'fault_help', 'part_kind_name', 'kind_name'].map((it) => wasm[`bcp47_${it}`]);

  return {
    version: zeroEnded(wasm.bcp47_version()),
    open(file) {
      if (file?.[Symbol.toStringTag] !== 'Uint8Array') throw new TypeError('a registry is read from a Uint8Array');
      const place = ended(lend(file, (at, size) => wasm.bcp47_open(at, size, output, ROOM)));
      return place ? new Held(wasm.bcp47_close, place) : [refusal(), read(output, words[outcome + 4])];
    },
    close(held) {
      placeOf(held);
      held.closes(held.place);
      lost.unregister(held);
      held.place = 0;
    },
    canonical: byRegistry(wasm.bcp47_canonical),
    variant: byRegistry(wasm.bcp47_canonical, REPEATS),
    extlang: byRegistry(wasm.bcp47_extlang),
    parent: alone(wasm.bcp47_parent),
    // a name may have any length
    posix: (name) => lendText(name, (place, size) => written(wasm.bcp47_posix(place, size, output, ROOM))),
    with: (tag, part, value) => lendText(value, (place, size) =>
      written(wasm.bcp47_with(input, write(tag, input), part, place, size, output, ROOM))),
    available(held, tags) {
      const bytesOf = encoder.encode(tags.join('')), table = new BigUint64Array(2 * tags.length);
      const place = ended(lend(bytesOf, (at) => {
        tags.forEach((tag, i) => {
          [table[i], table[tags.length + i]] = [BigInt(at), BigInt(tag.length)];
          at += tag.length;
        });
        return lend(new Uint8Array(table.buffer), (where) => wasm.bcp47_available_open(placeOf(held), where, where + 8 * tags.length, tags.length));
      }));
      return place ? new Held(wasm.bcp47_available_close, place, tags.length) : refusal();
    },
    best: (held, accept) => lendText(accept, (place, size) =>
      (ended(wasm.bcp47_best(placeOf(held), place, size)) ? refusal() : [words[outcome + 2]].filter(Boolean))),
    filter: (held, accept) => lendText(accept, (place, size) => lend(new Uint8Array(8 * held.count), (places) =>
      (ended(wasm.bcp47_filter(placeOf(held), place, size, places, held.count)) ? refusal()
        : Array.from({ length: words[outcome + 2] }, (_, i) => words[places / 4 + 2 * i])))),
    record: (held, number) => taken(wasm.bcp47_record(placeOf(held), number), (place, count) => {
      let at = place + FIELD * count;
      return Array.from({ length: 2 * count }, (_, i) => {
        const length = words[(place + 8 * i) / 4];
        at += length + 1;
        return read(at - length - 1, length);
      });
    }),
    parts(tag) {
      const text = written(wasm.bcp47_parts(input, write(tag, input), output, ROOM, parts, PARTS));
      if (typeof text === 'number') return text;
      const kinds = Array.from({ length: words[outcome + 2] }, (_, i) => 64 + bytes[parts + PART * i]);
      return `${text}.${String.fromCharCode(...kinds)}`;
    },
    explain: (held, tag, most) => taken(wasm.bcp47_steps(placeOf(held), input, write(tag, input), most), (place, count) => {
      const facts = [];
      for (let i = 0, at = place + STEP * count; i <= count; i++) {
        const step = place + STEP * i, to = zeroEnded(at);
        facts.push(...(i < count ? [bytes[step], words[step / 4 + 1], words[step / 4 + 2]] : []), to);
        at += to.length + 1;
      }
      return facts;
    }),
    show: (held, tag) => taken(wasm.bcp47_show(placeOf(held), input, write(tag, input)), (place) => read(place, words[outcome + 4])),
    validate: (held, tag) => (ended(wasm.bcp47_validate(placeOf(held), input, write(tag, input))) ? refusal() : undefined),
    // a range may have any length
    match: (held, range, tag, scheme) => lendText(range, (place, size) => {
      const both = [place, size, input, write(tag, input), output, ROOM];
      const status = ended(scheme ? wasm.bcp47_match(placeOf(held), scheme, ...both) : wasm.bcp47_equivalent(placeOf(held), ...both));
      return status && status !== DIFFERENT ? refusal() : !status;
    }),
    facts(held) {
      if (wasm.bcp47_registry_info(placeOf(held), output)) return refusal();
      return [zeroEnded(output + 40), words[output / 4], bytes.slice(output + 8, output + 40)];
    },
    /** The names of the numbers from 1 on. */
    names(which) {
      const all = [];
      for (let number = 1, name; (name = zeroEnded(names[which](number))); number++) all[number] = name;
      return all;
    },
  };
}

module.exports = { callsOf };
