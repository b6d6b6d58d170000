// What is said of a tag by its class, of parts that have no records, and of steps.
const WORDS = {
  kinds: {
    langtag: 'language tag',
    privateuse: 'tag of private use',
    grandfathered: 'grandfathered tag',
  },
  parts: {
    Singleton: 'begins an extension',
    ExtensionSubtag: 'belongs to the extension',
    Attribute: 'an attribute of the extension u (RFC 6067)',
    Key: 'begins a keyword of the extension u (RFC 6067)',
    Type: 'belongs to the keyword',
    Separator: 'begins a field of the extension t (RFC 6497)',
    Value: 'belongs to the field',
    PrivateUseSingleton: 'begins what is of private use',
    PrivateUse: 'means what those who use it agreed on',
  },
  steps: {
    Extlang: 'the extlang, or its preferred value, becomes the language',
    Language: 'the language is replaced by its preferred value',
    Script: 'the script is replaced by its preferred value',
    Region: 'the region is replaced by its preferred value',
    Variant: 'the variant is replaced by its preferred value',
    VariantLanguage: 'the preferred value of the variant becomes the language, and the variant goes',
    Whole: 'the whole tag is replaced by its preferred value',
    SwapExtensions: 'the extension moves after the next, which has a smaller singleton',
    DropAttribute: 'the attribute goes, since an equal one comes before it',
    SwapAttributes: 'the attribute moves after the next, which is smaller',
    DropKeyword: 'the keyword goes, since one of its key comes before it',
    SwapKeywords: 'the keyword moves after the next, which has a smaller key',
    DropTrue: 'true goes, since it is all that the keyword has',
    SwapFields: 'the field moves after the next, which has a smaller separator',
  },
};
const $ = (id) => document.getElementById(id);
/** An element with attributes and what is in it. All that was given is text. */
const el = (name, attributes, ...inside) => {
  const made = document.createElement(name);
  for (const [key, value] of Object.entries(attributes)) made.setAttribute(key, value);
  made.append(...inside.flat(3).filter((it) => it !== undefined));
  return made;
};
const worker = new Worker(URL.createObjectURL(new Blob([$('worker').textContent], { type: 'text/javascript' })));
const waiting = new Map(), number = (it) => it.toLocaleString('en');
let asked = 0, list, pause;
const ask = (...call) => new Promise((done, failed) => {
  waiting.set(++asked, [done, failed]);
  worker.postMessage([asked, ...call]);
});
worker.onmessage = ({ data: [id, answer, error] }) => {
  if (!id) return void ($('progress').value = answer);
  const [done, failed] = waiting.get(id);
  waiting.delete(id);
  return error === undefined ? done(answer) : failed(new Error(error));
};

const bdi = (...inside) => el('bdi', { lang: '', translate: 'no' }, ...inside);
/** A text with what can't be printed as its number. */
const seen = (text) => (text.length > 200 ? `${text.slice(0, 200)}…` : text).replace(/\p{C}|[^\P{Z} ]/gu, (it) => `\\u{${it.codePointAt().toString(16)}}`);
/** A text as it was given, or a tag, with a mark where its fault is. */
function shown(text, why) {
  if (!why?.place) return text === '' ? el('i', {}, 'nothing') : bdi(seen(text));
  const before = text.split('-').slice(0, why.place - 1).join('-'), begin = before.length + (why.place > 1), subtag = text.slice(begin).split('-')[0];
  const bad = why.fault === 'BadByte' ? /[^0-9A-Za-z]/u.exec(subtag) : null, at = begin + (bad?.index ?? 0), marked = bad?.[0] ?? subtag;
  return bdi(seen(text.slice(0, at)), el('mark', {}, marked ? seen(marked) : el('i', {}, 'nothing')), seen(text.slice(at + marked.length)));
}
const words = (kind) => kind.replace(/(?<=.)[A-Z]/g, (it) => ` ${it.toLowerCase()}`);
const said = ({ fault, place, variant, help }) => [el('strong', {}, fault), place ? ` at subtag ${place}` : variant ? [' of ', shown(variant)] : '', `: ${help}`];
const recordOf = ({ record, kind, listing, fields }) => (record
  ? [`record ${number(record)}`, el('dl', {}, fields.map(({ name, body }, i) => [name === fields[i - 1]?.name ? '' : el('dt', {}, name), el('dd', {}, body)]))]
  : listing === 'Unregistered' ? 'the registry has no record of it' : WORDS.parts[kind] ?? 'it needs no record');

async function lookAt() {
  const text = $('tag').value, { canonical, why, kind, subtags, steps, meant } = await ask('one', text);
  if (text !== $('tag').value) return;
  const more = [], kinds = WORDS.kinds[kind], stays = canonical === text;
  const what = !kind ? 'not a language tag' : why?.status === 'Invalid' ? `a ${kinds}, but not valid` : why ? `a valid ${kinds}, but has no canonical form` : `a valid ${kinds}`;
  $('tag').setAttribute('aria-invalid', Boolean(why));
  $('tag-said').replaceChildren(shown(text, why), ` is ${what}`, ...why ? ['. ', ...said(why).flat()] : stays ? [', and it is its own canonical form.'] : ['. Its canonical form is ', shown(canonical), '.']);
  if (meant) {
    const take = el('button', { type: 'button' }, 'Write ', shown(meant), ' instead');
    take.onclick = () => ($('tag').value = meant, $('tag').focus(), lookAt());
    more.push(el('p', {}, take));
  }
  const [whole, each] = [true, false].map((is) => subtags.filter((row) => (row.kind === 'Whole') === is));
  if (each.length) more.push(el('h3', {}, kind ? 'Its subtags' : 'The subtags before the fault'),
    el('ol', {}, each.map((row) => el('li', {}, shown(row.text), ' ', el('strong', {}, words(row.kind)), ': ', recordOf(row)))), ...whole.map((row) => el('div', {}, 'The whole tag: ', recordOf(row))));
  if (!why) more.push(el('h3', {}, 'Steps to the canonical form'), !steps?.length ? el('p', {}, steps ? 'There are none.' : 'There are more than 200.') : el('ol', {},
    steps.map((it) => el('li', {}, shown(it.changed), ' ', el('strong', {}, words(it.kind)), `: ${WORDS.steps[it.kind]}. The tag is now `, shown(it.tag), it.record ? [', by ', recordOf(it.record)] : '.'))));
  $('tag-more').replaceChildren(...more);
}

/** A table in a region that keys scroll. A head that begins with # is above numbers. */
function table(title, caption, heads, { those, count }, cells) {
  if (!those.length) return [];
  const kinds = heads.map((it) => (it[0] === '#' ? 'number' : it === 'What to do' ? 'sentence' : 'text'));
  return [el('h3', {}, title), el('div', { class: 'wide', role: 'region', 'aria-label': title, tabindex: 0 }, el('table', {}, el('caption', {}, caption),
    el('thead', {}, el('tr', {}, heads.map((it, i) => el('th', { scope: 'col', class: kinds[i] }, it.replace('#', ''))))),
    el('tbody', {}, those.map((one) => el('tr', {}, cells(one).map((it, i) => el(i ? 'td' : 'th', i ? { class: kinds[i] } : { scope: 'row', class: kinds[i] },
      typeof it === 'number' ? number(it) : it))))))),
  count > those.length ? el('p', {}, `${number(count - those.length)} more are not shown.`) : ''];
}

async function lookAtList() {
  const mine = list, column = Number($('where').value), [unit, Unit] = column < 0 ? ['line', '#Lines'] : ['row', '#Rows'];
  $('progress').hidden = false;
  $('list-said').textContent = 'The list is being read.';
  URL.revokeObjectURL(document.querySelector('.save')?.href);
  $('list-more').replaceChildren();
  const answer = await ask('many', mine.bytes, mine.laid, column);
  if (!answer || mine !== list) return;
  const { rows, counts, before, after, faults, refused, became, changed, result } = answer;
  $('progress').hidden = true;
  $('list-said').textContent = `${number(rows)} ${unit}${rows === 1 ? '' : 's'}: ${number(counts.stays)} stay as they are, ${number(counts.changes)} change, ${number(counts.refused)} are refused.`;
  const link = el('a', { class: 'save', href: URL.createObjectURL(result), download: mine.name.replace(/(\.\w+)?$/, '-canonical$1') }, 'Save the result');
  const kinds = [['The tag stays', counts.stays], ['The tag is made canonical', counts.changes], ['The tag is refused', counts.refused]];
  const group = (it) => [shown(it.key), it.rows, [it.texts.those.map((one, i) => [i ? el('br', {}) : '', shown(one.text), ` (${number(one.rows)})`]),
    it.texts.count > it.texts.those.length ? `, and ${number(it.texts.count - it.texts.those.length)} more` : '']];
  $('list-more').replaceChildren(el('p', {}, link, column < 0 ? ': each line with its canonical tag, or with ! and its fault.'
    : ': the same table with canonical tags, and with one column more for the faults. Nothing else in it changes.'),
  ...table('What became of them', `Distinct tags that are not refused: ${number(before)} before, ${number(after)} after`, ['Answer', Unit, '#Share'],
    { those: kinds, count: 3 }, ([name, of]) => [name, of, rows ? `${(100 * of / rows).toFixed(1)} %` : '–']),
  ...table('Faults', 'What is wrong, and what to do', ['Fault', Unit, `#First ${unit}`, 'What to do'], faults, (it) => [it.key, it.rows, it.first, it.help]),
  ...table('Refused texts', 'Each text that is refused, with a mark at its fault', ['Text', 'Write instead', Unit, `#First ${unit}`, 'Fault'], refused,
    (it) => [shown(it.text, it.why), it.meant ? shown(it.meant) : '–', it.rows, it.first, it.why.line]),
  ...table('What became one', 'Texts that have one canonical tag', ['Canonical tag', Unit, 'Texts before'], became, group),
  ...table('What else changed', 'Texts that are now written in another way', ['Canonical tag', Unit, 'Text before'], changed, group));
}
async function take(bytes, name) {
  const mine = list = { bytes, name };
  $('list-more').replaceChildren();
  $('where-line').hidden = true;
  mine.laid = await ask('layout', bytes, /\.[ct]sv$/i.test(name));
  $('where').replaceChildren(...['Each line is a tag', ...mine.laid.columns].map((it, i) => el('option', { value: i - 1 }, i ? `Column ${i}: ${seen(it)}` : it)));
  $('where').value = mine.laid.column;
  $('where-line').hidden = !mine.laid.columns.length;
  await lookAtList();
}

async function compare() {
  const both = await Promise.all(['first', 'second'].map(async (id) => ({ id, ...await ask('canonical', $(id).value) })));
  for (const { id, why } of both) $(id).setAttribute('aria-invalid', Boolean(why));
  const [first, second] = both, wrong = both.filter((it) => it.why);
  $('equal-said').replaceChildren(...wrong.length ? wrong.map(({ id, text, why, meant }) => el('span', {}, `The ${id} tag, `, shown(text, why), ', is refused. ', said(why), meant ? [' Write ', shown(meant), ' instead. '] : ' '))
    : first.canonical === second.canonical ? [el('strong', {}, 'Yes, they mean the same'), ': both are ', shown(first.canonical), '.']
      : [el('strong', {}, 'No, they are different'), ': ', shown(first.canonical), ' and ', shown(second.canonical), '.']);
}

/** Shows which registry answers what a call gives. */
async function open(...call) {
  const { why, fileDate, entries } = await ask(...call);
  $('jar-said').textContent = why ? `${why.line}: ${why.help} The registry that was here stays.` : `The registry of ${fileDate ?? 'no date'} answers, with ${number(entries)} entries.`;
  await lookAt();
}
/** What does a call at an event, or says in a line of the page why it can't be done. */
const tell = (line, call) => async (event) => {
  event?.preventDefault();
  try {
    await call(event);
  } catch (error) {
    $('progress').hidden = true;
    $(line).textContent = `That can't be done. ${error.message}`;
  }
};
const bytesOf = async (file) => new Uint8Array(await file.arrayBuffer());
const takeFile = async ([file]) => file && take(await bytesOf(file), file.name);
$('one-form').onsubmit = tell('tag-said', lookAt);
// while somebody types, a screen reader has nothing to say
$('tag').oninput = () => (clearTimeout(pause), pause = setTimeout(tell('tag-said', lookAt), 400));
$('list-form').onsubmit = tell('list-said', () => ($('file').value = '', take(new TextEncoder().encode($('tags').value), 'tags.txt')));
$('where').onchange = tell('list-said', lookAtList);
$('equal-form').onsubmit = tell('equal-said', compare);
$('file').onchange = tell('list-said', () => takeFile($('file').files));
$('jar').onchange = tell('jar-said', async () => $('jar').files[0] && open('open', await bytesOf($('jar').files[0])));
$('file').onclick = $('jar').onclick = ({ target }) => (target.value = '');   // the same file once more, after it was mended
document.ondragover = document.ondragleave = document.ondrop = (event) => {
  document.body.classList.toggle('over', event.type === 'dragover');
  event.preventDefault();
  if (event.type === 'drop') tell('list-said', () => takeFile(event.dataTransfer.files))(event);
};
tell('jar-said', () => open('start', $('wasm').textContent, $('iana').textContent))();
