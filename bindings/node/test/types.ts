// The types of the package, by the compiler of TypeScript: each use has to compile, but those that are told to fail.
import { load } from 'bcp47/load';
import { Available, Fault, Info, Refusal, Refused, RefusedTag, Registry, Step, Tag, version } from 'bcp47';

const registry: Registry = Registry.fromFile(new URL('file:///registry.txt'));
const loaded: Promise<Registry> = load(fetch('bcp47.wasm')).then(({ Registry: Loaded }) => new Loaded(new Uint8Array()));
const text: string = registry.canonical(new Tag('zh-yue'));
const many: (string | Refusal | null)[] = registry.canonicalMany(new Set(['iw', null, undefined, new Tag(text)]));
const refusals: Refusal[] = many.filter((answer): answer is Refusal => answer instanceof Refusal);
const bytes: boolean = refusals.some(({ fault }) => fault === 'BadByte');
const { steps } = registry.explain('sgn-dd', 100);
const available: Available<string | Tag> = registry.available(['en', new Tag('de')]);
const best: (string | Tag | null)[] = [available.best('de-CH, de;q=0.8'), available.best(undefined), ...available.filter(null)];
const other: 'en' | 7 = registry.available(['en'] as const).best('de', 7 as const);
const made: string[] = [Tag.fromParts({ language: 'zh', script: 'Hant' }), Tag.fromPosix('C'), new Tag('de').with({ region: null, variants: ['1996'] })].map((tag) => tag.text);
const given: Record<string, string[]>[] = [new Tag('de-u-co-phonebk').extensions, new Tag('de-u-co-phonebk').keywords];
const attributes: string[] = new Tag('de').with({ region: undefined, extensions: given[0], language: new Tag('zh-yue') }).attributes;
const parent: Tag | null = new Tag('zh-TW').parent;
const field: string = registry.record(1)[0].name;
const names: string[] = registry.show('sgn-dd').flatMap(({ fields }) => fields.map(({ body }) => body));
const step: Step | undefined = steps[0];
const kinds: ('langtag' | 'privateuse' | 'grandfathered')[] = [new Tag('en').kind];
const scripts: (string | undefined)[] = [new Tag('en').script, new Tag(new Intl.Locale('en')).toLocale().region];
const info: Info = registry.info;
const isOne: boolean = registry.isValid('en') || registry.equivalent('iw', new Tag('he'));
const matched: boolean[] = [registry.matches('en', 'en'), registry.matches(new Tag('en'), new Tag('de'), 'lookup')];
const parts: string[] = new Tag('en').parts.map(({ kind, text }) => kind + text);
try {
  new Registry(new Uint8Array(3));
} catch (refused) {
  if (refused instanceof Refused) console.log(refused.cause.help);
  if (refused instanceof RefusedTag) console.log(refused.place + 1, refused.fault.length, refused.variant?.length, version.length);
}
// @ts-expect-error
registry.canonical(7);
// @ts-expect-error
registry.matches('en', 'en', 'exact');
// @ts-expect-error
new Tag('de').with({ scripts: 'Latn' });
// @ts-expect-error
new Tag('de').with({ extensions: { u: 7 } });
// @ts-expect-error
Tag.fromParts({ region: 'AT' });
// @ts-expect-error
info.entries = 3;
// @ts-expect-error
new Tag('en').text = 'de';
// @ts-expect-error
new Registry('text');
// @ts-expect-error
const wrong: Fault = 'BadBytes';
export { loaded, names };
export { attributes, best, bytes, field, isOne, kinds, made, matched, other, parent, parts, scripts, step, wrong };
