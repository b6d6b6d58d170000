import type { Fault } from './faults';

export type { Fault };

/** Why a text is refused: an answer, and the `cause` of the error that other calls throw. */
export class Refusal {
  private constructor();
  /** How the call ended, for example `NotATag`, `Invalid` or `BadFile`. */
  readonly status: string;
  readonly fault: Fault;
  /** The subtag, the line or the record at fault, counted from 1; else 0. */
  readonly place: number;
  /** The text that is refused: no more than its first 1,024 characters. */
  readonly tag: string;
  /** The variant that replacements can repeat, where that is why. */
  readonly variant?: string;
  /** What the fault means, and what to do. */
  readonly help: string;
  /** One line, for example `BadByte 1`. */
  readonly message: string;
}

/** Something is refused. `message` is that of its `cause`; of a registry it has the line, for example `jar BadLine line 1`. */
export class Refused extends Error {
  readonly cause: Refusal;
  readonly status: string;
  readonly fault: Fault;
  readonly place: number;
  readonly help: string;
}

/**
 * A text is no tag or no language range, a tag is not valid, its replacements can repeat a variant, or its explanation has too
 * many steps.
 */
export class RefusedTag extends Refused {
  readonly tag: string;
  readonly variant?: string;
}

/** Bytes are no registry that passes the check, or one of no entries. The place is a line, or the number of a record. */
export class RefusedRegistry extends Refused {}

/** A tag in conventional case (RFC 5646, 2.1.1), by no registry. It does not change. */
export class Tag {
  /** @throws RefusedTag */
  constructor(text: string | Tag | Intl.Locale);
  readonly text: string;
  readonly kind: 'langtag' | 'privateuse' | 'grandfathered';
  /** The primary language; none of private use and of a grandfathered tag. */
  readonly language: string | undefined;
  readonly extlangs: string[];
  readonly script: string | undefined;
  readonly region: string | undefined;
  readonly variants: string[];
  /** The subtags of each extension, by its singleton. */
  readonly extensions: Record<string, string[]>;
  /** The attributes of the `u` extension (RFC 6067, 2.1). */
  readonly attributes: string[];
  /** The types of each key of the `u` extension, for example { co: ['phonebk'] }. Of a key that occurs twice the first counts. */
  readonly keywords: Record<string, string[]>;
  /** The subtags after `x`. */
  readonly privateUse: string[];
  /** One part for each subtag, in their order, for example { kind: 'Script', text: 'Hant' }; a grandfathered tag is one part. */
  readonly parts: readonly { readonly kind: string; readonly text: string }[];
  /** The tag of these parts; `language` has its extlangs too, for example `zh-yue`. @throws RefusedTag */
  static fromParts(parts: TagParts & { readonly language: string | Tag }): Tag;
  /** The tag that the name of a POSIX locale stands for: `sr-Latn-RS` for `sr_RS.UTF-8@latin`. @throws RefusedTag */
  static fromPosix(name: string): Tag;
  /** A tag with other parts. No registry is asked, so that it need not be valid. @throws RefusedTag */
  with(parts: TagParts): Tag;
  /** The tag to which lookup falls back (RFC 4647, 3.4): without its last subtag, and the singletons before that. */
  readonly parent: Tag | null;
  /** @throws RangeError for a tag that Unicode's locales leave out, for example `x-own` */
  toLocale(): Intl.Locale;
  toString(): string;
  toJSON(): string;
}

type Subtags = string | Iterable<string>;

/** Parts for a tag: `null` and what is empty take a part away, and one that is `undefined` stays as it is. */
export interface TagParts {
  readonly language?: string | Tag | undefined;
  readonly script?: string | null | undefined;
  readonly region?: string | null | undefined;
  readonly variants?: Subtags | null | undefined;
  /** All of them, for example `u-co-phonebk` or { u: ['co', 'phonebk'] }. */
  readonly extensions?: Subtags | Readonly<Record<string, Subtags>> | null | undefined;
  /** The subtags after `x`. */
  readonly privateUse?: Subtags | null | undefined;
}

/**
 * The tags of which a service serves one, as they were handed in. A header that is `null` or missing accepts each tag (RFC 9110, 12.5.4).
 * They are there when the registry is closed, too. Calls throw RefusedTag for a text that is no Accept-Language header.
 */
export class Available<T> {
  private constructor();
  readonly tags: readonly T[];
  /**
   * The tag to serve to the reader of a header, for example `de-CH, de;q=0.8, en;q=0.5`: by lookup (RFC 4647, 3.4) of its ranges from
   * the greatest weight to the least, else by what a range matches; `other` where no range serves a tag.
   */
  best(accept: string | null | undefined): T | null;
  best<U>(accept: string | null | undefined, other: U): T | U;
  /** All tags that a header accepts, from the greatest weight to the least. */
  filter(accept: string | null | undefined): T[];
}

/** A step: its kind, the place of its subtag, the record that it uses, and the tag to which it leads. */
export interface Step {
  readonly kind: string;
  readonly place: number;
  readonly number: number;
  readonly tag: string;
}

/** What a registry says of a part of a tag. */
export interface Row {
  /** The place of the part, counted from 1. */
  readonly place: number;
  /** The kind of the part, or `Whole` for the tag as a whole. */
  readonly kind: string;
  readonly text: string;
  /** `Unlisted` where no registry lists parts of the kind. */
  readonly listing: 'Record' | 'Unregistered' | 'Unlisted';
  /** The number of the record. */
  readonly record: number | null;
  /** For example { name: 'Description', body: 'Cantonese' }. */
  readonly fields: readonly { readonly name: string; readonly body: string }[];
}

/** Which registry answers. */
export interface Info {
  readonly fileDate: string;
  readonly entries: number;
  readonly sha256: string;
}

/** A registry that passes the check. Each worker opens its own. Calls with a tag throw RefusedTag. */
export class Registry {
  /** The registry whose text the bytes are. @throws RefusedRegistry */
  constructor(bytes: Uint8Array);
  /** The registry of a file. @throws RefusedRegistry, and what `readFileSync` throws */
  static fromFile(path: string | URL): Registry;
  /** The registry of IANA's that the package `bcp47-registry` has. @throws Error where that is not installed */
  static bundled(): Registry;
  /** Frees the registry; no call but this one may follow. */
  close(): void;
  /** The canonical text of a tag (RFC 5646, 4.5). */
  canonical(tag: string | Tag | Intl.Locale): string;
  /** The canonical text of a tag with its extlang prefix. */
  extlang(tag: string | Tag | Intl.Locale): string;
  /** The canonical text of each tag, or in its place why there is none; null for null and undefined. */
  canonicalMany(tags: Iterable<string | Tag | Intl.Locale | null | undefined>): (string | Refusal | null)[];
  /** Returns where a tag is valid (RFC 5646, 2.2.9). */
  validate(tag: string | Tag | Intl.Locale): void;
  isValid(tag: string | Tag | Intl.Locale): boolean;
  /** Whether two tags are equivalent: their canonical texts are equal. */
  equivalent(first: string | Tag | Intl.Locale, second: string | Tag | Intl.Locale): boolean;
  /**
   * Whether a language range matches a tag (RFC 4647), in each of their spellings: by basic filtering (3.3.1), by extended
   * filtering (3.3.2), or by lookup (3.4), where the range, cut from its end, is the tag. Of a range that is no valid tag, for
   * example `yue-*`, the first subtag is taken in its extlang form. Throws RefusedTag for the range, or else for the tag.
   */
  matches(range: string | Tag | Intl.Locale, tag: string | Tag | Intl.Locale, scheme?: 'basic' | 'extended' | 'lookup'): boolean;
  /** The tags of which a service serves one, prepared for readers' headers. */
  available<T extends string | Tag | Intl.Locale>(tags: Iterable<T>): Available<T>;
  /** The steps from a tag to its canonical form, at most so many, else 20,000, and that form. A tag can have 57,000. */
  explain(tag: string | Tag | Intl.Locale, most?: number): { steps: Step[]; canonical: string };
  /** The fields of a record of the file, by its number from 1 on, with the header counted; none where it is not there. */
  record(number: number): { readonly name: string; readonly body: string }[];
  /** What the registry says of each part of a tag, which need not be valid. The first call reads the records, some milliseconds. */
  show(tag: string | Tag | Intl.Locale): Row[];
  readonly info: Info;
}

/** The version of the library. */
export const version: string;
