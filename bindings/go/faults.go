// SPDX-License-Identifier: MIT OR Apache-2.0

// Written by tools/describe.py of bindings/c/names.c.

package bcp47

// A Fault is what is wrong with a text, a record or a registry: errors.Is(err, bcp47.ErrBadByte) asks for it.
type Fault int

// The faults, by the names that the program prints.
const (
	// A text of more than 1,024 bytes, which is no tag: see whether line ends are missing.
	ErrTooLong Fault = iota + 1
	// Nothing between two hyphens, or an empty text: remove a hyphen too many, or the empty line.
	ErrEmptySubtag
	// A byte that is no ASCII letter, digit or hyphen: write zh-Hant for zh_Hant; remove quotes, spaces, a byte order mark.
	ErrBadByte
	// A subtag of more than 8 letters and digits: put a hyphen where subtags meet.
	ErrLongSubtag
	// The first subtag is no language: begin with a language of 2 to 8 letters, or with x.
	ErrBadLanguage
	// A subtag that can't stand where it does: order them: language, extlang, script, region, variants, extensions, x.
	ErrMisplaced
	// The text ends after a singleton or x: add what follows it, or remove it.
	ErrUnfinished
	// The registry lacks the language: correct it (en for eng or English), or get a newer registry.
	ErrUnknownLanguage
	// The registry lacks the extlang: correct it, or get a newer registry.
	ErrUnknownExtlang
	// The extlang belongs to another language: put it after its language (zh-yue), or leave the language out (yue).
	ErrExtlangPrefix
	// A second extlang: keep only one.
	ErrTooManyExtlangs
	// The registry lacks the script: correct it, or get a newer registry.
	ErrUnknownScript
	// The registry lacks the region: correct it (GB for UK), or get a newer registry.
	ErrUnknownRegion
	// The registry lacks the variant: correct it, or get a newer registry.
	ErrUnknownVariant
	// A variant stands twice: remove one.
	ErrDuplicateVariant
	// An extension stands twice: join the two, or remove one.
	ErrDuplicateSingleton
	// A t extension without its form: mend it: a language, and fields such as m0-names.
	ErrBadTransform
	// A line of more than 65,536 bytes: it is no registry, or its line feeds are missing.
	ErrLineTooLong
	// A line that is not UTF-8: convert the file, or unpack it.
	ErrNotUtf8
	// A continuation with no field before it: remove the spaces that begin the line.
	ErrLeadingContinuation
	// Neither a field, %%, nor a continuation. This is no registry, or not its plain text: get one from https://www.iana.org/assignments/language-subtag-registry/language-subtag-registry, or remove a byte order mark.
	ErrBadLine
	// Record 100,001: cut the file.
	ErrTooManyRecords
	// The file or the input can't be read to its end: see whether it is a folder, or closed, or a disk fails.
	ErrRead
	// After 10,000,000 reads the input had not ended: write larger pieces, or start the program again.
	ErrTooManyTurns
	// Reading failed before, at the place that is named: see what was answered then.
	ErrFailed
	// Type, Subtag, Tag or Preferred-Value stands twice: keep one.
	ErrRepeatedField
	// There is no Type: add it.
	ErrMissingType
	// The Type is none of the seven: mend it.
	ErrUnknownType
	// No Subtag, or no Tag where one is wanted: add it.
	ErrMissingName
	// A range without its form: write two subtags of one length with two full stops between them, the lower one first.
	ErrBadRange
	// A Subtag without the form of its Type: mend it.
	ErrBadSubtag
	// A Tag without the form of its Type: mend it.
	ErrBadTag
	// A Preferred-Value without the form of its Type: mend it.
	ErrBadPreferred
	// A Prefix that is no list of subtags: mend it.
	ErrBadPrefix
	// An earlier record has the same kind and name, or the same tag: remove one of the two.
	ErrC1
	// The value of a language, script or region is not registered as the same kind: register it, or mend the Preferred-Value.
	ErrC2
	// The preferred values lead round in a circle: mend one of them.
	ErrC3
	// An extlang without one Prefix that is a registered language with no value, or it and its value lead to two languages: mend the record.
	ErrC4
	// The value of a variant is not registered, or leads on from a variant to a language: mend the Preferred-Value.
	ErrC5
	// A variant whose value is a language has no Prefix, or one that is no registered language with no value: mend it.
	ErrC6
	// A Prefix of a variant is no langtag, or has extensions or private use: mend it.
	ErrC7
	// A grandfathered record has none of the 26 tags, or its subtags are registered so that its tag is valid by its parts: remove one of them.
	ErrC8
	// The value of a whole tag, or a redundant tag with a value, is no valid langtag without extensions and private use: mend it.
	ErrC9
	// The value of a whole tag leads on to another whole tag, or repeats a variant: mend the Preferred-Value.
	ErrC10
	// The subtags of a redundant tag lead to another tag than its Preferred-Value: mend the Preferred-Value.
	ErrC11
	// A range has a Preferred-Value: remove it.
	ErrC12
	// The newer registry lacks a subtag of the older one, or has no one range that holds a range of it: register it.
	ErrU1
	// In the newer registry a subtag and its older value lead to two subtags: lead both to one.
	ErrU2
	// The newer registry lacks an extlang, or gives it another Prefix or leads it elsewhere: keep what it was.
	ErrU3
	// In the newer registry a variant no longer becomes a language, or has other Prefixes, or becomes another language: keep what it was.
	ErrU4
	// In the newer registry a variant of the older one becomes a language: remove its Preferred-Value.
	ErrU5
	// In the newer registry a whole tag and its older value lead to two canonical tags: lead both to one.
	ErrU6
	// The first subtag of a language range has a digit: begin with a language of letters alone, or with *.
	ErrBadFirst
	// A range of the header has a * beside other subtags: write it without *, or * alone.
	ErrExtendedRange
	// What follows a range of the header is no weight: write ;q= and a number from 0 to 1 with up to three decimals, or a comma.
	ErrBadWeight
)
