// SPDX-License-Identifier: MIT OR Apache-2.0

package bcp47

// #include <bcp47.h>
//
// #define TEXT(of) _GoStringPtr(of), _GoStringLen(of)
// // The text of a tag, and after it a byte for each part: its kind.
// static bcp47_outcome parts(_GoString_ tag, char *buffer, size_t room) {
//     bcp47_part parts[BCP47_PARTS];
//     bcp47_outcome outcome = bcp47_parts(TEXT(tag), buffer, room - BCP47_PARTS, parts, BCP47_PARTS);
//     if (outcome.status == BCP47_DONE)
//         for (size_t i = 0; i < outcome.place; i++) buffer[outcome.length + i] = (char)parts[i].kind;
//     return outcome;
// }
// static bcp47_outcome with(_GoString_ tag, int part, _GoString_ value, char *buffer, size_t room) {
//     return bcp47_with(TEXT(tag), part, TEXT(value), buffer, room);
// }
// static bcp47_outcome posix(_GoString_ name, char *buffer, size_t room) { return bcp47_posix(TEXT(name), buffer, room); }
// static bcp47_outcome parent(_GoString_ tag, char *buffer, size_t room) { return bcp47_parent(TEXT(tag), buffer, room); }
import "C"

import (
	"fmt"
	"strings"
)

// A PartKind is the kind of a part of a tag (RFC 5646, 2.1; RFC 6067, 2.1; RFC 6497, 2.2).
type PartKind byte

// The kinds of most parts; the others are those of extensions.
const (
	Language            PartKind = C.BCP47_PART_LANGUAGE
	ExtendedLanguage    PartKind = C.BCP47_PART_EXTLANG
	Script              PartKind = C.BCP47_PART_SCRIPT
	Region              PartKind = C.BCP47_PART_REGION
	Variant             PartKind = C.BCP47_PART_VARIANT
	Singleton           PartKind = C.BCP47_PART_SINGLETON
	PrivateUse          PartKind = C.BCP47_PART_PRIVATE_USE
	PrivateUseSingleton PartKind = C.BCP47_PART_PRIVATE_USE_SINGLETON
	Grandfathered       PartKind = C.BCP47_PART_GRANDFATHERED
)

// String is the name of a kind, for example "Script".
func (k PartKind) String() string { return C.GoString(C.bcp47_part_kind_name(C.int(k))) }

// MarshalText gives the name of a kind, for JSON and others.
func (k PartKind) MarshalText() ([]byte, error) { return []byte(k.String()), nil }

// UnmarshalText reads the name of a kind.
func (k *PartKind) UnmarshalText(name []byte) error {
	for *k = Language; *k <= Grandfathered; *k++ {
		if k.String() == string(name) {
			return nil
		}
	}
	return fmt.Errorf("bcp47: no kind of part: %q", name)
}

// A Part of a tag: its kind, for example Script, and its text, for example "Hant".
type Part struct {
	Kind PartKind
	Text string
}

// A Tag in conventional case (RFC 5646, 2.1.1), by no registry. Tags are compared by == as their texts are, and serve as keys
// of maps; Registry.Equivalent compares what they mean. The zero Tag is none, and its text is empty.
type Tag struct{ text, kinds string }

// ParseTag reads a tag in any letter case. The error is a *TagError where the text is no tag.
func ParseTag(text string) (Tag, error) {
	buffer := buffers.Get().(*[room]byte)
	defer buffers.Put(buffer)
	outcome := C.parts(text, chars(buffer), room)
	if outcome.status != C.BCP47_DONE {
		return Tag{}, refusedTag(outcome, nil, text)
	}
	both := string(buffer[:outcome.length+outcome.place])
	return Tag{both[:outcome.length], both[outcome.length:]}, nil
}

// MustParseTag is ParseTag for constants: it panics where the text is no tag.
func MustParseTag(text string) Tag {
	tag, err := ParseTag(text)
	if err != nil {
		panic(named(text, err).Error())
	}
	return tag
}

// A refusal with the text, for whoever does not know which it was.
func named(text string, err error) error { return fmt.Errorf("bcp47: %.100q: %w", text, err) }

// Parent gives the tag without its last subtag, and without the singletons that then end it (RFC 4647, 3.4); the zero Tag where
// nothing is left.
func (t Tag) Parent() Tag {
	parent, _ := written(func(at *C.char) C.bcp47_outcome { return C.parent(t.text, at, room) }, t.text)
	return parent
}

// The tag that a call writes, or why it writes none: of a text, or of another.
func written(call func(at *C.char) C.bcp47_outcome, texts ...string) (Tag, error) {
	buffer := buffers.Get().(*[room]byte)
	defer buffers.Put(buffer)
	outcome := call(chars(buffer))
	switch outcome.status {
	case C.BCP47_DONE:
	case C.BCP47_BAD_CALL:
		return Tag{}, ErrPart
	default:
		return Tag{}, refusedTag(outcome, nil, texts[outcome.text])
	}
	return ParseTag(string(buffer[:outcome.length]))
}

// With gives the tag with one of its parts replaced: a Language (with its extlangs), Script, Region, all Variants, all extensions
// (Singleton) or private use (PrivateUseSingleton); an empty value takes it away. The error is a *TagError where the value has not the
// form of the part, and ErrPart for another part. Whether the tag is valid says Validate.
func (t Tag) With(part PartKind, value string) (Tag, error) {
	return written(func(at *C.char) C.bcp47_outcome { return C.with(t.text, C.int(part), value, at, room) }, value, t.text, value)
}

// ParsePosix gives the tag that the name of a POSIX locale stands for: sr-Latn-RS for sr_RS.UTF-8@latin.
func ParsePosix(name string) (Tag, error) {
	return written(func(at *C.char) C.bcp47_outcome { return C.posix(name, at, room) }, name)
}

// String is the text of the tag.
func (t Tag) String() string { return t.text }

// MarshalText gives the text of the tag, for JSON and others.
func (t Tag) MarshalText() ([]byte, error) { return []byte(t.text), nil }

// UnmarshalText reads a tag as ParseTag does, and the empty text as the zero Tag. The error wraps a *TagError with the text.
func (t *Tag) UnmarshalText(text []byte) (err error) {
	*t = Tag{}
	if len(text) == 0 {
		return nil
	}
	if *t, err = ParseTag(string(text)); err != nil {
		return named(string(text), err)
	}
	return nil
}

// Parts gives the parts of the tag, one for each subtag, in their order; a grandfathered tag is one part.
func (t Tag) Parts() []Part {
	parts := make([]Part, 0, len(t.kinds))
	rest := t.text
	for _, kind := range []byte(t.kinds) {
		text := rest
		if len(t.kinds) > 1 {
			text, rest, _ = strings.Cut(rest, "-")
		}
		parts = append(parts, Part{PartKind(kind), text})
	}
	return parts
}

func (t Tag) all(kind PartKind) (texts []string) {
	for _, part := range t.Parts() {
		if part.Kind == kind {
			texts = append(texts, part.Text)
		}
	}
	return texts
}

func (t Tag) one(kind PartKind) string {
	if strings.IndexByte(t.kinds, byte(kind)) < 0 {
		return ""
	}
	return t.all(kind)[0]
}

// Language is the primary language (RFC 5646, 2.2.1); "" for private use and for a grandfathered tag.
func (t Tag) Language() string { return t.one(Language) }

// Extlangs are the extended languages (RFC 5646, 2.2.2).
func (t Tag) Extlangs() []string { return t.all(ExtendedLanguage) }

// Script is the script (RFC 5646, 2.2.3), or "".
func (t Tag) Script() string { return t.one(Script) }

// Region is the region (RFC 5646, 2.2.4), or "".
func (t Tag) Region() string { return t.one(Region) }

// Variants are the variants (RFC 5646, 2.2.5).
func (t Tag) Variants() []string { return t.all(Variant) }

// PrivateUse are the subtags after x (RFC 5646, 2.2.7).
func (t Tag) PrivateUse() []string { return t.all(PrivateUse) }

// A Step of an explanation.
type Step struct {
	Kind   string // for example "Region"
	Place  uint32 // the subtag that changes, counted from 1
	Number uint32 // the record that the step uses, counted from 1; 0 where it uses none
	Tag    string // the tag to which it leads
}

// An Explanation has the steps from a tag to its canonical form, and that form.
type Explanation struct {
	Steps     []Step
	Canonical string
}

// String is the step, as the program prints it.
func (s Step) String() string { return fmt.Sprint(s.Kind, " ", s.Place, " ", s.Number, " ", s.Tag) }

// String is the explanation, as the program prints it, without the last line feed.
func (e Explanation) String() string {
	var text strings.Builder
	for _, step := range e.Steps {
		text.WriteString(step.String() + "\n")
	}
	return text.String() + "= " + e.Canonical
}
