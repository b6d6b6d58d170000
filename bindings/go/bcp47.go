// SPDX-License-Identifier: MIT OR Apache-2.0

// Package bcp47 reads BCP 47 language tags (RFC 5646, with the extensions u and t) and makes them canonical by a
// registry of language subtags in the format of IANA's. It calls the library for C, which it links statically.
package bcp47

// The library, bcp47_linux_amd64.syso, and its header stand beside this file in a release; in the repository build.sh puts
// the library there.

// #cgo CFLAGS: -I${SRCDIR} -I${SRCDIR}/../c
// #include <bcp47.h>
//
// #if !(defined __linux__ && (defined __x86_64__ && __has_include("bcp47_linux_amd64.syso") || \
//                             defined __aarch64__ && __has_include("bcp47_linux_arm64.syso")))
// #error "bcp47 has no library here for this system: unpack the module of a release, or run make lib and bindings/go/build.sh in the repository"
// #endif
//
// #define TEXT(of) _GoStringPtr(of), _GoStringLen(of)
// #define REGISTRY(of) ((bcp47_registry *)(of))
// // The canonical text of a tag, or the same with its extlang prefix.
// static bcp47_outcome text_by(int extlang, uintptr_t registry, _GoString_ tag, char *buffer, size_t room) {
//     return (extlang ? bcp47_extlang : bcp47_canonical)(REGISTRY(registry), TEXT(tag), buffer, room);
// }
// static bcp47_outcome validate(uintptr_t registry, _GoString_ tag) { return bcp47_validate(REGISTRY(registry), TEXT(tag)); }
// // Whether a range matches a tag; by the scheme 0, whether two tags are equivalent.
// static bcp47_outcome match(uintptr_t registry, int scheme, _GoString_ range, _GoString_ tag, char *buffer, size_t room) {
//     return scheme ? bcp47_match(REGISTRY(registry), scheme, TEXT(range), TEXT(tag), buffer, room)
//                   : bcp47_equivalent(REGISTRY(registry), TEXT(range), TEXT(tag), buffer, room);
// }
// static bcp47_outcome steps(uintptr_t registry, _GoString_ tag, size_t most, bcp47_step **steps, const char **tags) {
//     return bcp47_steps(REGISTRY(registry), TEXT(tag), most, steps, tags);
// }
// static bcp47_outcome record(uintptr_t registry, uint32_t number, bcp47_field **fields, const char **texts) {
//     return bcp47_record(REGISTRY(registry), number, fields, texts);
// }
// static void registry_info(uintptr_t registry, bcp47_info *info) { bcp47_registry_info(REGISTRY(registry), info); }
// static uintptr_t opened(const void *content, size_t length, char *line, size_t room, bcp47_outcome *outcome) {
//     bcp47_registry *registry;
//     *outcome = bcp47_open(&registry, content, length, line, room);
//     return (uintptr_t)registry;
// }
// static void closed(uintptr_t registry) { bcp47_close(REGISTRY(registry)); }
import "C"

import (
	"encoding/hex"
	"fmt"
	"os"
	"runtime"
	"sync"
	"unsafe"
)

// Room for any text that a call writes: a tag of 1,024 bytes can have 204 variants of 4, each of which becomes one of 8.
const room = 2048

var buffers = sync.Pool{New: func() any { return new([room]byte) }}

func chars(buffer *[room]byte) *C.char { return (*C.char)(unsafe.Pointer(buffer)) }

// Version is that of the library.
func Version() string { return C.GoString(C.bcp47_version()) }

// What is open in the library: calls share it, and Close has it for itself.
type handle struct {
	calls  sync.RWMutex
	raw    C.uintptr_t // 0 once it is closed
	closed func(C.uintptr_t)
}

// Close lets calls that are under way end, and then frees what is open. Each later call gives ErrClosed, but for Close. What is not
// closed is freed when it is collected.
func (h *handle) Close() error {
	h.calls.Lock()
	defer h.calls.Unlock()
	if h.raw != 0 {
		h.closed(h.raw)
		h.raw = 0
	}
	return nil
}

// ask makes a call by what is open and a buffer, which it may keep until it returns.
func (h *handle) ask(call func(raw C.uintptr_t, buffer *[room]byte) error) error {
	h.calls.RLock()
	defer h.calls.RUnlock()
	if h.raw == 0 {
		return ErrClosed
	}
	buffer := buffers.Get().(*[room]byte)
	defer buffers.Put(buffer)
	return call(h.raw, buffer)
}

// A Registry of language subtags that passes the check. Any number of goroutines may ask it at once.
type Registry struct{ handle }

// Read makes a registry of its text. The error is a *RegistryError where it does not pass the check, or has no entries.
func Read(content []byte) (*Registry, error) {
	line := buffers.Get().(*[room]byte)
	defer buffers.Put(line)
	var outcome C.bcp47_outcome
	var front unsafe.Pointer
	if len(content) > 0 {
		front = unsafe.Pointer(&content[0])
	}
	raw := C.opened(front, C.size_t(len(content)), chars(line), room, &outcome)
	if outcome.status != C.BCP47_DONE {
		return nil, refusedRegistry(outcome, string(line[:outcome.length]))
	}
	registry := &Registry{handle{raw: raw, closed: func(raw C.uintptr_t) { C.closed(raw) }}}
	runtime.SetFinalizer(registry, (*Registry).Close)
	return registry, nil
}

// Open reads the registry of a file. The error is that of os.ReadFile, or wraps a *RegistryError with the path.
func Open(path string) (*Registry, error) {
	content, err := os.ReadFile(path)
	if err != nil {
		return nil, err
	}
	registry, err := Read(content)
	if err != nil {
		return nil, fmt.Errorf("%s: %w", path, err)
	}
	return registry, nil
}

// String is "Registry(open)" or "Registry(closed)"; Info says which registry it is.
func (r *Registry) String() string {
	if r.ask(func(C.uintptr_t, *[room]byte) error { return nil }) != nil {
		return "Registry(closed)"
	}
	return "Registry(open)"
}

func (r *Registry) textBy(extlang C.int, tag string) (text string, err error) {
	err = r.ask(func(raw C.uintptr_t, buffer *[room]byte) error {
		outcome := C.text_by(extlang, raw, tag, chars(buffer), room)
		if outcome.status != C.BCP47_DONE {
			return refusedTag(outcome, buffer[:], tag)
		}
		text = tag // which takes no memory
		if written := buffer[:outcome.length]; string(written) != tag {
			text = string(written)
		}
		return nil
	})
	return text, err
}

// Canonical gives the canonical text of a tag (RFC 5646, 4.5): yue for zh-yue. The error is a *TagError where the tag
// is refused.
func (r *Registry) Canonical(tag string) (string, error) { return r.textBy(0, tag) }

// Extlang gives the canonical text with its extlang prefix (RFC 5646, 4.5): zh-yue for yue.
func (r *Registry) Extlang(tag string) (string, error) { return r.textBy(1, tag) }

// Validate gives nil where a tag is valid (RFC 5646, 2.2.9), and else a *TagError.
func (r *Registry) Validate(tag string) error {
	return r.ask(func(raw C.uintptr_t, buffer *[room]byte) error {
		if outcome := C.validate(raw, tag); outcome.status != C.BCP47_DONE {
			return refusedTag(outcome, nil, tag)
		}
		return nil
	})
}

func (r *Registry) match(scheme Scheme, first, second string) (agree bool, err error) {
	err = r.ask(func(raw C.uintptr_t, buffer *[room]byte) error {
		outcome := C.match(raw, C.int(scheme), first, second, chars(buffer), room)
		agree = outcome.status == C.BCP47_DONE
		if agree || outcome.status == C.BCP47_DIFFERENT {
			return nil
		}
		return refusedTag(outcome, buffer[:], [...]string{first, first, second}[outcome.text])
	})
	return agree, err
}

// Equivalent tells whether two tags are equivalent: their canonical texts are equal. The *TagError is of the first, or
// else of the second.
func (r *Registry) Equivalent(first, second string) (bool, error) { return r.match(0, first, second) }

// A Scheme is how a language range matches tags (RFC 4647).
type Scheme int

const (
	Basic    Scheme = C.BCP47_BASIC    // basic filtering (3.3.1): the tag is the range, or begins with it and a hyphen
	Extended Scheme = C.BCP47_EXTENDED // extended filtering (3.3.2): the subtags of the range are in the tag in their order
	Lookup   Scheme = C.BCP47_LOOKUP   // lookup (3.4): the tag is the range, or what is left where that is cut from its end
)

// String is the name of a scheme, for example "Basic".
func (s Scheme) String() string {
	if s < Basic || s > Lookup {
		return fmt.Sprintf("Scheme(%d)", int(s))
	}
	return [...]string{"Basic", "Extended", "Lookup"}[s-Basic]
}

// Matches tells whether a language range matches a tag by a scheme, both in each of their spellings: zh-yue matches yue-HK.
// Of a range that is no valid tag, for example yue-*, the first subtag is taken in its extlang form. The *TagError is of the range,
// where that is neither a valid tag nor a range, or else of the tag; another scheme gives ErrScheme.
func (r *Registry) Matches(languageRange, tag string, scheme Scheme) (bool, error) {
	if scheme < Basic || scheme > Lookup {
		return false, ErrScheme
	}
	return r.match(scheme, languageRange, tag)
}

// Explain gives the steps from a tag to its canonical form, if there are at most so many.
func (r *Registry) Explain(tag string, most int) (explanation Explanation, err error) {
	if most < 0 {
		most = 0
	}
	err = r.ask(func(raw C.uintptr_t, _ *[room]byte) error {
		var steps *C.bcp47_step
		var at *C.char
		outcome := C.steps(raw, tag, C.size_t(most), &steps, &at)
		defer C.bcp47_free(unsafe.Pointer(steps))
		next := func() string { // the text that is next: the variant, or the tag of a step, or the canonical one
			text := C.GoString(at)
			at = (*C.char)(unsafe.Add(unsafe.Pointer(at), len(text)+1))
			return text
		}
		if outcome.status != C.BCP47_DONE {
			return refusedTag(outcome, []byte(C.GoString(at)), tag)
		}
		explanation.Steps = make([]Step, outcome.place)
		for i, step := range unsafe.Slice(steps, len(explanation.Steps)) {
			kind := C.GoString(C.bcp47_kind_name(C.int(step.kind)))
			explanation.Steps[i] = Step{kind, uint32(step.place), uint32(step.number), next()}
		}
		explanation.Canonical = next()
		return nil
	})
	return explanation, err
}

// A Field of a record: its name, for example "Description", and its body.
type Field struct{ Name, Body string }

// Record gives the fields of a record of the file, by its number from 1 on, with the header counted; none where it is not there. The
// numbers are those of a Step. The first call reads the records.
func (r *Registry) Record(number uint32) (fields []Field, err error) {
	err = r.ask(func(raw C.uintptr_t, _ *[room]byte) error {
		var lengths *C.bcp47_field
		var at *C.char
		outcome := C.record(raw, C.uint32_t(number), &lengths, &at)
		defer C.bcp47_free(unsafe.Pointer(lengths))
		next := func(length C.size_t) string {
			text := C.GoStringN(at, C.int(length))
			at = (*C.char)(unsafe.Add(unsafe.Pointer(at), length+1))
			return text
		}
		for _, field := range unsafe.Slice(lengths, int(outcome.place)) {
			fields = append(fields, Field{next(field.name), next(field.body)})
		}
		_, err := causeOf(int(outcome.status), 0, 0)
		return err
	})
	return fields, err
}

// Info says which registry it is.
type Info struct {
	FileDate string // the File-Date of the header, for example "2025-05-15"; empty where there is none of that form
	Entries  int    // one for each record but the header
	SHA256   string // of the bytes that were read, in hexadecimal digits
}

// Info says which registry it is; the digest is taken anew at each call.
func (r *Registry) Info() (of Info, err error) {
	err = r.ask(func(raw C.uintptr_t, _ *[room]byte) error {
		var info C.bcp47_info
		C.registry_info(raw, &info)
		digest := C.GoBytes(unsafe.Pointer(&info.sha256), C.int(len(info.sha256)))
		of = Info{C.GoString(&info.file_date[0]), int(info.entries), hex.EncodeToString(digest)}
		return nil
	})
	return of, err
}
