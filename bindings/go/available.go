// SPDX-License-Identifier: MIT OR Apache-2.0

package bcp47

// #include <bcp47.h>
// #include <stdlib.h>
//
// // Tags that stand one after another, each of its length.
// static uintptr_t available_opened(uintptr_t registry, _GoString_ joined, const size_t *lengths, size_t count, bcp47_outcome *outcome) {
//     const char **tags = malloc(count * sizeof *tags + 1), *at = _GoStringPtr(joined);
//     bcp47_available *available = NULL;
//     *outcome = (bcp47_outcome){.status = BCP47_OUT_OF_MEMORY};
//     for (size_t i = 0; tags && i < count; at += lengths[i++]) tags[i] = at;
//     if (tags) *outcome = bcp47_available_open(&available, (bcp47_registry *)registry, tags, lengths, count);
//     free(tags);
//     return (uintptr_t)available;
// }
// static void available_closed(uintptr_t available) { bcp47_available_close((bcp47_available *)available); }
// #define TEXT(of) _GoStringPtr(of), _GoStringLen(of)
// static bcp47_outcome best(uintptr_t available, _GoString_ accept) { return bcp47_best((bcp47_available *)available, TEXT(accept)); }
// static bcp47_outcome filter(uintptr_t available, _GoString_ accept, size_t *places, size_t room) {
//     return bcp47_filter((bcp47_available *)available, TEXT(accept), places, room);
// }
import "C"

import (
	"fmt"
	"runtime"
	"strings"
)

// Available are the tags of which a service serves one to each reader, prepared once. Any number of goroutines may ask at once, also
// where the registry is closed.
type Available struct {
	handle
	tags []string
}

// Available prepares the tags of which a service serves one. The error is a *TagError for the first that Canonical refuses.
func (r *Registry) Available(tags ...string) (available *Available, err error) {
	lengths := make([]C.size_t, len(tags)+1)
	for i, tag := range tags {
		lengths[i] = C.size_t(len(tag))
	}
	err = r.ask(func(registry C.uintptr_t, _ *[room]byte) error {
		var outcome C.bcp47_outcome
		raw := C.available_opened(registry, strings.Join(tags, ""), &lengths[0], C.size_t(len(tags)), &outcome)
		if outcome.status != C.BCP47_DONE {
			return refusedTag(outcome, nil, append([]string{""}, tags...)[outcome.text])
		}
		available = &Available{handle{raw: raw, closed: func(raw C.uintptr_t) { C.available_closed(raw) }}, append([]string{}, tags...)}
		runtime.SetFinalizer(available, (*Available).Close)
		return nil
	})
	return available, err
}

// String is "Available" and the tags.
func (a *Available) String() string { return fmt.Sprint("Available", a.tags) }

// Best gives the tag to serve to the reader of an Accept-Language header (RFC 9110, 12.5.4; RFC 4647, 3.4), as it was handed in; "" where
// no range of the header serves one, so that the service takes its default. The error is a *TagError where it is no such header.
func (a *Available) Best(accept string) (tag string, err error) {
	err = a.ask(func(raw C.uintptr_t, _ *[room]byte) error {
		outcome := C.best(raw, accept)
		if outcome.status != C.BCP47_DONE {
			return refusedTag(outcome, nil, accept)
		}
		if outcome.place > 0 {
			tag = a.tags[outcome.place-1]
		}
		return nil
	})
	return tag, err
}

// Filter gives all tags that the header accepts, from the greatest weight to the least. The error is that of Best.
func (a *Available) Filter(accept string) (tags []string, err error) {
	err = a.ask(func(raw C.uintptr_t, _ *[room]byte) error {
		places := make([]C.size_t, len(a.tags)+1)
		outcome := C.filter(raw, accept, &places[0], C.size_t(len(a.tags)))
		if outcome.status != C.BCP47_DONE {
			return refusedTag(outcome, nil, accept)
		}
		for _, place := range places[:outcome.place] {
			tags = append(tags, a.tags[place-1])
		}
		return nil
	})
	return tags, err
}
