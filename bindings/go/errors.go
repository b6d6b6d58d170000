// SPDX-License-Identifier: MIT OR Apache-2.0

package bcp47

// #include <bcp47.h>
import "C"

import (
	"errors"
	"strconv"
	"strings"
)

// What is wrong with a call, and not with a text.
var (
	// What a Registry or an Available answers that is closed.
	ErrClosed = errors.New("bcp47: the Registry or the Available is closed: keep it open until the last call, or open another")
	// A number is none of Basic, Extended and Lookup.
	ErrScheme = errors.New("bcp47: the scheme is none of Basic, Extended and Lookup")
	// With can't replace parts of this kind.
	ErrPart = errors.New("bcp47: the part is none of Language, Script, Region, Variant, Singleton and PrivateUseSingleton")
)

// How a call ended, where the fault says no more, or as Cause.Status beside it.
const (
	ErrNotATag            Fault = -C.BCP47_NOT_A_TAG
	ErrInvalid            Fault = -C.BCP47_INVALID
	ErrReplacementRepeats Fault = -C.BCP47_REPLACEMENT_REPEATS
	ErrTooManySteps       Fault = -C.BCP47_TOO_MANY_STEPS
	ErrBadFile            Fault = -C.BCP47_BAD_FILE
	ErrBadRecord          Fault = -C.BCP47_BAD_RECORD
	ErrRejected           Fault = -C.BCP47_REJECTED
	ErrNoEntries          Fault = -C.BCP47_NO_ENTRIES
	ErrBadHeader          Fault = -C.BCP47_BAD_HEADER // no Accept-Language header: the place is a list element
	ErrOutOfMemory        Fault = -C.BCP47_OUT_OF_MEMORY
	ErrBusy               Fault = -C.BCP47_BUSY // many calls are under way, and no memory was left for one more: call again
)

// Error is the name of a fault, for example "BadByte".
func (f Fault) Error() string {
	if f < 0 {
		return C.GoString(C.bcp47_status_name(C.int(-f)))
	}
	return C.GoString(C.bcp47_fault_name(C.int(f)))
}

// Help says what a fault means, and what to do.
func (f Fault) Help() string {
	if f < 0 {
		return C.GoString(C.bcp47_status_help(C.int(-f)))
	}
	return C.GoString(C.bcp47_fault_help(C.int(f)))
}

// MarshalText gives the name of a fault, for JSON and others.
func (f Fault) MarshalText() ([]byte, error) { return []byte(f.Error()), nil }

// A Cause says why something is refused. errors.Is finds its Fault and its Status, and errors.As the Cause and its Fault.
type Cause struct {
	Status Fault // how the call ended, for example ErrNotATag
	Fault  Fault // what is wrong, for example ErrBadByte; the status where there is no fault
	Place  int   // the subtag, the line or the record at fault, counted from 1; else 0
}

// Error is the line of the program langtag without "! ", for example "BadByte 1".
func (c *Cause) Error() string {
	if c.Fault < 0 {
		return c.Fault.Error()
	}
	return c.Fault.Error() + " " + strconv.Itoa(c.Place)
}

// Unwrap gives the fault.
func (c *Cause) Unwrap() error { return c.Fault }

// Is tells whether an error is the status.
func (c *Cause) Is(target error) bool { return target == error(c.Status) }

// Help says what the fault means, and what to do.
func (c *Cause) Help() string { return c.Fault.Help() }

// A TagError says that a text is no tag or no language range, that a tag is not valid, that its replacements can repeat a
// variant, or that its explanation has too many steps.
type TagError struct {
	Cause
	Tag     string // the text that is refused: no more than its first 1,024 bytes
	Variant string // the variant that replacements can repeat, or ""
}

// Error is the line of the program langtag without "! ", for example "BadByte 1" or "ReplacementRepeats alalc97".
func (e *TagError) Error() string {
	if e.Variant != "" {
		return e.Fault.Error() + " " + e.Variant
	}
	return e.Cause.Error()
}

// Unwrap gives the cause.
func (e *TagError) Unwrap() error { return &e.Cause }

// A RegistryError says that bytes are no registry that passes the check.
type RegistryError struct {
	Cause
	line string
}

// Error is the line of the program langtag, for example "jar BadLine line 1".
func (e *RegistryError) Error() string { return e.line }

// Unwrap gives the cause.
func (e *RegistryError) Unwrap() error { return &e.Cause }

// The cause that an outcome has which is a refusal; else the error.
func causeOf(status, fault, place int) (Cause, error) {
	cause := Cause{Status: -Fault(status), Fault: Fault(fault), Place: place}
	if cause.Status == ErrOutOfMemory || cause.Status == ErrBusy {
		return cause, cause.Status
	}
	if cause.Fault == 0 {
		cause.Fault = cause.Status
	}
	return cause, nil
}

func refusedRegistry(outcome C.bcp47_outcome, line string) error {
	cause, err := causeOf(int(outcome.status), int(outcome.detail), int(outcome.place))
	if err != nil {
		return err
	}
	return &RegistryError{cause, line}
}

// The longest text of a tag: no more is kept of one that is refused.
const longest = 1024

// Why a tag is refused. Where that is a variant, it is at the front of a buffer.
func refusedTag(outcome C.bcp47_outcome, buffer []byte, tag string) error {
	cause, err := causeOf(int(outcome.status), int(outcome.detail), int(outcome.place))
	if err != nil {
		return err
	}
	if len(tag) > longest {
		tag = strings.Clone(tag[:longest])
	}
	refused := &TagError{Cause: cause, Tag: tag}
	if outcome.status == C.BCP47_REPLACEMENT_REPEATS {
		refused.Variant = string(buffer[:outcome.length])
	}
	return refused
}
