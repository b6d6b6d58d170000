// SPDX-License-Identifier: MIT OR Apache-2.0

// Package registry has IANA's Language Subtag Registry of FileDate, without Comments and Added, inside: 0.6 MB of a program that
// imports it. A newer one is a file of IANA's for bcp47.Open.
package registry

import _ "embed"
import "langtag.example/bcp47"

// FileDate is the day of the registry.
const FileDate = "2025-05-15"

//go:embed registry.txt
var content []byte

// Open reads the registry, some milliseconds: open it once, and share it.
func Open() (*bcp47.Registry, error) { return bcp47.Read(content) }
