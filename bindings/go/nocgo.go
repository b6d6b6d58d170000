// SPDX-License-Identifier: MIT OR Apache-2.0

//go:build !cgo

package bcp47

const _ int = "bcp47 needs cgo, which links its library: set CGO_ENABLED=1, and install a C compiler such as gcc"
