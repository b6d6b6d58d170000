// SPDX-License-Identifier: MIT OR Apache-2.0
//! IANA's Language Subtag Registry of one day, without `Comments` and `Added`: 0.6 MB of a program that names it. A newer one is
//! a file of IANA's, which the crate `bcp47` reads and checks.
#![no_std]
#![deny(missing_docs)]

/// The day of the registry.
pub const FILE_DATE: &str = "2025-05-15";

/// The text of the registry.
pub const TEXT: &[u8] = include_bytes!("../../../../examples/iana-2025-05-15.txt");
