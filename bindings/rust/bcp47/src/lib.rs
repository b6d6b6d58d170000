// SPDX-License-Identifier: MIT OR Apache-2.0
//! BCP 47 language tags (RFC 5646, with the extensions `u` of RFC 6067 and `t` of RFC 6497), read and made canonical by a
//! registry of language subtags in the format of IANA's. Each answer is that of a library that stands on proved calls.
//!
//! ```
//! # let content = std::fs::read(concat!(env!("CARGO_MANIFEST_DIR"), "/../../../examples/sample-registry.txt")).unwrap();
//! use bcp47::{Registry, Tag};
//!
//! let registry = Registry::from_bytes(&content)?;
//! assert_eq!(registry.canonical("zh-yue")?, "yue");
//! assert!(registry.equivalent("I-KLINGON", "tlh")?);
//! assert_eq!(registry.canonical("en_US").unwrap_err().to_string(), "BadByte 1");
//! let tag: Tag = "ZH-hant-tw".parse()?;
//! assert_eq!((tag.to_string().as_str(), tag.script()), ("zh-Hant-TW", Some("Hant")));
//! # Ok::<(), Box<dyn std::error::Error>>(())
//! ```
//!
//! The feature `bundled` has a registry of IANA's inside (`Registry::bundled`), and `serde` writes and reads a `Tag` as a text.
#![deny(missing_docs)]

/// An enum of what the library numbers from 1 on.
macro_rules! numbered {
    ($(#[$about:meta])* $name:ident { $($(#[$said:meta])* $one:ident = $number:literal,)* }) => {
        $(#[$about])*
        #[derive(Clone, Copy, Debug, PartialEq, Eq, PartialOrd, Ord, Hash)]
        #[non_exhaustive]
        pub enum $name {
            $($(#[$said])* $one = $number,)*
        }

        impl $name {
            /// Each, at its number less 1.
            pub(crate) const ALL: &'static [$name] = &[$($name::$one),*];
        }

        impl std::fmt::Display for $name {
            fn fmt(&self, f: &mut std::fmt::Formatter<'_>) -> std::fmt::Result {
                f.pad(match self {
                    $($name::$one => stringify!($one),)*
                })
            }
        }
    };
}

mod available;
mod errors;
mod explanations;
mod numbers;
mod registry;
mod tag;

pub use available::{Available, AvailableError};
pub use errors::{Cause, OpenError, RegistryError, TagError};
pub use explanations::{Explanation, Step};
pub use numbers::{Fault, PartKind, StepKind};
pub use registry::{Info, Registry, Scheme};
pub use tag::{Class, Part, Tag};

use std::ffi::{c_char, CStr};

/// The version of the library.
pub fn version() -> &'static str {
    // SAFETY: the call gives a constant.
    constant(unsafe { bcp47_sys::bcp47_version() })
}

/// A constant of the library.
fn constant(text: *const c_char) -> &'static str {
    // SAFETY: each name of the library is a constant in ASCII with a zero after it.
    unsafe { CStr::from_ptr(text) }.to_str().unwrap_or_default()
}
