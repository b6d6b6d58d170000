//! Why something is refused.
use crate::{constant, Fault};
use bcp47_sys as sys;
use std::ffi::c_int;
use std::path::PathBuf;
use std::{error, fmt, io};

/// The cause of a refusal: a fault, and its place. It is shown as the program shows it, for example `BadByte 1`.
#[derive(Clone, Copy, Debug, PartialEq, Eq, Hash)]
pub struct Cause {
    fault: Fault,
    place: usize,
}

impl Cause {
    /// That of an outcome that names a fault.
    pub(crate) fn of(outcome: &sys::bcp47_outcome) -> Option<Cause> {
        let fault = *Fault::ALL.get((outcome.detail as usize).wrapping_sub(1))?;
        let place = outcome.place;
        Some(Cause { fault, place })
    }

    /// What is wrong.
    pub fn fault(&self) -> Fault {
        self.fault
    }

    /// What the fault means, and what to do.
    pub fn help(&self) -> &'static str {
        // SAFETY: the call answers each number.
        constant(unsafe { sys::bcp47_fault_help(self.fault as c_int) })
    }

    /// The number of the subtag, the line or the record at fault, counted from 1; 0 for a text that is too long.
    pub fn place(&self) -> usize {
        self.place
    }
}

impl fmt::Display for Cause {
    fn fmt(&self, f: &mut fmt::Formatter<'_>) -> fmt::Result {
        write!(f, "{} {}", self.fault, self.place)
    }
}

/// What a status means, and what to do.
fn help_of(status: c_int) -> &'static str {
    // SAFETY: the call answers each number.
    constant(unsafe { sys::bcp47_status_help(status) })
}

/// Why a tag is refused. It is shown as the program shows it, without `! `.
#[derive(Clone, Debug, PartialEq, Eq, Hash)]
#[non_exhaustive]
pub enum TagError {
    /// The text is no tag (RFC 5646, 2.1), or the range neither a valid tag nor a range (RFC 4647, 2.2).
    NotATag(Cause),
    /// The tag is not valid (RFC 5646, 2.2.9).
    Invalid(Cause),
    /// The text is no Accept-Language header (RFC 9110, 12.5.4); the place is a list element.
    BadHeader(Cause),
    /// Replacements can repeat this variant, which is empty where it is of a range of a header or of one of several tags.
    ReplacementRepeats(String),
    /// The explanation has more steps than were asked for.
    TooManySteps,
    /// `Tag::with` replaces no part of this kind.
    BadCall,
    /// Memory ran out.
    OutOfMemory,
    /// Many calls are under way, and no memory was left for one more: it may be made again.
    Busy,
}

impl TagError {
    /// That of an outcome; the variant is asked for where that is why.
    pub(crate) fn of(outcome: &sys::bcp47_outcome, variant: impl FnOnce() -> String) -> TagError {
        match (outcome.status, Cause::of(outcome)) {
            (sys::BCP47_NOT_A_TAG, Some(cause)) => TagError::NotATag(cause),
            (sys::BCP47_INVALID, Some(cause)) => TagError::Invalid(cause),
            (sys::BCP47_BAD_HEADER, Some(cause)) => TagError::BadHeader(cause),
            (sys::BCP47_REPLACEMENT_REPEATS, _) => TagError::ReplacementRepeats(variant()),
            (sys::BCP47_TOO_MANY_STEPS, _) => TagError::TooManySteps,
            (sys::BCP47_BAD_CALL, _) => TagError::BadCall,
            (sys::BCP47_BUSY, _) => TagError::Busy,
            _ => TagError::OutOfMemory,
        }
    }

    /// The cause, where it is a fault with a place.
    pub fn cause(&self) -> Option<&Cause> {
        match self {
            TagError::NotATag(cause) | TagError::Invalid(cause) | TagError::BadHeader(cause) => Some(cause),
            _ => None,
        }
    }

    /// How the call ended, where the cause says no more.
    fn status(&self) -> c_int {
        match self {
            TagError::NotATag(_) => sys::BCP47_NOT_A_TAG,
            TagError::Invalid(_) => sys::BCP47_INVALID,
            TagError::BadHeader(_) => sys::BCP47_BAD_HEADER,
            TagError::ReplacementRepeats(_) => sys::BCP47_REPLACEMENT_REPEATS,
            TagError::TooManySteps => sys::BCP47_TOO_MANY_STEPS,
            TagError::BadCall => sys::BCP47_BAD_CALL,
            TagError::OutOfMemory => sys::BCP47_OUT_OF_MEMORY,
            TagError::Busy => sys::BCP47_BUSY,
        }
    }

    /// What it means, and what to do.
    pub fn help(&self) -> &'static str {
        self.cause().map_or_else(|| help_of(self.status()), Cause::help)
    }
}

impl fmt::Display for TagError {
    fn fmt(&self, f: &mut fmt::Formatter<'_>) -> fmt::Result {
        if let Some(cause) = self.cause() {
            return cause.fmt(f);
        }
        // SAFETY: the call answers each number.
        f.write_str(constant(unsafe { sys::bcp47_status_name(self.status()) }))?;
        match self {
            TagError::ReplacementRepeats(variant) if !variant.is_empty() => write!(f, " {variant}"),
            _ => Ok(()),
        }
    }
}

impl error::Error for TagError {}

/// Why bytes are no registry that passes the check: the line that the program prints, for example `jar BadLine line 1`.
#[derive(Clone, Debug, PartialEq, Eq)]
pub struct RegistryError {
    pub(crate) line: String,
    pub(crate) outcome: sys::bcp47_outcome,
}

impl RegistryError {
    /// The fault, and the line or the record of it; none of a registry without entries, and where memory ran out.
    pub fn cause(&self) -> Option<Cause> {
        Cause::of(&self.outcome)
    }

    /// What it means, and what to do.
    pub fn help(&self) -> &'static str {
        self.cause().map_or(help_of(self.outcome.status), |cause| cause.help())
    }
}

impl fmt::Display for RegistryError {
    fn fmt(&self, f: &mut fmt::Formatter<'_>) -> fmt::Result {
        f.write_str(&self.line)
    }
}

impl error::Error for RegistryError {}

/// Why a file gives no registry. It is shown with the path, and its source says why.
#[derive(Debug)]
pub enum OpenError {
    /// The file can't be read.
    Io(PathBuf, io::Error),
    /// It is no registry that passes the check.
    Refused(PathBuf, RegistryError),
}

impl fmt::Display for OpenError {
    fn fmt(&self, f: &mut fmt::Formatter<'_>) -> fmt::Result {
        match self {
            OpenError::Io(path, _) => write!(f, "can't read {}", path.display()),
            OpenError::Refused(path, _) => write!(f, "{} is refused", path.display()),
        }
    }
}

impl error::Error for OpenError {
    fn source(&self) -> Option<&(dyn error::Error + 'static)> {
        match self {
            OpenError::Io(_, error) => Some(error),
            OpenError::Refused(_, error) => Some(error),
        }
    }
}

#[cfg(test)]
mod tests {
    use super::*;

    #[test]
    fn want_of_memory_is_named() {
        for (status, named, told) in [
            (sys::BCP47_OUT_OF_MEMORY, TagError::OutOfMemory, "OutOfMemory"),
            (sys::BCP47_BUSY, TagError::Busy, "Busy"),
        ] {
            let outcome = sys::bcp47_outcome { status, ..Default::default() };
            let refused = TagError::of(&outcome, String::new);
            assert_eq!((&refused, refused.to_string().as_str()), (&named, told));
            assert_eq!((refused.cause(), refused.help()), (None, help_of(status)));
            assert!(!refused.help().is_empty());
        }
    }
}
