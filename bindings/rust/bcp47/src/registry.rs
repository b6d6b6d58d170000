//! Registries that are open.
use crate::errors::{OpenError, RegistryError, TagError};
use crate::explanations::{Explanation, Step};
use crate::StepKind;
use bcp47_sys as sys;
use std::ffi::{c_char, c_int, CStr};
use std::fmt;
use std::mem::MaybeUninit;
use std::path::Path;
use std::ptr::{self, NonNull};

/// Room for any text that a call writes: a tag of 1,024 bytes can have 204 variants of 4, each of which becomes one of 8.
const ROOM: usize = 2048;

/// How a call ended that is handed a buffer and its room, and the text that it wrote there.
pub(crate) fn called(call: impl FnOnce(*mut c_char, usize) -> sys::bcp47_outcome) -> (sys::bcp47_outcome, String) {
    let mut buffer = [MaybeUninit::<u8>::uninit(); ROOM];
    let outcome = call(buffer.as_mut_ptr().cast(), ROOM);
    let length = if outcome.length <= ROOM { outcome.length } else { 0 };
    // SAFETY: a call that answers a length that fits has written as many bytes.
    let text = unsafe { std::slice::from_raw_parts(buffer.as_ptr().cast(), length) };
    (outcome, String::from_utf8_lossy(text).into_owned())
}

/// The text that such a call wrote, or why it wrote none.
pub(crate) fn written(call: impl FnOnce(*mut c_char, usize) -> sys::bcp47_outcome) -> Result<String, TagError> {
    let (outcome, text) = called(call);
    match outcome.status {
        sys::BCP47_DONE => Ok(text),
        _ => Err(TagError::of(&outcome, || text)),
    }
}

/// Where a text is, and its length.
pub(crate) fn place_of(text: &[u8]) -> (*const c_char, usize) {
    (text.as_ptr().cast(), text.len())
}

/// How a language range matches tags (RFC 4647).
#[derive(Clone, Copy, Debug, PartialEq, Eq, Hash)]
pub enum Scheme {
    /// Basic filtering (3.3.1): the tag is the range, or begins with it and a hyphen.
    Basic = 1,
    /// Extended filtering (3.3.2): the subtags of the range are in the tag in their order.
    Extended = 2,
    /// Lookup (3.4): the tag is the range, or what is left where that is cut from its end.
    Lookup = 3,
}

/// Which registry answers.
#[derive(Clone, Debug, PartialEq, Eq, Hash)]
pub struct Info {
    /// The `File-Date` of the header, for example `2025-05-15`; empty where there is none of that form.
    pub file_date: String,
    /// How many entries there are: one for each record but the header.
    pub entries: usize,
    /// The SHA-256 of the bytes that were read.
    pub sha256: [u8; 32],
}

/// A registry that passes the check. Any number of threads may ask it at once.
pub struct Registry {
    raw: NonNull<sys::bcp47_registry>,
}

// SAFETY: bcp47.h: any number of threads may ask a registry at once, and it may be closed by any of them.
unsafe impl Send for Registry {}
unsafe impl Sync for Registry {}

type Writer =
    unsafe extern "C" fn(*const sys::bcp47_registry, *const c_char, usize, *mut c_char, usize) -> sys::bcp47_outcome;

impl Registry {
    /// The registry whose text the bytes are, if it passes the check and has entries.
    pub fn from_bytes(bytes: &[u8]) -> Result<Registry, RegistryError> {
        let mut raw = ptr::null_mut();
        // SAFETY: the pointers and lengths are those of the bytes and of a buffer.
        let (outcome, line) =
            called(|at, room| unsafe { sys::bcp47_open(&mut raw, bytes.as_ptr().cast(), bytes.len(), at, room) });
        match NonNull::new(raw) {
            Some(raw) if outcome.status == sys::BCP47_DONE => Ok(Registry { raw }),
            _ => Err(RegistryError { line, outcome }),
        }
    }

    /// The registry of a file.
    pub fn open(path: impl AsRef<Path>) -> Result<Registry, OpenError> {
        let path = path.as_ref();
        let bytes = std::fs::read(path).map_err(|error| OpenError::Io(path.into(), error))?;
        Registry::from_bytes(&bytes).map_err(|error| OpenError::Refused(path.into(), error))
    }

    /// The registry of IANA's that the crate `bcp47-registry` has inside.
    ///
    /// ```
    /// let registry = bcp47::Registry::bundled()?;
    /// assert_eq!(registry.canonical("zh-yue").unwrap(), "yue");
    /// # Ok::<(), bcp47::RegistryError>(())
    /// ```
    #[cfg(feature = "bundled")]
    pub fn bundled() -> Result<Registry, RegistryError> {
        Registry::from_bytes(bcp47_registry::TEXT)
    }

    pub(crate) fn raw(&self) -> *mut sys::bcp47_registry {
        self.raw.as_ptr()
    }

    fn text(&self, writer: Writer, tag: &[u8]) -> Result<String, TagError> {
        let (front, length) = place_of(tag);
        // SAFETY: the registry is open, and the pointers and lengths are those of a text and of a buffer.
        written(|at, room| unsafe { writer(self.raw(), front, length, at, room) })
    }

    /// Whether a range matches a tag; by the scheme 0, whether two tags are equivalent.
    fn agree(&self, scheme: c_int, first: &[u8], second: &[u8]) -> Result<bool, TagError> {
        let (raw, (one, length), (other, other_length)) = (self.raw(), place_of(first), place_of(second));
        // SAFETY: as in `text`.
        let (outcome, variant) = called(|at, room| unsafe {
            match scheme {
                0 => sys::bcp47_equivalent(raw, one, length, other, other_length, at, room),
                _ => sys::bcp47_match(raw, scheme, one, length, other, other_length, at, room),
            }
        });
        match outcome.status {
            sys::BCP47_DONE => Ok(true),
            sys::BCP47_DIFFERENT => Ok(false),
            _ => Err(TagError::of(&outcome, || variant)),
        }
    }

    /// The canonical text of a tag, which is a text or bytes (RFC 5646, 4.5): `yue` for `zh-yue`.
    pub fn canonical(&self, tag: impl AsRef<[u8]>) -> Result<String, TagError> {
        self.text(sys::bcp47_canonical, tag.as_ref())
    }

    /// The canonical text with its extlang prefix (RFC 5646, 4.5): `zh-yue` for `yue`.
    pub fn extlang(&self, tag: impl AsRef<[u8]>) -> Result<String, TagError> {
        self.text(sys::bcp47_extlang, tag.as_ref())
    }

    /// Whether a text is a tag that is valid (RFC 5646, 2.2.9), and why it is not.
    pub fn validate(&self, tag: impl AsRef<[u8]>) -> Result<(), TagError> {
        let (front, length) = place_of(tag.as_ref());
        // SAFETY: as in `text`.
        let outcome = unsafe { sys::bcp47_validate(self.raw.as_ptr(), front, length) };
        match outcome.status {
            sys::BCP47_DONE => Ok(()),
            _ => Err(TagError::of(&outcome, String::new)),
        }
    }

    /// Whether two tags are equivalent: their canonical texts are equal. Refused for the first tag, or else for the second.
    pub fn equivalent(&self, first: impl AsRef<[u8]>, second: impl AsRef<[u8]>) -> Result<bool, TagError> {
        self.agree(0, first.as_ref(), second.as_ref())
    }

    /// Whether a language range matches a tag by a scheme (RFC 4647, 3.3 and 3.4), in a spelling of each: `zh-yue`
    /// matches `yue-HK`. Of a range that is no valid tag, for example `yue-*`, the first subtag is taken in its extlang form. Refused
    /// for the range, where it is neither a valid tag nor a range, or else for the tag.
    pub fn matches(&self, range: impl AsRef<[u8]>, tag: impl AsRef<[u8]>, scheme: Scheme) -> Result<bool, TagError> {
        self.agree(scheme as c_int, range.as_ref(), tag.as_ref())
    }

    /// The steps from a tag to its canonical form, at most so many.
    pub fn explain(&self, tag: impl AsRef<[u8]>, most: usize) -> Result<Explanation, TagError> {
        let ((front, length), mut steps, mut at) = (place_of(tag.as_ref()), ptr::null_mut(), ptr::null());
        // SAFETY: as in `text`; `steps` is what bcp47_free lets go of.
        let outcome = unsafe { sys::bcp47_steps(self.raw.as_ptr(), front, length, most, &mut steps, &mut at) };
        // SAFETY: `at` is at the variant, or at the tag of a step or the last tag: a text in ASCII with a zero after it.
        let mut next = || unsafe {
            let text = CStr::from_ptr(at).to_string_lossy().into_owned();
            at = at.add(text.len() + 1);
            text
        };
        let answer = if outcome.status == sys::BCP47_DONE {
            // SAFETY: the call gave so many.
            let numbers = unsafe { std::slice::from_raw_parts(steps, outcome.place) };
            let step = |step: &sys::bcp47_step| Step {
                kind: StepKind::ALL[usize::from(step.kind) - 1],
                place: step.place,
                number: step.number,
                tag: next(),
            };
            let steps = numbers.iter().map(step).collect();
            Ok(Explanation { steps, canonical: next() })
        } else {
            Err(TagError::of(&outcome, next))
        };
        // SAFETY: the call gave it, and nothing borrows it.
        unsafe { sys::bcp47_free(steps.cast()) };
        answer
    }

    /// The fields of a record of the file, each its name and its body, by its number from 1 on, with the header counted; none where
    /// it is not there. The numbers are those of a `Step`. The first call reads the records.
    pub fn record(&self, number: u32) -> Result<Vec<(String, String)>, TagError> {
        let (mut fields, mut at) = (ptr::null_mut(), ptr::null());
        // SAFETY: the registry is open; `fields` is what bcp47_free lets go of.
        let outcome = unsafe { sys::bcp47_record(self.raw.as_ptr(), number, &mut fields, &mut at) };
        if outcome.status != sys::BCP47_DONE {
            return Err(TagError::of(&outcome, String::new));
        }
        // SAFETY: at `at` are as many bytes, which are UTF-8, and a zero.
        let mut next = |length: usize| unsafe {
            let text = std::slice::from_raw_parts(at.cast::<u8>(), length);
            at = at.add(length + 1);
            String::from_utf8_lossy(text).into_owned()
        };
        // SAFETY: the call gave so many.
        let lengths = unsafe { std::slice::from_raw_parts(fields, outcome.place) };
        let texts = lengths.iter().map(|field| (next(field.name), next(field.body))).collect();
        // SAFETY: the call gave it, and nothing borrows it.
        unsafe { sys::bcp47_free(fields.cast()) };
        Ok(texts)
    }

    /// Which registry it is; the digest is taken anew at each call, some milliseconds.
    pub fn info(&self) -> Info {
        let mut info = sys::bcp47_info::default();
        // SAFETY: the registry is open, and `info` is one.
        unsafe { sys::bcp47_registry_info(self.raw.as_ptr(), &mut info) };
        // SAFETY: a zero ends it within its 11 bytes.
        let file_date = unsafe { CStr::from_ptr(info.file_date.as_ptr()) };
        Info { file_date: file_date.to_string_lossy().into_owned(), entries: info.entries, sha256: info.sha256 }
    }
}

impl Drop for Registry {
    fn drop(&mut self) {
        // SAFETY: no borrow is left, so no call is under way and none comes after.
        unsafe { sys::bcp47_close(self.raw.as_ptr()) }
    }
}

// `info` takes a digest, which what logs a value by Debug should not pay for.
impl fmt::Debug for Registry {
    fn fmt(&self, f: &mut fmt::Formatter<'_>) -> fmt::Result {
        f.debug_struct("Registry").finish_non_exhaustive()
    }
}
