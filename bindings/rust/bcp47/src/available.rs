//! The tags that a service has, and which of them a reader gets.
use crate::registry::place_of;
use crate::{Registry, TagError};
use bcp47_sys as sys;
use std::ptr::{self, NonNull};
use std::{error, fmt};

/// The tags of which a service serves one to each reader, prepared once. Any number of threads may ask at once, also where the
/// registry is no more.
///
/// ```
/// # let content = std::fs::read(concat!(env!("CARGO_MANIFEST_DIR"), "/../../../examples/sample-registry.txt")).unwrap();
/// # let registry = bcp47::Registry::from_bytes(&content)?;
/// let available = registry.available(&["en", "de", "yue"])?;
/// assert_eq!(available.best("de-DE, de;q=0.9, en;q=0.8")?, Some("de"));
/// assert_eq!(available.best("zh-yue-GB")?, Some("yue"));
/// assert_eq!(available.best("he")?.unwrap_or("en"), "en");
/// assert_eq!(available.filter("en;q=0.5, de")?, ["de", "en"]);
/// # Ok::<(), Box<dyn std::error::Error>>(())
/// ```
pub struct Available {
    raw: NonNull<sys::bcp47_available>,
    tags: Vec<String>,
}

// SAFETY: bcp47.h: any number of threads may ask at once, and any of them may close it.
unsafe impl Send for Available {}
unsafe impl Sync for Available {}

/// Why one of several tags is refused. It is shown with the tag, for example `en_US: BadByte 1`.
#[derive(Clone, Debug, PartialEq, Eq)]
pub struct AvailableError {
    /// The tag; empty where memory ran out.
    pub tag: String,
    /// Why it is refused.
    pub error: TagError,
}

impl fmt::Display for AvailableError {
    fn fmt(&self, f: &mut fmt::Formatter<'_>) -> fmt::Result {
        write!(f, "{}: {}", self.tag, self.error)
    }
}

// There is no source: what is shown tells the whole.
impl error::Error for AvailableError {}

impl Registry {
    /// Prepares the tags of which a service serves one. Refused for the first that `canonical` refuses.
    pub fn available<T: AsRef<str>>(&self, tags: &[T]) -> Result<Available, AvailableError> {
        let tags: Vec<String> = tags.iter().map(|tag| tag.as_ref().to_owned()).collect();
        let (texts, lengths): (Vec<_>, Vec<_>) = tags.iter().map(|tag| place_of(tag.as_bytes())).unzip();
        let (mut raw, of, count) = (ptr::null_mut(), self.raw(), tags.len());
        // SAFETY: the registry is open, and there are as many texts and lengths.
        let outcome = unsafe { sys::bcp47_available_open(&mut raw, of, texts.as_ptr(), lengths.as_ptr(), count) };
        match NonNull::new(raw) {
            Some(raw) if outcome.status == sys::BCP47_DONE => Ok(Available { raw, tags }),
            _ => Err(AvailableError {
                tag: tags.into_iter().nth((outcome.text as usize).wrapping_sub(1)).unwrap_or_default(),
                error: TagError::of(&outcome, String::new),
            }),
        }
    }
}

impl Available {
    /// The tag to serve to the reader of an Accept-Language header (RFC 9110, 12.5.4; RFC 4647, 3.4), as it was handed in; None where
    /// no range of the header serves one, so that the service takes its default.
    pub fn best(&self, accept: impl AsRef<[u8]>) -> Result<Option<&str>, TagError> {
        let (front, length) = place_of(accept.as_ref());
        // SAFETY: it is open, and the pointer and the length are those of a text.
        let outcome = unsafe { sys::bcp47_best(self.raw.as_ptr(), front, length) };
        match (outcome.status, outcome.place) {
            (sys::BCP47_DONE, 0) => Ok(None),
            (sys::BCP47_DONE, place) => Ok(Some(&self.tags[place - 1])),
            _ => Err(TagError::of(&outcome, String::new)),
        }
    }

    /// All tags that the header accepts, from the greatest weight to the least.
    pub fn filter(&self, accept: impl AsRef<[u8]>) -> Result<Vec<&str>, TagError> {
        let ((front, length), mut places) = (place_of(accept.as_ref()), vec![0; self.tags.len()]);
        // SAFETY: as in `best`, and there is room for as many places.
        let outcome = unsafe { sys::bcp47_filter(self.raw.as_ptr(), front, length, places.as_mut_ptr(), places.len()) };
        match outcome.status {
            sys::BCP47_DONE => Ok(places[..outcome.place].iter().map(|&place| &self.tags[place - 1][..]).collect()),
            _ => Err(TagError::of(&outcome, String::new)),
        }
    }
}

impl Drop for Available {
    fn drop(&mut self) {
        // SAFETY: no borrow is left, so no call is under way and none comes after.
        unsafe { sys::bcp47_available_close(self.raw.as_ptr()) }
    }
}

impl fmt::Debug for Available {
    fn fmt(&self, f: &mut fmt::Formatter<'_>) -> fmt::Result {
        f.debug_tuple("Available").field(&self.tags).finish()
    }
}
