//! Tags by no registry.
use crate::registry::{called, place_of, written};
use crate::{PartKind, TagError};
use bcp47_sys as sys;
use std::borrow::Borrow;
use std::ffi::c_int;
use std::fmt;
use std::hash::{Hash, Hasher};
use std::mem::MaybeUninit;
use std::str::FromStr;

/// The class of a tag (RFC 5646, 2.1).
#[derive(Clone, Copy, Debug, PartialEq, Eq, PartialOrd, Ord, Hash)]
pub enum Class {
    /// A langtag, for example `zh-Hant`.
    Langtag,
    /// Private use, for example `x-own`.
    PrivateUse,
    /// One of the 26 grandfathered tags, for example `i-klingon`.
    Grandfathered,
}

/// A part of a tag: its kind, for example `Script`, and its text, for example `Hant`.
#[derive(Clone, Copy, Debug, PartialEq, Eq, Hash)]
pub struct Part<'a> {
    /// The kind.
    pub kind: PartKind,
    /// The text.
    pub text: &'a str,
}

/// A tag in conventional case (RFC 5646, 2.1.1). Tags are equal, and in order, as their texts are: `Registry::equivalent`
/// compares what they mean. A map whose keys are tags finds them by their texts too.
#[derive(Clone, PartialEq, Eq, PartialOrd, Ord)]
pub struct Tag {
    text: String,
    kinds: Box<[PartKind]>,
}

impl Tag {
    /// Its text in conventional case.
    pub fn as_str(&self) -> &str {
        &self.text
    }

    /// Its parts, one for each subtag, in their order; a grandfathered tag is one part.
    pub fn parts(&self) -> impl Iterator<Item = Part<'_>> {
        // a grandfathered tag, which is one part, is left whole
        let texts = self.text.splitn(self.kinds.len(), '-');
        self.kinds.iter().zip(texts).map(|(&kind, text)| Part { kind, text })
    }

    /// Its class.
    pub fn class(&self) -> Class {
        match self.kinds.first() {
            Some(PartKind::PrivateUseSingleton) => Class::PrivateUse,
            Some(PartKind::Grandfathered) => Class::Grandfathered,
            _ => Class::Langtag,
        }
    }

    fn all(&self, kind: PartKind) -> impl Iterator<Item = &str> {
        self.parts().filter(move |part| part.kind == kind).map(|part| part.text)
    }

    /// The primary language (RFC 5646, 2.2.1); none of private use and of a grandfathered tag.
    pub fn language(&self) -> Option<&str> {
        self.all(PartKind::Language).next()
    }

    /// The extended languages (RFC 5646, 2.2.2).
    pub fn extlangs(&self) -> impl Iterator<Item = &str> {
        self.all(PartKind::Extlang)
    }

    /// The script (RFC 5646, 2.2.3).
    pub fn script(&self) -> Option<&str> {
        self.all(PartKind::Script).next()
    }

    /// The region (RFC 5646, 2.2.4).
    pub fn region(&self) -> Option<&str> {
        self.all(PartKind::Region).next()
    }

    /// The variants (RFC 5646, 2.2.5).
    pub fn variants(&self) -> impl Iterator<Item = &str> {
        self.all(PartKind::Variant)
    }

    /// The subtags after `x` (RFC 5646, 2.2.7).
    pub fn private_use(&self) -> impl Iterator<Item = &str> {
        self.all(PartKind::PrivateUse)
    }
}

impl Tag {
    /// The tag without its last subtag, and without the singletons that then end it (RFC 4647, 3.4); None where nothing is left.
    ///
    /// ```
    /// let tag: bcp47::Tag = "zh-Hant-TW".parse()?;
    /// assert_eq!(tag.parent().unwrap().as_str(), "zh-Hant");
    /// # Ok::<(), bcp47::TagError>(())
    /// ```
    pub fn parent(&self) -> Option<Tag> {
        let (front, length) = place_of(self.as_ref());
        // SAFETY: the pointers and lengths are those of a text and of a buffer.
        written(|at, room| unsafe { sys::bcp47_parent(front, length, at, room) }).ok()?.parse().ok()
    }

    /// The tag with one of its parts replaced: a `Language` (with its extlangs), `Script`, `Region`, all `Variant`s, all extensions
    /// (`Singleton`) or private use (`PrivateUseSingleton`); an empty value takes it away. Whether it is valid says `Registry::validate`.
    ///
    /// ```
    /// use bcp47::{PartKind, Tag};
    ///
    /// let tag: Tag = "zh-TW".parse()?;
    /// assert_eq!(tag.with(PartKind::Script, "hant")?.with(PartKind::Region, "")?.as_str(), "zh-Hant");
    /// # Ok::<(), bcp47::TagError>(())
    /// ```
    pub fn with(&self, kind: PartKind, value: impl AsRef<[u8]>) -> Result<Tag, TagError> {
        let ((front, length), (of, size)) = (place_of(self.as_ref()), place_of(value.as_ref()));
        // SAFETY: the pointers and lengths are those of texts and of a buffer.
        written(|at, room| unsafe { sys::bcp47_with(front, length, kind as c_int, of, size, at, room) })?.parse()
    }

    /// The tag that the name of a POSIX locale stands for.
    ///
    /// ```
    /// assert_eq!(bcp47::Tag::from_posix("sr_RS.UTF-8@latin")?.as_str(), "sr-Latn-RS");
    /// # Ok::<(), bcp47::TagError>(())
    /// ```
    pub fn from_posix(name: impl AsRef<[u8]>) -> Result<Tag, TagError> {
        let (front, length) = place_of(name.as_ref());
        // SAFETY: the pointers and lengths are those of a text and of a buffer.
        written(|at, room| unsafe { sys::bcp47_posix(front, length, at, room) })?.parse()
    }
}

impl FromStr for Tag {
    type Err = TagError;

    fn from_str(text: &str) -> Result<Tag, TagError> {
        let mut parts = [MaybeUninit::<sys::bcp47_part>::uninit(); sys::BCP47_PARTS];
        let ((front, length), to) = (place_of(text.as_bytes()), parts.as_mut_ptr().cast());
        // SAFETY: the pointers and lengths are those of a text, of a buffer and of an array.
        let (outcome, text) =
            called(|at, room| unsafe { sys::bcp47_parts(front, length, at, room, to, sys::BCP47_PARTS) });
        if outcome.status != sys::BCP47_DONE {
            return Err(TagError::of(&outcome, String::new));
        }
        // SAFETY: the call has written so many parts.
        let kinds = parts[..outcome.place].iter().map(|part| unsafe { part.assume_init() }.kind);
        Ok(Tag { text, kinds: kinds.map(|kind| PartKind::ALL[usize::from(kind) - 1]).collect() })
    }
}

impl TryFrom<&str> for Tag {
    type Error = TagError;

    fn try_from(text: &str) -> Result<Tag, TagError> {
        text.parse()
    }
}

impl From<Tag> for String {
    fn from(tag: Tag) -> String {
        tag.text
    }
}

// Its text alone, as `Borrow<str>` wants it.
impl Hash for Tag {
    fn hash<H: Hasher>(&self, state: &mut H) {
        self.text.hash(state)
    }
}

impl Borrow<str> for Tag {
    fn borrow(&self) -> &str {
        &self.text
    }
}

impl fmt::Debug for Tag {
    fn fmt(&self, f: &mut fmt::Formatter<'_>) -> fmt::Result {
        f.debug_tuple("Tag").field(&self.text).finish()
    }
}

impl fmt::Display for Tag {
    fn fmt(&self, f: &mut fmt::Formatter<'_>) -> fmt::Result {
        f.pad(&self.text)
    }
}

impl AsRef<str> for Tag {
    fn as_ref(&self) -> &str {
        &self.text
    }
}

impl AsRef<[u8]> for Tag {
    fn as_ref(&self) -> &[u8] {
        self.text.as_bytes()
    }
}

#[cfg(feature = "serde")]
impl serde::Serialize for Tag {
    fn serialize<S: serde::Serializer>(&self, serializer: S) -> Result<S::Ok, S::Error> {
        serializer.serialize_str(&self.text)
    }
}

#[cfg(feature = "serde")]
impl<'de> serde::Deserialize<'de> for Tag {
    fn deserialize<D: serde::Deserializer<'de>>(deserializer: D) -> Result<Tag, D::Error> {
        struct Text;

        impl serde::de::Visitor<'_> for Text {
            type Value = Tag;

            fn expecting(&self, f: &mut fmt::Formatter<'_>) -> fmt::Result {
                f.write_str("a language tag")
            }

            fn visit_str<E: serde::de::Error>(self, text: &str) -> Result<Tag, E> {
                text.parse().map_err(|error| E::custom(format_args!("{text:.100}: {error}")))
            }
        }

        deserializer.deserialize_str(Text)
    }
}
