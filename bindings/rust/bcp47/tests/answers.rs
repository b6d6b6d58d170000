//! What the registry of examples/ answers, as the program does.
use bcp47::{
    Available, AvailableError, Class, Fault, OpenError, PartKind, Registry, RegistryError, Scheme, StepKind, Tag,
    TagError,
};
use std::collections::{BTreeSet, HashMap, HashSet};
use std::error::Error;
use std::thread;

fn path(name: &str) -> String {
    format!("{}/../../../examples/{name}", env!("CARGO_MANIFEST_DIR"))
}

fn sample() -> Registry {
    Registry::open(path("sample-registry.txt")).expect("it passes the check")
}

#[test]
fn texts_are_made_canonical() {
    let registry = sample();
    for (tag, canonical) in [("zh-yue", "yue"), ("I-KLINGON", "tlh"), ("en-t-iw-t0-und", "en-t-he-t0-und")] {
        assert_eq!(registry.canonical(tag).as_deref(), Ok(canonical));
        assert!(registry.equivalent(tag, canonical).unwrap());
    }
    assert_eq!(registry.extlang("yue").unwrap(), "zh-yue");
    assert!(!registry.equivalent("zh", "yue").unwrap());
}

#[test]
fn ranges_match() {
    let registry = sample();
    for (range, tag, matched) in [
        ("zh-yue", "yue-GB", [true, true, false]),
        ("yue-GB", "zh-yue", [false, false, true]),
        ("de-DE", "de-Latn-DE", [false, true, false]),
        ("zh-*", "zh-Hans", [true, true, false]),
        ("*", "de", [true, true, false]),
        ("en", "de", [false, false, false]),
    ] {
        let answers = [Scheme::Basic, Scheme::Extended, Scheme::Lookup]
            .map(|scheme| registry.matches(range, tag, scheme).unwrap());
        assert_eq!(answers, matched, "{range} {tag}");
    }
    for (range, tag, said) in [
        ("e_n", "e_n", "BadByte 0"),
        ("en", "e_n", "BadByte 1"),
        ("en", "xx", "UnknownLanguage 1"),
        ("*", "ja-Latn-hepburn-alalc97-heploc", "ReplacementRepeats alalc97"),
    ] {
        let error = registry.matches(range, tag, Scheme::Basic).unwrap_err();
        assert_eq!(error.to_string(), said);
    }
}

#[test]
fn the_longest_text_has_room() {
    let mut records = String::from("Type: language\nSubtag: aa\n");
    let mut tag = String::from("aa");
    let mut canonical = String::from("aa");
    for n in 0..204 {
        records += &format!("%%\nType: variant\nSubtag: 1{n:03}\nPreferred-Value: value{n:03}\n");
        records += &format!("%%\nType: variant\nSubtag: value{n:03}\n");
        tag += &format!("-1{n:03}");
        canonical += &format!("-value{n:03}");
    }
    let registry = Registry::from_bytes(records.as_bytes()).unwrap();
    assert_eq!((tag.len(), canonical.len()), (1022, 1838));
    assert_eq!(registry.canonical(&tag).as_deref(), Ok(&canonical[..]));
}

#[test]
fn refusals_say_why() {
    let registry = sample();
    let error = registry.canonical("en_US").unwrap_err();
    assert_eq!((error.to_string().as_str(), error.cause().unwrap().place()), ("BadByte 1", 1));
    assert!(error.help().contains("hyphen") && error.help() == error.cause().unwrap().help());
    let repeats = registry.canonical("ja-Latn-hepburn-alalc97-heploc");
    assert!(repeats.unwrap_err().help().contains("repeat the variant"));
    assert!(
        matches!(registry.validate("xx"), Err(TagError::Invalid(cause)) if cause.fault() == Fault::UnknownLanguage)
    );
    assert_eq!(registry.canonical("a".repeat(100_000)).unwrap_err().to_string(), "TooLong 0");
    assert_eq!(registry.validate("zh-yue"), Ok(()));
    assert_eq!(registry.equivalent("en", "").unwrap_err().to_string(), "EmptySubtag 1");
    assert_eq!(registry.canonical(b"\xff").unwrap_err().to_string(), "BadByte 1");
    assert_eq!(registry.canonical("é").unwrap_err().to_string(), "BadByte 1");
    assert_eq!(Registry::from_bytes(b"no registry\n").unwrap_err().to_string(), "jar BadLine line 1");
}

#[test]
fn a_registry_has_entries() {
    for bytes in [&b""[..], b"File-Date: 2000-01-01\n"] {
        let error = Registry::from_bytes(bytes).unwrap_err();
        assert_eq!((error.to_string().as_str(), error.cause()), ("NoEntries", None));
        assert!(error.help().contains("get it again"));
    }
    assert!(matches!(Registry::open("/dev/null"), Err(OpenError::Refused(_, why)) if why.to_string() == "NoEntries"));
}

/// What an error shows, and what each below it does.
fn chain(error: &dyn Error) -> Vec<String> {
    let mut shown = vec![error.to_string()];
    let mut next = error.source();
    while let Some(error) = next {
        shown.push(error.to_string());
        next = error.source();
    }
    shown
}

#[test]
fn files_that_give_no_registry_are_named_once() {
    let error = Registry::open("/no/such/file").unwrap_err();
    assert!(matches!(&error, OpenError::Io(path, _) if path.as_os_str() == "/no/such/file"));
    assert_eq!(chain(&error), ["can't read /no/such/file", "No such file or directory (os error 2)"]);
    let cause = error.source().and_then(|cause| cause.downcast_ref::<std::io::Error>());
    assert_eq!(cause.unwrap().kind(), std::io::ErrorKind::NotFound);
    let error = Registry::open(concat!(env!("CARGO_MANIFEST_DIR"), "/Cargo.toml")).unwrap_err();
    assert!(matches!(&error, OpenError::Refused(_, why) if why.cause().unwrap().fault() == Fault::BadLine));
    let shown = format!("{} is refused", concat!(env!("CARGO_MANIFEST_DIR"), "/Cargo.toml"));
    assert_eq!(chain(&error), [&shown[..], "jar BadLine line 1"]);
    assert!(error.source().unwrap().is::<RegistryError>());
}

#[test]
fn explanations_have_steps() {
    let registry = sample();
    let explanation = registry.explain("sgn-dd", 100).unwrap();
    assert_eq!(explanation.to_string(), "Region 2 27 sgn-DE\nWhole 1 44 gsg\n= gsg");
    assert_eq!(registry.explain("en", 0).unwrap().to_string(), "= en");
    assert_eq!(registry.explain("sgn-dd", 1), Err(TagError::TooManySteps));
    assert!(TagError::TooManySteps.help().contains("allow more"));
    assert!(TagError::OutOfMemory.help().contains("memory"));
    let step = &explanation.steps[0];
    assert_eq!((step.kind, step.place, step.number, step.tag.as_str()), (StepKind::Region, 2, 27, "sgn-DE"));
}

#[test]
fn tags_are_in_conventional_case() {
    let tag: Tag = "ZH-yue-hANT-hk".parse().unwrap();
    assert_eq!((tag.as_str(), tag.class()), ("zh-yue-Hant-HK", Class::Langtag));
    assert_eq!(format!("{tag:>16}"), "  zh-yue-Hant-HK");
    let parts: Vec<_> = tag.parts().map(|part| format!("{} {}", part.kind, part.text)).collect();
    assert_eq!(parts, ["Language zh", "Extlang yue", "Script Hant", "Region HK"]);
    let named = (tag.language(), tag.extlangs().next(), tag.script(), tag.region());
    assert_eq!(named, (Some("zh"), Some("yue"), Some("Hant"), Some("HK")));
    let long = Tag::try_from("sl-rozaj-biske-1994-x-own-1").unwrap();
    assert_eq!(long.variants().collect::<Vec<_>>(), ["rozaj", "biske", "1994"]);
    assert_eq!(long.private_use().collect::<Vec<_>>(), ["own", "1"]);
    let whole: Tag = "I-klingon".parse().unwrap();
    let parts: Vec<_> = whole.parts().map(|part| (part.kind, part.text)).collect();
    assert_eq!(parts, [(PartKind::Grandfathered, "i-klingon")]);
    assert_eq!((whole.language(), whole.script(), whole.as_str() == "i-klingon"), (None, None, true));
    assert_eq!("X-own".parse::<Tag>().unwrap().class(), Class::PrivateUse);
    assert_eq!("i-klingon".parse::<Tag>().unwrap().class(), Class::Grandfathered);
    assert_eq!("e".parse::<Tag>().unwrap_err().to_string(), "BadLanguage 1");
    let tags: HashSet<Tag> = ["EN", "en", "de"].iter().map(|tag| tag.parse().unwrap()).collect();
    assert_eq!(tags.len(), 2);
    assert_eq!(sample().canonical("ZH-YUE".parse::<Tag>().unwrap()).unwrap(), "yue");
}

#[test]
fn tags_are_keys_and_texts() {
    let tag: Tag = "ZH-hant".parse().unwrap();
    let counts: HashMap<Tag, u32> = HashMap::from([(tag.clone(), 7)]);
    assert_eq!((counts.get("zh-Hant"), counts.get(&tag), counts.get("ZH-hant")), (Some(&7), Some(&7), None));
    let sorted: BTreeSet<Tag> = ["zh-TW", "de", "zh"].map(|tag| tag.parse().unwrap()).into();
    assert!(sorted.contains("zh-TW") && !sorted.contains("en"));
    assert_eq!(sorted.iter().map(Tag::as_str).collect::<Vec<_>>(), ["de", "zh", "zh-TW"]);
    assert_eq!(format!("{tag:?}"), r#"Tag("zh-Hant")"#);
}

#[test]
fn what_is_shared_and_sent() {
    fn is<T: Send + Sync + std::panic::UnwindSafe + 'static>() {}
    fn is_error<T: Error + Send + Sync + 'static>() {}
    is::<Registry>();
    is::<Available>();
    is::<Tag>();
    is_error::<TagError>();
    is_error::<RegistryError>();
    is_error::<OpenError>();
    is_error::<AvailableError>();
}

#[test]
fn registries_are_told_apart() {
    let (registry, other) =
        (sample(), Registry::from_bytes(b"File-Date: 2000-01-01\n%%\nType: language\nSubtag: aa\n").unwrap());
    assert_eq!((other.info().file_date.as_str(), other.info().entries), ("2000-01-01", 1));
    assert_eq!(format!("{registry:?}"), "Registry { .. }");
    assert_eq!(bcp47::version(), env!("CARGO_PKG_VERSION"));
}

#[cfg(feature = "serde")]
#[test]
fn tags_are_texts_of_serde() {
    use serde::de::value::{Error, StrDeserializer};
    use serde::de::{Deserialize, IntoDeserializer};

    let read = |text: &'static str| -> Result<Tag, Error> {
        let text: StrDeserializer<Error> = text.into_deserializer();
        Tag::deserialize(text)
    };
    assert_eq!(read("ZH-hant").unwrap(), "zh-Hant".parse().unwrap());
    assert_eq!(read("en_US").unwrap_err().to_string(), "en_US: BadByte 1");
    // by the format of serde that shows texts
    struct Shown(Tag);
    impl std::fmt::Display for Shown {
        fn fmt(&self, f: &mut std::fmt::Formatter<'_>) -> std::fmt::Result {
            serde::Serialize::serialize(&self.0, f)
        }
    }
    assert_eq!(Shown("ZH-hant".parse().unwrap()).to_string(), "zh-Hant");
}

#[test]
fn threads_share_a_registry() {
    let registry = sample();
    thread::scope(|scope| {
        for _ in 0..8 {
            scope.spawn(|| {
                for _ in 0..2_000 {
                    assert_eq!(registry.canonical("zh-yue").unwrap(), "yue");
                    assert_eq!(registry.canonical("en-u-kn-true").unwrap(), "en-u-kn");
                }
            });
        }
    });
}

#[test]
fn readers_are_served() {
    let available = sample().available(&["en", "zh-yue", "de-DE", "he"]).unwrap();
    for (accept, best) in [
        ("de, en;q=0.8", Some("de-DE")),
        ("iw-XA;q=0.5, EN-gb;q=0.3", Some("he")),
        ("zh;q=0.2, yue;q=0.1", Some("zh-yue")),
        ("en;q=0, *", Some("zh-yue")),
        ("gan, fr", None),
        ("", None),
    ] {
        assert_eq!(available.best(accept), Ok(best), "{accept}");
    }
    assert_eq!(available.filter("zh;q=0.5, iw, de;q=0").unwrap(), ["he", "zh-yue"]);
    let refused = available.best("en, e_n").unwrap_err();
    assert!(matches!(refused, TagError::BadHeader(cause) if cause.place() == 2), "{refused:?}");
    assert_eq!(available.filter("en, e_n"), Err(refused.clone()));
    assert!(refused.help().len() > 9 && refused.to_string().ends_with(" 2"));
    let repeats = available.best("ja-Latn-hepburn-alalc97-heploc").unwrap_err();
    assert_eq!(repeats.to_string(), "ReplacementRepeats");
    for (tags, said) in
        [(["en", "e_n"], "e_n: BadByte 1"), (["xx", ""], "xx: UnknownLanguage 1"), (["en", ""], ": EmptySubtag 1")]
    {
        assert_eq!(sample().available(&tags).unwrap_err().to_string(), said);
    }
    let none: Available = sample().available::<&str>(&[]).unwrap();
    assert_eq!((none.best("en"), none.filter("*")), (Ok(None), Ok(vec![])));
    assert_eq!(format!("{none:?}"), "Available([])");
    thread::scope(|scope| {
        for _ in 0..8 {
            scope.spawn(|| (0..2_000).for_each(|_| assert_eq!(available.best("zh-yue;q=0.5"), Ok(Some("zh-yue")))));
        }
    });
}

#[test]
fn tags_have_parents() {
    let parent = |tag: &str| tag.parse::<Tag>().unwrap().parent().map(String::from);
    assert_eq!(parent("zh-Hant-CN-x-private1").as_deref(), Some("zh-Hant-CN"));
    assert_eq!((parent("zh"), parent("i-klingon")), (None, None));
}

#[test]
fn tags_are_changed() {
    let tag: Tag = "de-CH-1996-u-co-phonebk-x-own".parse().unwrap();
    for (kind, value, wanted) in [
        (PartKind::Language, "zh-yue", "zh-yue-CH-1996-u-co-phonebk-x-own"),
        (PartKind::Script, "LATN", "de-Latn-CH-1996-u-co-phonebk-x-own"),
        (PartKind::Region, "", "de-1996-u-co-phonebk-x-own"),
        (PartKind::Variant, "1901", "de-CH-1901-u-co-phonebk-x-own"),
        (PartKind::Singleton, "", "de-CH-1996-x-own"),
        (PartKind::PrivateUseSingleton, "x-a-b", "de-CH-1996-u-co-phonebk-x-a-b"),
    ] {
        assert_eq!(tag.with(kind, value).unwrap().as_str(), wanted);
    }
    for kind in [PartKind::Extlang, PartKind::Separator, PartKind::Grandfathered] {
        let error = tag.with(kind, "DE").unwrap_err();
        assert_eq!((error.to_string().as_str(), error.cause()), ("BadCall", None));
        assert!(error.help().contains("a number of no scheme or part"));
    }
    for (kind, value) in [(PartKind::Language, ""), (PartKind::Region, "D_"), (PartKind::Script, "Latin")] {
        assert!(matches!(tag.with(kind, value), Err(TagError::NotATag(_))));
    }
    for (name, wanted) in [("en_US.UTF-8", "en-US"), ("sr_RS@latin", "sr-Latn-RS"), ("C", "en-US-u-va-posix")] {
        assert_eq!(Tag::from_posix(name).unwrap().as_str(), wanted);
    }
    assert!(Tag::from_posix("de_DE@nothing").is_err());
}

#[test]
fn records_have_fields() {
    let registry = sample();
    assert_eq!(registry.record(1).unwrap(), [("File-Date".to_owned(), "2024-01-01".to_owned())]);
    assert!(registry.record(u32::MAX).unwrap().is_empty());
}
