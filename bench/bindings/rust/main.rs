//! Calls a second of the crate for Rust, beside those of oxilangtag where Debian's package of it is there. Arguments: registry, tags.
use std::ffi::c_long;

extern "C" {
    /// Millionths of a second of a processor that the program took.
    fn clock() -> c_long;
}

/// The best of five rounds over so many tags; what a round gives is added, so that it is not left out.
fn measure(name: &str, count: usize, ask: impl Fn() -> usize) {
    let (mut best, mut sum) = (f64::MAX, 0);
    for _ in 0..5 {
        // SAFETY: the call of C takes nothing.
        let begun = unsafe { clock() };
        sum += ask();
        best = best.min((unsafe { clock() } - begun) as f64 / 1e6);
    }
    let millions = count as f64 / best / 1e6;
    println!("Rust, {name}: {millions:.2} million tags a second ({sum} bytes)");
}

fn main() -> Result<(), Box<dyn std::error::Error>> {
    let words: Vec<String> = std::env::args().collect();
    let registry = bcp47::Registry::open(&words[1])?;
    let content = std::fs::read_to_string(&words[2])?;
    let tags: Vec<&str> = content.lines().collect();
    let length = |text: Result<String, _>| text.map_or(0, |text: String| text.len());
    let (valid, refused): (Vec<&str>, Vec<&str>) = tags.iter().partition(|tag| registry.validate(tag).is_ok());
    for (name, some) in [("valid", &valid), ("refused", &refused)] {
        measure(&format!("Registry::canonical, {name} tags"), some.len(), || {
            some.iter().map(|tag| length(registry.canonical(tag))).sum()
        });
    }
    measure("Tag and its parts, valid tags", valid.len(), || {
        let parts = |tag: &&str| tag.parse::<bcp47::Tag>().map_or(0, |tag| tag.parts().count());
        valid.iter().map(parts).sum()
    });
    let available = registry.available(&[
        "en", "de", "fr", "es", "pt-BR", "zh-Hans", "zh-Hant", "ja", "ko", "nb", "he", "sr-Latn",
    ])?;
    measure("Available::best, headers of three ranges over twelve", 100_000, || {
        let best = |_| available.best("de-CH,de;q=0.9,en;q=0.8").map_or(0, |tag| tag.map_or(0, str::len));
        (0..100_000).map(best).sum()
    });
    #[cfg(feature = "peer")]
    measure("oxilangtag, letter case alone", tags.len(), || {
        let cased = |tag: &&str| oxilangtag::LanguageTag::parse_and_normalize(tag);
        let length = |tag: &&str| cased(tag).map_or(0, |tag| tag.as_str().len());
        tags.iter().map(length).sum()
    });
    Ok(())
}
