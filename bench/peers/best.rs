//! Compares Available's best with `matches` of unic_langid, on which fluent-langneg stands, by generated Accept-Language headers over tags
//! where equivalence plays no role, and counts the answers by why they differ. The status is 1 where one differs and none of these is why.
//!
//! Arguments: a registry, and the number of cases.
use bcp47::{Registry, Scheme};
use std::collections::BTreeMap;
use std::env;
use std::error::Error;
use unic_langid::LanguageIdentifier;

const LANGUAGES: [&str; 6] = ["de", "en", "fr", "ja", "nl", "tr"];
const ENDS: [&str; 8] = ["", "", "-Latn", "-DE", "-US", "-CH", "-Latn-DE", "-DE-1996"];

/// Numbers that come again at each run.
struct Dice(u64);

impl Dice {
    fn below(&mut self, most: usize) -> usize {
        self.0 = self.0.wrapping_mul(6364136223846793005).wrapping_add(1442695040888963407);
        (self.0 >> 33) as usize % most
    }

    /// As many tags as that at most, and one at least, of which no two are alike.
    fn tags(&mut self, most: usize) -> Vec<String> {
        let mut made = Vec::new();
        for _ in 0..=self.below(most) {
            let tag = format!("{}{}", LANGUAGES[self.below(LANGUAGES.len())], ENDS[self.below(ENDS.len())]);
            if !made.contains(&tag) {
                made.push(tag);
            }
        }
        made
    }
}

/// Which of the tags a range finds first: one that is equal, or of which it is a narrower one, or else a narrower one of the range.
fn found<'a>(range: &LanguageIdentifier, tags: &[(LanguageIdentifier, &'a String)]) -> Option<&'a str> {
    let by = |as_range: bool, other: bool| tags.iter().find(|(tag, _)| tag.matches(range, as_range, other)).map(|(_, text)| &text[..]);
    by(false, false).or_else(|| by(true, false)).or_else(|| by(false, true))
}

fn main() -> Result<(), Box<dyn Error>> {
    let words: Vec<String> = env::args().collect();
    let registry = Registry::open(&words[1])?;
    let (mut dice, mut counts) = (Dice(1), BTreeMap::new());
    for _ in 0..words[2].parse()? {
        let (tags, ranges) = (dice.tags(8), dice.tags(4));
        let header = ranges.iter().enumerate().map(|(i, range)| format!("{range};q=0.{}", 9 - i)).collect::<Vec<_>>().join(", ");
        let available = registry.available(&tags)?;
        let best = available.best(&header)?;
        let read = tags.iter().map(|tag| Ok((tag.parse()?, tag))).collect::<Result<Vec<_>, Box<dyn Error>>>()?;
        let mut theirs = None;
        for range in &ranges {
            theirs = theirs.or(found(&range.parse()?, &read));
        }
        // by lookup or basic filtering, for the range that finds the other's
        let serves = |tag: &str| {
            ranges.iter().any(|range| [Scheme::Lookup, Scheme::Basic].iter().any(|&by| registry.matches(range, tag, by) == Ok(true)))
        };
        let why = match (best, theirs) {
            _ if best == theirs => "the same",
            (_, Some(theirs)) if !serves(theirs) => "a script or region in the middle of a tag is left out, which RFC 4647 does not",
            (Some(best), Some(theirs)) if theirs.len() < best.len() => "the longest tag, where unic_langid takes the first that fits",
            (Some(_), Some(_)) => "the first range that finds a tag, as RFC 4647 finds it",
            _ => "not known why",
        };
        let shown = format!("{header} of {}: {best:?}, unic_langid {theirs:?}", tags.join(" "));
        let of = counts.entry(why).or_insert((0, shown.clone()));
        *of = (of.0 + 1, if shown.len() < of.1.len() { shown } else { of.1.clone() });
    }
    counts.iter().for_each(|(why, (number, example))| println!("{number:8} {why}, for example {example}"));
    std::process::exit(counts.contains_key("not known why").into())
}
