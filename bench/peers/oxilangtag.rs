// oxilangtag: letter case alone.
mod lines;

fn main() {
    lines::run(|line| Some(oxilangtag::LanguageTag::parse_and_normalize(line).ok()?.into_inner()));
}
