// language-tags: canonical form by a registry that is compiled in, without `u` and `t`.
mod lines;

fn main() {
    lines::run(|line| Some(language_tags::LanguageTag::parse(line).ok()?.canonicalize().ok()?.into_string()));
}
