// unic-langid: letter case, of language, script, region and variants alone.
mod lines;

fn main() {
    lines::run(|line| unic_langid_impl::canonicalize(line).ok());
}
