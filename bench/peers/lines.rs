// What the programs in Rust share: an answer to each line.
use std::io::{BufRead, BufWriter, Write, stdin, stdout};

pub fn run(answer: impl Fn(&str) -> Option<String>) {
    let mut output = BufWriter::new(stdout().lock());
    let mut line = Vec::new();
    let mut input = stdin().lock();
    while input.read_until(b'\n', &mut line).expect("a line") > 0 {
        let text = std::str::from_utf8(line.strip_suffix(b"\n").unwrap_or(&line));
        let told = text.ok().and_then(&answer);
        writeln!(output, "{}", told.as_deref().unwrap_or("!")).expect("room");
        line.clear();
    }
}
