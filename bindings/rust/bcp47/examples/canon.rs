//! Answers each line of the input as `langtag canon` does. Arguments: a registry; and `explain`, to answer as that does.
use std::fmt::Display;
use std::io::{self, BufRead, Write};

fn tell(output: &mut impl Write, answer: Result<impl Display, bcp47::TagError>) -> io::Result<()> {
    match answer {
        Ok(text) => writeln!(output, "{text}"),
        Err(error) => writeln!(output, "! {error}"),
    }
}

fn main() -> Result<(), Box<dyn std::error::Error>> {
    let mut words = std::env::args().skip(1);
    let registry = bcp47::Registry::open(words.next().ok_or("name a registry")?)?;
    let mut lines = io::stdin().lock().split(b'\n');
    let mut output = io::BufWriter::new(io::stdout().lock());
    match words.next().as_deref() {
        Some("explain") => {
            lines.try_for_each(|line| tell(&mut output, registry.explain(line?, usize::MAX)))?;
        }
        _ => lines.try_for_each(|line| tell(&mut output, registry.canonical(line?)))?,
    }
    output.flush()?;
    Ok(())
}
