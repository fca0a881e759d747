//! Reads lines, and prints what a node answers to each: `driver OPTIONS.. < LINES`. An empty line is none.
use std::io::{self, BufRead, BufWriter, Write};

fn main() -> Result<(), Box<dyn std::error::Error>> {
    let options: Vec<String> = std::env::args().skip(1).collect();
    let mut node = muoswyld::Node::open(&options.join(" "))?;
    let mut out = BufWriter::new(io::stdout().lock());
    for line in io::stdin().lock().split(b'\n') {
        let line = line?;
        if !line.is_empty() {
            out.write_all(node.tell(&line)?)?;
            out.write_all(b"\n")?;
        }
    }
    out.flush()?;
    Ok(())
}
