//! Judges the trace text on standard input, and prints the verdict.

use std::io::{Read, Write};

fn main() -> std::io::Result<()> {
    let mut text = Vec::new();
    std::io::stdin().lock().read_to_end(&mut text)?;
    write!(std::io::stdout(), "{}", judge::verdict::judge(&text))
}
