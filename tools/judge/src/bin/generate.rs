//! Writes one text of a kind, made from a seed: `generate SEED KIND`.

use judge::generate::{KINDS, text};
use std::io::Write;
use std::process::ExitCode;

fn main() -> ExitCode {
    let arguments: Vec<String> = std::env::args().skip(1).collect();
    let seed = arguments.first().and_then(|seed| seed.parse().ok());
    match (seed, arguments.get(1)) {
        (Some(seed), Some(kind)) if let Some(text) = text(seed, kind) => match std::io::stdout().write_all(&text) {
            Ok(()) => ExitCode::SUCCESS,
            Err(_) => ExitCode::FAILURE,
        },
        _ => {
            eprintln!("usage: generate SEED KIND, where KIND is one of {} or targetN", KINDS.join(", "));
            ExitCode::from(2)
        }
    }
}
