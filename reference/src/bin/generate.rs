//! Prints a random scenario: `generate KIND SEED [SIZE]`.

use std::io::{self, Write};
use std::process::ExitCode;

use reference::generate::{self, Kind};

fn main() -> ExitCode {
    let words: Vec<String> = std::env::args().skip(1).collect();
    let Some(text) = scenario(&words) else {
        eprintln!("usage: generate plan|add|network|bench SEED [SIZE]");
        return ExitCode::FAILURE;
    };
    match io::stdout().write_all(text.as_bytes()) {
        Ok(()) => ExitCode::SUCCESS,
        Err(_) => ExitCode::FAILURE,
    }
}

fn scenario(words: &[String]) -> Option<String> {
    let (kind, seed, size) = match words {
        [kind, seed] => (kind, seed, None),
        [kind, seed, size] => (kind, seed, Some(size)),
        _ => return None,
    };
    let kind = Kind::named(kind)?;
    let size = match size {
        Some(size) => size.parse().ok()?,
        None => kind.usual_size(),
    };
    Some(generate::scenario(kind, seed.parse().ok()?, size))
}
