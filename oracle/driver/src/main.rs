//! Reads cases from standard input and writes the answer line of the Rust for each; docs/REPLAY.md has both forms.
//!
//! A case that document 01 refuses is answered `none`, one where the Rust panics `panic` (and the block, where it says
//! that one has no bottom state), one where it returns an error `error`, a line that is no case `bad`.

mod accept;
mod answer;
mod block;
mod host;
mod lent;
mod line;
mod partition;
mod quotient;
mod run;
mod signature;
mod split;
mod steps;
mod table;

use std::io::{self, BufRead, BufWriter, Write};

use line::{Line, Stop};
use run::Operation;

/// The operations, a table for each file that holds some.
const TABLES: &[&[(&str, Operation)]] = &[
    block::OPERATIONS,
    partition::OPERATIONS,
    host::OPERATIONS,
    split::OPERATIONS,
    steps::OPERATIONS,
    signature::OPERATIONS,
    quotient::OPERATIONS,
];

fn case(text: &str) -> Result<String, Stop> {
    let mut line = Line::new(text);
    let name = line.name()?;
    let mut entries = TABLES.iter().copied().flatten();
    let (_, operation) = entries.find(|entry| entry.0 == name).ok_or(Stop::NoCase)?;
    operation(&mut line)
}

fn answer(text: &str) -> String {
    case(text).unwrap_or_else(|stop| {
        let word = match stop {
            Stop::NoCase => "bad",
            Stop::Refused => "none",
            Stop::Failed => "error",
            Stop::Panicked(_) => "panic",
        };
        word.to_string()
    })
}

fn main() -> io::Result<()> {
    assert!(cfg!(debug_assertions), "the Rust is run with debug assertions");
    run::quiet();
    let mut output = BufWriter::new(io::stdout().lock());
    for line in io::stdin().lock().split(b'\n') {
        let line = line?;
        if !line.is_empty() && line[0] != b'#' {
            writeln!(output, "{}", answer(&String::from_utf8_lossy(&line)))?;
        }
    }
    output.flush()
}
