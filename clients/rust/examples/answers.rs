//! Answers lines as the program does: those of standard input, over the tables of a schema's file where one is named.
use std::io::{self, BufRead, Write};
use std::{env, fs, process};
use weltiyo::{Database, LONGEST_LINE, OWN};

fn opened(file: Option<String>) -> Result<Database, Box<dyn std::error::Error>> {
    let text = file.map(fs::read).transpose()?.unwrap_or_default();
    Ok(Database::open(text)?)
}

fn main() -> Result<(), Box<dyn std::error::Error>> {
    let mut db = opened(env::args().nth(1)).unwrap_or_else(|fault| {
        eprintln!("{fault}");
        process::exit(3)
    });
    let mut out = io::BufWriter::new(io::stdout().lock());
    for line in io::stdin().lock().split(b'\n') {
        let mut line = line?;
        if line.len() <= LONGEST_LINE && line.ends_with(b"\r") {
            line.pop();
        }
        if !line.is_empty() {
            writeln!(out, "{}", db.answer(OWN, line))?;
        }
    }
    Ok(out.flush()?)
}
