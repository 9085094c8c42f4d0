//! Reads one file in hexadecimal from each line of standard input and prints
//! the checker's verdict on it.

use std::io::{self, BufRead, BufWriter, Write};
use std::process::ExitCode;

use reference::{checker, hex};

fn main() -> io::Result<ExitCode> {
    let mut out = BufWriter::new(io::stdout().lock());
    for (number, line) in io::stdin().lock().lines().enumerate() {
        let Some(file) = hex::decode(&line?) else {
            out.flush()?;
            eprintln!("line {} is not hexadecimal", number + 1);
            return Ok(ExitCode::FAILURE);
        };
        writeln!(out, "{}", checker::verdict(&file))?;
    }
    out.flush()?;
    Ok(ExitCode::SUCCESS)
}
