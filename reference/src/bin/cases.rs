//! Prints the hand-made checker cases: name, file in hexadecimal and verdict.
//! Fails if the checker disagrees with a verdict.

use std::collections::HashSet;
use std::io::{self, BufWriter, Write};
use std::process::ExitCode;

use reference::{cases, checker, hex};

fn main() -> io::Result<ExitCode> {
    let mut out = BufWriter::new(io::stdout().lock());
    let mut names = HashSet::new();
    let mut agree = true;
    for case in cases::all() {
        writeln!(
            out,
            "{}\t{}\t{}",
            case.name,
            hex::encode(&case.file),
            case.verdict
        )?;
        let verdict = checker::verdict(&case.file);
        if verdict != case.verdict {
            eprintln!("{}: {} by hand, {verdict} found", case.name, case.verdict);
            agree = false;
        }
        if !names.insert(case.name.clone()) {
            eprintln!("{}: a second case of this name", case.name);
            agree = false;
        }
    }
    out.flush()?;
    Ok(if agree {
        ExitCode::SUCCESS
    } else {
        ExitCode::FAILURE
    })
}
