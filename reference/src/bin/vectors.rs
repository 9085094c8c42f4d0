//! Writes the test vectors of a seed and prints how many there are of each
//! outcome.
//!
//! Usage: vectors [PATH [SEED]]

use std::collections::BTreeMap;
use std::env;
use std::fs;
use std::process::ExitCode;

use reference::vectors::{self, Kind};

fn main() -> ExitCode {
    let arguments: Vec<String> = env::args().skip(1).collect();
    let seed = arguments.get(1).map_or(Ok(1), |text| text.parse());
    let (Ok(seed), 0..=2) = (seed, arguments.len()) else {
        eprintln!("usage: vectors [PATH [SEED]]");
        return ExitCode::FAILURE;
    };
    let path = arguments.first().map_or("vectors.bin", String::as_str);

    let bytes = vectors::build(seed);
    let Some(all) = vectors::read(&bytes) else {
        eprintln!("the vectors do not read back");
        return ExitCode::FAILURE;
    };
    let mut outcomes: BTreeMap<(Kind, u32), usize> = BTreeMap::new();
    let mut above_silent: BTreeMap<u32, usize> = BTreeMap::new();
    for vector in &all {
        let number = vector.expected[0];
        *outcomes.entry((vector.kind, number)).or_default() += 1;
        if vector.bits_above_silent() > 0 {
            *above_silent.entry(number).or_default() += 1;
        }
    }
    for (kind, name) in [
        (Kind::Check, "check"),
        (Kind::Address, "address"),
        (Kind::Isolation, "isolation"),
        (Kind::Board, "board"),
        (Kind::Write, "write"),
        (Kind::Read, "read"),
    ] {
        print!("{name}");
        for (&(_, number), count) in outcomes.range((kind, 0)..=(kind, u32::MAX)) {
            print!(" {number}:{count}");
        }
        println!();
    }
    print!("bits above silent children");
    for (number, count) in above_silent {
        print!(" {number}:{count}");
    }
    println!();
    println!("cases {} bytes {} seed {seed}", all.len(), bytes.len());

    if let Err(error) = fs::write(path, &bytes) {
        eprintln!("{path}: {error}");
        return ExitCode::FAILURE;
    }
    ExitCode::SUCCESS
}
