//! Compares the proved library with the reference on seeded cases, and stops
//! at the first difference.
//!
//! Usage: fuzz [--trace] [CASES [SEED]]
//!        fuzz --show SEED NUMBER
//!        fuzz --case PATH

use std::env;
use std::fs;
use std::process::ExitCode;

use compare::case::Case;
use compare::difference::compare;
use reference::board::MOST_SLOTS;
use reference::refusal::{self, OUTPUT_TOO_SHORT};

const USAGE: &str = "usage: fuzz [--trace] [CASES [SEED]]
       fuzz --show SEED NUMBER
       fuzz --case PATH";

fn main() -> ExitCode {
    let arguments: Vec<String> = env::args().skip(1).collect();
    let arguments: Vec<&str> = arguments.iter().map(String::as_str).collect();
    match arguments[..] {
        ["--case", path] => replay(path),
        ["--show", seed, number] => match (seed.parse(), number.parse()) {
            (Ok(seed), Ok(number)) => {
                print!("{}", Case::seeded(seed, number).to_text());
                ExitCode::SUCCESS
            }
            _ => usage(),
        },
        ["--trace", ref numbers @ ..] => run(numbers, true),
        ref numbers => run(numbers, false),
    }
}

fn usage() -> ExitCode {
    eprintln!("{USAGE}");
    ExitCode::FAILURE
}

fn replay(path: &str) -> ExitCode {
    let text = match fs::read_to_string(path) {
        Ok(text) => text,
        Err(error) => {
            eprintln!("{path}: {error}");
            return ExitCode::FAILURE;
        }
    };
    match Case::from_text(&text) {
        Ok(case) => match compare(&case) {
            Ok(outcomes) => {
                println!("no difference: {outcomes:?}");
                ExitCode::SUCCESS
            }
            Err(difference) => {
                println!("{difference}");
                ExitCode::FAILURE
            }
        },
        Err(line) => {
            eprintln!("not a line of a case: {line}");
            ExitCode::FAILURE
        }
    }
}

fn run(numbers: &[&str], trace: bool) -> ExitCode {
    let numbers: Option<Vec<u64>> = numbers.iter().map(|text| text.parse().ok()).collect();
    let (cases, seed) = match numbers.as_deref() {
        Some([]) => (100_000, 1),
        Some([cases]) => (*cases, 1),
        Some([cases, seed]) => (*cases, *seed),
        _ => return usage(),
    };

    let mut checked = [0u64; OUTPUT_TOO_SHORT as usize + 1];
    let mut queried = checked;
    let mut isolated = checked;
    let mut reported = checked;
    let mut boards = checked;
    let mut written = checked;
    let mut read = checked;
    let mut refused_slots = [0u64; MOST_SLOTS];
    let mut cut = 0u64;
    let mut above_silent = checked;
    let mut too_large_for_the_report = checked;
    for number in 0..cases {
        if trace {
            eprintln!("case {number}");
        }
        let case = Case::seeded(seed, number);
        match compare(&case) {
            Ok(outcomes) => {
                checked[usize::from(outcomes.check)] += 1;
                queried[usize::from(outcomes.address)] += 1;
                isolated[usize::from(outcomes.isolate)] += 1;
                reported[usize::from(outcomes.report)] += 1;
                boards[usize::from(outcomes.board)] += 1;
                written[usize::from(outcomes.write)] += 1;
                read[usize::from(outcomes.read)] += 1;
                if let Some(slot) = outcomes.slot {
                    refused_slots[usize::from(slot)] += 1;
                }
                cut += u64::from(outcomes.cut);
                above_silent[usize::from(outcomes.isolate)] += u64::from(outcomes.above_silent);
                too_large_for_the_report[usize::from(outcomes.check)] +=
                    u64::from(outcomes.is_too_large_for_the_report_alone());
            }
            Err(difference) => {
                println!("case {number} of seed {seed}: {difference}");
                println!("the case, for fuzz --case:");
                print!("{}", case.to_text());
                return ExitCode::FAILURE;
            }
        }
    }

    println!("cases {cases} seed {seed}, no difference");
    println!("reports with a text too short for them {cut}");
    println!(
        "isolations that list a bit whose child shows nothing {}, and that have no room for it {}",
        above_silent[0],
        above_silent[usize::from(refusal::NO_ROOM)]
    );
    print!("files too large for the report alone, by what the check says");
    for (number, count) in too_large_for_the_report.iter().enumerate() {
        if *count > 0 {
            print!(" {number}:{count}");
        }
    }
    println!();
    print!("boards refused by 1 to 18, by slot");
    for (slot, count) in refused_slots.iter().enumerate() {
        print!(" {slot}:{count}");
    }
    println!();
    println!("number check address isolate report board write read");
    let calls = [checked, queried, isolated, reported, boards, written, read];
    for number in 0..checked.len() {
        let counts = calls.map(|counts| counts[number]);
        // No call has the numbers between those of a board and of records.
        if number <= refusal::BOARD_DOES_NOT_ADD_UP.into() || counts.iter().any(|&n| n > 0) {
            let counts = counts.map(|count| count.to_string());
            println!("{number} {}", counts.join(" "));
        }
    }
    ExitCode::SUCCESS
}
