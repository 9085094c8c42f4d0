//! Prints how often each outcome occurs among seeded cases.
//!
//! Usage: distribution [--colliding] [CASES [SEED]]
//!
//! With --colliding the cases are those whose IDs and names collide.

use std::env;
use std::process::ExitCode;

use reference::generate::{self, Case, Crowd, Random};
use reference::{bits_above_silent, isolate, reached_words, refusal};

const HIGHEST_NUMBER: usize = 19;

/// Kinds of words: the active bits of a reached instance.
const KINDS: [&str; 8] = [
    "none",
    "bit-0",
    "bit-63",
    "other-bit",
    "2-to-15",
    "16-to-47",
    "48-to-63",
    "all",
];

fn kind_of(word: u64) -> usize {
    match (word.count_ones(), word) {
        (0, _) => 0,
        (1, 0x8000_0000_0000_0000) => 1,
        (1, 1) => 2,
        (1, _) => 3,
        (2..=15, _) => 4,
        (16..=47, _) => 5,
        (48..=63, _) => 6,
        _ => 7,
    }
}

/// How many words are of each kind, and how many cases have one of it.
#[derive(Default)]
struct Words {
    of_kind: [u64; KINDS.len()],
    cases: [u64; KINDS.len()],
}

impl Words {
    fn add(&mut self, words: &[u64]) {
        let mut seen = [0; KINDS.len()];
        for &word in words {
            seen[kind_of(word)] += 1;
        }
        for (kind, count) in seen.into_iter().enumerate() {
            self.of_kind[kind] += count;
            self.cases[kind] += u64::from(count > 0);
        }
    }
}

/// The kinds of numbers that collide.
const NUMBERS: [&str; 4] = ["register-ids", "register-names", "node-ids", "node-names"];

/// How many files have so many colliding numbers, of any kind and of each kind.
#[derive(Default)]
struct Collisions {
    files: u64,
    bytes: u64,
    longest: usize,
    /// At least two, four and 33 that start at one place, and one without a place.
    any: [u64; 4],
    of_kind: [[u64; 4]; NUMBERS.len()],
}

impl Collisions {
    fn add(&mut self, file: &[u8], crowds: [Crowd; NUMBERS.len()]) {
        self.files += 1;
        self.bytes += file.len() as u64;
        self.longest = self.longest.max(file.len());
        let mut any = [false; 4];
        for (crowd, counts) in crowds.iter().zip(&mut self.of_kind) {
            let is_so = [
                crowd.most_at_one_start >= 2,
                crowd.most_at_one_start >= 4,
                crowd.most_at_one_start >= 33,
                crowd.without_place > 0,
            ];
            for at in 0..4 {
                counts[at] += u64::from(is_so[at]);
                any[at] |= is_so[at];
            }
        }
        for (count, is_so) in self.any.iter_mut().zip(any) {
            *count += u64::from(is_so);
        }
    }

    fn print(&self) {
        let average = self.bytes / self.files.max(1);
        println!("file-bytes average {average} longest {}", self.longest);
        let kinds = NUMBERS.iter().zip(self.of_kind);
        for (name, [two, four, many, without]) in [(&"any", self.any)].into_iter().chain(kinds) {
            println!(
                "files-with {name} two-alike {two} four-alike {four} 33-alike {many} without-place {without}"
            );
        }
    }
}

fn main() -> ExitCode {
    let mut arguments: Vec<String> = env::args().skip(1).collect();
    let is_colliding = arguments
        .first()
        .is_some_and(|first| first == "--colliding");
    arguments.drain(..usize::from(is_colliding));
    let numbers: Option<Vec<u64>> = arguments.iter().map(|text| text.parse().ok()).collect();
    let (cases, seed) = match numbers.as_deref() {
        Some([]) => (100_000, 1),
        Some([cases]) => (*cases, 1),
        Some([cases, seed]) => (*cases, *seed),
        _ => {
            eprintln!("usage: distribution [--colliding] [CASES [SEED]]");
            return ExitCode::FAILURE;
        }
    };

    let mut random = Random::new(seed);
    let mut isolated = 0u64;
    let mut with_records = 0u64;
    let mut above_silent = [0u64; HIGHEST_NUMBER + 1];
    let mut refused = [0u64; HIGHEST_NUMBER + 1];
    let mut reached = Words::default();
    let mut collisions = Collisions::default();
    let mut next_case = || -> Case {
        if !is_colliding {
            return generate::case(&mut random);
        }
        let map = generate::colliding_file(&mut random);
        let case = generate::case_of(&mut random, &map);
        collisions.add(&case.file, generate::crowds(&map));
        case
    };
    for _ in 0..cases {
        let case = next_case();
        let mut list = vec![0; case.room];
        let answer = isolate(
            &case.file,
            case.attention_type,
            &case.words,
            &case.read,
            &mut list,
        );
        let number = answer.map_or_else(|refusal| usize::from(refusal.number), |_| 0);
        let bits = bits_above_silent(&case.file, case.attention_type, &case.words, &case.read);
        above_silent[number] += u64::from(bits > 0);
        let words = reached_words(&case.file, case.attention_type, &case.words, &case.read);
        reached.add(&words);
        match answer {
            Ok((records, _)) => {
                isolated += 1;
                with_records += u64::from(records > 0);
            }
            Err(_) => refused[number] += 1,
        }
    }

    let after_check: u64 = refused[15..].iter().sum();
    println!("cases {cases} seed {seed}");
    if is_colliding {
        collisions.print();
    }
    println!("accepted {}", isolated + after_check);
    println!("isolated {isolated} with-records {with_records}");
    println!(
        "bits-above-silent isolated {} refused-19 {}",
        above_silent[0],
        above_silent[usize::from(refusal::NO_ROOM)]
    );
    for (name, counts) in [
        ("reached-words", reached.of_kind),
        ("cases-with", reached.cases),
    ] {
        print!("{name}");
        for (kind, count) in KINDS.iter().zip(counts) {
            print!(" {kind} {count}");
        }
        println!();
    }
    for (number, count) in refused.iter().enumerate().skip(1) {
        println!("refused-{number} {count}");
    }
    ExitCode::SUCCESS
}
