//! Compares the time of the proved library with that of two Rust
//! implementations of the same calls. Prints ratios of medians.
//!
//! Usage: bench [PART]
//!
//! With PART only the jobs whose names contain it.

use std::hint::black_box;
use std::time::{Duration, Instant};

use compare::proved;
use reference::board::{self, Board, Lent, MOST_SLOTS};
use reference::isolation::RECORD_BYTES;
use reference::large::{self, Crowding, Order};
use reference::records::{ReadRecords, WriteRecords, RECORD_BYTES as BYTES_OF_A_RECORD};
use reference::refusal::OUTPUT_TOO_SHORT;
use reference::vectors::{
    expected_of_board, expected_of_check, expected_of_pair, expected_of_records, EXPECTED,
};
use reference::{fast, readings, Accepted, Limits, Refusal};

/// One measurement repeats a call for at least so long.
const SHORTEST: Duration = Duration::from_micros(500);
/// All measurements of one job take about so long; those of one whose calls take
/// long are fewer.
const LONGEST: Duration = Duration::from_secs(4);
const LONGEST_OF_LONG_CALLS: Duration = Duration::from_millis(1_500);
const LONG_ROUND: Duration = Duration::from_millis(10);
const FEWEST_ROUNDS: usize = 15;
const MOST_ROUNDS: usize = 301;
/// One whose rounds take longer than this has fewer still.
const VERY_LONG_ROUND: Duration = Duration::from_millis(500);
const FEWEST_VERY_LONG_ROUNDS: usize = 5;

const LIBRARY: Limits = Limits::LIBRARY;
const PROGRAM: Limits = Limits::PROGRAM;

type Answer = [u32; EXPECTED];

/// The same call by each of the implementations.
struct Job<'a> {
    name: String,
    proved: Box<dyn FnMut() -> Answer + 'a>,
    reference: Box<dyn FnMut() -> Answer + 'a>,
    fast: Box<dyn FnMut() -> Answer + 'a>,
}

fn answer_of(out: &[u64]) -> Answer {
    let mut answer = [0; EXPECTED];
    for (value, &place) in answer.iter_mut().zip(out) {
        *value = place as u32;
    }
    answer
}

fn check<'a>(name: &str, file: &'a [u8]) -> Job<'a> {
    let mut out = [0; proved::CHECK_PLACES];
    Job {
        name: format!("check of {name}"),
        proved: Box::new(move || {
            proved::check(black_box(file), &mut out);
            answer_of(&out)
        }),
        reference: Box::new(|| expected_of_check(reference::check(black_box(file)))),
        fast: Box::new(|| expected_of_check(fast::check(black_box(file)))),
    }
}

/// A check that refuses by this number.
fn refused_check<'a>(number: u8, name: &str, file: &'a [u8]) -> Job<'a> {
    let refusal = reference::check(file).expect_err(name);
    assert_eq!(refusal.number, number, "{name}");
    check(&format!("{name}: refused by {number}"), file)
}

/// The file without its last byte.
fn but_one(file: &[u8]) -> &[u8] {
    &file[..file.len() - 1]
}

fn address<'a>(name: &str, file: &'a [u8], id: u32) -> Job<'a> {
    let mut out = [0; proved::ADDRESS_PLACES];
    Job {
        name: format!("address of {name}"),
        proved: Box::new(move || {
            proved::address(black_box(file), u64::from(id), 0, &mut out);
            answer_of(&out)
        }),
        reference: Box::new(move || {
            expected_of_pair(reference::address(black_box(file), black_box(id), 0))
        }),
        fast: Box::new(move || expected_of_pair(fast::address(black_box(file), black_box(id), 0))),
    }
}

type Isolate = fn(&[u8], u8, &[u64], &[u8], &mut [u8]) -> Result<(usize, usize), Refusal>;

/// The answer is what the calls return; the lists are compared here.
fn isolate<'a>(name: &str, file: &'a [u8], words: &'a [u64], read: &'a [u8]) -> Job<'a> {
    let mut out = [0; proved::ISOLATE_PLACES];
    // 64 bits of each node instance.
    let instances = reference::check(file).map_or(0, |summary| summary.node_instances);
    let room = 64 * instances * RECORD_BYTES;
    let mut list = vec![0xEE; room];
    let mut fast_list = list.clone();
    let mut clear_list = list.clone();
    proved::isolate(
        file,
        large::ATTENTION_TYPE,
        words,
        read,
        &mut list,
        &mut out,
    );
    let _ = fast::isolate(file, large::ATTENTION_TYPE, words, read, &mut fast_list);
    let _ = reference::isolate(file, large::ATTENTION_TYPE, words, read, &mut clear_list);
    assert!(list == clear_list && fast_list == clear_list, "{name}");
    let by_rust = |isolate: Isolate| {
        let mut list = vec![0; room];
        move || {
            let answer = isolate(
                black_box(file),
                large::ATTENTION_TYPE,
                black_box(words),
                black_box(read),
                &mut list,
            );
            black_box(&mut list);
            expected_of_pair(answer)
        }
    };
    Job {
        name: format!("isolation on {name}"),
        proved: Box::new(move || {
            proved::isolate(
                black_box(file),
                large::ATTENTION_TYPE,
                black_box(words),
                black_box(read),
                &mut list,
                &mut out,
            );
            black_box(&mut list);
            answer_of(&out)
        }),
        reference: Box::new(by_rust(reference::isolate)),
        fast: Box::new(by_rust(fast::isolate)),
    }
}

/// The answer is what the calls return; the lists are compared here.
fn board_job(name: &str, board: Board) -> Job<'static> {
    let mut out = [0; proved::BOARD_PLACES];
    let board: &'static Board = Box::leak(Box::new(board));
    let by_proved = move |list: &mut [u8], out: &mut [u64]| {
        let board = black_box(board);
        proved::board(
            Lent::new(&board.files, &board.file_lengths),
            board.attention_type,
            Lent::new(&board.words, &board.word_lengths),
            Lent::new(&board.read, &board.read_lengths),
            list,
            out,
        )
    };
    let mut list = vec![0xEE; board.room];
    let mut fast_list = list.clone();
    let mut clear_list = list.clone();
    by_proved(&mut list, &mut out);
    let _ = board.isolate(fast::isolate_board, &mut fast_list);
    let _ = board.isolate(reference::isolate_board, &mut clear_list);
    assert!(list == clear_list && fast_list == clear_list, "{name}");
    let by_rust = move |isolate_board: board::IsolateBoard| {
        let mut list = vec![0; board.room];
        move || {
            let answer = black_box(board).isolate(isolate_board, &mut list);
            black_box(&mut list);
            expected_of_board(answer)
        }
    };
    Job {
        name: format!("board of {name}"),
        proved: Box::new(move || {
            by_proved(&mut list, &mut out);
            black_box(&mut list);
            answer_of(&out)
        }),
        reference: Box::new(by_rust(reference::isolate_board)),
        fast: Box::new(by_rust(fast::isolate_board)),
    }
}

/// So many slots with one file, whose registers all have these bits. The list has
/// room for all bits of the node instances.
fn slots_of(slots: usize, file: &[u8], bits: u64) -> Board {
    let summary = reference::check(file).expect("the file is accepted");
    let words = vec![bits; summary.register_instances];
    let read = vec![1; summary.register_instances];
    let room = slots * summary.node_instances * 64 * RECORD_BYTES;
    let mut board = Board::new(large::ATTENTION_TYPE, room);
    for _ in 0..slots {
        board.add(file, &words, &read);
    }
    board
}

/// The same without the last byte of the last file: refused in the last slot.
fn cut_in_the_last_slot(mut board: Board) -> Board {
    board.files.truncate(board.files.len() - 1);
    if let Some(last) = board.file_lengths.last_mut() {
        *last -= 1;
    }
    board
}

/// Boards of one slot and of sixteen.
fn boards() -> Vec<Job<'static>> {
    let top_bit = 1 << 63;
    let row = large::children(256, 1, false);
    let wide = large::children(256, large::MOST_CHILDREN, false);
    let largest_row = large::children(LIBRARY.node_instances, 1, false);
    let largest = large::children(LIBRARY.node_instances, large::MOST_CHILDREN, false);
    let sixteen = |file: &[u8], bits| slots_of(MOST_SLOTS, file, bits);
    vec![
        board_job("one slot, B1", slots_of(1, &large::B1, top_bit)),
        board_job("sixteen B1", sixteen(&large::B1, top_bit)),
        board_job(
            "one slot of 256 instances, a row, one record",
            slots_of(1, &row, top_bit),
        ),
        board_job(
            "sixteen of 256 instances, a row, one record each",
            sixteen(&row, top_bit),
        ),
        board_job(
            "sixteen of 256 instances, a row, 16,129 records each",
            sixteen(&row, u64::MAX),
        ),
        board_job(
            "sixteen of 256 instances, 60 children each",
            sixteen(&wide, u64::MAX),
        ),
        board_job(
            "sixteen of 256 instances, refused by 2 in the last slot",
            cut_in_the_last_slot(sixteen(&wide, u64::MAX)),
        ),
        board_job(
            "sixteen of 1,024 instances, a row, one record each",
            sixteen(&largest_row, top_bit),
        ),
        board_job(
            "sixteen of 1,024 instances, 60 children each",
            sixteen(&largest, u64::MAX),
        ),
    ]
}

/// The records of a file that is accepted.
fn records_of(file: &[u8]) -> Vec<u8> {
    let needed = fast::read_records(file, &mut []).expect_err("there is no room");
    let mut records = vec![0; needed.place];
    let read = fast::read_records(file, &mut records);
    assert_eq!(read, Ok(records.len()));
    records
}

/// Writing these records in just enough room, or in the room of the records if
/// they are refused. The answer is what the calls return; the files are compared
/// here.
fn write_of(name: &str, records: Vec<u8>) -> Job<'static> {
    let mut out = [0; proved::RECORDS_PLACES];
    let records = kept(records);
    let room = match fast::write_records(1, records, &mut []) {
        Err(refusal) if refusal.number == OUTPUT_TOO_SHORT => refusal.place,
        _ => records.len(),
    };
    let mut file = vec![0xEE; room];
    let mut fast_file = file.clone();
    let mut clear_file = file.clone();
    proved::write(1, records, &mut file, &mut out);
    let _ = fast::write_records(1, records, &mut fast_file);
    let _ = reference::write_records(1, records, &mut clear_file);
    assert!(file == clear_file && fast_file == clear_file, "{name}");
    let by_rust = move |write: WriteRecords| {
        let mut file = vec![0; room];
        move || {
            let answer = write(1, black_box(records), &mut file);
            black_box(&mut file);
            expected_of_records(answer)
        }
    };
    Job {
        name: format!("write of {name}"),
        proved: Box::new(move || {
            proved::write(1, black_box(records), &mut file, &mut out);
            black_box(&mut file);
            answer_of(&out)
        }),
        reference: Box::new(by_rust(reference::write_records)),
        fast: Box::new(by_rust(fast::write_records)),
    }
}

/// Reading the records of a file in just enough room. The answer is what the calls
/// return; the records are compared here.
fn read_of(name: &str, file: Vec<u8>) -> Job<'static> {
    let mut out = [0; proved::RECORDS_PLACES];
    let file = kept(file);
    let expected = records_of(file);
    let room = expected.len();
    let mut records = vec![0xEE; room];
    let mut clear_records = records.clone();
    proved::read(file, &mut records, &mut out);
    let _ = reference::read_records(file, &mut clear_records);
    assert!(records == expected && clear_records == expected, "{name}");
    let by_rust = move |read: ReadRecords| {
        let mut records = vec![0; room];
        move || {
            let answer = read(black_box(file), &mut records);
            black_box(&mut records);
            expected_of_records(answer)
        }
    };
    Job {
        name: format!("read of {name}"),
        proved: Box::new(move || {
            proved::read(black_box(file), &mut records, &mut out);
            black_box(&mut records);
            answer_of(&out)
        }),
        reference: Box::new(by_rust(reference::read_records)),
        fast: Box::new(by_rust(fast::read_records)),
    }
}

/// Files to write and to read as records.
fn files_as_records() -> Vec<(&'static str, Vec<u8>)> {
    let registers = LIBRARY.register_instances;
    let count = LIBRARY.node_instances;
    vec![
        ("B1", large::B1.to_vec()),
        ("64 KB, most of it captures", large::captures(PROGRAM, 0)),
        ("64 KB, deep expressions", large::deep_expressions(PROGRAM)),
        (
            "1,024 registers of one instance",
            large::register_instances(1_024, 1),
        ),
        (
            "256 instances, 60 children each",
            large::children(256, large::MOST_CHILDREN, false),
        ),
        ("1 MB, most of it captures", large::captures(LIBRARY, 0)),
        ("1 MB, deep expressions", large::deep_expressions(LIBRARY)),
        (
            "8,192 registers, IDs shuffled",
            large::registers_in(Order::Shuffled, registers),
        ),
        (
            "8,192 instances of 33 registers",
            large::register_instances(registers, 255),
        ),
        (
            "1,024 instances, 60 children each",
            large::children(count, large::MOST_CHILDREN, false),
        ),
    ]
}

/// Files written from records and read as records, and records that are refused.
fn records() -> Vec<Job<'static>> {
    let mut jobs = Vec::new();
    for (name, file) in files_as_records() {
        jobs.push(write_of(name, records_of(&file)));
        jobs.push(read_of(name, file));
    }
    let captures = records_of(&large::captures(LIBRARY, 0));
    let last = captures.len() - BYTES_OF_A_RECORD;
    let refused = |name: &str, number: u8, change: &dyn Fn(&mut Vec<u8>)| {
        let mut records = captures.clone();
        change(&mut records);
        let refusal = fast::write_records(1, &records, &mut []).expect_err(name);
        assert_eq!(refusal.number, number, "{name}");
        write_of(&format!("{name}: refused by {number}"), records)
    };
    // The root, which is the last record: another kind, and another instance.
    jobs.push(refused(
        "1 MB of captures, the root of kind 10",
        40,
        &|list| {
            list[last] = 10;
        },
    ));
    jobs.push(refused("1 MB of captures, the root absent", 12, &|list| {
        list[last + 3] = 1;
    }));
    // A NOT before the last expression.
    jobs.push(refused("1 MB of captures and a byte", 1, &|list| {
        let not = [7, 0x12, 0, 0, 0, 0, 0, 0, 0, 0, 0, 0, 0, 0, 0, 0];
        let expression = last - BYTES_OF_A_RECORD;
        list.splice(expression..expression, not);
    }));
    jobs
}

/// Files of 1 KB, 2 KB and so on to the library's limit, written and read.
fn growth_of_records() -> [Vec<Job<'static>>; 2] {
    let mut writes = Vec::new();
    let mut reads = Vec::new();
    for power in 10..=LIBRARY.bytes.trailing_zeros() {
        let file = large::of_size(1 << power);
        let name = format!("some of everything, {} KB", written(1 << (power - 10)));
        writes.push(write_of(&name, records_of(&file)));
        reads.push(read_of(&name, file));
    }
    [writes, reads]
}

/// The answer is the length of the text; the texts are compared here.
fn report<'a>(name: &str, file: &'a [u8], readings_file: &'a [u8]) -> Job<'a> {
    let mut text = vec![0; proved::TEXT_BYTES];
    let mut fast_text = text.clone();
    let clear_text = reference::report(file, large::ATTENTION_TYPE, readings_file);
    let length = proved::report(file, large::ATTENTION_TYPE, readings_file, &mut text);
    assert!(text[..length] == *clear_text.as_bytes(), "{name}");
    let length = fast::report(file, large::ATTENTION_TYPE, readings_file, &mut fast_text);
    assert!(fast_text[..length] == *clear_text.as_bytes(), "{name}");
    Job {
        name: format!("report on {name}"),
        proved: Box::new(move || {
            let length = proved::report(
                black_box(file),
                large::ATTENTION_TYPE,
                black_box(readings_file),
                &mut text,
            );
            black_box(&mut text);
            answer_of(&[length as u64])
        }),
        reference: Box::new(move || {
            let text = reference::report(
                black_box(file),
                large::ATTENTION_TYPE,
                black_box(readings_file),
            );
            answer_of(&[black_box(text).len() as u64])
        }),
        fast: Box::new(move || {
            let length = fast::report(
                black_box(file),
                large::ATTENTION_TYPE,
                black_box(readings_file),
                &mut fast_text,
            );
            black_box(&mut fast_text);
            answer_of(&[length as u64])
        }),
    }
}

/// The readings file of a file whose registers all have these bits.
fn readings_file(file: &[u8], bits: u64) -> Vec<u8> {
    let accepted = Accepted::read(file).expect("the file is accepted");
    let instances = accepted.tree.register_instances.len();
    readings::encode(&accepted.tree, &vec![bits; instances], &vec![1; instances])
}

/// How long so many calls take.
fn time(call: &mut dyn FnMut() -> Answer, calls: u32) -> Duration {
    let start = Instant::now();
    for _ in 0..calls {
        black_box(call());
    }
    start.elapsed()
}

/// The calls that take at least [`SHORTEST`], and their time.
fn calls_for(call: &mut dyn FnMut() -> Answer) -> (u32, Duration) {
    let mut calls = 1;
    loop {
        let taken = time(call, calls);
        if taken >= SHORTEST {
            return (calls, taken);
        }
        calls *= 2;
    }
}

/// How many rounds there are if one takes so long.
fn rounds_of(of_a_round: Duration) -> usize {
    let all = match of_a_round < LONG_ROUND {
        true => LONGEST,
        false => LONGEST_OF_LONG_CALLS,
    };
    let fewest = match of_a_round < VERY_LONG_ROUND {
        true => FEWEST_ROUNDS,
        false => FEWEST_VERY_LONG_ROUNDS,
    };
    let rounds = all.as_secs_f64() / of_a_round.as_secs_f64();
    (rounds as usize).clamp(fewest, MOST_ROUNDS)
}

fn median(times: &mut [f64]) -> f64 {
    times.sort_by(f64::total_cmp);
    times[times.len() / 2]
}

/// Median times of one call.
#[derive(Clone, Copy)]
struct Medians {
    proved: f64,
    fast: f64,
}

/// Prints the ratios of a job, beside those to another one if that was run. None
/// if the answers differ.
fn run(mut job: Job<'_>, base: Option<Medians>) -> Option<Medians> {
    let answers = [(job.proved)(), (job.reference)(), (job.fast)()];
    if answers[0] != answers[1] || answers[0] != answers[2] {
        println!("{}: the answers differ: {answers:?}", job.name);
        return None;
    }

    let mut ways = [
        job.proved.as_mut(),
        job.reference.as_mut(),
        job.fast.as_mut(),
    ];
    let mut calls = [0; 3];
    let mut of_a_round = Duration::ZERO;
    for (way, calls) in ways.iter_mut().zip(&mut calls) {
        let (enough, taken) = calls_for(way);
        *calls = enough;
        of_a_round += taken;
    }
    let rounds = rounds_of(of_a_round);

    let mut times = [const { Vec::new() }; 3];
    for round in 0..rounds {
        for turn in 0..3 {
            // Another one is first in each round.
            let way = (round + turn) % 3;
            let taken = time(ways[way], calls[way]);
            times[way].push(taken.as_secs_f64() / f64::from(calls[way]));
        }
    }
    let [proved, reference, fast] = times.each_mut().map(|times| median(times));
    print!(
        "{:<NAME_WIDTH$} {:>9.2} {:>9.2} {:>7}",
        job.name,
        proved / fast,
        proved / reference,
        rounds
    );
    match base {
        Some(base) => println!(" {:>7.2} {:>7.2}", proved / base.proved, fast / base.fast),
        None => println!(),
    }
    Some(Medians { proved, fast })
}

/// The width of the jobs' names.
const NAME_WIDTH: usize = 68;

/// Which job of its group a job is compared with.
#[derive(Clone, Copy, PartialEq, Eq)]
enum Base {
    Nothing,
    /// The one before it, which has half the size.
    Half,
    /// The first of three, whose names and IDs are spread.
    Spread,
}

/// Jobs of one kind, under a title.
struct Group<'a> {
    title: &'static str,
    base: Base,
    jobs: Vec<Job<'a>>,
}

impl Group<'_> {
    /// Runs the jobs whose names contain the part. False if answers differ.
    fn run(self, part: &str) -> bool {
        if !self.jobs.iter().any(|job| job.name.contains(part)) {
            return true;
        }
        println!("\n{}", self.title);
        let mut agree = true;
        let mut base = None;
        for (at, job) in self.jobs.into_iter().enumerate() {
            let is_first = at % 3 == 0;
            if self.base == Base::Nothing || self.base == Base::Spread && is_first {
                base = None;
            }
            let mut medians = None;
            if job.name.contains(part) {
                medians = run(job, base);
                agree &= medians.is_some();
            }
            if self.base == Base::Half || is_first {
                base = medians;
            }
        }
        agree
    }
}

/// What is measured is there until the end.
fn kept<T>(all: Vec<T>) -> &'static [T] {
    all.leak()
}

/// The number as it is written: 8,192.
fn written(number: usize) -> String {
    match number {
        0..1_000 => number.to_string(),
        _ => format!("{},{:03}", written(number / 1_000), number % 1_000),
    }
}

/// Names and IDs that collide, as many as there may be: in threes, the first of
/// which are spread.
fn collisions(limits: Limits) -> Vec<Job<'static>> {
    let registers = written(limits.register_instances);
    let nodes = written(limits.node_instances);
    let all_bits = kept(vec![u64::MAX; limits.node_instances]);
    let read = kept(vec![1; limits.node_instances]);
    let crowdings = [
        (Crowding::None, "spread"),
        (Crowding::By64, "many at each place"),
        (Crowding::AtTheEnd, "all at the end"),
    ];
    let each = |job: &dyn Fn(Crowding, &str) -> Job<'static>| {
        crowdings.map(|(crowding, name)| job(crowding, name))
    };
    let children = crowdings.map(|(crowding, _)| kept(large::crowded_children(limits, crowding)));
    let children_of = |crowding| {
        let at = crowdings.iter().position(|&(other, _)| other == crowding);
        children[at.expect("it is one of them")]
    };
    let mut jobs = Vec::new();
    jobs.extend(each(&|crowding, name| {
        let file = kept(large::crowded_captures(limits, crowding));
        check(
            &format!("captures of {registers} registers, names {name}"),
            file,
        )
    }));
    jobs.extend(each(&|crowding, name| {
        let file = kept(large::late_crowded_absence(limits, crowding));
        let what = format!("absent capture, {registers} registers, names {name}");
        refused_check(12, &what, file)
    }));
    jobs.extend(each(&|crowding, name| {
        let what = format!("{nodes} with 60 children each, names {name}");
        check(&what, children_of(crowding))
    }));
    jobs.extend(each(&|crowding, name| {
        let what = format!("{nodes} with 60 children each, names {name}");
        isolate(&what, children_of(crowding), all_bits, read)
    }));
    jobs.extend(each(&|crowding, name| {
        let file = kept(large::crowded_registers(limits, crowding));
        check(&format!("{registers} registers, IDs falling, {name}"), file)
    }));
    jobs.extend(each(&|crowding, name| {
        let file = kept(large::crowded_nodes(limits, crowding));
        check(
            &format!("{nodes} nodes and registers, IDs falling, {name}"),
            file,
        )
    }));
    jobs
}

/// Files of 1 MB or with as many instances as the library takes.
fn accepted_at_the_limits() -> Vec<Job<'static>> {
    let registers = |order| kept(large::registers_in(order, LIBRARY.register_instances));
    let nodes = |order| kept(large::nodes_in(order, LIBRARY.node_instances));
    let count = LIBRARY.node_instances;
    let row = kept(large::children(count, 1, false));
    let backward_row = kept(large::children(count, 1, true));
    let forward = kept(large::children(count, large::MOST_CHILDREN, false));
    let backward = kept(large::children(count, large::MOST_CHILDREN, true));
    let mixed = kept(large::mixed_children(count, large::MOST_CHILDREN));
    let captures = kept(large::captures(LIBRARY, 0));
    let deep = kept(large::deep_expressions(LIBRARY));
    let shuffled = registers(Order::Shuffled);
    let read = kept(vec![1; LIBRARY.register_instances]);
    let all_bits = kept(vec![u64::MAX; LIBRARY.register_instances]);
    let top_bit = kept(vec![1 << 63; count]);
    let every_fourth = kept(large::every_fourth(count));
    let of_1_024 = |name: &str, file: &'static [u8], words: &'static [u64]| {
        let name = format!("a 1,024-instance file, {name}");
        isolate(&name, file, words, &read[..count])
    };
    let few = kept(large::register_instances(LIBRARY.register_instances, 255));
    vec![
        check("1 MB, most of it captures", captures),
        check("1 MB, deep expressions", deep),
        check("8,192 registers, IDs rising", registers(Order::Rising)),
        check("8,192 registers, IDs falling", registers(Order::Falling)),
        check("8,192 registers, IDs shuffled", shuffled),
        check(
            "8,192 registers, IDs alternating",
            registers(Order::Alternating),
        ),
        check("8,192 instances of 33 registers", few),
        check(
            "1,024 nodes and registers, IDs rising",
            nodes(Order::Rising),
        ),
        check(
            "1,024 nodes and registers, IDs falling",
            nodes(Order::Falling),
        ),
        check(
            "1,024 nodes and registers, IDs shuffled",
            nodes(Order::Shuffled),
        ),
        check("a row of 1,024, children forward", row),
        check("a row of 1,024, children backward", backward_row),
        check("1,024 instances, 60 children each, forward", forward),
        check("1,024 instances, 60 children each, backward", backward),
        check("1,024 instances, 60 children each, mixed", mixed),
        address("ID 8,192 of 8,192, IDs shuffled", shuffled, 8_192),
        of_1_024("a row, one record", row, top_bit),
        of_1_024("a row, 64,513 records", row, &all_bits[..count]),
        of_1_024("a row backward, one record", backward_row, top_bit),
        of_1_024("60 children each, one bit each", forward, top_bit),
        of_1_024("60 children each, forward", forward, &all_bits[..count]),
        of_1_024("60 children each, backward", backward, &all_bits[..count]),
        of_1_024("60 children each, mixed", mixed, &all_bits[..count]),
        of_1_024("60 children each, most silent", forward, every_fourth),
        isolate("1 MB, deep expressions", deep, all_bits, read),
        isolate("1 MB, most of it captures", captures, all_bits, read),
    ]
}

fn refused_at_the_limits() -> Vec<Job<'static>> {
    let registers = LIBRARY.register_instances;
    let count = LIBRARY.node_instances;
    let duplicate = |order| kept(large::late_duplicate(order, registers));
    let captures = kept(large::captures(LIBRARY, 0));
    let deep = kept(large::deep_expressions(LIBRARY));
    let longer = kept(large::captures(LIBRARY, 1));
    let more_registers = kept(large::register_instances(registers + 1, 1));
    let more_nodes = kept(large::node_instances(count + 1));
    let absence = kept(large::late_absence(LIBRARY));
    let absent_child = kept(large::late_absent_child(count));
    let write_only = kept(large::late_write_only(LIBRARY));
    let cycle = kept(large::late_cycle(count));
    vec![
        refused_check(1, "1 MB and a byte, captures", longer),
        refused_check(2, "1 MB of captures but the last byte", but_one(captures)),
        refused_check(2, "1 MB of expressions but the last byte", but_one(deep)),
        refused_check(
            7,
            "8,192 registers, the last ID twice",
            duplicate(Order::Rising),
        ),
        refused_check(7, "the same 8,192, IDs falling", duplicate(Order::Falling)),
        refused_check(
            7,
            "the same 8,192, IDs shuffled",
            duplicate(Order::Shuffled),
        ),
        refused_check(8, "8,193 registers", more_registers),
        refused_check(8, "1,025 nodes", more_nodes),
        refused_check(12, "1 MB of captures, the last one absent", absence),
        refused_check(12, "1,024 with 60 children, one absent", absent_child),
        refused_check(13, "1 MB of captures, one write-only", write_only),
        refused_check(14, "1,024 with 60 children, a cycle of two", cycle),
    ]
}

/// Files of 1 KB, 2 KB and so on to the library's limit: check, isolation, and
/// check with IDs that fall and that are shuffled.
fn growth() -> [Vec<Job<'static>>; 4] {
    let files = |order: Order| -> Vec<(String, &'static [u8])> {
        (10..=LIBRARY.bytes.trailing_zeros())
            .map(|power| {
                let file = kept(large::of_size_in(order, 1 << power));
                let name = format!("some of everything, {} KB", written(1 << (power - 10)));
                (name, file)
            })
            .collect()
    };
    let checks = |order: Order, note: &str| {
        let files = files(order).into_iter();
        files
            .map(|(name, file)| check(&format!("{name}{note}"), file))
            .collect()
    };
    let four_bits = kept(vec![0xF << 60; LIBRARY.register_instances]);
    let read = kept(vec![1; LIBRARY.register_instances]);
    let isolations = files(Order::Rising).into_iter().map(|(name, file)| {
        let summary = reference::check(file).expect("the file is accepted");
        let instances = summary.register_instances;
        isolate(&name, file, &four_bits[..instances], &read[..instances])
    });
    [
        checks(Order::Rising, ""),
        isolations.collect(),
        checks(Order::Falling, ", IDs falling"),
        checks(Order::Shuffled, ", IDs shuffled"),
    ]
}

/// The Rust side is to be built for plain x86-64, as the proved library is: no
/// instructions that not all of these processors have.
const IS_PLAIN: bool = !cfg!(any(
    target_feature = "sse3",
    target_feature = "popcnt",
    target_feature = "avx",
    target_feature = "bmi1",
    target_feature = "lzcnt"
));

fn main() {
    if !IS_PLAIN {
        eprintln!("built for more than plain x86-64: build without target-cpu and target-feature");
        std::process::exit(1);
    }
    let part = std::env::args().nth(1).unwrap_or_default();

    println!("Ratios of median times: the proved library's by that of ordinary fast Rust, and by");
    println!("that of the clear reference. All calls of a job are taken in turn in one run.");
    println!("No buffer is cleared before a call: each call meets the list and the answer of the");
    println!("one before it. The list has room for all bits of the node instances, the text for");
    println!("152,000 bytes, a file that is written or its records just what they need.");
    println!("The last two columns: the time by that of another job, of the proved library and of");
    println!("fast Rust. Where sizes double it is that of half the size: 2 if the time grows with");
    println!("the size, 4 if with its square. Where names collide it is that of names that are");
    println!("spread. Fast Rust has another table, in which these names do not collide.");
    println!();
    println!(
        "{:<NAME_WIDTH$} {:>9} {:>9} {:>7} {:>7} {:>7}",
        "job", "to fast", "to clear", "rounds", "to base", "of fast"
    );

    let registers = large::register_instances(1_024, 1);
    let few_registers = large::register_instances(1_024, 255);
    let nodes = large::node_instances(256);
    let captures = large::captures(PROGRAM, 0);
    let deep = large::deep_expressions(PROGRAM);
    let row = large::children(256, 1, false);
    let last_bit_row = large::row_at(256, 63);
    let backward_row = large::children(256, 1, true);
    let forward = large::children(256, large::MOST_CHILDREN, false);
    let backward = large::children(256, large::MOST_CHILDREN, true);
    let mixed = large::mixed_children(256, large::MOST_CHILDREN);
    let top_bit = [1u64 << 63; 1_024];
    let last_bit = [1u64; 256];
    let all_bits = [u64::MAX; 1_024];
    let every_fourth = large::every_fourth(256);
    let read = [1u8; 1_024];

    let full = large::full_counts();
    let b1_readings = readings_file(&large::B1, top_bit[0]);
    let full_readings = readings_file(&full, all_bits[0]);

    let accepted = vec![
        check("64 KB, most of it captures", &captures),
        check("64 KB, deep expressions", &deep),
        isolate(
            "a 256-instance file, a row, one record",
            &row,
            &top_bit[..256],
            &read[..256],
        ),
        isolate(
            "a 256-instance file, a row at bit 63, one record",
            &last_bit_row,
            &last_bit,
            &read[..256],
        ),
        isolate(
            "a 256-instance file, a row, 16,129 records",
            &row,
            &all_bits[..256],
            &read[..256],
        ),
        isolate(
            "a 256-instance file, a row backward, one record",
            &backward_row,
            &top_bit[..256],
            &read[..256],
        ),
        isolate(
            "a 256-instance file, 60 children each, one bit each",
            &forward,
            &top_bit[..256],
            &read[..256],
        ),
        isolate(
            "a 256-instance file, 60 children each, forward",
            &forward,
            &all_bits[..256],
            &read[..256],
        ),
        isolate(
            "a 256-instance file, 60 children each, backward",
            &backward,
            &all_bits[..256],
            &read[..256],
        ),
        isolate(
            "a 256-instance file, 60 children each, mixed",
            &mixed,
            &all_bits[..256],
            &read[..256],
        ),
        isolate(
            "a 256-instance file, 60 children each, most silent",
            &forward,
            &every_fourth,
            &read[..256],
        ),
        isolate(
            "a 256-instance file, deep expressions",
            &deep,
            &all_bits,
            &read,
        ),
        isolate("B1", &large::B1, &top_bit[..1], &read[..1]),
        report("B1", &large::B1, &b1_readings),
        report("255 instances, 4,096 records", &full, &full_readings),
        check("B1", &large::B1),
        check("1,024 registers of one instance", &registers),
        check("1,024 instances of five registers", &few_registers),
        check("256 nodes of one instance", &nodes),
        check("a row of 256, children forward", &row),
        check("a row of 256, children backward", &backward_row),
        check("256 instances, 60 children each, forward", &forward),
        check("256 instances, 60 children each, backward", &backward),
        check("256 instances, 60 children each, mixed", &mixed),
        address("the last of 1,024 registers", &registers, 1_024),
    ];

    let registers_falling = large::registers_in(Order::Falling, 1_024);
    let registers_shuffled = large::registers_in(Order::Shuffled, 1_024);
    let registers_alternating = large::registers_in(Order::Alternating, 1_024);
    let nodes_falling = large::nodes_in(Order::Falling, 256);
    let nodes_shuffled = large::nodes_in(Order::Shuffled, 256);
    let nodes_alternating = large::nodes_in(Order::Alternating, 256);
    let orders = vec![
        check("1,024 registers, IDs rising", &registers),
        check("1,024 registers, IDs falling", &registers_falling),
        check("1,024 registers, IDs shuffled", &registers_shuffled),
        check("1,024 registers, IDs alternating", &registers_alternating),
        check("256 nodes and registers, IDs rising", &nodes),
        check("256 nodes and registers, IDs falling", &nodes_falling),
        check("256 nodes and registers, IDs shuffled", &nodes_shuffled),
        check(
            "256 nodes and registers, IDs alternating",
            &nodes_alternating,
        ),
        address("ID 1,024, IDs shuffled", &registers_shuffled, 1_024),
    ];

    let duplicate = large::late_duplicate(Order::Rising, 1_024);
    let duplicate_falling = large::late_duplicate(Order::Falling, 1_024);
    let duplicate_shuffled = large::late_duplicate(Order::Shuffled, 1_024);
    let duplicate_alternating = large::late_duplicate(Order::Alternating, 1_024);
    let absence = large::late_absence(PROGRAM);
    let absent_child = large::late_absent_child(256);
    let write_only = large::late_write_only(PROGRAM);
    let cycle = large::late_cycle(256);
    let refused = vec![
        refused_check(7, "1,024 registers, the last ID twice", &duplicate),
        refused_check(7, "the same, IDs falling", &duplicate_falling),
        refused_check(7, "the same, IDs shuffled", &duplicate_shuffled),
        refused_check(7, "the same, IDs alternating", &duplicate_alternating),
        refused_check(12, "captures, the last one absent", &absence),
        refused_check(12, "60 children each, the last one absent", &absent_child),
        refused_check(13, "captures, the last one write-only", &write_only),
        refused_check(2, "captures, the last byte cut off", but_one(&captures)),
        refused_check(2, "deep expressions, the last byte cut off", but_one(&deep)),
        refused_check(14, "60 children each, a cycle of the last two", &cycle),
    ];

    let [growth_of_check, growth_of_isolation, growth_falling, growth_shuffled] = growth();
    let [growth_of_writing, growth_of_reading] = growth_of_records();
    let group = |title, base, jobs| Group { title, base, jobs };
    let groups = [
        group("Accepted files", Base::Nothing, accepted),
        group("Orders of IDs", Base::Nothing, orders),
        group("Refused files", Base::Nothing, refused),
        group(
            "Names and IDs that collide",
            Base::Spread,
            collisions(PROGRAM),
        ),
        group(
            "Accepted files at the library's limits",
            Base::Nothing,
            accepted_at_the_limits(),
        ),
        group(
            "Refused files at the library's limits",
            Base::Nothing,
            refused_at_the_limits(),
        ),
        group(
            "Names and IDs that collide, at the library's limits",
            Base::Spread,
            collisions(LIBRARY),
        ),
        group("Boards", Base::Nothing, boards()),
        group("Records", Base::Nothing, records()),
        group("Growth by size: check", Base::Half, growth_of_check),
        group("Growth by size: isolation", Base::Half, growth_of_isolation),
        group("Growth by size: IDs falling", Base::Half, growth_falling),
        group("Growth by size: IDs shuffled", Base::Half, growth_shuffled),
        group("Growth by size: write", Base::Half, growth_of_writing),
        group("Growth by size: read", Base::Half, growth_of_reading),
    ];
    let mut agree = true;
    for group in groups {
        agree &= group.run(&part);
    }
    if !agree {
        std::process::exit(1);
    }
}
