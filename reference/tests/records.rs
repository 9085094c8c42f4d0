//! Files as records: the hand-made calls, the sizes at the limits, and seeded lists.

use std::collections::BTreeSet;

use reference::generate::{self, Random, Shape, Sizes, WRITING_NUMBERS};
use reference::records::{ReadRecords, WriteRecords, RECORD_BYTES};
use reference::{cases, fast, large, read_records, write_records, Limits, Refusal};

const WRITERS: [WriteRecords; 2] = [write_records, fast::write_records];
const READERS: [ReadRecords; 2] = [read_records, fast::read_records];

const PATTERN: u8 = 0xEE;

/// The answer with what the call wrote, if every other byte is as it was lent.
fn called(
    room: usize,
    call: impl FnOnce(&mut [u8]) -> Result<usize, Refusal>,
) -> Result<Vec<u8>, Refusal> {
    let mut out = vec![PATTERN; room];
    let answer = call(&mut out);
    let written = *answer.as_ref().unwrap_or(&0);
    assert!(out[written..].iter().all(|&byte| byte == PATTERN));
    answer.map(|length| out[..length].to_vec())
}

fn refused<T>(number: u8, place: usize) -> Result<T, Refusal> {
    Err(Refusal { number, place })
}

#[test]
fn hand_made_writings() {
    let mut names = BTreeSet::new();
    for case in cases::writings() {
        for write in WRITERS {
            let answer = called(case.room, |out| write(case.model, &case.records, out));
            assert_eq!(answer, case.answer, "{}", case.name);
        }
        assert!(names.insert(case.name));
    }
    assert!(names.len() >= 3_000, "{}", names.len());
}

#[test]
fn hand_made_readings() {
    let mut names = BTreeSet::new();
    for case in cases::readings() {
        for read in READERS {
            let answer = called(case.room, |out| read(&case.file, out));
            assert_eq!(answer, case.answer, "{}", case.name);
        }
        assert!(names.insert(case.name));
    }
    assert!(names.len() >= 60, "{}", names.len());
}

/// The records of a file that is accepted.
fn records_of(file: &[u8]) -> Vec<u8> {
    let needed = read_records(file, &mut []).unwrap_err();
    assert_eq!(needed.number, 41);
    called(needed.place, |out| read_records(file, out)).unwrap()
}

fn model_of(file: &[u8]) -> u32 {
    u32::from_be_bytes(file[8..12].try_into().unwrap())
}

/// Reading a file and writing its records gives the same bytes, by all of the
/// readers and writers, in just enough room; with a byte less it is 41.
fn there_and_back(file: &[u8]) -> Vec<u8> {
    let records = records_of(file);
    for read in READERS {
        let answer = called(records.len(), |out| read(file, out));
        assert!(answer.as_ref() == Ok(&records), "{answer:?}");
        let answer = called(records.len() - 1, |out| read(file, out));
        assert_eq!(answer, refused(41, records.len()));
    }
    let model = model_of(file);
    for write in WRITERS {
        let answer = called(file.len(), |out| write(model, &records, out));
        assert!(answer.as_deref() == Ok(file), "{answer:?}");
        let answer = called(file.len() - 1, |out| write(model, &records, out));
        assert_eq!(answer, refused(41, file.len()));
    }
    records
}

#[test]
fn files_at_the_limits() {
    for limits in [Limits::PROGRAM, Limits::LIBRARY] {
        there_and_back(&large::captures(limits, 0));
        there_and_back(&large::deep_expressions(limits));
        there_and_back(&large::register_instances(limits.register_instances, 1));
        there_and_back(&large::register_instances(limits.register_instances, 255));
        there_and_back(&large::short_node_instances(limits.node_instances, 255));
        there_and_back(&large::children(limits.node_instances, 60, false));
    }
    let records = there_and_back(&large::full_counts());
    // A register and 255 instances; a node and 255 instances, one of them with 255
    // captures, five rules with 259 expressions, one of them an OR, and 64
    // children, the others with a rule and a reading; five roots.
    let count = 1 + 255 + 1 + 255 + 255 + 5 + 260 + 64 + 254 * 2 + 5;
    assert_eq!(records.len(), RECORD_BYTES * count);
}

/// One byte more than a file may have is 1, whatever the room is, but not before a
/// 40.
#[test]
fn a_file_that_would_be_too_long() {
    let not = [7, 0x12, 0, 0, 0, 0, 0, 0, 0, 0, 0, 0, 0, 0, 0, 0];
    let file = large::captures(Limits::LIBRARY, 0);
    let mut records = records_of(&file);
    let rule = records
        .chunks(RECORD_BYTES)
        .position(|record| record[0] == 6);
    let behind_rule = RECORD_BYTES * (rule.unwrap() + 1);
    records.splice(behind_rule..behind_rule, not);
    for write in WRITERS {
        for room in [0, file.len(), file.len() + 1] {
            let answer = called(room, |out| write(1, &records, out));
            assert_eq!(answer, refused(1, 0));
        }
        let mut damaged = records.clone();
        *damaged.last_mut().unwrap() = 1;
        let last = damaged.len() - RECORD_BYTES;
        let answer = called(0, |out| write(1, &damaged, out));
        assert_eq!(answer, refused(40, last));
        damaged.truncate(last + 1);
        let answer = called(0, |out| write(1, &damaged, out));
        assert_eq!(answer, refused(40, last));
    }
}

/// Expressions nest as deep as there are records.
#[test]
fn a_million_levels() {
    let b1 = records_of(&large::B1);
    let not = [7, 0x12, 0, 0, 0, 0, 0, 0, 0, 0, 0, 0, 0, 0, 0, 0];
    let left = [7, 0x13, 1, 0, 0, 0, 0, 0, 0, 0, 0, 0, 0, 0, 0, 0];
    let and = [7, 0x10, 2, 0, 0, 0, 0, 0, 0, 0, 0, 0, 0, 0, 0, 0];
    let behind_rule = 5 * RECORD_BYTES;
    let deep = |record: [u8; RECORD_BYTES], count| {
        let records = record.repeat(count);
        [&b1[..behind_rule], &records, &b1[behind_rule..]].concat()
    };
    // As long as a file may be, and one more: 60 bytes and one for each NOT, two
    // for each shift. The 17th level stands behind 16 of them.
    for (record, bytes) in [(not, 1), (left, 2)] {
        let most = (1_048_576 - 60) / bytes;
        for (count, answer) in [
            (16, refused(9, 46 + 16 * bytes)),
            (most, refused(9, 46 + 16 * bytes)),
            (most + 1, refused(1, 0)),
        ] {
            let records = deep(record, count);
            for write in WRITERS {
                let found = called(100, |out| write(1, &records, out));
                assert_eq!(found, answer);
            }
        }
    }
    // Without the innermost operand, and with a root instead of it.
    let records = deep(not, 1_000_000);
    let end = behind_rule + 1_000_000 * RECORD_BYTES;
    let without = [&records[..end], &b1[6 * RECORD_BYTES..]].concat();
    // Each of these owes one more.
    let more_owed = deep(and, 1_000_000);
    for write in WRITERS {
        let answer = called(0, |out| write(1, &records[..end], out));
        assert_eq!(answer, refused(40, end));
        let answer = called(0, |out| write(1, &without, out));
        assert_eq!(answer, refused(40, end));
        let answer = called(0, |out| write(1, &more_owed, out));
        assert_eq!(answer, refused(40, end + RECORD_BYTES));
    }
}

/// As many registers as the count of a file holds, and one more.
#[test]
fn sixteen_million_registers() {
    let most = 0xFF_FFFF;
    let register = [1, 1, 0x80, 0, 0, 0, 0, 0, 0, 0, 0, 0, 0, 0, 0, 0];
    let records = register.repeat(most + 1);
    let but_one = &records[..RECORD_BYTES * most];
    for write in WRITERS {
        let answer = called(0, |out| write(1, but_one, out));
        assert_eq!(answer, refused(1, 0));
        let answer = called(0, |out| write(1, &records, out));
        assert_eq!(answer, refused(40, RECORD_BYTES * most));
    }
}

#[test]
fn random_files_there_and_back() {
    let mut random = Random::new(93);
    for _ in 0..2_000 {
        let shape = Shape::any(&mut random);
        there_and_back(&generate::valid_file(&mut random, &shape).bytes);
    }
}

/// The answer of all writers. What is written is accepted, has the model, and is
/// read as the same records.
fn written(model: u32, records: &[u8], room: usize) -> Result<Vec<u8>, Refusal> {
    let answers = WRITERS.map(|write| called(room, |out| write(model, records, out)));
    assert_eq!(answers[0], answers[1]);
    let [answer, _] = answers;
    if let Ok(file) = &answer {
        assert_eq!(model_of(file), model);
        for read in READERS {
            let found = called(records.len(), |out| read(file, out));
            assert!(found.as_deref() == Ok(records), "{found:?}");
        }
    }
    answer
}

/// The same for the answer of all readers: what is read is written as the file.
fn read(file: &[u8], room: usize) -> Result<Vec<u8>, Refusal> {
    let answers = READERS.map(|read| called(room, |out| read(file, out)));
    assert_eq!(answers[0], answers[1]);
    let [answer, _] = answers;
    if let Ok(records) = &answer {
        for write in WRITERS {
            let found = called(file.len(), |out| write(model_of(file), records, out));
            assert!(found.as_deref() == Ok(file), "{found:?}");
        }
    }
    answer
}

fn number_of(answer: &Result<Vec<u8>, Refusal>) -> usize {
    match answer {
        Ok(_) => 0,
        Err(refusal) => usize::from(refusal.number),
    }
}

#[test]
fn seeded_lists() {
    let mut random = Random::new(94);
    let mut writings = [0; 42];
    let mut readings = [0; 42];
    for round in 0..6_000 {
        let file = match round % 4 {
            0 => generate::aimed_case(&mut random, round as u8 / 4 % 15, Sizes::Small).file,
            _ => generate::case(&mut random).file,
        };
        let number = *random.pick(&WRITING_NUMBERS);
        // The first two need large lists.
        let is_aimed = match number {
            1 => round % 32 == 0,
            8 => round % 6 == 0,
            _ => round % 3 == 0,
        };
        let writing = match is_aimed {
            true => generate::aimed_writing(&mut random, number),
            false => generate::writing_around(&mut random, &file),
        };
        let answer = written(writing.model, &writing.records, writing.room);
        writings[number_of(&answer)] += 1;
        let room = generate::reading_room(&mut random, &file);
        readings[number_of(&read(&file, room))] += 1;
    }
    for number in WRITING_NUMBERS {
        assert!(writings[usize::from(number)] > 2, "{writings:?}");
    }
    for number in [0, 1, 2, 3, 4, 5, 6, 7, 8, 9, 10, 11, 12, 13, 14, 41] {
        assert!(readings[number] > 2, "{readings:?}");
    }
    assert!(writings[0] > 1_000 && writings[40] > 1_000, "{writings:?}");
    assert!(writings[41] > 300 && readings[41] > 300, "{readings:?}");
}

/// Every cut and many changes of every byte of small lists, and every record of
/// them removed, doubled, and put before every other one.
#[test]
fn every_record_of_small_lists() {
    let mut random = Random::new(95);
    let mut lists = vec![records_of(&large::B1)];
    for _ in 0..12 {
        let shape = Shape::small(&mut random);
        let file = generate::valid_file(&mut random, &shape).bytes;
        lists.push(records_of(&file));
    }
    for list in lists {
        for length in 0..list.len() {
            let _ = written(1, &list[..length], 4_096);
        }
        for at in 0..list.len() {
            let byte = list[at];
            let mut changed = list.clone();
            for value in [
                0,
                1,
                2,
                0x10,
                0x80,
                byte.wrapping_add(1),
                byte.wrapping_sub(1),
                !byte,
            ] {
                changed[at] = value;
                let _ = written(1, &changed, 4_096);
            }
        }
        let records: Vec<&[u8]> = list.chunks(RECORD_BYTES).collect();
        for at in 0..records.len() {
            let mut others = records.clone();
            let record = others.remove(at);
            let _ = written(1, &others.concat(), 4_096);
            for to in 0..=records.len() {
                let mut more = records.clone();
                more.insert(to, record);
                let _ = written(1, &more.concat(), 4_096);
                if to < records.len() {
                    let mut moved = others.clone();
                    moved.insert(to, record);
                    let _ = written(1, &moved.concat(), 4_096);
                }
            }
        }
    }
}
