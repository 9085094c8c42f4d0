//! The vectors, read back, agree with both implementations and keep to what a
//! reader may count on.

use std::collections::BTreeMap;

use reference::vectors::{
    self, address_of_any, expected_of_board, expected_of_check, expected_of_pair,
    expected_of_records, is_capture, Kind, Vector, EXPECTED, MOST_BYTES, MOST_LENGTHS,
    MOST_LIST_BYTES, MOST_WORDS,
};
use reference::{check, fast, isolate, isolate_board, read_records, write_records, Refusal};

type Isolate = fn(&[u8], u8, &[u64], &[u8], &mut [u8]) -> Result<(usize, usize), Refusal>;

/// The answer, and the list after the call.
fn isolated(vector: &Vector, isolate: Isolate) -> ([u32; EXPECTED], Vec<u8>) {
    let mut list = vec![vector.fill; vector.list_bytes];
    let answer = isolate(
        vector.file,
        vector.selector,
        &vector.words,
        vector.read,
        &mut list,
    );
    (expected_of_pair(answer), list)
}

/// A call of records answers as expected, and so is the output after it.
fn assert_records(vector: &Vector, call: impl FnOnce(&mut [u8]) -> Result<usize, Refusal>) {
    let mut expected = vector.records.to_vec();
    expected.resize(vector.list_bytes, vector.fill);
    let mut out = vec![vector.fill; vector.list_bytes];
    assert_eq!(expected_of_records(call(&mut out)), vector.expected);
    assert_eq!(out, expected);
}

fn assert_agrees(vector: &Vector) {
    match vector.kind {
        Kind::Check => {
            assert_eq!(expected_of_check(check(vector.file)), vector.expected);
            assert_eq!(expected_of_check(fast::check(vector.file)), vector.expected);
        }
        Kind::Address => {
            let answer = address_of_any(vector.file, vector.words[0], vector.selector);
            assert_eq!(expected_of_pair(answer), vector.expected);
        }
        Kind::Isolation => {
            let mut list = vector.records.to_vec();
            list.resize(vector.list_bytes, vector.fill);
            let expected = (vector.expected, list);
            assert_eq!(isolated(vector, isolate), expected);
            assert_eq!(isolated(vector, fast::isolate), expected);
        }
        Kind::Write => {
            let model = vector.words[0] as u32;
            for write in [write_records, fast::write_records] {
                assert_records(vector, |out| write(model, vector.file, out));
            }
        }
        Kind::Read => {
            for read in [read_records, fast::read_records] {
                assert_records(vector, |out| read(vector.file, out));
            }
        }
        Kind::Board => {
            let board = vector.board();
            let mut expected = vector.records.to_vec();
            expected.resize(vector.list_bytes, vector.fill);
            for isolate_board in [isolate_board, fast::isolate_board] {
                let mut list = vec![vector.fill; vector.list_bytes];
                let answer = board.isolate(isolate_board, &mut list);
                assert_eq!(expected_of_board(answer), vector.expected);
                assert_eq!(list, expected);
            }
        }
    }
}

#[test]
fn vectors_agree_with_the_reference() {
    for seed in [1, 2] {
        let bytes = vectors::build(seed);
        assert!(bytes.len() <= MOST_BYTES, "{} bytes", bytes.len());
        let vectors = vectors::read(&bytes).unwrap();
        assert!(vectors.len() >= 3_100, "{}", vectors.len());

        let mut outcomes = [0; 20];
        let mut boards = [0; 21];
        let mut writings = [0; 42];
        let mut readings = [0; 42];
        let mut slots = [0; 16];
        let mut unreadable_captures = BTreeMap::new();
        let mut above_silent = BTreeMap::new();
        let mut only_listed = [0; 64];
        let mut only_followed = [0; 64];
        let mut largest = 0;
        for vector in &vectors {
            assert_agrees(vector);
            assert!(vector.words.len() <= MOST_WORDS && vector.read.len() <= MOST_WORDS);
            assert!(vector.list_bytes <= MOST_LIST_BYTES);
            match vector.kind {
                Kind::Isolation => outcomes[vector.expected[0] as usize] += 1,
                Kind::Write => writings[vector.expected[0] as usize] += 1,
                Kind::Read => readings[vector.expected[0] as usize] += 1,
                Kind::Board => {
                    let [number, _, _, _, slot, ..] = vector.expected;
                    boards[number as usize] += 1;
                    slots[slot as usize] += usize::from((1..=18).contains(&number));
                    let lists = vector.lengths.each_ref().map(Vec::len);
                    assert!(lists.iter().all(|&lengths| lengths <= MOST_LENGTHS));
                    let numbers = vector.words.len() + lists.iter().sum::<usize>();
                    assert!(numbers <= MOST_WORDS);
                }
                _ => {}
            }
            if vector.expected[0] == 13 && is_capture(vector.file, vector.expected[1] as usize) {
                *unreadable_captures.entry(vector.kind).or_insert(0) += 1;
            }
            if vector.bits_above_silent() > 0 {
                *above_silent.entry(vector.expected[0]).or_insert(0) += 1;
            }
            if let ([0, 0, 1, steps @ 1..=2, ..], [_, _, _, _, _, bit, 0, 1, 0, ..]) =
                (vector.expected, vector.records)
            {
                let only = match steps {
                    1 => &mut only_listed,
                    _ => &mut only_followed,
                };
                only[usize::from(*bit)] += 1;
            }
            largest = largest.max(vector.file.len());
        }
        // Every bit as the only record, of node 1: in one step, so without a child,
        // and in two, where the bit itself is listed and its child shows nothing.
        let is_there = |&count: &usize| count > 0;
        assert!(only_listed.iter().all(is_there), "{only_listed:?}");
        assert!(only_followed.iter().all(is_there), "{only_followed:?}");
        assert!(outcomes.iter().all(|&count| count >= 40), "{outcomes:?}");
        assert!(boards.iter().all(|&count| count >= 5), "{boards:?}");
        assert!(boards[0] >= 30 && boards[20] >= 15, "{boards:?}");
        assert!(slots.iter().all(|&count| count > 0), "{slots:?}");
        for kind in [Kind::Check, Kind::Address, Kind::Isolation] {
            let captures = unreadable_captures.get(&kind);
            assert!(captures >= Some(&12), "{unreadable_captures:?}");
        }
        assert!(above_silent[&0] >= 100, "{above_silent:?}");
        assert!(above_silent[&19] >= 30, "{above_silent:?}");
        assert!(largest > 1_048_576);
        for number in [5, 6, 7, 9, 10, 12, 13, 14, 41] {
            assert!(writings[number] >= 5, "{writings:?}");
        }
        assert!(writings[8] > 0, "{writings:?}");
        assert!(writings[0] >= 30 && writings[40] >= 120, "{writings:?}");
        for number in (1..=14).chain([41]) {
            assert!(readings[number] >= 3, "{readings:?}");
        }
        assert!(readings[0] >= 25, "{readings:?}");
        for length in [255, 256, 257, 4_096, 4_097] {
            let is_written = |vector: &Vector| {
                let [number, _, written, ..] = vector.expected;
                vector.kind == Kind::Write && number == 0 && written == length
            };
            assert!(vectors.iter().any(is_written), "{length}");
        }
    }
}

#[test]
fn a_seed_decides_the_vectors() {
    assert_eq!(vectors::build(3), vectors::build(3));
    assert_ne!(vectors::build(3), vectors::build(4));
}

#[test]
fn what_is_no_file_of_vectors_is_refused() {
    let bytes = vectors::build(1);
    assert!(vectors::read(&bytes[..bytes.len() - 1]).is_none());
    assert!(vectors::read(&[&bytes[..], &[0]].concat()).is_none());
    assert!(vectors::read(&bytes[1..]).is_none());
    assert!(vectors::read(&[]).is_none());
}
