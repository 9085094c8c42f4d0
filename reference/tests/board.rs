//! Boards: the hand-made calls, and seeded ones beside the calls of their slots.

use std::collections::BTreeSet;

use reference::board::{Board, IsolateBoard};
use reference::generate::{self, Random, Sizes};
use reference::isolation::RECORD_BYTES;
use reference::{cases, fast, isolate, isolate_board, large, BoardRefusal, Refusal};

const BOTH: [IsolateBoard; 2] = [isolate_board, fast::isolate_board];

type Answer = Result<(usize, usize), BoardRefusal>;

/// The answer of a call and the list after it.
fn isolated(board: &Board, isolate_board: IsolateBoard) -> (Answer, Vec<u8>) {
    let mut list = vec![0xEE; board.room];
    let answer = board.isolate(isolate_board, &mut list);
    (answer, list)
}

fn refused(number: u8, place: usize, slot: u8) -> Answer {
    let refusal = Refusal { number, place };
    Err(BoardRefusal { refusal, slot })
}

#[test]
fn hand_made_boards() {
    let mut names = BTreeSet::new();
    for case in cases::boards() {
        let mut list = vec![0xEE; case.board.room];
        if let Ok(found) = &case.answer {
            let records = found.records.concat();
            list[..records.len()].copy_from_slice(&records);
        }
        let answer = case.answer.map(|found| (found.records.len(), found.steps));
        for isolate_board in BOTH {
            let call = isolated(&case.board, isolate_board);
            assert_eq!(call, (answer, list.clone()), "{}", case.name);
        }
        assert!(names.insert(case.name));
    }
    assert!(names.len() >= 700, "{}", names.len());
}

/// The parts of the lengths, if they add up by counting down from what is lent.
fn parts<'a, T>(all: &'a [T], lengths: &[u64]) -> Option<Vec<&'a [T]>> {
    let mut left = all.len() as u64;
    let mut at = 0;
    let mut parts = Vec::new();
    for &length in lengths {
        if length > left {
            return None;
        }
        left -= length;
        parts.push(&all[at..at + length as usize]);
        at += length as usize;
    }
    (left == 0).then_some(parts)
}

/// The answer of a board by the single calls of its slots.
fn by_single_calls(board: &Board) -> (Answer, Vec<u8>) {
    let mut list = vec![0xEE; board.room];
    let lists = [
        &board.file_lengths,
        &board.word_lengths,
        &board.read_lengths,
    ];
    let count = lists[0].len();
    let counts_fit = count > 0 && count < 17 && lists.iter().all(|list| list.len() == count);
    let (Some(files), Some(words), Some(read), true) = (
        parts(&board.files, lists[0]),
        parts(&board.words, lists[1]),
        parts(&board.read, lists[2]),
        counts_fit,
    ) else {
        return (refused(20, 0, 0), list);
    };
    let mut joined = Vec::new();
    let mut all_steps = 0;
    for slot in 0..count {
        let mut room = vec![0; 1_024 * 64 * RECORD_BYTES];
        match isolate(
            files[slot],
            board.attention_type,
            words[slot],
            read[slot],
            &mut room,
        ) {
            Ok((records, steps)) => {
                for record in room.chunks_exact_mut(RECORD_BYTES).take(records) {
                    assert_eq!(record[9], 0);
                    record[9] = slot as u8;
                    joined.extend_from_slice(record);
                }
                all_steps += steps;
            }
            Err(refusal) => {
                let slot = slot as u8;
                return (Err(BoardRefusal { refusal, slot }), list);
            }
        }
    }
    let records = joined.len() / RECORD_BYTES;
    if records > board.room / RECORD_BYTES {
        return (refused(19, records, 0), list);
    }
    list[..joined.len()].copy_from_slice(&joined);
    (Ok((records, all_steps)), list)
}

#[test]
fn boards_agree_with_single_calls() {
    let mut random = Random::new(82);
    let mut seen = [0; 21];
    for round in 0..8_000 {
        let case = match round % 8 {
            0..=2 => generate::case(&mut random),
            3 if round % 32 == 3 => generate::large_case(&mut random),
            _ => {
                let number = random.between(0, 19) as u8;
                generate::aimed_case(&mut random, number, Sizes::Any)
            }
        };
        let board = generate::board_around(&mut random, &case);
        let expected = by_single_calls(&board);
        for isolate_board in BOTH {
            assert_eq!(isolated(&board, isolate_board), expected);
        }
        let number = expected
            .0
            .map_or_else(|refused| refused.refusal.number, |_| 0);
        seen[usize::from(number)] += 1;
    }
    assert!(seen.iter().all(|&count| count > 5), "{seen:?}");
    assert!(seen[0] > 1_500 && seen[19] > 150, "{seen:?}");
}

/// "Unless the board is refused, a slot's records depend only on its number, file
/// and readings and the type."
#[test]
fn other_slots_change_nothing() {
    let mut random = Random::new(83);
    for round in 0..1_000u16 {
        let attention_type = 1 + (round % 5) as u8;
        let count = random.between(1, 16);
        let slot = random.below(count);
        let own = generate::listing_case(&mut random, attention_type);
        let mut of_slot = Vec::new();
        for _ in 0..3 {
            let mut board = Board::new(attention_type, 16 * 1_024 * 64 * RECORD_BYTES);
            for other in 0..count {
                let case = match other == slot {
                    true => own.clone(),
                    false => generate::listing_case(&mut random, attention_type),
                };
                board.add(&case.file, &case.words, &case.read);
            }
            let mut list = vec![0; board.room];
            let (records, _) = board.isolate(fast::isolate_board, &mut list).unwrap();
            let records = list.chunks_exact(RECORD_BYTES).take(records);
            let records: Vec<u8> = records
                .filter(|record| usize::from(record[9]) == slot)
                .flatten()
                .copied()
                .collect();
            of_slot.push(records);
        }
        assert!(of_slot.windows(2).all(|pair| pair[0] == pair[1]));
    }
}

/// Sixteen files at the library's limits, all of whose bits are listed or followed.
#[test]
fn sixteen_files_at_the_limits() {
    let file = large::children(1_024, 1, false);
    let (words, read) = (vec![u64::MAX; 1_024], vec![1; 1_024]);
    let mut board = Board::new(large::ATTENTION_TYPE, 0);
    for _ in 0..16 {
        board.add(&file, &words, &read);
    }
    // Each instance but the last has a child at one bit.
    let of_slot = 1_024 * 64 - 1_023;
    for isolate_board in BOTH {
        board.room = 16 * of_slot * RECORD_BYTES;
        let (answer, list) = isolated(&board, isolate_board);
        assert_eq!(answer, Ok((16 * of_slot, 16 * 1_024)));
        for (at, record) in list.chunks_exact(RECORD_BYTES).enumerate() {
            assert_eq!(usize::from(record[9]), at / of_slot);
        }
        board.room -= 1;
        let (answer, list) = isolated(&board, isolate_board);
        assert_eq!(answer, refused(19, 16 * of_slot, 0));
        assert!(list.iter().all(|&byte| byte == 0xEE));
    }
    // An instance more in the last slot.
    let last = board.files.len() - file.len();
    board.files.truncate(last);
    let too_many = large::short_node_instances(1_025, 255);
    board.files.extend(&too_many);
    board.file_lengths[15] = too_many.len() as u64;
    for isolate_board in BOTH {
        let (answer, _) = isolated(&board, isolate_board);
        let refusal = answer.unwrap_err();
        assert_eq!((refusal.refusal.number, refusal.slot), (8, 15));
    }
}
