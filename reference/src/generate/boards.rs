//! Board calls: slots that are mostly not refused around one case, in a list from
//! no room to plenty, now and then with lengths that do not add up.

use super::draft::{valid_file, FieldKind, Shape};
use super::random::Random;
use super::silent::silence_children;
use super::{aimed_case, readings, Case, Sizes};
use crate::board::{Board, MOST_SLOTS};
use crate::fast;
use crate::isolation::RECORD_BYTES;
use crate::large::B1;
use crate::layout::is_attention_type;
use crate::readings::READ;
use crate::refusal;

/// A board for the case's type. In most of them one slot has the case's file and
/// readings; the other slots mostly have files that are not refused. About one
/// board in six does not add up.
pub fn board_around(random: &mut Random, case: &Case) -> Board {
    let count = slot_count(random);
    // The other slots have a root for this type.
    let wanted = match is_attention_type(case.attention_type) {
        true => case.attention_type,
        false => random.between(1, 5) as u8,
    };
    let mut slots: Vec<Case> = (0..count).map(|_| listing_case(random, wanted)).collect();
    if count > 0 {
        if random.one_in(8) {
            let number = random.between(1, refusal::REGISTER_UNREAD.into()) as u8;
            *random.pick_mut(&mut slots) = aimed_case(random, number, Sizes::Small);
        }
        if random.one_in(6) {
            // The same chip twice, with its readings.
            let again = random.pick(&slots).clone();
            *random.pick_mut(&mut slots) = again;
        }
        if !random.one_in(4) {
            *random.pick_mut(&mut slots) = case.clone();
        }
        if random.one_in(24) {
            // A slot with nothing in it.
            let empty = random.pick_mut(&mut slots);
            empty.file.clear();
            empty.words.clear();
            empty.read.clear();
        }
    }
    let mut board = Board::new(case.attention_type, 0);
    for slot in &slots {
        board.add(&slot.file, &slot.words, &slot.read);
    }
    if random.one_in(6) {
        misadd(random, &mut board);
    }
    board.room = room(random, needed(&board));
    board
}

fn slot_count(random: &mut Random) -> usize {
    match random.below(40) {
        0 => 0,
        1 => MOST_SLOTS + 1,
        2 => random.between(MOST_SLOTS + 1, 40),
        3..=8 => 1,
        9..=11 => MOST_SLOTS,
        12..=15 => random.between(5, MOST_SLOTS),
        _ => random.between(2, 5),
    }
}

/// A case, mostly small, that isolation does not refuse for this type if the list
/// has room.
pub fn listing_case(random: &mut Random, attention_type: u8) -> Case {
    for _ in 0..20 {
        let shape = match random.one_in(15) {
            true => Shape::middle(random),
            false => Shape::small(random),
        };
        let map = valid_file(random, &shape);
        let has_root = map
            .fields_of(FieldKind::RootAttention)
            .any(|field| map.bytes[field.at] == attention_type);
        if !has_root {
            continue;
        }
        let instances = map.count(FieldKind::RegisterInstance);
        let (mut words, mut read) = readings(random, instances);
        words.resize(instances, random.next());
        read.resize(instances, READ);
        read.iter_mut().for_each(|byte| *byte = (*byte).min(READ));
        let mut case = Case {
            file: map.bytes,
            attention_type,
            words,
            read,
            room: 0,
        };
        if random.one_in(3) {
            silence_children(random, &mut case);
        }
        if is_unread(&case) {
            case.read.fill(READ);
        }
        return case;
    }
    let mut file = B1.to_vec();
    // Of its rule and its root.
    file[45] = attention_type;
    file[56] = attention_type;
    Case {
        file,
        attention_type,
        words: vec![random.next()],
        read: vec![READ],
        room: 0,
    }
}

/// Whether a reached rule names an unread register.
fn is_unread(case: &Case) -> bool {
    let answer = fast::isolate(
        &case.file,
        case.attention_type,
        &case.words,
        &case.read,
        &mut [],
    );
    answer.is_err_and(|refusal| refusal.number == refusal::REGISTER_UNREAD)
}

/// The bytes that the records of a board need.
fn needed(board: &Board) -> usize {
    match board.isolate(fast::isolate_board, &mut []) {
        Err(refused) if refused.refusal.number == refusal::NO_ROOM => {
            refused.refusal.place * RECORD_BYTES
        }
        _ => 0,
    }
}

/// The length of a list for records of so many bytes.
fn room(random: &mut Random, needed: usize) -> usize {
    match random.below(12) {
        0 => 0,
        1 => needed.saturating_sub(1),
        2 => random.below(needed + 1),
        3 => needed,
        4 => needed + RECORD_BYTES - 1,
        5 => needed + random.below(40),
        _ => needed + random.below(600),
    }
}

/// Makes lengths not add up to what is lent, or, seldom, add up and cut elsewhere.
fn misadd(random: &mut Random, board: &mut Board) {
    match random.below(12) {
        0 | 1 => {
            let at = random.below(3);
            match at {
                0 => lend_another_length(random, &mut board.files, 0),
                1 => lend_another_length(random, &mut board.words, 0),
                _ => lend_another_length(random, &mut board.read, READ),
            }
        }
        2 => {
            for lengths in lists(board) {
                lengths.clear();
            }
        }
        3 => {
            // Empty slots behind the others.
            let count = *random.pick(&[MOST_SLOTS + 1, MOST_SLOTS + 4, 256, 256 + MOST_SLOTS]);
            for lengths in lists(board) {
                lengths.resize(count, 0);
            }
        }
        4 => {
            // All three wrap.
            for lengths in lists(board) {
                wrap(random, lengths);
            }
        }
        kind => {
            let at = random.below(3);
            let lengths = lists(board).into_iter().nth(at);
            change(random, kind, lengths.expect("there are three"));
        }
    }
}

fn lists(board: &mut Board) -> [&mut Vec<u64>; 3] {
    [
        &mut board.file_lengths,
        &mut board.word_lengths,
        &mut board.read_lengths,
    ]
}

/// One or a few more than the lengths say, or fewer.
fn lend_another_length<T: Clone>(random: &mut Random, lent: &mut Vec<T>, more: T) {
    let by = random.between(1, 3);
    match random.one_in(2) {
        true => lent.resize(lent.len() + by, more),
        false => lent.truncate(lent.len().saturating_sub(by)),
    }
}

/// Changes one list of lengths.
fn change(random: &mut Random, kind: usize, lengths: &mut Vec<u64>) {
    match kind {
        5 => lengths.push(match random.one_in(2) {
            true => 0,
            false => random.below(9) as u64,
        }),
        6 => lengths.truncate(lengths.len().saturating_sub(1)),
        7 | 8 => wrap(random, lengths),
        9 if lengths.len() > 1 => {
            // A part of a length goes to the next one.
            let at = random.below(lengths.len() - 1);
            let most = lengths[at];
            let moved = most.min(random.below(70) as u64);
            lengths[at] -= moved;
            lengths[at + 1] += moved;
        }
        _ if lengths.is_empty() => {}
        _ => {
            let length = random.pick_mut(lengths);
            *length = match random.below(6) {
                0 => length.wrapping_add(1),
                1 => length.wrapping_sub(1),
                2 => length.wrapping_add(1 << random.below(64)),
                3 => 0,
                4 => u64::MAX,
                _ => random.next() >> random.below(64),
            };
        }
    }
}

/// Lengths whose sum is the same modulo 2 to the 64th, if there are two.
fn wrap(random: &mut Random, lengths: &mut [u64]) {
    if lengths.len() < 2 {
        return;
    }
    let first = random.below(lengths.len());
    let second = (first + random.between(1, lengths.len() - 1)) % lengths.len();
    let more = match random.below(3) {
        0 => 1 << 63,
        1 => lengths[first] + 1 + random.below(100) as u64,
        _ => random.next(),
    };
    lengths[first] = lengths[first].wrapping_sub(more);
    lengths[second] = lengths[second].wrapping_add(more);
}

#[cfg(test)]
mod tests {
    use super::*;
    use crate::generate;
    use crate::{isolate_board, BoardRefusal};

    #[test]
    fn slots_that_are_not_refused() {
        let mut random = Random::new(80);
        for round in 0..3_000u16 {
            let case = listing_case(&mut random, 1 + (round % 5) as u8);
            let mut list = vec![0; 64 * 64 * RECORD_BYTES];
            let answer = crate::isolate(
                &case.file,
                case.attention_type,
                &case.words,
                &case.read,
                &mut list,
            );
            assert!(answer.is_ok(), "{answer:?}");
        }
    }

    /// Boards of every outcome, refused in every slot.
    #[test]
    fn boards_of_every_outcome() {
        let mut random = Random::new(81);
        let mut seen = [0; refusal::BOARD_DOES_NOT_ADD_UP as usize + 1];
        let mut slots = [0; MOST_SLOTS];
        let mut with_records = 0;
        for round in 0..12_000 {
            let case = match round % 2 {
                0 => generate::case(&mut random),
                _ => {
                    let number = random.between(0, refusal::NO_ROOM.into()) as u8;
                    aimed_case(&mut random, number, Sizes::Small)
                }
            };
            let board = board_around(&mut random, &case);
            let mut list = vec![0; board.room];
            match board.isolate(isolate_board, &mut list) {
                Ok((records, _)) => {
                    seen[0] += 1;
                    with_records += usize::from(records > 0);
                }
                Err(BoardRefusal { refusal, slot }) => {
                    seen[usize::from(refusal.number)] += 1;
                    slots[usize::from(slot)] += 1;
                }
            }
        }
        assert!(seen[0] > 2_500 && with_records > 2_000, "{seen:?}");
        assert!(seen[19] > 300 && seen[20] > 1_500, "{seen:?}");
        // Number 1 needs a long file, which is rare.
        seen[1] *= 10;
        assert!(seen.iter().all(|&count| count > 60), "{seen:?}");
        assert!(slots.iter().all(|&count| count > 12), "{slots:?}");
    }
}
