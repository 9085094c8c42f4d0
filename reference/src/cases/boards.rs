//! Hand-made board calls. The answers are written from the papers; offsets stand
//! beside the pieces that files are put together from.

use crate::board::{Board, BoardRefusal, MOST_SLOTS};
use crate::hex;
use crate::isolation::{Found, Record, RECORD_BYTES};
use crate::large::B1;
use crate::readings::{READ, UNREAD};
use crate::refusal::Refusal;

/// One call and its answer.
pub struct BoardCase {
    pub name: String,
    pub board: Board,
    pub answer: Result<Found, BoardRefusal>,
}

/// Model/level A1B2C3D4, 107 bytes. 13 registers: 20 register 7, its instance 4 at
/// 26; 35 register 8, its instance 0 at 41. 50 nodes: 56 node 0102, its instance 9
/// at 60 with register 7 as the rule for type 3 (65 the expression) and, at bit 5,
/// instance 0 of node 0201 as its child; 74 node 0201, its instance 0 at 78 with
/// register 8 as the rules for types 3 and 1 (83 and 89). 94 roots: for type 3
/// instance 9 of node 0102, for type 1 instance 0 of node 0201.
const TWO_NODES: &str = "43 48 49 50 44 41 54 41 A1 B2 C3 D4 01 52 45 47 53 00 00 02 \
    00 00 07 02 C0 01 04 00 00 00 00 00 00 10 00 \
    00 00 08 02 80 01 00 00 00 00 00 00 00 20 00 4E 4F 44 45 00 02 \
    01 02 02 01 09 00 01 01 03 01 00 00 07 04 05 02 01 00 \
    02 01 02 01 00 00 02 00 03 01 00 00 08 00 01 01 00 00 08 00 \
    52 4F 4F 54 02 03 01 02 09 01 02 01 00";

const BIT_0: u64 = 1 << 63;
const BIT_5: u64 = 1 << 58;
const BIT_6: u64 = 1 << 57;
const BIT_63: u64 = 1;

/// Room for all records of these boards.
const PLENTY: usize = 64 * MOST_SLOTS * RECORD_BYTES;

/// What is in a slot.
#[derive(Clone)]
struct Chip {
    file: Vec<u8>,
    words: Vec<u64>,
    read: Vec<u8>,
}

/// Sample B1 with this reading.
fn b1(word: u64) -> Chip {
    Chip {
        file: B1.to_vec(),
        words: vec![word],
        read: vec![READ],
    }
}

/// B1 with another byte at an offset.
fn b1_with(at: usize, byte: u8) -> Chip {
    let mut chip = b1(BIT_0);
    chip.file[at] = byte;
    chip
}

/// The file of two nodes with these readings.
fn two_nodes(words: [u64; 2], read: [u8; 2]) -> Chip {
    Chip {
        file: hex::decode(TWO_NODES).expect("it is hexadecimal"),
        words: words.to_vec(),
        read: read.to_vec(),
    }
}

/// The same with bit 6 of the root and bit 63 of its child, for type 3.
fn two_bits() -> Chip {
    two_nodes([BIT_5 | BIT_6, BIT_63], [READ; 2])
}

/// The record of B1's bit.
fn of_b1(slot: u8, bit: u8) -> Record {
    [0, 0, 0, 1, 3, bit, 0, 1, 0, slot, 0, 0, 0, 0, 0, 0]
}

/// The records of [`two_bits`].
fn of_two_bits(slot: u8) -> [Record; 2] {
    let [a, b, c, d] = [0xA1, 0xB2, 0xC3, 0xD4];
    [
        [a, b, c, d, 3, 6, 1, 2, 9, slot, 0, 0, 0, 0, 0, 0],
        [a, b, c, d, 3, 63, 2, 1, 0, slot, 0, 0, 0, 0, 0, 0],
    ]
}

fn board(chips: &[Chip], attention_type: u8, room: usize) -> Board {
    let mut board = Board::new(attention_type, room);
    for chip in chips {
        board.add(&chip.file, &chip.words, &chip.read);
    }
    board
}

fn refused(number: u8, place: usize, slot: u8) -> Result<Found, BoardRefusal> {
    let refusal = Refusal::new(number, place);
    Err(BoardRefusal { refusal, slot })
}

struct Boards(Vec<BoardCase>);

impl Boards {
    fn add(&mut self, name: &str, board: Board, answer: Result<Found, BoardRefusal>) {
        self.0.push(BoardCase {
            name: name.to_string(),
            board,
            answer,
        });
    }

    /// For type 3, in plenty of room and in just as much as the records need; and
    /// refused by 19 in a byte less.
    fn found(&mut self, name: &str, chips: &[Chip], records: &[Record], steps: usize) {
        let found = Found {
            records: records.to_vec(),
            steps,
        };
        let exact = RECORD_BYTES * records.len();
        self.add(name, board(chips, 3, PLENTY), Ok(found.clone()));
        self.add(
            &format!("{name}-exact"),
            board(chips, 3, exact),
            Ok(found.clone()),
        );
        self.add(
            &format!("{name}-fifteen-more"),
            board(chips, 3, exact + 15),
            Ok(found),
        );
        if exact > 0 {
            self.add(
                &format!("{name}-byte-less"),
                board(chips, 3, exact - 1),
                refused(19, records.len(), 0),
            );
        }
    }

    /// In plenty of room and in none.
    fn refused(
        &mut self,
        name: &str,
        chips: &[Chip],
        attention_type: u8,
        (number, place, slot): (u8, usize, u8),
    ) {
        for (with, room) in [("", PLENTY), ("-no-room", 0)] {
            self.add(
                &format!("{name}{with}"),
                board(chips, attention_type, room),
                refused(number, place, slot),
            );
        }
    }

    /// Refused by 20, also where each file is refused and for a bad type.
    fn unsummed(&mut self, name: &str, chips: &[Chip], change: impl Fn(&mut Board)) {
        let refused_chips: Vec<Chip> = chips
            .iter()
            .cloned()
            .map(|mut chip| {
                chip.file.fill(0);
                chip.read.fill(9);
                chip
            })
            .collect();
        for (with, chips, attention_type, room) in [
            ("", chips, 3, PLENTY),
            ("-no-room", chips, 3, 0),
            ("-refused-files", &refused_chips, 6, PLENTY),
        ] {
            let mut board = board(chips, attention_type, room);
            change(&mut board);
            self.add(&format!("{name}{with}"), board, refused(20, 0, 0));
        }
    }
}

pub(super) fn all() -> Vec<BoardCase> {
    let mut boards = Boards(Vec::new());
    joined(&mut boards);
    no_room(&mut boards);
    first_refused(&mut boards);
    types(&mut boards);
    readings(&mut boards);
    lengths(&mut boards);
    slot_counts(&mut boards);
    lists_of_lengths(&mut boards);
    sums(&mut boards);
    boards.0
}

/// "the lists are joined in slot order, steps added up".
fn joined(boards: &mut Boards) {
    let [first, second] = [0, 1].map(of_two_bits);
    boards.found("one", &[b1(BIT_0)], &[of_b1(0, 0)], 1);
    boards.found("one-silent", &[b1(0)], &[], 1);
    boards.found("one-two-bits", &[two_bits()], &first, 2);
    let twice = [b1(BIT_0), b1(BIT_63)];
    boards.found("same-chip-twice", &twice, &[of_b1(0, 0), of_b1(1, 63)], 2);
    let alike = [b1(BIT_63), b1(BIT_63)];
    boards.found("alike-twice", &alike, &[of_b1(0, 63), of_b1(1, 63)], 2);
    let chips = [b1(BIT_0), two_bits()];
    let records = [of_b1(0, 0), second[0], second[1]];
    boards.found("two-chips", &chips, &records, 3);
    let chips = [two_bits(), b1(BIT_0)];
    let records = [first[0], first[1], of_b1(1, 0)];
    boards.found("two-chips-swapped", &chips, &records, 3);

    // Slots that list nothing: before, between and behind others, and all.
    let chips = [b1(0), two_bits()];
    boards.found("silent-first", &chips, &second, 3);
    let chips = [two_bits(), b1(0)];
    boards.found("silent-last", &chips, &first, 3);
    let chips = [b1(BIT_0), b1(0), b1(0), b1(BIT_63)];
    boards.found("silent-between", &chips, &[of_b1(0, 0), of_b1(3, 63)], 4);
    let silent = vec![b1(0); MOST_SLOTS];
    boards.found("sixteen-silent", &silent, &[], 16);

    // Bit s of slot s.
    let chips: Vec<Chip> = (0..16).map(|slot| b1(BIT_0 >> slot)).collect();
    let records: Vec<Record> = (0..16).map(|slot| of_b1(slot, slot)).collect();
    boards.found("sixteen", &chips, &records, 16);
    // The last slot alone.
    let mut chips = silent;
    chips[15] = two_bits();
    boards.found("sixteen-last-shows", &chips, &of_two_bits(15), 17);
    // All bits of all slots.
    let chips = vec![b1(u64::MAX); MOST_SLOTS];
    let records: Vec<Record> = (0..16)
        .flat_map(|slot| (0..64).map(move |bit| of_b1(slot, bit)))
        .collect();
    boards.found("sixteen-all-bits", &chips, &records, 16);
}

/// "19 counts 16-byte places", over all slots: each alone would have room.
fn no_room(boards: &mut Boards) {
    let chips = [b1(BIT_0), b1(BIT_63)];
    for room in [0, 15, 16, 31] {
        let name = format!("two-in-{room}");
        boards.add(&name, board(&chips, 3, room), refused(19, 2, 0));
    }
    for room in [32, 33, 47, 48] {
        let found = Found {
            records: vec![of_b1(0, 0), of_b1(1, 63)],
            steps: 2,
        };
        let name = format!("two-in-{room}");
        boards.add(&name, board(&chips, 3, room), Ok(found));
    }
    let chips = vec![b1(BIT_0); MOST_SLOTS];
    for room in [0, 16, 240, 255] {
        let name = format!("sixteen-in-{room}");
        boards.add(&name, board(&chips, 3, room), refused(19, 16, 0));
    }
    // The slot that has the record is not the first.
    let chips = [b1(0), b1(0), b1(BIT_0)];
    boards.add("last-in-0", board(&chips, 3, 0), refused(19, 1, 0));
    // 1,024 records, one place less.
    let chips = vec![b1(u64::MAX); MOST_SLOTS];
    let room = 1_023 * RECORD_BYTES;
    boards.add("all-bits", board(&chips, 3, room), refused(19, 1_024, 0));
}

/// "The first slot refused 1 to 18 refuses the whole board and is named", in each
/// position, beside slots that are not refused and before slots that are.
fn first_refused(boards: &mut Boards) {
    let mut longer = b1(BIT_0);
    longer.file.push(0);
    let mut empty = b1(BIT_0);
    empty.file.clear();
    let mut unread = b1(BIT_0);
    unread.read[0] = UNREAD;
    let mut unfit = b1(BIT_0);
    unfit.read[0] = 2;
    let faults = [
        ("empty", empty, 2, 0),
        ("version", b1_with(12, 2), 4, 12),
        ("one-more", longer, 11, 60),
        ("root-instance", b1_with(59, 1), 12, 56),
        ("flags", b1_with(24, 0), 13, 46),
        ("root-type", b1_with(56, 1), 12, 56),
        ("read-byte", unfit, 17, 0),
        ("unread", unread, 18, 46),
    ];
    for count in [1, 2, 16] {
        for (name, chip, number, place) in &faults {
            for slot in 0..count {
                let mut chips = vec![b1(BIT_0); count];
                chips[slot] = chip.clone();
                let answer = (*number, *place, slot as u8);
                let name = format!("{name}-{slot}-of-{count}");
                boards.refused(&name, &chips, 3, answer);
            }
        }
    }
    // Each fault before each other one: the slot decides and not the number.
    for (first_name, first, number, place) in &faults {
        for (second_name, second, ..) in &faults {
            let chips = [b1(BIT_0), first.clone(), b1(BIT_0), second.clone()];
            let name = format!("{first_name}-before-{second_name}");
            boards.refused(&name, &chips, 3, (*number, *place, 1));
        }
    }
}

/// A type that is not 1 to 5 is 15 of slot 0, unless the file there is refused;
/// a type without a root is 16 of the first slot that has none.
fn types(boards: &mut Boards) {
    let fine = [b1(BIT_0), two_bits()];
    let mut unfit = fine.clone();
    unfit[0].words.clear();
    let mut empty_first = fine.clone();
    empty_first[0].file.clear();
    let mut empty_second = fine.clone();
    empty_second[1].file.clear();
    for attention_type in [0, 6, 255] {
        let mut refused = |name: &str, chips: &[Chip], answer| {
            let name = format!("type-{attention_type}-{name}");
            boards.refused(&name, chips, attention_type, answer);
        };
        refused("fine", &fine, (15, 0, 0));
        refused("unfit-readings", &unfit, (15, 0, 0));
        refused("empty-first", &empty_first, (2, 0, 0));
        refused("empty-second", &empty_second, (15, 0, 0));
        refused("sixteen", &vec![two_bits(); MOST_SLOTS], (15, 0, 0));
    }
    // B1 has a root for type 3, the other file for 3 and 1.
    boards.refused("no-root-first", &fine, 1, (16, 0, 0));
    let chips = [two_bits(), b1(BIT_0), b1(BIT_0)];
    boards.refused("no-root-second", &chips, 1, (16, 0, 1));
    boards.refused("no-root-any", &chips, 5, (16, 0, 0));
    let mut chips = vec![two_bits(); MOST_SLOTS];
    chips[15] = b1(BIT_0);
    boards.refused("no-root-last", &chips, 1, (16, 0, 15));
    // The file is refused first.
    let chips = [two_bits(), b1_with(12, 2)];
    boards.refused("no-root-refused-file", &chips, 1, (4, 12, 1));
    // No root in a slot, and a refused file in a later one.
    let chips = [two_bits(), b1(BIT_0), b1_with(12, 2)];
    boards.refused("no-root-before-refused-file", &chips, 1, (16, 0, 1));
    // Type 1: register 8, whose rule is the second.
    let found = Found {
        records: vec![[0xA1, 0xB2, 0xC3, 0xD4, 1, 63, 2, 1, 0, 0, 0, 0, 0, 0, 0, 0]],
        steps: 1,
    };
    boards.add("type-1", board(&[two_bits()], 1, PLENTY), Ok(found));
    let unread = two_nodes([0, 0], [READ, UNREAD]);
    let chips = [two_bits(), unread];
    boards.refused("type-1-unread", &chips, 1, (18, 89, 1));
}

/// Readings of a later slot that do not fit, or that a reached rule names and are
/// unread.
fn readings(boards: &mut Boards) {
    let slots = [b1(BIT_0), b1(0), two_bits(), b1(BIT_0)];
    let mut refused = |name: &str, change: &dyn Fn(&mut Chip), answer| {
        let mut chips = slots.clone();
        change(&mut chips[2]);
        boards.refused(name, &chips, 3, answer);
    };
    refused("word-less", &|chip| chip.words.truncate(1), (17, 0, 2));
    refused("word-more", &|chip| chip.words.push(0), (17, 0, 2));
    refused("no-words", &|chip| chip.words.clear(), (17, 0, 2));
    refused("read-less", &|chip| chip.read.truncate(1), (17, 0, 2));
    refused("read-more", &|chip| chip.read.push(READ), (17, 0, 2));
    refused("read-byte-2", &|chip| chip.read[1] = 2, (17, 0, 2));
    refused("read-byte-255", &|chip| chip.read[0] = 255, (17, 0, 2));
    refused("unread-root", &|chip| chip.read[0] = 0, (18, 65, 2));
    refused("unread-child", &|chip| chip.read[1] = 0, (18, 83, 2));
    refused("unread-both", &|chip| chip.read.fill(0), (18, 65, 2));
    // Register 8 is named by no reached rule.
    let chips = [b1(BIT_0), two_nodes([BIT_6, 7], [READ, UNREAD])];
    let records = [of_b1(0, 0), of_two_bits(1)[0]];
    boards.found("unread-not-reached", &chips, &records, 2);
}

/// Lengths that add up and cut at other places.
fn lengths(boards: &mut Boards) {
    let three = [b1(BIT_0), b1(BIT_0), b1(BIT_0)];
    let mut files = |name: &str, lengths: [u64; 3], answer: (u8, usize, u8)| {
        let mut board = board(&three, 3, PLENTY);
        board.file_lengths = lengths.to_vec();
        let (number, place, slot) = answer;
        boards.add(name, board, refused(number, place, slot));
    };
    files("file-61-59", [61, 59, 60], (11, 60, 0));
    files("file-59-61", [59, 61, 60], (2, 59, 0));
    files("file-all-first", [180, 0, 0], (11, 60, 0));
    files("file-all-last", [0, 0, 180], (2, 0, 0));
    files("file-60-61-59", [60, 61, 59], (11, 60, 1));
    files("file-60-59-61", [60, 59, 61], (2, 59, 1));
    files("file-60-120-0", [60, 120, 0], (11, 60, 1));
    files("file-60-0-120", [60, 0, 120], (2, 0, 1));
    let mut readings = |name: &str, words: [u64; 3], read: [u64; 3], slot: u8| {
        let mut board = board(&three, 3, PLENTY);
        board.word_lengths = words.to_vec();
        board.read_lengths = read.to_vec();
        boards.add(name, board, refused(17, 0, slot));
    };
    readings("words-2-0-1", [2, 0, 1], [1, 1, 1], 0);
    readings("words-0-2-1", [0, 2, 1], [1, 1, 1], 0);
    readings("words-1-2-0", [1, 2, 0], [1, 1, 1], 1);
    readings("words-1-0-2", [1, 0, 2], [1, 1, 1], 1);
    readings("read-2-0-1", [1, 1, 1], [2, 0, 1], 0);
    readings("read-1-0-2", [1, 1, 1], [1, 0, 2], 1);
    readings("both-1-2-0", [1, 2, 0], [1, 2, 0], 1);
    readings("both-3-0-0", [3, 0, 0], [3, 0, 0], 0);
    readings("words-later-than-read", [1, 1, 1], [1, 2, 0], 1);
    // The second file ends before its third slot, which is empty.
    let mut short = board(&three[..2], 3, PLENTY);
    short.file_lengths.push(0);
    short.word_lengths.push(0);
    short.read_lengths.push(0);
    boards.add("empty-third", short, refused(2, 0, 2));
}

/// Slots that are not 1 to 16.
fn slot_counts(boards: &mut Boards) {
    boards.unsummed("no-slot", &[], |_| ());
    boards.unsummed("no-slot-something-lent", &[b1(BIT_0)], |board| {
        board.file_lengths.clear();
        board.word_lengths.clear();
        board.read_lengths.clear();
    });
    boards.unsummed("seventeen", &vec![b1(BIT_0); 17], |_| ());
    let with_empty = |more: usize| {
        move |board: &mut Board| {
            let slots = MOST_SLOTS + more;
            board.file_lengths.resize(slots, 0);
            board.word_lengths.resize(slots, 0);
            board.read_lengths.resize(slots, 0);
        }
    };
    let sixteen = vec![b1(BIT_0); MOST_SLOTS];
    boards.unsummed("sixteen-and-an-empty-one", &sixteen, with_empty(1));
    // 272, which is 16 in one byte.
    boards.unsummed("sixteen-and-256-empty", &sixteen, with_empty(256));
}

/// "one list longer than another". The sums are right.
fn lists_of_lengths(boards: &mut Boards) {
    for count in [1, 2, 15, 16] {
        let chips = vec![b1(BIT_0); count];
        let mut unsummed = |name: &str, change: &dyn Fn(&mut Board)| {
            boards.unsummed(&format!("{name}-of-{count}"), &chips, change);
        };
        unsummed("file-list-longer", &|board| board.file_lengths.push(0));
        unsummed("word-list-longer", &|board| board.word_lengths.push(0));
        unsummed("read-list-longer", &|board| board.read_lengths.push(0));
        unsummed("word-and-read-longer", &|board| {
            board.word_lengths.push(0);
            board.read_lengths.push(0);
        });
        // The last length goes to the one before it.
        let shorter = |lengths: &mut Vec<u64>| {
            let last = lengths.pop().unwrap_or(0);
            if let Some(before) = lengths.last_mut() {
                *before += last;
            }
        };
        unsummed("file-list-shorter", &|board| {
            shorter(&mut board.file_lengths)
        });
        unsummed("word-list-shorter", &|board| {
            shorter(&mut board.word_lengths)
        });
        unsummed("read-list-shorter", &|board| {
            shorter(&mut board.read_lengths)
        });
    }
}

fn shorten<T>(lent: &mut Vec<T>) {
    lent.truncate(lent.len() - 1);
}

/// "lengths that don't add up", as exact numbers.
fn sums(boards: &mut Boards) {
    type Change = fn(&mut Board);
    let changes: [(&str, Change); 12] = [
        ("file-length-more", |board| board.file_lengths[0] += 1),
        ("file-length-less", |board| board.file_lengths[0] -= 1),
        ("word-length-more", |board| board.word_lengths[0] += 1),
        ("word-length-less", |board| board.word_lengths[0] -= 1),
        ("read-length-more", |board| board.read_lengths[0] += 1),
        ("read-length-less", |board| board.read_lengths[0] -= 1),
        ("byte-more", |board| board.files.push(0)),
        ("byte-less", |board| shorten(&mut board.files)),
        ("word-more-lent", |board| board.words.push(0)),
        ("word-less-lent", |board| shorten(&mut board.words)),
        ("read-more-lent", |board| board.read.push(READ)),
        ("read-less-lent", |board| shorten(&mut board.read)),
    ];
    for count in [1, 3, 16] {
        let chips = vec![b1(BIT_0); count];
        for (name, change) in changes {
            boards.unsummed(&format!("{name}-of-{count}"), &chips, change);
        }
    }

    // Sums that are right modulo 2 to the 64th, or to the 32nd.
    const HALF: u64 = 1 << 63;
    let two = [b1(BIT_0), b1(BIT_0)];
    boards.unsummed("files-halves", &two, |board| {
        board.file_lengths = vec![HALF, HALF + 120];
    });
    boards.unsummed("files-wrap", &two, |board| {
        board.file_lengths = vec![200, u64::MAX - 79];
    });
    boards.unsummed("files-wrap-first", &two, |board| {
        board.file_lengths = vec![u64::MAX, 121];
    });
    boards.unsummed("words-halves", &two, |board| {
        board.word_lengths = vec![HALF + 1, HALF + 1];
    });
    boards.unsummed("words-wrap", &two, |board| {
        board.word_lengths = vec![3, u64::MAX];
    });
    boards.unsummed("read-halves", &two, |board| {
        board.read_lengths = vec![HALF + 1, HALF + 1];
    });
    boards.unsummed("read-wrap", &two, |board| {
        board.read_lengths = vec![u64::MAX, 3];
    });
    boards.unsummed("all-halves", &two, |board| {
        board.file_lengths = vec![HALF + 60; 2];
        board.word_lengths = vec![HALF + 1; 2];
        board.read_lengths = vec![HALF + 1; 2];
    });
    // 8 bytes a word: the bytes of the words add up modulo 2 to the 64th.
    boards.unsummed("words-eighth", &two, |board| {
        board.word_lengths[0] += 1 << 61;
    });
    let three = [b1(BIT_0), b1(BIT_0), b1(BIT_0)];
    boards.unsummed("files-wrap-twice", &three, |board| {
        board.file_lengths = vec![u64::MAX, u64::MAX, 182];
    });
    // It wraps and comes back to what is lent for the first slots.
    boards.unsummed("files-wrap-behind", &three, |board| {
        board.file_lengths = vec![180, HALF, HALF];
    });
    let sixteen = vec![b1(BIT_0); MOST_SLOTS];
    boards.unsummed("sixteen-wrap", &sixteen, |board| {
        for length in &mut board.file_lengths {
            *length += 1 << 60;
        }
    });
    boards.unsummed("sixteen-wrap-all", &sixteen, |board| {
        let lists = [
            &mut board.file_lengths,
            &mut board.word_lengths,
            &mut board.read_lengths,
        ];
        for length in lists.into_iter().flatten() {
            *length += 1 << 60;
        }
    });
    boards.unsummed("one-of-2-to-the-32nd", &[b1(BIT_0)], |board| {
        board.file_lengths[0] += 1 << 32;
    });
    boards.unsummed("one-of-most", &[b1(BIT_0)], |board| {
        board.file_lengths[0] = u64::MAX;
    });
    boards.unsummed("nothing-lent", &[b1(BIT_0)], |board| {
        board.files.clear();
        board.words.clear();
        board.read.clear();
    });
}
