//! Cases for all seven functions: seeded, and as text.

use std::fmt::Write;
use std::sync::OnceLock;

use reference::board::Board;
use reference::generate::{self, Random, Sizes, Writing, HIGHEST_NUMBER, WRITING_NUMBERS};
use reference::{cases, hex, large, refusal, report, Accepted, Limits};

use crate::proved::TEXT_BYTES;

/// All that the seven functions are lent.
#[derive(Clone, Debug, PartialEq, Eq)]
pub struct Case {
    /// File, attention type, readings and the length of the list.
    pub isolation: generate::Case,
    /// Register ID and instance of the address query.
    pub id: u64,
    pub instance: u8,
    /// Places of `out`.
    pub places: usize,
    /// The readings file of the report.
    pub readings_file: Vec<u8>,
    /// The length of the report's text.
    pub text: usize,
    pub board: Board,
    /// Of the writer; the reader is lent the file of the isolation.
    pub writing: Writing,
    /// The length of the reader's output.
    pub reading_room: usize,
}

impl Case {
    /// The case of a seed and a number: always the same.
    pub fn seeded(seed: u64, number: u64) -> Self {
        let start = Random::new(Random::new(seed).next() ^ number).next();
        let random = &mut Random::new(start);
        let mut isolation = match random.below(100) {
            0..=12 => generate::colliding_case(random),
            13..=42 => generate::case(random),
            43 | 44 => generate::too_large_case(random),
            45 => generate::full_list_case(random),
            46..=89 => {
                let aim = random.between(0, HIGHEST_NUMBER.into()) as u8;
                generate::aimed_case(random, aim, Sizes::Any)
            }
            90 | 91 => generate::large_case(random),
            92..=95 => with_file(random, near_b1),
            96 => with_file(random, hand_made),
            97 => hand_made_call(random),
            _ => with_file(random, any_bytes),
        };
        mix_in_faults(random, &mut isolation);
        let (id, instance) = register_name(random, &isolation.file);
        let places = match random.below(16) {
            0 => random.below(8),
            _ => random.between(8, 12),
        };
        let readings_file = generate::readings_file(random, &isolation);
        let whole = report(&isolation.file, isolation.attention_type, &readings_file);
        let text = text_length(random, whole.len());
        let board = board(random, &isolation);
        let writing = writing(random, &isolation.file);
        let reading_room = generate::reading_room(random, &isolation.file);
        Case {
            isolation,
            id,
            instance,
            places,
            readings_file,
            text,
            board,
            writing,
            reading_room,
        }
    }

    /// One line for each part, as [`Case::from_text`] reads them.
    pub fn to_text(&self) -> String {
        let isolation = &self.isolation;
        let board = &self.board;
        let mut text = String::new();
        let bytes_of = |words: &[u64]| -> Vec<u8> {
            let bytes = words.iter().flat_map(|word| word.to_be_bytes());
            bytes.collect()
        };
        for (name, bytes) in [
            ("file", &isolation.file),
            ("words", &bytes_of(&isolation.words)),
            ("read", &isolation.read),
            ("readings", &self.readings_file),
            ("board-files", &board.files),
            ("board-words", &bytes_of(&board.words)),
            ("board-read", &board.read),
            ("records", &self.writing.records),
        ] {
            writeln!(text, "{name} {}", hex::encode(bytes)).expect("a String takes all text");
        }
        for (name, lengths) in [
            ("board-file-lengths", &board.file_lengths),
            ("board-word-lengths", &board.word_lengths),
            ("board-read-lengths", &board.read_lengths),
        ] {
            text += name;
            for length in lengths {
                write!(text, " {length}").expect("a String takes all text");
            }
            text += "\n";
        }
        for (name, number) in [
            ("type", u64::from(isolation.attention_type)),
            ("list", isolation.room as u64),
            ("id", self.id),
            ("instance", u64::from(self.instance)),
            ("places", self.places as u64),
            ("text", self.text as u64),
            ("board-type", u64::from(board.attention_type)),
            ("board-list", board.room as u64),
            ("model", u64::from(self.writing.model)),
            ("write-room", self.writing.room as u64),
            ("read-room", self.reading_room as u64),
        ] {
            writeln!(text, "{name} {number}").expect("a String takes all text");
        }
        text
    }

    /// The case of such lines, or the first line that is none. A part without
    /// a line is empty or 0, and a board without one has no slot; `places` is then
    /// 8 and `text` 152000.
    pub fn from_text(text: &str) -> Result<Self, String> {
        let mut case = Case {
            isolation: generate::Case {
                file: Vec::new(),
                attention_type: 0,
                words: Vec::new(),
                read: Vec::new(),
                room: 0,
            },
            id: 0,
            instance: 0,
            places: 8,
            readings_file: Vec::new(),
            text: TEXT_BYTES,
            board: Board::new(0, 0),
            writing: Writing {
                model: 0,
                records: Vec::new(),
                room: 0,
            },
            reading_room: 0,
        };
        for line in text.lines().filter(|line| !line.trim().is_empty()) {
            case.set(line.trim()).ok_or(line)?;
        }
        Ok(case)
    }

    fn set(&mut self, line: &str) -> Option<()> {
        let (name, value) = line.split_once(' ').unwrap_or((line, ""));
        let isolation = &mut self.isolation;
        let board = &mut self.board;
        match name {
            "file" => isolation.file = hex::decode(value)?,
            "read" => isolation.read = hex::decode(value)?,
            "words" => isolation.words = words(value)?,
            "board-files" => board.files = hex::decode(value)?,
            "board-file-lengths" => board.file_lengths = lengths(value)?,
            "board-words" => board.words = words(value)?,
            "board-word-lengths" => board.word_lengths = lengths(value)?,
            "board-read" => board.read = hex::decode(value)?,
            "board-read-lengths" => board.read_lengths = lengths(value)?,
            "board-type" => board.attention_type = value.parse().ok()?,
            "board-list" => board.room = value.parse().ok()?,
            "records" => self.writing.records = hex::decode(value)?,
            "model" => self.writing.model = value.parse().ok()?,
            "write-room" => self.writing.room = value.parse().ok()?,
            "read-room" => self.reading_room = value.parse().ok()?,
            "type" => isolation.attention_type = value.parse().ok()?,
            "list" => isolation.room = value.parse().ok()?,
            "id" => self.id = value.parse().ok()?,
            "instance" => self.instance = value.parse().ok()?,
            "places" => self.places = value.parse().ok()?,
            "readings" => self.readings_file = hex::decode(value)?,
            "text" => self.text = value.parse().ok()?,
            _ => return None,
        }
        Some(())
    }
}

/// Words of 8 bytes each, in hexadecimal.
fn words(text: &str) -> Option<Vec<u64>> {
    let bytes = hex::decode(text)?;
    let words = bytes.chunks(8).map(|word| word.try_into().ok());
    words.map(|word| word.map(u64::from_be_bytes)).collect()
}

/// Decimal numbers.
fn lengths(text: &str) -> Option<Vec<u64>> {
    let numbers = text.split_whitespace();
    numbers.map(|number| number.parse().ok()).collect()
}

/// A board around the case, or seldom a hand-made one.
fn board(random: &mut Random, case: &generate::Case) -> Board {
    static BOARDS: OnceLock<Vec<cases::BoardCase>> = OnceLock::new();
    if random.one_in(16) {
        let boards = BOARDS.get_or_init(cases::boards);
        return random.pick(boards).board.clone();
    }
    generate::board_around(random, case)
}

/// Records around the file, or aimed at an outcome, or seldom hand-made ones.
/// Those that are too long or have too many instances are rare, since they are
/// long.
fn writing(random: &mut Random, file: &[u8]) -> Writing {
    static WRITINGS: OnceLock<Vec<cases::Writing>> = OnceLock::new();
    match random.below(24) {
        0 => {
            let case = random.pick(WRITINGS.get_or_init(cases::writings));
            Writing {
                model: case.model,
                records: case.records.clone(),
                room: case.room,
            }
        }
        1..=8 => {
            let number = *random.pick(&WRITING_NUMBERS);
            let is_left_out = match number {
                refusal::FILE_TOO_LONG => !random.one_in(12),
                refusal::TOO_MANY_INSTANCES => !random.one_in(3),
                _ => false,
            };
            match is_left_out {
                true => generate::writing_around(random, file),
                false => generate::aimed_writing(random, number),
            }
        }
        _ => generate::writing_around(random, file),
    }
}

/// A file of its own kind, with readings that fit it where it is accepted.
fn with_file(random: &mut Random, file: fn(&mut Random) -> Vec<u8>) -> generate::Case {
    let file = file(random);
    let instances = match Accepted::read(&file) {
        Ok(accepted) => accepted.tree.register_instances.len(),
        Err(_) => random.between(1, 4),
    };
    let (words, read) = generate::readings(random, instances);
    generate::Case {
        file,
        attention_type: large::ATTENTION_TYPE,
        words,
        read,
        room: random.below(100),
    }
}

/// Sample B1 with a byte or two changed, or cut, or longer.
fn near_b1(random: &mut Random) -> Vec<u8> {
    let mut file = large::B1.to_vec();
    for _ in 0..random.below(3) {
        let at = random.below(file.len());
        file[at] = match random.below(3) {
            0 => random.byte(),
            1 => file[at] ^ 1 << random.below(8),
            _ => random.below(4) as u8,
        };
    }
    match random.below(8) {
        0 => file.truncate(random.below(61)),
        1 => file.push(random.byte()),
        2 => file.insert(random.below(61), random.byte()),
        _ => {}
    }
    file
}

/// The file of a hand-made case, seldom a long one.
fn hand_made(random: &mut Random) -> Vec<u8> {
    static CASES: OnceLock<Vec<cases::Case>> = OnceLock::new();
    let cases = CASES.get_or_init(cases::all);
    let mut file = &random.pick(cases).file;
    while file.len() > Limits::PROGRAM.bytes && !random.one_in(8) {
        file = &random.pick(cases).file;
    }
    file.clone()
}

/// A hand-made isolation call, mostly as it is.
fn hand_made_call(random: &mut Random) -> generate::Case {
    static CALLS: OnceLock<Vec<cases::Isolation>> = OnceLock::new();
    let call = random.pick(CALLS.get_or_init(cases::isolations));
    let mut case = generate::Case {
        file: call.file.clone(),
        attention_type: large::ATTENTION_TYPE,
        words: call.words.clone(),
        read: call.read.clone(),
        room: call.room,
    };
    if random.one_in(3) {
        (case.words, case.read) = generate::readings(random, case.words.len());
    }
    case
}

/// Bytes that begin as a file does, or not at all.
fn any_bytes(random: &mut Random) -> Vec<u8> {
    let mut file = large::B1[..random.below(61)].to_vec();
    let most = *random.pick(&[2, 6, 32, 256]);
    let length = match random.below(64) {
        0 => length_near(random, Limits::LIBRARY.bytes),
        1..=8 => length_near(random, Limits::PROGRAM.bytes),
        9..=16 => file.len() + random.below(3_000),
        _ => file.len() + random.below(80),
    };
    file.extend((file.len()..length).map(|_| random.below(most) as u8));
    file
}

/// A length of a file: as many bytes as there may be, one more, or nearly so many.
fn length_near(random: &mut Random, bytes: usize) -> usize {
    match random.below(4) {
        0 => bytes,
        1 => bytes + 1,
        _ => random.between(bytes - 6_000, bytes + 4_000),
    }
}

/// Now and then a type, readings or room that another refusal may precede.
fn mix_in_faults(random: &mut Random, case: &mut generate::Case) {
    match random.below(40) {
        0..=2 => case.attention_type = random.below(8) as u8,
        3 => case.attention_type = random.byte(),
        4 => case.words.truncate(random.below(case.words.len() + 1)),
        5 => case.read.truncate(random.below(case.read.len() + 1)),
        6 => {
            if let Some(last) = case.read.last_mut() {
                *last = random.byte();
            }
        }
        7 | 8 => case.room = 0,
        9 => case.room = random.below(64),
        10 => {
            case.words.clear();
            case.read.clear();
        }
        _ => {}
    }
}

/// The length of a text for so many bytes, now and then too short.
fn text_length(random: &mut Random, whole: usize) -> usize {
    match random.below(32) {
        0 => 0,
        1 | 2 => random.below(whole),
        3 | 4 => whole - 1,
        5 | 6 => whole,
        7 => whole + 1,
        8 => TEXT_BYTES,
        _ => whole + random.below(200),
    }
}

/// A register instance of the file, or one that is not there.
fn register_name(random: &mut Random, file: &[u8]) -> (u64, u8) {
    let (mut id, mut instance) = match Accepted::read(file) {
        Ok(accepted) => {
            let named = random.pick(&accepted.tree.register_instances);
            let id = accepted.tree.registers[named.register].id;
            (u64::from(id), named.number)
        }
        Err(_) => (random.below(4) as u64, random.below(4) as u8),
    };
    match random.below(12) {
        0 => id ^= 1 << random.below(64),
        1 => id |= 1 << random.between(24, 63),
        2 => id = random.next(),
        3 => id = random.next() & 0x00FF_FFFF,
        4 => instance = random.byte(),
        5 => instance = instance.wrapping_add(1),
        6 => {
            let name = generate::name_like(random, id as u32, instance);
            (id, instance) = (u64::from(name.0), name.1);
        }
        _ => {}
    }
    (id, instance)
}

#[cfg(test)]
mod tests {
    use super::*;

    #[test]
    fn there_and_back() {
        for number in 0..300 {
            let case = Case::seeded(7, number);
            assert_eq!(case, Case::seeded(7, number));
            assert_eq!(Case::from_text(&case.to_text()), Ok(case));
        }
    }

    #[test]
    fn text_that_is_no_case() {
        for line in [
            "file 0",
            "words 00",
            "type 256",
            "room 1",
            "id -1",
            "places",
            "readings 0",
            "text -1",
            "board-files 0",
            "board-file-lengths 1 x",
            "board-words 00",
            "board-word-lengths -1",
            "board-read-lengths 18446744073709551616",
            "board-type 256",
            "board-list",
            "records 0",
            "model 4294967296",
            "write-room",
            "read-room -1",
        ] {
            assert_eq!(Case::from_text(line), Err(line.to_string()));
        }
        assert!(Case::from_text("").is_ok());
    }
}
