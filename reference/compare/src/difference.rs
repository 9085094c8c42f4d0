//! Calls the proved library on a case and compares all that it leaves behind
//! with what the reference gives.

use std::fmt;

use reference::vectors::{
    address_of_any, expected_of_board, expected_of_check, expected_of_pair, expected_of_records,
    BOARD_SLOT,
};
use reference::{
    bits_above_silent, board, check, isolate, isolate_board, read_records, refusal, report,
    write_records,
};

use crate::case::Case;
use crate::proved::{
    self, ADDRESS_PLACES, BOARD_PLACES, CHECK_PLACES, ISOLATE_PLACES, RECORDS_PLACES,
};

/// The numbers of the seven outcomes, 0 for success.
#[derive(Clone, Copy, Debug, PartialEq, Eq)]
pub struct Outcomes {
    pub check: u8,
    pub address: u8,
    pub isolate: u8,
    pub report: u8,
    pub board: u8,
    pub write: u8,
    pub read: u8,
    /// The slot of a board that is refused for one.
    pub slot: Option<u8>,
    /// The text was too short for the report.
    pub cut: bool,
    /// A bit to list has a child that shows nothing; the list may have no room
    /// for it.
    pub above_silent: bool,
}

#[derive(Clone, Debug, PartialEq, Eq)]
pub struct Difference {
    pub call: &'static str,
    pub proved: String,
    pub reference: String,
}

impl Outcomes {
    /// The file is too large for the report and not for the other calls.
    pub fn is_too_large_for_the_report_alone(&self) -> bool {
        let is_too_large =
            |number| matches!(number, refusal::FILE_TOO_LONG | refusal::TOO_MANY_INSTANCES);
        is_too_large(self.report) && !is_too_large(self.check)
    }
}

impl fmt::Display for Difference {
    fn fmt(&self, f: &mut fmt::Formatter<'_>) -> fmt::Result {
        writeln!(f, "{} differs", self.call)?;
        writeln!(f, "proved    {}", self.proved)?;
        write!(f, "reference {}", self.reference)
    }
}

/// Bytes around what is lent.
const AROUND: usize = 64;

/// What a buffer holds before it is lent: no two places near each other alike.
fn pattern(at: usize) -> u8 {
    (at.wrapping_mul(0x9D) ^ (at >> 8) ^ 0x5A) as u8
}

/// A copy in the middle of other bytes, so that a call that takes more than it
/// was lent gives another answer or changes them.
struct Lent {
    bytes: Vec<u8>,
    length: usize,
}

impl Lent {
    fn new(content: &[u8]) -> Self {
        let mut bytes: Vec<u8> = (0..content.len() + 2 * AROUND).map(pattern).collect();
        bytes[AROUND..AROUND + content.len()].copy_from_slice(content);
        Lent {
            bytes,
            length: content.len(),
        }
    }

    /// A buffer that keeps its pattern.
    fn patterned(length: usize) -> Self {
        Lent {
            bytes: (0..length + 2 * AROUND).map(pattern).collect(),
            length,
        }
    }

    fn part(&self) -> &[u8] {
        &self.bytes[AROUND..AROUND + self.length]
    }

    fn part_mut(&mut self) -> &mut [u8] {
        &mut self.bytes[AROUND..AROUND + self.length]
    }
}

/// `out` with a pattern, and more places around it.
struct Out {
    places: Vec<u64>,
    length: usize,
}

impl Out {
    const AROUND: usize = 4;

    fn new(length: usize) -> Self {
        let places = 0..(length + 2 * Self::AROUND) as u64;
        Out {
            places: places.map(|place| !(place << 32 | place)).collect(),
            length,
        }
    }

    fn part(&mut self) -> &mut [u64] {
        &mut self.places[Self::AROUND..Self::AROUND + self.length]
    }

    /// The first place, if there are as many as an answer has.
    fn first(&self, needed: usize) -> Option<u64> {
        (self.length >= needed).then(|| self.places[Self::AROUND])
    }

    /// All places as they are to be after a call with this answer.
    fn expected(length: usize, answer: &[u32]) -> Vec<u64> {
        let mut out = Out::new(length);
        if length >= answer.len() {
            for (place, &value) in out.part().iter_mut().zip(answer) {
                *place = u64::from(value);
            }
        }
        out.places
    }
}

/// A copy of words in the middle of other numbers.
struct LentWords {
    numbers: Vec<u64>,
}

impl LentWords {
    const AROUND: usize = 4;

    fn new(content: &[u64]) -> Self {
        let around = [1, 60, u64::MAX, 0];
        LentWords {
            numbers: [&around, content, &around].concat(),
        }
    }

    fn part(&self) -> &[u64] {
        &self.numbers[Self::AROUND..self.numbers.len() - Self::AROUND]
    }
}

fn same_numbers(call: &'static str, proved: &[u64], reference: &[u64]) -> Result<(), Difference> {
    if proved == reference {
        return Ok(());
    }
    let as_lent = Out::new(proved.len() - 2 * Out::AROUND).places;
    let show = |places: &[u64]| {
        let note = if places == as_lent { " (as lent)" } else { "" };
        format!("{:?}{note}", &places[Out::AROUND..])
    };
    Err(Difference {
        call,
        proved: show(proved),
        reference: show(reference),
    })
}

/// The number that a call returned with the one that is expected and, if `out`
/// has places for the answer, with the first that it has there.
fn same_returned(
    call: &'static str,
    returned: u64,
    expected: u32,
    out: Option<u64>,
) -> Result<(), Difference> {
    if returned == u64::from(expected) && out.is_none_or(|first| first == returned) {
        return Ok(());
    }
    let noted = out.map_or(String::new(), |first| format!(", {first} in `out`"));
    Err(Difference {
        call,
        proved: format!("{returned} returned{noted}"),
        reference: expected.to_string(),
    })
}

fn same_bytes(call: &'static str, proved: &Lent, reference: &Lent) -> Result<(), Difference> {
    let mut pairs = proved.bytes.iter().zip(&reference.bytes);
    let Some(at) = pairs.position(|(proved, reference)| proved != reference) else {
        return Ok(());
    };
    let show = |lent: &Lent| {
        let end = lent.bytes.len().min(at + 16);
        format!(
            "{} from byte {} of {}",
            reference::hex::encode(&lent.bytes[at..end]),
            at as isize - AROUND as isize,
            lent.length
        )
    };
    Err(Difference {
        call,
        proved: show(proved),
        reference: show(reference),
    })
}

/// The outcomes, if nothing differs.
pub fn compare(case: &Case) -> Result<Outcomes, Difference> {
    let file = Lent::new(&case.isolation.file);
    let check = compare_check(case, &file)?;
    let address = compare_address(case, &file)?;
    let isolate = compare_isolate(case, &file)?;
    let (report, cut) = compare_report(case, &file)?;
    let (board, slot) = compare_board(case)?;
    let write = compare_write(case)?;
    let read = compare_read(case, &file)?;
    let isolation = &case.isolation;
    let bits_above_silent = bits_above_silent(
        &isolation.file,
        isolation.attention_type,
        &isolation.words,
        &isolation.read,
    );
    Ok(Outcomes {
        check,
        address,
        isolate,
        report,
        board,
        write,
        read,
        slot,
        cut,
        above_silent: bits_above_silent > 0,
    })
}

fn compare_check(case: &Case, file: &Lent) -> Result<u8, Difference> {
    let answer = expected_of_check(check(&case.isolation.file));
    for places in [case.places, 0] {
        let mut out = Out::new(places);
        let returned = proved::check(file.part(), out.part());
        let expected = Out::expected(places, &answer[..CHECK_PLACES]);
        same_numbers("check", &out.places, &expected)?;
        let first = out.first(CHECK_PLACES);
        same_returned("what check returns", returned, answer[0], first)?;
    }
    Ok(answer[0] as u8)
}

fn compare_address(case: &Case, file: &Lent) -> Result<u8, Difference> {
    let answer = address_of_any(&case.isolation.file, case.id, case.instance);
    let answer = expected_of_pair(answer);
    for places in [case.places, 0] {
        let mut out = Out::new(places);
        let returned = proved::address(file.part(), case.id, case.instance, out.part());
        let expected = Out::expected(places, &answer[..ADDRESS_PLACES]);
        same_numbers("address", &out.places, &expected)?;
        let first = out.first(ADDRESS_PLACES);
        same_returned("what address returns", returned, answer[0], first)?;
    }
    Ok(answer[0] as u8)
}

fn compare_isolate(case: &Case, file: &Lent) -> Result<u8, Difference> {
    let isolation = &case.isolation;
    let mut expected_list = Lent::patterned(isolation.room);
    let answer = expected_of_pair(isolate(
        &isolation.file,
        isolation.attention_type,
        &isolation.words,
        &isolation.read,
        expected_list.part_mut(),
    ));

    let words = LentWords::new(&isolation.words);
    let read = Lent::new(&isolation.read);
    for places in [case.places, 0] {
        let mut list = Lent::patterned(isolation.room);
        let mut out = Out::new(places);
        let returned = proved::isolate(
            file.part(),
            isolation.attention_type,
            words.part(),
            read.part(),
            list.part_mut(),
            out.part(),
        );
        let expected = Out::expected(places, &answer[..ISOLATE_PLACES]);
        same_numbers("isolate", &out.places, &expected)?;
        let first = out.first(ISOLATE_PLACES);
        same_returned("what isolate returns", returned, answer[0], first)?;
        // The list gets its records whatever places `out` has.
        same_bytes("the list after isolate", &list, &expected_list)?;
    }
    Ok(answer[0] as u8)
}

/// The number of the outcome, and the slot that a board is refused for.
fn compare_board(case: &Case) -> Result<(u8, Option<u8>), Difference> {
    let board = &case.board;
    let mut expected_list = Lent::patterned(board.room);
    let answer = expected_of_board(board.isolate(isolate_board, expected_list.part_mut()));

    let files = Lent::new(&board.files);
    let words = LentWords::new(&board.words);
    let read = Lent::new(&board.read);
    let file_lengths = LentWords::new(&board.file_lengths);
    let word_lengths = LentWords::new(&board.word_lengths);
    let read_lengths = LentWords::new(&board.read_lengths);
    for places in [case.places, 0] {
        let mut list = Lent::patterned(board.room);
        let mut out = Out::new(places);
        let returned = proved::board(
            board::Lent::new(files.part(), file_lengths.part()),
            board.attention_type,
            board::Lent::new(words.part(), word_lengths.part()),
            board::Lent::new(read.part(), read_lengths.part()),
            list.part_mut(),
            out.part(),
        );
        let expected = Out::expected(places, &answer[..BOARD_PLACES]);
        same_numbers("board", &out.places, &expected)?;
        let first = out.first(BOARD_PLACES);
        same_returned("what board returns", returned, answer[0], first)?;
        // The list gets its records whatever places `out` has.
        same_bytes("the list after board", &list, &expected_list)?;
    }
    let number = answer[0] as u8;
    let is_for_a_slot = (1..refusal::NO_ROOM).contains(&number);
    Ok((number, is_for_a_slot.then_some(answer[BOARD_SLOT] as u8)))
}

fn compare_write(case: &Case) -> Result<u8, Difference> {
    let writing = &case.writing;
    let mut expected_file = Lent::patterned(writing.room);
    let answer = expected_of_records(write_records(
        writing.model,
        &writing.records,
        expected_file.part_mut(),
    ));

    let records = Lent::new(&writing.records);
    for places in [case.places, 0] {
        let mut file = Lent::patterned(writing.room);
        let mut out = Out::new(places);
        let returned = proved::write(writing.model, records.part(), file.part_mut(), out.part());
        let expected = Out::expected(places, &answer[..RECORDS_PLACES]);
        same_numbers("write", &out.places, &expected)?;
        let first = out.first(RECORDS_PLACES);
        same_returned("what write returns", returned, answer[0], first)?;
        // The file is written whatever places `out` has.
        same_bytes("the file after write", &file, &expected_file)?;
    }
    Ok(answer[0] as u8)
}

fn compare_read(case: &Case, file: &Lent) -> Result<u8, Difference> {
    let mut expected_records = Lent::patterned(case.reading_room);
    let answer = expected_of_records(read_records(
        &case.isolation.file,
        expected_records.part_mut(),
    ));

    for places in [case.places, 0] {
        let mut records = Lent::patterned(case.reading_room);
        let mut out = Out::new(places);
        let returned = proved::read(file.part(), records.part_mut(), out.part());
        let expected = Out::expected(places, &answer[..RECORDS_PLACES]);
        same_numbers("read", &out.places, &expected)?;
        let first = out.first(RECORDS_PLACES);
        same_returned("what read returns", returned, answer[0], first)?;
        // The records are written whatever places `out` has.
        same_bytes("the records after read", &records, &expected_records)?;
    }
    Ok(answer[0] as u8)
}

/// The number of the outcome, and whether the text was too short for it.
fn compare_report(case: &Case, file: &Lent) -> Result<(u8, bool), Difference> {
    let attention_type = case.isolation.attention_type;
    let answer = report::find(&case.isolation.file, attention_type, &case.readings_file);
    let whole = report::text(&answer);
    let mut expected_text = Lent::patterned(case.text);
    let first_part = whole.len().min(case.text);
    expected_text.part_mut()[..first_part].copy_from_slice(&whole.as_bytes()[..first_part]);

    let readings_file = Lent::new(&case.readings_file);
    let mut text = Lent::patterned(case.text);
    let length = proved::report(
        file.part(),
        attention_type,
        readings_file.part(),
        text.part_mut(),
    );
    if length != whole.len() {
        return Err(Difference {
            call: "the length of the report",
            proved: length.to_string(),
            reference: whole.len().to_string(),
        });
    }
    same_bytes("the text after report", &text, &expected_text)?;
    let number = answer.map_or_else(|refusal| refusal.number, |_| 0);
    Ok((number, case.text < whole.len()))
}

#[cfg(test)]
mod tests {
    use super::*;
    use reference::generate::{HIGHEST_NUMBER, WRITING_NUMBERS};

    #[test]
    fn the_proved_library_agrees() {
        let mut reported = [0; HIGHEST_NUMBER as usize + 1];
        let mut cut = 0;
        let mut above_silent = 0;
        let mut boards = [0; refusal::BOARD_DOES_NOT_ADD_UP as usize + 1];
        let mut slots = [0; board::MOST_SLOTS];
        let mut written = [0; refusal::OUTPUT_TOO_SHORT as usize + 1];
        let mut read = written;
        let mut too_large_for_the_report = [0; HIGHEST_NUMBER as usize + 1];
        for number in 0..2_000 {
            let case = Case::seeded(1, number);
            match compare(&case) {
                Ok(outcomes) => {
                    reported[usize::from(outcomes.report)] += 1;
                    boards[usize::from(outcomes.board)] += 1;
                    written[usize::from(outcomes.write)] += 1;
                    read[usize::from(outcomes.read)] += 1;
                    if let Some(slot) = outcomes.slot {
                        slots[usize::from(slot)] += 1;
                    }
                    cut += usize::from(outcomes.cut);
                    above_silent += usize::from(outcomes.above_silent);
                    let is_too_large = outcomes.is_too_large_for_the_report_alone();
                    too_large_for_the_report[usize::from(outcomes.check)] +=
                        usize::from(is_too_large);
                }
                Err(difference) => panic!("{difference}\n{}", case.to_text()),
            }
        }
        assert!(reported.iter().all(|&cases| cases > 0), "{reported:?}");
        assert!(boards.iter().all(|&cases| cases > 0), "{boards:?}");
        assert!(boards[0] >= 300, "{boards:?}");
        assert!(slots.iter().all(|&cases| cases > 0), "{slots:?}");
        for number in WRITING_NUMBERS {
            assert!(written[usize::from(number)] > 0, "{written:?}");
        }
        assert!(written[0] >= 300 && written[40] >= 300, "{written:?}");
        for number in (0..=refusal::CYCLE).chain([refusal::OUTPUT_TOO_SHORT]) {
            assert!(read[usize::from(number)] > 0, "{read:?}");
        }
        assert!(cut >= 100, "{cut}");
        assert!(above_silent >= 100, "{above_silent}");
        // The file is accepted, or it has another fault.
        for number in [0, 2, 3, 7, 11] {
            let cases = too_large_for_the_report[number];
            assert!(cases > 0, "{too_large_for_the_report:?}");
        }
    }

    #[test]
    fn what_is_returned_is_the_number() {
        assert_eq!(same_returned("", 7, 7, None), Ok(()));
        assert_eq!(same_returned("", 7, 7, Some(7)), Ok(()));
        assert!(same_returned("", 7, 6, None).is_err());
        assert!(same_returned("", 7, 7, Some(6)).is_err());
    }

    #[test]
    fn a_short_out_is_as_lent() {
        assert_eq!(Out::expected(7, &[1; 8]), Out::new(7).places);
        assert_ne!(Out::expected(8, &[1; 8]), Out::new(8).places);
    }
}
