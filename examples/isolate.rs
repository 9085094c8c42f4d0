//! isolate CHIP READINGS TYPE: prints what the station prints for a chip data
//! file, a readings file and an attention type (a number from 0 to 255). Exit
//! status: 0 an answer, 1 a refusal, 2 bad usage or no output.
//!
//! isolate CHIP READINGS CHIP READINGS .. TYPE: the same for a board of 2 to 16
//! slots, by the library's limits, with the slot in each line of a listed bit and
//! of a refusal.
//!
//! A file that cannot be read counts as empty, as it does for the station.
//! Standard library only:
//!
//!     rustc -O examples/isolate.rs -L native=crates/abi/out -o isolate
//!
//! The module `lutemarble` has all seven calls as safe functions, to be copied.

use std::fs::File;
use std::io::{Read, Write};
use std::process::ExitCode;

/// The proved library. include/lutemarble.h says what holds of every call. A
/// thread needs so much stack that the call fits: 1 MB is enough for each.
#[allow(dead_code)]
pub mod lutemarble {
    /// The most slots of a board.
    pub const SLOTS: usize = 16;
    /// The bytes of the longest chip data file of all calls but `report`.
    pub const FILE_BYTES: usize = 1_048_576;
    /// The bytes of the longest chip data file of `report`, which has the
    /// station's limits.
    pub const REPORT_FILE_BYTES: usize = 65_536;
    /// The bytes of the longest readings file, and of that of `report`.
    pub const READINGS_BYTES: usize = 131_072;
    pub const REPORT_READINGS_BYTES: usize = 16_384;
    /// The bytes of a record of a list.
    pub const RECORD_BYTES: usize = 16;
    /// The bytes of a list that has room for every answer of `isolate`, and for
    /// one slot of a board.
    pub const LIST_BYTES: usize = 1_048_576;
    /// The bytes of a text that has room for every answer.
    pub const TEXT_BYTES: usize = 152_000;

    /// Why there is no answer: a number of the refusal table, and a place.
    #[derive(Clone, Copy, Debug, PartialEq, Eq)]
    pub struct Refusal {
        pub number: u64,
        pub place: u64,
    }

    impl std::fmt::Display for Refusal {
        fn fmt(&self, f: &mut std::fmt::Formatter<'_>) -> std::fmt::Result {
            write!(f, "refused {} place {}", self.number, self.place)
        }
    }

    impl std::error::Error for Refusal {}

    /// Why a board has no answer: the refusal, and the slot that it is for.
    #[derive(Clone, Copy, Debug, PartialEq, Eq)]
    pub struct BoardRefusal {
        pub refusal: Refusal,
        pub slot: u64,
    }

    impl std::fmt::Display for BoardRefusal {
        fn fmt(&self, f: &mut std::fmt::Formatter<'_>) -> std::fmt::Result {
            write!(f, "{} slot {}", self.refusal, self.slot)
        }
    }

    impl std::error::Error for BoardRefusal {}

    /// What the checker says of an accepted file.
    #[derive(Clone, Copy, Debug, PartialEq, Eq)]
    pub struct Summary {
        pub model: u64,
        pub registers: u64,
        pub register_instances: u64,
        pub nodes: u64,
        pub node_instances: u64,
        pub roots: u64,
    }

    /// One listed bit.
    #[derive(Clone, Copy, Debug, PartialEq, Eq)]
    pub struct Record {
        pub model: u32,
        pub attention_type: u8,
        pub bit: u8,
        pub node: u16,
        pub instance: u8,
        pub slot: u8,
    }

    #[link(name = "abi", kind = "static")]
    extern "C" {
        fn lutemarble_check(
            file: *const u8,
            file_bytes: usize,
            out: *mut u64,
            places: usize,
        ) -> u64;
        fn lutemarble_address(
            file: *const u8,
            file_bytes: usize,
            id: u64,
            instance: u8,
            out: *mut u64,
            places: usize,
        ) -> u64;
        fn lutemarble_isolate(
            file: *const u8,
            file_bytes: usize,
            attention_type: u8,
            words: *const u64,
            word_count: usize,
            read: *const u8,
            read_count: usize,
            list: *mut u8,
            list_bytes: usize,
            out: *mut u64,
            places: usize,
        ) -> u64;
        fn lutemarble_board(
            files: *const u8,
            files_bytes: usize,
            file_lengths: *const u64,
            file_slots: usize,
            attention_type: u8,
            words: *const u64,
            word_count: usize,
            word_lengths: *const u64,
            word_slots: usize,
            read: *const u8,
            read_count: usize,
            read_lengths: *const u64,
            read_slots: usize,
            list: *mut u8,
            list_bytes: usize,
            out: *mut u64,
            places: usize,
        ) -> u64;
        fn lutemarble_write(
            model: u32,
            records: *const u8,
            records_bytes: usize,
            file: *mut u8,
            file_bytes: usize,
            out: *mut u64,
            places: usize,
        ) -> u64;
        fn lutemarble_read(
            file: *const u8,
            file_bytes: usize,
            records: *mut u8,
            records_bytes: usize,
            out: *mut u64,
            places: usize,
        ) -> u64;
        fn lutemarble_report(
            file: *const u8,
            file_bytes: usize,
            attention_type: u8,
            readings: *const u8,
            readings_bytes: usize,
            text: *mut u8,
            text_bytes: usize,
        ) -> usize;
    }

    /// The numbers of an answer, whose first two are the refusal's.
    fn answered<const N: usize>(out: [u64; N]) -> Result<[u64; N], Refusal> {
        match out[0] {
            0 => Ok(out),
            number => Err(Refusal {
                number,
                place: out[1],
            }),
        }
    }

    /// The checker.
    pub fn check(file: &[u8]) -> Result<Summary, Refusal> {
        let mut out = [0; 8];
        // SAFETY: the pointers and lengths are those of slices that live until
        // the call returns, and nothing else has the one that is written.
        unsafe { lutemarble_check(file.as_ptr(), file.len(), out.as_mut_ptr(), out.len()) };
        let [_, _, model, registers, register_instances, nodes, node_instances, roots] =
            answered(out)?;
        Ok(Summary {
            model,
            registers,
            register_instances,
            nodes,
            node_instances,
            roots,
        })
    }

    /// The 4 or 8 bytes of the file that are the address of a register instance.
    pub fn address(file: &[u8], id: u64, instance: u8) -> Result<&[u8], Refusal> {
        let mut out = [0; 4];
        // SAFETY: as in `check`.
        unsafe {
            lutemarble_address(
                file.as_ptr(),
                file.len(),
                id,
                instance,
                out.as_mut_ptr(),
                out.len(),
            )
        };
        let [_, _, offset, size] = answered(out)?;
        Ok(&file[offset as usize..(offset + size) as usize])
    }

    /// Isolation: the listed bits and the step count. `readings` has those of
    /// the register instances in file order, `None` for an unread one.
    pub fn isolate(
        file: &[u8],
        attention_type: u8,
        readings: &[Option<u64>],
    ) -> Result<(Vec<Record>, u64), Refusal> {
        let words: Vec<u64> = readings.iter().map(|r| r.unwrap_or(0)).collect();
        let read: Vec<u8> = readings.iter().map(|r| r.is_some().into()).collect();
        let mut list = vec![0; LIST_BYTES];
        let mut out = [0; 4];
        // SAFETY: as in `check`; `list` and `out` are buffers of their own.
        unsafe {
            lutemarble_isolate(
                file.as_ptr(),
                file.len(),
                attention_type,
                words.as_ptr(),
                words.len(),
                read.as_ptr(),
                read.len(),
                list.as_mut_ptr(),
                list.len(),
                out.as_mut_ptr(),
                out.len(),
            )
        };
        let [_, _, records, steps] = answered(out)?;
        Ok((records_of(&list, records), steps))
    }

    /// The first so many records of a list.
    fn records_of(list: &[u8], count: u64) -> Vec<Record> {
        let records = list.chunks(RECORD_BYTES).take(count as usize);
        let record = |bytes: &[u8]| Record {
            model: u32::from_be_bytes([bytes[0], bytes[1], bytes[2], bytes[3]]),
            attention_type: bytes[4],
            bit: bytes[5],
            node: u16::from_be_bytes([bytes[6], bytes[7]]),
            instance: bytes[8],
            slot: bytes[9],
        };
        records.map(record).collect()
    }

    /// A chip data file, and its readings as `isolate` takes them.
    pub type Slot = (Vec<u8>, Vec<Option<u64>>);

    /// Isolation of a board: the listed bits of all slots and their steps.
    pub fn board(slots: &[Slot], attention_type: u8) -> Result<(Vec<Record>, u64), BoardRefusal> {
        let files: Vec<u8> = slots.iter().flat_map(|(file, _)| file).copied().collect();
        let readings: Vec<Option<u64>> = slots.iter().flat_map(|(_, r)| r).copied().collect();
        let words: Vec<u64> = readings.iter().map(|r| r.unwrap_or(0)).collect();
        let read: Vec<u8> = readings.iter().map(|r| r.is_some().into()).collect();
        let file_lengths: Vec<u64> = slots.iter().map(|(file, _)| file.len() as u64).collect();
        let reading_lengths: Vec<u64> = slots.iter().map(|(_, r)| r.len() as u64).collect();
        let mut list = vec![0; LIST_BYTES * slots.len()];
        let mut out = [0; 5];
        // SAFETY: as in `check`; `list` and `out` are buffers of their own.
        unsafe {
            lutemarble_board(
                files.as_ptr(),
                files.len(),
                file_lengths.as_ptr(),
                file_lengths.len(),
                attention_type,
                words.as_ptr(),
                words.len(),
                reading_lengths.as_ptr(),
                reading_lengths.len(),
                read.as_ptr(),
                read.len(),
                reading_lengths.as_ptr(),
                reading_lengths.len(),
                list.as_mut_ptr(),
                list.len(),
                out.as_mut_ptr(),
                out.len(),
            )
        };
        let slot = out[4];
        let [_, _, records, steps, _] =
            answered(out).map_err(|refusal| BoardRefusal { refusal, slot })?;
        Ok((records_of(&list, records), steps))
    }

    /// The chip data file of a model/level and of records as docs/RECORDS.md has
    /// them.
    pub fn write(model: u32, records: &[u8]) -> Result<Vec<u8>, Refusal> {
        // A longer file is refused by 1.
        let mut file = vec![0; FILE_BYTES];
        let mut out = [0; 3];
        // SAFETY: as in `check`; `file` and `out` are buffers of their own.
        unsafe {
            lutemarble_write(
                model,
                records.as_ptr(),
                records.len(),
                file.as_mut_ptr(),
                file.len(),
                out.as_mut_ptr(),
                out.len(),
            )
        };
        let [_, _, bytes] = answered(out)?;
        file.truncate(bytes as usize);
        Ok(file)
    }

    /// The records of a chip data file.
    pub fn read(file: &[u8]) -> Result<Vec<u8>, Refusal> {
        // Each record stands for a byte of the file or more.
        let mut records = vec![0; 16 * file.len()];
        let mut out = [0; 3];
        // SAFETY: as in `check`; `records` and `out` are buffers of their own.
        unsafe {
            lutemarble_read(
                file.as_ptr(),
                file.len(),
                records.as_mut_ptr(),
                records.len(),
                out.as_mut_ptr(),
                out.len(),
            )
        };
        let [_, _, bytes] = answered(out)?;
        records.truncate(bytes as usize);
        Ok(records)
    }

    /// The readings of a readings file, as `isolate` and `board` take them. None
    /// at all where it does not fit the chip data file, which these calls then
    /// refuse by 17, or where that is refused itself.
    pub fn decode(file: &[u8], readings: &[u8]) -> Vec<Option<u64>> {
        let names = match check(file) {
            Ok(summary) => register_names(file, summary.registers),
            Err(_) => return Vec::new(),
        };
        if readings.len() != 16 * names.len() {
            return Vec::new();
        }
        let value = |(reading, name): (&[u8], &[u8; 4])| {
            let value = reading[8..].iter().fold(0, |v, &b| v << 8 | u64::from(b));
            match reading[4..8] {
                _ if reading[..4] != *name => None,
                [1, 0, 0, 0] => Some(Some(value)),
                [0, 0, 0, 0] if value == 0 => Some(None),
                _ => None,
            }
        };
        let values: Option<_> = readings.chunks(16).zip(&names).map(value).collect();
        values.unwrap_or_default()
    }

    /// ID and number of the register instances of an accepted file, in which the
    /// registers begin at byte 20: ID (3), type, flags, number of instances; and
    /// each instance is its number and an address of 4 bytes, or 8 for type 2.
    fn register_names(file: &[u8], registers: u64) -> Vec<[u8; 4]> {
        let mut names = Vec::new();
        let mut rest = &file[20..];
        for _ in 0..registers {
            let (head, instances) = rest.split_at(6);
            let size = if head[3] == 2 { 9 } else { 5 };
            let (instances, behind) = instances.split_at(size * usize::from(head[5]));
            let name = |instance: &[u8]| [head[0], head[1], head[2], instance[0]];
            names.extend(instances.chunks(size).map(name));
            rest = behind;
        }
        names
    }

    /// The station's text by the station's limits, that of a refusal in `Err`.
    pub fn report(file: &[u8], attention_type: u8, readings: &[u8]) -> Result<Vec<u8>, Vec<u8>> {
        let mut text = vec![0; TEXT_BYTES];
        // SAFETY: as in `check`.
        let length = unsafe {
            lutemarble_report(
                file.as_ptr(),
                file.len(),
                attention_type,
                readings.as_ptr(),
                readings.len(),
                text.as_mut_ptr(),
                text.len(),
            )
        };
        text.truncate(length);
        if text.starts_with(b"refused ") {
            return Err(text);
        }
        Ok(text)
    }
}

/// The first bytes of a file, one more than it may have, so that a longer file
/// is seen to be longer; none where it cannot be read.
fn load(path: &str, most: usize) -> Vec<u8> {
    let mut bytes = Vec::new();
    let done = File::open(path).and_then(|f| f.take(most as u64 + 1).read_to_end(&mut bytes));
    if let Err(error) = done {
        eprintln!("isolate: {path}: {error}: counts as empty");
        bytes.clear();
    }
    bytes
}

/// The lines of a board, those of a refusal in `Err`.
fn board_text(paths: &[String], attention_type: u8) -> Result<Vec<u8>, Vec<u8>> {
    let slot = |pair: &[String]| {
        let file = load(&pair[0], lutemarble::FILE_BYTES);
        let readings = load(&pair[1], lutemarble::READINGS_BYTES);
        let readings = lutemarble::decode(&file, &readings);
        (file, readings)
    };
    let slots: Vec<lutemarble::Slot> = paths.chunks(2).map(slot).collect();
    let (records, steps) = lutemarble::board(&slots, attention_type)
        .map_err(|refusal| format!("{refusal}\n").into_bytes())?;
    let mut text = String::new();
    for r in records {
        text += &format!(
            "slot {} type {} node {} inst {} bit {}\n",
            r.slot, r.attention_type, r.node, r.instance, r.bit
        );
    }
    text += &format!("steps {steps}\n");
    Ok(text.into_bytes())
}

/// The station's text, that of a refusal in `Err`.
fn station_text(chip: &str, readings: &str, attention_type: u8) -> Result<Vec<u8>, Vec<u8>> {
    let chip = load(chip, lutemarble::REPORT_FILE_BYTES);
    let readings = load(readings, lutemarble::REPORT_READINGS_BYTES);
    lutemarble::report(&chip, attention_type, &readings)
}

fn main() -> ExitCode {
    let arguments: Vec<String> = std::env::args().skip(1).collect();
    let slots = arguments.len() / 2;
    let (1..=lutemarble::SLOTS, 1, Some((attention_type, paths))) =
        (slots, arguments.len() % 2, arguments.split_last())
    else {
        eprintln!("usage: isolate CHIP READINGS [CHIP READINGS ..] TYPE");
        return ExitCode::from(2);
    };
    let Ok(attention_type) = attention_type.parse::<u8>() else {
        eprintln!("isolate: the type is a number from 0 to 255, not '{attention_type}'");
        return ExitCode::from(2);
    };
    let answer = match paths {
        [chip, readings] => station_text(chip, readings, attention_type),
        _ => board_text(paths, attention_type),
    };
    let (text, status) = match answer {
        Ok(text) => (text, 0),
        Err(text) => (text, 1),
    };
    if let Err(error) = std::io::stdout().write_all(&text) {
        eprintln!("isolate: standard output: {error}");
        return ExitCode::from(2);
    }
    ExitCode::from(status)
}

#[cfg(test)]
mod tests {
    use super::lutemarble::{
        address, board, check, decode, isolate, read, report, write, BoardRefusal, Record, Refusal,
        Summary,
    };

    const B1: &[u8] = b"CHIPDATA\x00\x00\x00\x01\x01\
        REGS\x00\x00\x01\x00\x00\x01\x01\x80\x01\x00\x00\x00\x10\x00\
        NODE\x00\x01\x00\x01\x01\x01\x00\x00\x01\x00\x03\x01\x00\x00\x01\x00\
        ROOT\x01\x03\x00\x01\x00";

    const fn refusal(number: u64, place: u64) -> Refusal {
        Refusal { number, place }
    }

    /// A record of B1.
    const fn of_slot(slot: u8, bit: u8) -> Record {
        Record {
            model: 1,
            attention_type: 3,
            bit,
            node: 1,
            instance: 0,
            slot,
        }
    }

    #[test]
    fn boards_of_b1() {
        let slot = |reading| (B1.to_vec(), vec![reading]);
        let two = [slot(Some(1 << 63)), slot(Some(1))];
        assert_eq!(board(&two, 3), Ok((vec![of_slot(0, 0), of_slot(1, 63)], 2)));
        let refused = |number, place, slot| {
            let refusal = refusal(number, place);
            Err(BoardRefusal { refusal, slot })
        };
        assert_eq!(board(&[slot(Some(1)), slot(None)], 3), refused(18, 46, 1));
        assert_eq!(board(&two, 6), refused(15, 0, 0));
        assert_eq!(board(&[], 3), refused(20, 0, 0));
        assert_eq!(board(&vec![slot(Some(1)); 17], 3), refused(20, 0, 0));
    }

    #[test]
    fn records_of_b1() {
        let records = read(B1).unwrap();
        // A register, its instance, a node, its instance, a rule, a reading, a root.
        let kinds: Vec<u8> = records.chunks(16).map(|record| record[0]).collect();
        assert_eq!(kinds, [1, 2, 3, 4, 6, 7, 9]);
        assert_eq!(write(1, &records), Ok(B1.to_vec()));
        assert_eq!(write(1, &records[..96]), Err(refusal(5, 55)));
        assert_eq!(write(1, &records[..80]), Err(refusal(40, 80)));
        assert_eq!(write(1, &records[..79]), Err(refusal(40, 64)));
        assert_eq!(write(1, &[]), Err(refusal(5, 17)));
        assert_eq!(read(&B1[..59]), Err(refusal(2, 59)));
    }

    #[test]
    fn readings_of_b1() {
        let readings = [0, 0, 1, 0, 1, 0, 0, 0, 0x80, 0, 0, 0, 0, 0, 0, 0];
        assert_eq!(decode(B1, &readings), [Some(1 << 63)]);
        assert_eq!(decode(B1, &readings[..15]), []);
        assert_eq!(decode(&B1[..59], &readings), []);
        let mut unread = readings;
        unread[4] = 0;
        assert_eq!(decode(B1, &unread), []);
        unread[8] = 0;
        assert_eq!(decode(B1, &unread), [None]);
    }

    #[test]
    fn sample_b1() {
        let summary = Summary {
            model: 1,
            registers: 1,
            register_instances: 1,
            nodes: 1,
            node_instances: 1,
            roots: 1,
        };
        assert_eq!(check(B1), Ok(summary));
        assert_eq!(check(&B1[..59]), Err(refusal(2, 59)));
        assert_eq!(check(&[]), Err(refusal(2, 0)));
        assert_eq!(address(B1, 1, 0), Ok(&B1[27..31]));
        assert_eq!(address(B1, 1, 1), Err(refusal(12, 0)));
        let record = |bit| of_slot(0, bit);
        assert_eq!(isolate(B1, 3, &[Some(1 << 63)]), Ok((vec![record(0)], 1)));
        assert_eq!(isolate(B1, 3, &[Some(1)]), Ok((vec![record(63)], 1)));
        assert_eq!(isolate(B1, 3, &[Some(0)]), Ok((vec![], 1)));
        assert_eq!(isolate(B1, 3, &[None]), Err(refusal(18, 46)));
        assert_eq!(isolate(B1, 3, &[]), Err(refusal(17, 0)));
        assert_eq!(isolate(B1, 1, &[Some(1)]), Err(refusal(16, 0)));
        assert_eq!(report(B1, 6, &[]), Err(b"refused 15 place 0\n".to_vec()));
    }
}
