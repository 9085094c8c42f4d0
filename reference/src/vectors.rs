//! Test vectors: calls with the answers that the reference gives, in one file
//! that a simple program can walk. The README has its layout byte by byte.

use std::collections::HashMap;

use crate::board::{Board, BoardRefusal, MOST_SLOTS};
use crate::checker::{self, Accepted};
use crate::generate::{self, Case, Random, Sizes, HIGHEST_NUMBER};
use crate::isolation::RECORD_BYTES;
use crate::large::{self, Order};
use crate::layout::{self, Limits};
use crate::readings::{READ, UNREAD};
use crate::refusal::{self, Refusal};
use crate::{
    address, bits_above_silent, cases, check, isolate, isolate_board, read_records, write_records,
};

pub const KEYWORD: [u8; 8] = *b"LUTEVECT";
/// Keyword, place of the first case (4), number of cases (4).
pub const START_BYTES: usize = 16;
/// What each case has before its words. The last three numbers of a board's are
/// no part of the answer but say how many lengths its lists have.
pub const CASE_BYTES: usize = 56;
/// Number, place and up to six more, 4 bytes each.
pub const EXPECTED: usize = 8;

// What a reader may count on.
pub const MOST_BYTES: usize = 1_700_000;
pub const MOST_WORDS: usize = 1_100;
/// Of one list.
pub const MOST_LENGTHS: usize = 40;
pub const MOST_LIST_BYTES: usize = 66_000;

#[derive(Clone, Copy, Debug, PartialEq, Eq, Hash, PartialOrd, Ord)]
pub enum Kind {
    Check = 1,
    Address = 2,
    Isolation = 3,
    Board = 4,
    /// Of a file from records.
    Write = 5,
    /// Of the records of a file.
    Read = 6,
}

/// One call and its answer, as it stands in the file of vectors.
#[derive(Clone, Debug, PartialEq, Eq)]
pub struct Vector<'a> {
    pub kind: Kind,
    /// Attention type of isolation and of a board, instance of an address query.
    pub selector: u8,
    /// The byte that the list is full of when it is lent.
    pub fill: u8,
    /// Those of a board end to end; the records of a call that writes them.
    pub file: &'a [u8],
    /// Of isolation and of a board; the one word of an address query is the
    /// register ID, and that of a call that writes records the model/level.
    pub words: Vec<u64>,
    /// Of a board's files, words and read bytes.
    pub lengths: [Vec<u64>; 3],
    pub read: &'a [u8],
    pub list_bytes: usize,
    pub expected: [u32; EXPECTED],
    /// The records: what the list begins with after the call. Of calls of records
    /// what the output begins with.
    pub records: &'a [u8],
}

impl Vector<'_> {
    /// The board of a board call.
    pub fn board(&self) -> Board {
        let [file_lengths, word_lengths, read_lengths] = self.lengths.clone();
        Board {
            files: self.file.to_vec(),
            file_lengths,
            attention_type: self.selector,
            words: self.words.clone(),
            word_lengths,
            read: self.read.to_vec(),
            read_lengths,
            room: self.list_bytes,
        }
    }

    /// How many of the bits that isolation is to list have a child that shows
    /// nothing; 0 for other calls.
    pub fn bits_above_silent(&self) -> usize {
        match self.kind {
            Kind::Isolation => bits_above_silent(self.file, self.selector, &self.words, self.read),
            _ => 0,
        }
    }
}

/// The answer of a check as the vectors have it.
pub fn expected_of_check(answer: Result<checker::Summary, Refusal>) -> [u32; EXPECTED] {
    match answer {
        Ok(summary) => [
            0,
            0,
            summary.model,
            summary.registers as u32,
            summary.register_instances as u32,
            summary.nodes as u32,
            summary.node_instances as u32,
            summary.roots as u32,
        ],
        Err(refusal) => expected_of_refusal(refusal),
    }
}

/// The answer of an address query or of isolation as the vectors have it.
pub fn expected_of_pair(answer: Result<(usize, usize), Refusal>) -> [u32; EXPECTED] {
    match answer {
        Ok((first, second)) => [0, 0, first as u32, second as u32, 0, 0, 0, 0],
        Err(refusal) => expected_of_refusal(refusal),
    }
}

/// The answer of a board as the vectors have it: with the slot behind the steps,
/// and without the lengths.
pub fn expected_of_board(answer: Result<(usize, usize), BoardRefusal>) -> [u32; EXPECTED] {
    match answer {
        Ok((records, steps)) => expected_of_pair(Ok((records, steps))),
        Err(BoardRefusal { refusal, slot }) => {
            let mut expected = expected_of_refusal(refusal);
            expected[BOARD_SLOT] = u32::from(slot);
            expected
        }
    }
}

/// The place of the slot in a board's answer. Behind it stand the numbers of
/// lengths.
pub const BOARD_SLOT: usize = 4;

/// The answer of a call of records as the vectors have it, without the place of
/// the bytes that are expected.
pub fn expected_of_records(answer: Result<usize, Refusal>) -> [u32; EXPECTED] {
    expected_of_pair(answer.map(|bytes| (bytes, 0)))
}

/// Where such a case has the place of the bytes that are expected.
const EXPECTED_AT: usize = 3;

fn expected_of_refusal(refusal: Refusal) -> [u32; EXPECTED] {
    [
        u32::from(refusal.number),
        refusal.place as u32,
        0,
        0,
        0,
        0,
        0,
        0,
    ]
}

/// The reference's address query for any ID of 64 bits. An ID beyond 24 bits
/// names no register.
pub fn address_of_any(file: &[u8], id: u64, instance: u8) -> Result<(usize, usize), Refusal> {
    address(file, u32::try_from(id).unwrap_or(u32::MAX), instance)
}

/// Whether a capture of the file begins at the place.
pub fn is_capture(file: &[u8], place: usize) -> bool {
    layout::read(file).is_ok_and(|tree| {
        let mut captures = tree.node_instances.iter().flat_map(|i| &i.captures);
        captures.any(|capture| capture.at == place)
    })
}

// Reading.

struct Reader<'a> {
    bytes: &'a [u8],
    at: usize,
}

impl<'a> Reader<'a> {
    fn take(&mut self, size: usize) -> Option<&'a [u8]> {
        let taken = self.bytes.get(self.at..self.at.checked_add(size)?)?;
        self.at += size;
        Some(taken)
    }

    fn number(&mut self, size: usize) -> Option<u64> {
        let bytes = self.take(size)?;
        Some(bytes.iter().fold(0, |n, &byte| n << 8 | u64::from(byte)))
    }

    fn size(&mut self) -> Option<usize> {
        Some(self.number(4)? as usize)
    }

    fn words(&mut self, count: usize) -> Option<Vec<u64>> {
        (0..count).map(|_| self.number(8)).collect()
    }

    fn vector(&mut self) -> Option<Vector<'a>> {
        let kind = match self.number(1)? {
            1 => Kind::Check,
            2 => Kind::Address,
            3 => Kind::Isolation,
            4 => Kind::Board,
            5 => Kind::Write,
            6 => Kind::Read,
            _ => return None,
        };
        let selector = self.number(1)? as u8;
        let fill = self.number(1)? as u8;
        if self.number(1)? != 0 {
            return None;
        }
        let place = self.size()?;
        let length = self.size()?;
        let file = self.bytes.get(place..place.checked_add(length)?)?;
        let words = self.size()?;
        let read = self.size()?;
        let list_bytes = self.size()?;
        let mut expected = [0; EXPECTED];
        for value in &mut expected {
            *value = self.number(4)? as u32;
        }
        let words = self.words(words)?;
        let mut lengths = [const { Vec::new() }; 3];
        if kind == Kind::Board {
            let counts = &mut expected[BOARD_SLOT + 1..];
            for (lengths, count) in lengths.iter_mut().zip(counts) {
                *lengths = self.words(*count as usize)?;
                *count = 0;
            }
        }
        let read = self.take(read)?;
        let records = match kind {
            Kind::Isolation | Kind::Board => self.take(expected[2] as usize * RECORD_BYTES)?,
            Kind::Write | Kind::Read => {
                let place = std::mem::take(&mut expected[EXPECTED_AT]) as usize;
                let end = place.checked_add(expected[2] as usize)?;
                self.bytes.get(place..end)?
            }
            _ => &[],
        };
        Some(Vector {
            kind,
            selector,
            fill,
            file,
            words,
            lengths,
            read,
            list_bytes,
            expected,
            records,
        })
    }
}

/// The vectors of a file, or none if it is not one.
pub fn read(bytes: &[u8]) -> Option<Vec<Vector<'_>>> {
    let mut reader = Reader { bytes, at: 0 };
    if reader.take(KEYWORD.len())? != KEYWORD {
        return None;
    }
    let first = reader.size()?;
    let count = reader.size()?;
    reader.at = first;
    let vectors = (0..count)
        .map(|_| reader.vector())
        .collect::<Option<Vec<_>>>()?;
    (reader.at == bytes.len()).then_some(vectors)
}

// Writing.

/// A call before it has its place in the file of vectors.
struct Draft {
    kind: Kind,
    selector: u8,
    fill: u8,
    file: (usize, usize),
    words: Vec<u64>,
    lengths: [Vec<u64>; 3],
    read: Vec<u8>,
    list_bytes: usize,
    expected: [u32; EXPECTED],
    records: Vec<u8>,
}

impl Draft {
    fn bytes(&self) -> usize {
        let lengths: usize = self.lengths.iter().map(Vec::len).sum();
        CASE_BYTES + 8 * (self.words.len() + lengths) + self.read.len() + self.records.len()
    }

    fn write(&self, out: &mut Vec<u8>) {
        let mut number = |value: usize| out.extend((value as u32).to_be_bytes());
        number(
            (self.kind as usize) << 24
                | usize::from(self.selector) << 16
                | usize::from(self.fill) << 8,
        );
        number(self.file.0);
        number(self.file.1);
        number(self.words.len());
        number(self.read.len());
        number(self.list_bytes);
        let mut expected = self.expected;
        if self.kind == Kind::Board {
            let counts = self.lengths.iter().map(|lengths| lengths.len() as u32);
            for (value, count) in expected[BOARD_SLOT + 1..].iter_mut().zip(counts) {
                *value = count;
            }
        }
        expected.iter().for_each(|&value| number(value as usize));
        self.words
            .iter()
            .chain(self.lengths.iter().flatten())
            .for_each(|word| out.extend(word.to_be_bytes()));
        out.extend(&self.read);
        out.extend(&self.records);
    }
}

/// The files of all cases, and the cases. A file that is the beginning of what
/// stands at an earlier file's place has that place too.
struct Writer {
    random: Random,
    /// The start, filled in at the end, and the files.
    bytes: Vec<u8>,
    places: Vec<usize>,
    whole: HashMap<Vec<u8>, usize>,
    drafts: Vec<Draft>,
    /// Isolation cases by outcome.
    outcomes: [usize; HIGHEST_NUMBER as usize + 1],
    /// Board cases by outcome.
    boards: [usize; refusal::BOARD_DOES_NOT_ADD_UP as usize + 1],
}

const NO_LENGTHS: [Vec<u64>; 3] = [const { Vec::new() }; 3];

/// Each refusal is aimed at until it has so many isolation cases.
const FEWEST: usize = 46;
/// A small case of a refusal that has so many is left out.
const ENOUGH: usize = 54;
const SUCCESSES: usize = 250;
/// Isolation cases whose files go on over others.
const WINDOWS: usize = 80;
/// Each refusal of a board but 1 and 8, and success, is aimed at until it has so
/// many board cases.
const FEWEST_BOARDS: usize = 6;
const SUCCESSFUL_BOARDS: usize = 34;
/// The hand-made boards of many slots that are taken.
const LONG_HAND_MADE_BOARDS: [&str; 6] = [
    "sixteen",
    "sixteen-byte-less",
    "seventeen",
    "sixteen-and-an-empty-one",
    "sixteen-wrap-all",
    "no-root-last",
];
/// Names of hand-made boards that end so are left out: others are much like them.
const LEFT_OUT: [&str; 5] = [
    "-no-room",
    "-exact",
    "-fifteen-more",
    "-refused-files",
    "-of-1",
];
/// The most bytes of a board's files.
const MOST_OF_FILES: usize = 1_200;
/// The most that an ordinary case may add to the file of vectors.
const MOST_OF_A_CASE: usize = 900;
/// The most bytes of a file with too many instances that comes by chance.
const MOST_OF_TOO_MANY: usize = 24_000;
/// The most bytes of the records of a case: of a hand-made one, of one that has one
/// element too many, of one that has one node instance too many, and of a seeded one.
const MOST_OF_A_LIST: usize = 1_000;
const MOST_OF_TOO_MANY_RECORDS: usize = 9_000;
const MOST_OF_TOO_MANY_NODES: usize = 50_000;
const MOST_OF_A_SEEDED_LIST: usize = 480;
/// One in so many of the hand-made calls that write records is taken of those that
/// are refused by 40 and of those that the checker refuses. They come in pairs, with
/// room and without.
const NOT_ALLOWED_ONE_IN: usize = 29;
const REFUSED_BY_THE_CHECKER_ONE_IN: usize = 5;
/// Files of so many bytes are written from their records and read.
const LENGTHS_OF_FILES: [usize; 5] = [255, 256, 257, 4_096, 4_097];
/// The files of all cases have so many bytes more than one may have.
const LONGER_THAN_A_FILE: usize = 4_000;

impl Writer {
    fn place(&mut self, file: &[u8]) -> (usize, usize) {
        let place = self.whole.get(file).copied().or_else(|| {
            let mut places = self.places.iter();
            places
                .find(|&&place| self.bytes[place..].starts_with(file))
                .copied()
        });
        let place = place.unwrap_or_else(|| {
            let place = self.bytes.len();
            self.bytes.extend(file);
            self.places.push(place);
            self.whole.insert(file.to_vec(), place);
            place
        });
        (place, file.len())
    }

    fn isolation(&mut self, case: &Case, file: (usize, usize)) {
        let fill = self.random.byte();
        let mut list = vec![fill; case.room];
        let answer = isolate(
            &case.file,
            case.attention_type,
            &case.words,
            &case.read,
            &mut list,
        );
        let expected = expected_of_pair(answer);
        self.outcomes[expected[0] as usize] += 1;
        list.truncate(expected[2] as usize * RECORD_BYTES);
        self.drafts.push(Draft {
            kind: Kind::Isolation,
            selector: case.attention_type,
            fill,
            file,
            words: case.words.clone(),
            lengths: NO_LENGTHS,
            read: case.read.clone(),
            list_bytes: case.room,
            expected,
            records: list,
        });
    }

    fn board(&mut self, board: &Board, file: (usize, usize)) {
        let fill = self.random.byte();
        let mut list = vec![fill; board.room];
        let expected = expected_of_board(board.isolate(isolate_board, &mut list));
        self.boards[expected[0] as usize] += 1;
        list.truncate(expected[2] as usize * RECORD_BYTES);
        self.drafts.push(Draft {
            kind: Kind::Board,
            selector: board.attention_type,
            fill,
            file,
            words: board.words.clone(),
            lengths: [
                board.file_lengths.clone(),
                board.word_lengths.clone(),
                board.read_lengths.clone(),
            ],
            read: board.read.clone(),
            list_bytes: board.room,
            expected,
            records: list,
        });
    }

    /// A call that writes or reads records, which stand among the files as what is
    /// expected does.
    fn store_call_of_records(
        &mut self,
        kind: Kind,
        lent: &[u8],
        words: Vec<u64>,
        list_bytes: usize,
        call: impl FnOnce(&mut [u8]) -> Result<usize, Refusal>,
    ) {
        let fill = self.random.byte();
        let mut out = vec![fill; list_bytes];
        let mut expected = expected_of_records(call(&mut out));
        if expected[0] == 0 {
            let (place, _) = self.place(&out[..expected[2] as usize]);
            expected[EXPECTED_AT] = place as u32;
        }
        let file = self.place(lent);
        self.drafts.push(Draft {
            kind,
            selector: 0,
            fill,
            file,
            words,
            lengths: NO_LENGTHS,
            read: Vec::new(),
            list_bytes,
            expected,
            records: Vec::new(),
        });
    }

    fn store_writing(&mut self, model: u32, records: &[u8], room: usize) {
        let words = vec![u64::from(model)];
        self.store_call_of_records(Kind::Write, records, words, room, |out| {
            write_records(model, records, out)
        });
    }

    fn store_reading(&mut self, file: &[u8], room: usize) {
        self.store_call_of_records(Kind::Read, file, Vec::new(), room, |out| {
            read_records(file, out)
        });
    }

    /// Calls of records: some of the hand-made ones, files of some lengths, and seeded
    /// ones of every outcome.
    fn calls_of_records(&mut self) {
        self.hand_made_writings();
        self.hand_made_readings();
        self.files_of_lengths();
        self.seeded_writings();
        self.seeded_readings();
        self.readings_of_large_files();
    }

    fn hand_made_writings(&mut self) {
        for (index, case) in cases::writings().into_iter().enumerate() {
            let is_one_too_many = case.name.starts_with("256-")
                && !case.name.contains("-of-the-third")
                && !case.name.contains("-and-more");
            let number = case.answer.map_or_else(|refusal| refusal.number, |_| 0);
            let (one_in, most) = match number {
                0 | refusal::OUTPUT_TOO_SHORT => (1, MOST_OF_A_LIST),
                refusal::TOO_MANY_INSTANCES => (1, MOST_OF_TOO_MANY_NODES),
                refusal::RECORD_NOT_ALLOWED if is_one_too_many => (1, MOST_OF_TOO_MANY_RECORDS),
                refusal::RECORD_NOT_ALLOWED => (NOT_ALLOWED_ONE_IN, MOST_OF_A_LIST),
                _ => (REFUSED_BY_THE_CHECKER_ONE_IN, MOST_OF_A_LIST),
            };
            if index % one_in == 0 && case.records.len() <= most {
                self.store_writing(case.model, &case.records, case.room);
            }
        }
    }

    fn hand_made_readings(&mut self) {
        for case in cases::readings() {
            if case.file.len() <= MOST_OF_A_LIST {
                self.store_reading(&case.file, case.room);
            }
        }
    }

    /// In just enough room and in a byte less.
    fn files_of_lengths(&mut self) {
        for length in LENGTHS_OF_FILES {
            let model = self.random.next() as u32;
            let records = records_of_length(length);
            let mut file = vec![0; length];
            let written = write_records(model, &records, &mut file);
            assert_eq!(written, Ok(length), "the file has its length");
            for less in [0, 1] {
                self.store_writing(model, &records, length - less);
                self.store_reading(&file, records.len() - less);
            }
        }
    }

    fn seeded_writings(&mut self) {
        for number in generate::WRITING_NUMBERS.into_iter().chain([0]) {
            let count = match number {
                // Those would be long.
                refusal::FILE_TOO_LONG | refusal::TOO_MANY_INSTANCES => 0,
                refusal::RECORD_NOT_ALLOWED => 40,
                0 | refusal::OUTPUT_TOO_SHORT => 10,
                _ => 5,
            };
            for _ in 0..count {
                let writing = self.met_writing(number);
                self.store_writing(writing.model, &writing.records, writing.room);
            }
        }
    }

    /// Two of each of the checker's refusals but 1 and 8, and some that it accepts.
    fn seeded_readings(&mut self) {
        let refused = (2..=refusal::CYCLE)
            .filter(|&number| number != refusal::TOO_MANY_INSTANCES)
            .flat_map(|number| [number; 2]);
        for number in refused.chain([0; 12]) {
            let (file, room) = self.met_reading(number);
            self.store_reading(&file, room);
        }
    }

    /// Files at the limits, whose records have too little room, and with one instance
    /// too many. They are those of other cases.
    fn readings_of_large_files(&mut self) {
        for file in [
            large::register_instances(8_192, 255),
            large::short_node_instances(1_024, 255),
            large::captures(Limits::PROGRAM, 0),
            large::deep_expressions(Limits::PROGRAM),
            large::full_counts(),
            large::register_instances(8_193, 255),
            large::short_node_instances(1_025, 255),
            large::node_instances(1_025),
        ] {
            let room = self.random.below(MOST_OF_A_LIST);
            self.store_reading(&file, room);
        }
    }

    /// A call that writes records and that the number is the outcome of.
    fn met_writing(&mut self, number: u8) -> generate::Writing {
        loop {
            let writing = generate::aimed_writing(&mut self.random, number);
            let mut out = vec![0; writing.room];
            let answer = write_records(writing.model, &writing.records, &mut out);
            let is_met = number == answer.map_or_else(|refusal| refusal.number, |_| 0);
            let is_small = writing.records.len() <= MOST_OF_A_SEEDED_LIST;
            if is_met && is_small && writing.room <= MOST_LIST_BYTES {
                return writing;
            }
        }
    }

    /// A small file that the checker refuses by the number or, if it is 0, accepts;
    /// and room for its records.
    fn met_reading(&mut self, number: u8) -> (Vec<u8>, usize) {
        loop {
            let file = self.met_case(number).file;
            let is_met = number == check(&file).map_or_else(|refusal| refusal.number, |_| 0);
            let room = generate::reading_room(&mut self.random, &file);
            if is_met && file.len() <= MOST_OF_A_SEEDED_LIST && room <= 2 * MOST_OF_A_LIST {
                return (file, room);
            }
        }
    }

    fn store_board(&mut self, board: &Board) {
        let file = self.place(&board.files);
        self.board(board, file);
    }

    fn store_isolation(&mut self, case: &Case) {
        let file = self.place(&case.file);
        self.isolation(case, file);
    }

    fn store_check(&mut self, file: &[u8]) {
        let expected = expected_of_check(check(file));
        let file = self.place(file);
        self.drafts.push(Draft {
            kind: Kind::Check,
            selector: 0,
            fill: 0,
            file,
            words: Vec::new(),
            lengths: NO_LENGTHS,
            read: Vec::new(),
            list_bytes: 0,
            expected,
            records: Vec::new(),
        });
    }

    fn store_address(&mut self, file: &[u8], id: u64, instance: u8) {
        let expected = expected_of_pair(address_of_any(file, id, instance));
        let file = self.place(file);
        self.drafts.push(Draft {
            kind: Kind::Address,
            selector: instance,
            fill: 0,
            file,
            words: vec![id],
            lengths: NO_LENGTHS,
            read: Vec::new(),
            list_bytes: 0,
            expected,
            records: Vec::new(),
        });
    }

    /// The isolation case, if its outcome is still wanted and it is small.
    fn offer(&mut self, case: &Case) {
        let mut list = vec![0; case.room];
        let answer = isolate(
            &case.file,
            case.attention_type,
            &case.words,
            &case.read,
            &mut list,
        );
        let (number, records) = match answer {
            Ok((records, _)) => (0, records),
            Err(refusal) => (refusal.number, 0),
        };
        let enough = if number == 0 { SUCCESSES } else { ENOUGH };
        let size = case.file.len() + 9 * case.words.len() + records * RECORD_BYTES;
        if self.outcomes[usize::from(number)] < enough && size <= MOST_OF_A_CASE {
            self.store_isolation(case);
        }
    }

    /// Small files of every outcome but 1 and 8, each used a few times.
    fn small_cases(&mut self) {
        for number in 0..=HIGHEST_NUMBER {
            if matches!(number, refusal::FILE_TOO_LONG | refusal::TOO_MANY_INSTANCES) {
                continue;
            }
            let fewest = if number == 0 { SUCCESSES } else { FEWEST };
            while self.outcomes[usize::from(number)] < fewest {
                let mut case = generate::aimed_case(&mut self.random, number, Sizes::Small);
                self.tighten(&mut case);
                self.offer(&case);
                if number == 0 || number > refusal::CYCLE {
                    for _ in 0..3 {
                        self.vary(&mut case);
                        self.offer(&case);
                    }
                }
            }
        }
    }

    /// Gives a list that is much too long only a little more than it needs.
    fn tighten(&mut self, case: &mut Case) {
        if case.room > 1_200 {
            case.room = 1_200 + self.random.below(17);
        }
    }

    /// Another type, other readings or another list for the same file.
    fn vary(&mut self, case: &mut Case) {
        match self.random.below(4) {
            0 => case.attention_type = self.random.below(8) as u8,
            1 => case.room = self.random.below(200),
            _ => {
                let instances = case.read.len().max(1);
                let (words, read) = generate::readings(&mut self.random, instances);
                case.words = words;
                case.read = read;
                if self.random.one_in(3) {
                    case.read.fill(READ);
                }
            }
        }
    }

    /// A call for a file that is refused, whatever else is lent.
    fn any_isolation(&mut self, file: Vec<u8>) -> Case {
        Case {
            file,
            attention_type: self.random.below(7) as u8,
            words: vec![self.random.next()],
            read: vec![READ],
            room: self.random.below(40),
        }
    }

    /// Instances beyond the limits: a few files, cut behind that place.
    fn too_many_instances(&mut self) {
        let mut files = vec![
            large::register_instances(8_193, 255),
            large::short_node_instances(1_025, 255),
            large::short_node_instances(1_030, 1),
            large::node_instances(1_025),
        ];
        while files.len() < 7 {
            let case =
                generate::aimed_case(&mut self.random, refusal::TOO_MANY_INSTANCES, Sizes::Small);
            let is_refused = check(&case.file)
                .is_err_and(|refusal| refusal.number == refusal::TOO_MANY_INSTANCES);
            if is_refused && case.file.len() <= MOST_OF_TOO_MANY {
                files.push(case.file);
            }
        }
        for file in &files {
            let Err(refusal) = check(file) else { continue };
            self.store_check(file);
            for _ in 0..9 {
                let length = self.random.between(refusal.place + 1, file.len());
                let case = self.any_isolation(file[..length].to_vec());
                self.store_isolation(&case);
            }
            self.store_check(&file[..refusal.place]);
        }
    }

    /// Instances that are too many for the station alone, with a fault behind the
    /// first of these and without one.
    fn too_many_for_the_station(&mut self) {
        for (file, instances) in [
            (large::register_instances(1_025, 1), 1_025),
            (large::register_instances(1_030, 255), 1),
            (large::short_node_instances(257, 255), 1),
            (large::node_instances(257), 257),
        ] {
            self.store_check(&file);
            self.store_check(&file[..file.len() - 9]);
            self.store_address(&file, 1, 0);
            self.store_isolation(&Case {
                file,
                attention_type: large::ATTENTION_TYPE,
                words: vec![u64::MAX; instances],
                read: vec![READ; instances],
                room: 64 * RECORD_BYTES + 3,
            });
        }
        let mut left = 8;
        while left > 0 {
            let case = generate::too_large_case(&mut self.random);
            if case.file.len() <= MOST_OF_TOO_MANY / 4 {
                self.store_check(&case.file);
                left -= 1;
            }
        }
    }

    /// Accepted files at the limits, with readings, and cuts of them. Those at the
    /// library's have few registers, or no readings that fit them.
    fn limits(&mut self) {
        let files = [
            large::register_instances(1_024, 1),
            large::register_instances(1_024, 255),
            large::node_instances(256),
            large::captures(Limits::PROGRAM, 0),
            large::deep_expressions(Limits::PROGRAM),
            large::children(256, 1, false),
            large::children(256, 1, true),
            large::children(256, large::MOST_CHILDREN, true),
            large::full_counts(),
            large::register_instances(8_192, 255),
            large::registers_in(Order::Shuffled, 8_192),
            large::short_node_instances(1_024, 255),
            large::row_of_one_register(1_024, false),
            large::row_of_one_register(1_024, true),
        ];
        for file in files {
            self.store_check(&file);
            self.store_check(&file[..file.len() - 1]);
            let Ok(accepted) = Accepted::read(&file) else {
                continue;
            };
            let registers = &accepted.tree.registers;
            let last = u64::from(registers[registers.len() - 1].id);
            for id in [1, last, last + 1] {
                self.store_address(&file, id, 0);
            }
            let instances = accepted.tree.register_instances.len();
            let case = |words: Vec<u64>, room| Case {
                file: file.clone(),
                attention_type: large::ATTENTION_TYPE,
                read: vec![READ; words.len()],
                words,
                room,
            };
            self.store_isolation(&case(vec![0; 2], 1_600));
            if instances > 256 {
                continue;
            }
            self.store_isolation(&case(vec![u64::MAX; instances], 16_383));
            // One bit with a child, where there are children.
            self.store_isolation(&case(vec![1 << 63; instances], 4_096 + 5));
            let mut unread = case(vec![u64::MAX; instances], 1_600);
            unread.read[instances - 1] = 0;
            self.store_isolation(&unread);
        }
        // As many records as the station's list holds: 63 of each of 65
        // instances, and one of the last. Then a byte less.
        let mut words = vec![1 << 63; 256];
        words[..65].fill(u64::MAX);
        let mut case = Case {
            file: large::children(256, 1, false),
            attention_type: large::ATTENTION_TYPE,
            read: vec![READ; 256],
            words,
            room: 4_096 * RECORD_BYTES,
        };
        self.store_isolation(&case);
        case.room -= 1;
        self.store_isolation(&case);
        // As many, one of them the bit above an instance that shows nothing.
        case.words[65..].fill(0);
        self.store_isolation(&case);
    }

    /// Large files in which most children that are reached show nothing.
    fn silent_children(&mut self) {
        let last = 255;
        for (file, instances, root) in [
            (large::children(256, 1, false), 256, 0),
            (large::children(256, 1, true), 256, last),
            (large::children(256, large::MOST_CHILDREN, true), 256, last),
            (large::full_counts(), 255, 0),
        ] {
            let case = |words: Vec<u64>, room| Case {
                file: file.clone(),
                attention_type: large::ATTENTION_TYPE,
                read: vec![READ; words.len()],
                words,
                room,
            };
            // The root alone has active bits, and then every fourth instance
            // has.
            let mut words = vec![0; instances];
            words[root] = u64::MAX;
            self.store_isolation(&case(words.clone(), 64 * RECORD_BYTES + 3));
            if root == last {
                self.store_isolation(&case(words, 64 * RECORD_BYTES - 1));
            }
            let mut words = large::every_fourth(instances);
            if root == last {
                words.reverse();
            }
            self.store_isolation(&case(words, 1_200));
        }
    }

    /// Calls whose answers do not come from the reference.
    fn hand_made_calls(&mut self, calls: Vec<cases::Isolation>) {
        for call in calls {
            self.store_isolation(&Case {
                file: call.file,
                attention_type: large::ATTENTION_TYPE,
                words: call.words,
                read: call.read,
                room: call.room,
            });
        }
    }

    /// Boards whose answers do not come from the reference, some of them.
    fn hand_made_boards(&mut self) {
        for case in cases::boards() {
            let is_left_out = LEFT_OUT.iter().any(|end| case.name.ends_with(end));
            let is_one_of_two = case.name.contains("-before-");
            let is_short = case.board.file_lengths.len() <= 4;
            if LONG_HAND_MADE_BOARDS.contains(&case.name.as_str())
                || is_short && !is_left_out && !is_one_of_two
            {
                self.store_board(&case.board);
            }
        }
    }

    /// Small boards of every outcome but 1 and 8.
    fn small_boards(&mut self) {
        for number in 0..=refusal::BOARD_DOES_NOT_ADD_UP {
            if matches!(number, refusal::FILE_TOO_LONG | refusal::TOO_MANY_INSTANCES) {
                continue;
            }
            let fewest = match number {
                0 => SUCCESSFUL_BOARDS,
                _ => FEWEST_BOARDS,
            };
            while self.boards[usize::from(number)] < fewest {
                let aim = number.min(HIGHEST_NUMBER);
                let case = generate::aimed_case(&mut self.random, aim, Sizes::Small);
                let board = generate::board_around(&mut self.random, &case);
                let mut list = vec![0; board.room];
                let expected = expected_of_board(board.isolate(isolate_board, &mut list));
                if expected[0] == u32::from(number) && is_small(&board) {
                    self.store_board(&board);
                }
            }
        }
    }

    /// B1 in so many slots, with its reading.
    fn board_of_b1(&mut self, slots: usize) -> Board {
        let mut board = Board::new(large::ATTENTION_TYPE, self.random.below(400));
        for _ in 0..slots {
            board.add(&large::B1, &[self.random.next()], &[READ]);
        }
        board
    }

    /// Boards of B1 that are refused in each slot: for a file that ends too soon,
    /// a root without its rule, readings that do not fit or an unread register.
    fn refused_in_each_slot(&mut self) {
        for slot in 0..MOST_SLOTS {
            let mut board = self.board_of_b1(slot);
            let [empty, root, unfit, unread] = std::array::from_fn(|fault| slot % 4 == fault);
            let mut file = large::B1.to_vec();
            if empty {
                file.clear();
            } else if root {
                file[56] = 1;
            }
            let read = match (unfit, unread) {
                (true, _) => 2,
                (_, true) => UNREAD,
                _ => READ,
            };
            board.add(&file, &[1], &[read]);
            if slot + 1 < MOST_SLOTS && self.random.one_in(2) {
                board.add(&large::B1, &[1], &[READ]);
            }
            self.store_board(&board);
        }
    }

    /// One instance more than a file may have, in each of three slots.
    fn boards_of_too_many(&mut self) {
        let file = large::short_node_instances(Limits::LIBRARY.node_instances + 1, 255);
        for slot in [0, 1, MOST_SLOTS - 1] {
            for cut in [0, 9] {
                let mut board = self.board_of_b1(slot);
                board.add(&file[..file.len() - cut], &[1], &[READ]);
                self.store_board(&board);
            }
        }
    }

    /// Boards whose last file goes on over those stored behind it. The files of
    /// other slots are the first that are stored.
    fn windows_of_boards(&mut self) {
        let most = Limits::LIBRARY.bytes;
        for slots in [0, 1, 2, MOST_SLOTS - 1] {
            let mut board = self.board_of_b1(slots);
            let (start, _) = self.place(&board.files);
            let behind = start + board.files.len();
            for length in [most + 1, self.bytes.len() - behind] {
                let mut board = board.clone();
                board.add(&self.bytes[behind..behind + length], &[1], &[READ]);
                self.board(&board, (start, board.files.len()));
            }
            // A byte less than too long.
            board.add(&self.bytes[behind..behind + most], &[1], &[READ]);
            self.board(&board, (start, board.files.len()));
        }
    }

    /// The address of a captured register that is not readable, if the file is
    /// refused for the capture.
    fn address_of_unreadable(&mut self, file: &[u8]) {
        let Err(refusal) = check(file) else { return };
        if refusal.number == refusal::UNFIT_REGISTER && is_capture(file, refusal.place) {
            let capture = &file[refusal.place..refusal.place + 4];
            let id = capture[..3]
                .iter()
                .fold(0, |id, &byte| id << 8 | u64::from(byte));
            self.store_address(file, id, capture[3]);
        }
    }

    /// A case whose file mostly is refused by the number, or accepted if it is
    /// 0.
    fn met_case(&mut self, number: u8) -> Case {
        let mut case = generate::aimed_case(&mut self.random, number, Sizes::Small);
        for _ in 0..20 {
            if check(&case.file).map_or_else(|refusal| refusal.number, |_| 0) == number {
                break;
            }
            case = generate::aimed_case(&mut self.random, number, Sizes::Small);
        }
        case
    }

    fn checks_and_addresses(&mut self) {
        for case in cases::all() {
            if case.file.len() <= MOST_OF_A_CASE {
                self.store_check(&case.file);
                self.address_of_unreadable(&case.file);
            }
        }
        for number in 2..=refusal::CYCLE {
            if number == refusal::TOO_MANY_INSTANCES {
                continue;
            }
            for _ in 0..20 {
                let case = generate::aimed_case(&mut self.random, number, Sizes::Small);
                if case.file.len() <= MOST_OF_A_CASE / 2 {
                    self.store_check(&case.file);
                }
            }
        }
        for round in 0..90 {
            let number = if round % 6 == 0 { round / 6 } else { 0 };
            let case = self.met_case(number as u8);
            if case.file.len() > MOST_OF_A_CASE {
                continue;
            }
            let names: Vec<(u64, u8)> = match Accepted::read(&case.file) {
                Ok(accepted) => {
                    let instances = accepted.tree.register_instances.iter();
                    instances
                        .map(|instance| {
                            let id = accepted.tree.registers[instance.register].id;
                            (u64::from(id), instance.number)
                        })
                        .collect()
                }
                Err(_) => vec![(1, 0)],
            };
            let (id, instance) = *self.random.pick(&names);
            self.store_address(&case.file, id, instance);
            self.store_address(&case.file, id, instance.wrapping_add(1));
            self.store_address(&case.file, id ^ 1, instance);
            let high = 1 << *self.random.pick(&[24, 31, 32, 63]);
            self.store_address(&case.file, id | high, instance);
        }
    }

    /// A file of captures, too long for the station, that brings the files of all
    /// cases together to more bytes than one may have.
    fn long_file(&mut self) {
        let together = Limits::LIBRARY.bytes + LONGER_THAN_A_FILE;
        let bytes = together.saturating_sub(self.bytes.len());
        let file = large::captures(
            Limits {
                bytes: bytes.max(Limits::PROGRAM.bytes + 1),
                ..Limits::PROGRAM
            },
            0,
        );
        self.store_check(&file);
        self.store_check(&file[..file.len() - 1]);
        self.store_address(&file, 1, 0);
    }

    /// Files that go on over those stored behind them: too long, or with bytes
    /// after the last root. They need the files of the cases before.
    fn windows(&mut self) {
        let most = Limits::LIBRARY.bytes;
        let end = self.bytes.len();
        let early: Vec<usize> = self
            .places
            .iter()
            .copied()
            .filter(|place| place + most < end)
            .collect();
        for round in 0..WINDOWS {
            let place = *self.random.pick(&early);
            let length = match round % 10 {
                0 | 1 => most + 1,
                2 => (most + 2).min(end - place),
                3 => end - place,
                4 => most,
                5 => Limits::PROGRAM.bytes + round / 10 % 2,
                6 => self.random.between(1, most),
                _ => self.random.between(most + 1, end - place),
            };
            let case = self.any_isolation(self.bytes[place..place + length].to_vec());
            self.isolation(&case, (place, length));
            if round % 4 == 0 {
                let expected = expected_of_check(check(&case.file));
                self.drafts.push(Draft {
                    kind: Kind::Check,
                    selector: 0,
                    fill: 0,
                    file: (place, length),
                    words: Vec::new(),
                    lengths: NO_LENGTHS,
                    read: Vec::new(),
                    list_bytes: 0,
                    expected,
                    records: Vec::new(),
                });
            }
            if round % 20 == 0 {
                self.store_reading(&case.file, case.room);
            }
        }
    }

    fn finish(mut self) -> Vec<u8> {
        let first = self.bytes.len();
        let size: usize = self.drafts.iter().map(Draft::bytes).sum();
        self.bytes.reserve(size);
        for draft in &self.drafts {
            draft.write(&mut self.bytes);
        }
        self.bytes[..8].copy_from_slice(&KEYWORD);
        self.bytes[8..12].copy_from_slice(&(first as u32).to_be_bytes());
        self.bytes[12..16].copy_from_slice(&(self.drafts.len() as u32).to_be_bytes());
        self.bytes
    }
}

/// Whether a board is small enough for the vectors.
fn is_small(board: &Board) -> bool {
    let lists = [
        &board.file_lengths,
        &board.word_lengths,
        &board.read_lengths,
    ];
    let lengths: usize = lists.iter().map(|list| list.len()).sum();
    let answer = expected_of_board(board.isolate(isolate_board, &mut vec![0; board.room]));
    let records = answer[2] as usize * RECORD_BYTES;
    lists.iter().all(|list| list.len() <= MOST_LENGTHS)
        && board.files.len() <= MOST_OF_FILES
        && 8 * lengths + 9 * board.words.len() + records <= MOST_OF_A_CASE
        && board.room <= MOST_LIST_BYTES
}

/// Records whose file has so many bytes: those of B1 with more registers, which have
/// addresses of 8 bytes, and with captures.
fn records_of_length(length: usize) -> Vec<u8> {
    const MOST_INSTANCES: usize = 255;
    let mut b1 = vec![0; MOST_OF_A_LIST];
    let size = read_records(&large::B1, &mut b1).expect("B1 is accepted");
    // In front of the captures stand the register and its instance, the node and its
    // instance.
    let (front, back) = b1[..size].split_at(4 * RECORD_BYTES);
    let (register, node) = front.split_at(2 * RECORD_BYTES);
    let mut records = register.to_vec();
    let mut left = length - large::B1.len();
    for id in 2.. {
        // 6 bytes for a register, 9 for each instance; the captures have 4 bytes each.
        let most = MOST_INSTANCES.min((left - 6) / 9);
        let is_last = most < MOST_INSTANCES;
        let fits = |&instances: &usize| !is_last || (left - 6 - 9 * instances) % 4 == 0;
        let instances = (1..=most).rev().find(fits).expect("there is such a number");
        left -= 6 + 9 * instances;
        records.extend([1, 2, 0x80, 0, 0, 0, 0, id, 0, 0, 0, 0, 0, 0, 0, 0]);
        for number in 0..instances as u8 {
            records.extend([2, 0, 0, number, 0, 0, 0, 0, id, 9, 8, 7, 6, 5, 4, number]);
        }
        if is_last {
            break;
        }
    }
    records.extend(node);
    for number in 0..(left / 4) as u8 {
        records.extend([5, 0, 0, number, 0, 0, 0, 2, 0, 0, 0, 0, 0, 0, 0, 0]);
    }
    records.extend(back);
    records
}

/// The vectors of a seed: always the same file.
pub fn build(seed: u64) -> Vec<u8> {
    let mut writer = Writer {
        random: Random::new(seed),
        bytes: vec![0; START_BYTES],
        places: Vec::new(),
        whole: HashMap::new(),
        drafts: Vec::new(),
        outcomes: [0; HIGHEST_NUMBER as usize + 1],
        boards: [0; refusal::BOARD_DOES_NOT_ADD_UP as usize + 1],
    };
    writer.place(&large::B1.repeat(MOST_SLOTS));
    let b1 = Case {
        file: large::B1.to_vec(),
        attention_type: large::ATTENTION_TYPE,
        words: vec![1 << 63],
        read: vec![READ],
        room: 32,
    };
    writer.store_isolation(&b1);
    writer.hand_made_calls(cases::isolations_of_files());
    writer.small_cases();
    writer.limits();
    writer.silent_children();
    writer.too_many_instances();
    writer.too_many_for_the_station();
    writer.checks_and_addresses();
    writer.small_boards();
    writer.hand_made_boards();
    writer.refused_in_each_slot();
    writer.boards_of_too_many();
    writer.calls_of_records();
    writer.long_file();
    writer.windows();
    writer.windows_of_boards();
    writer.hand_made_calls(cases::isolations_of_bits());
    writer.finish()
}
