//! A board of 1 to 16 chips: isolation of each slot with one attention type, the
//! lists joined in slot order.

use crate::isolation::{self, Found};
use crate::layout::Limits;
use crate::refusal::{self, Refusal};

/// The most slots of a board.
pub const MOST_SLOTS: usize = 16;

/// What is lent end to end for all slots, and the length of each slot's part.
#[derive(Clone, Copy, Debug)]
pub struct Lent<'a, T> {
    pub all: &'a [T],
    pub lengths: &'a [u64],
}

impl<'a, T> Lent<'a, T> {
    pub fn new(all: &'a [T], lengths: &'a [u64]) -> Self {
        Lent { all, lengths }
    }

    /// The parts in slot order, if their lengths add up to all that is lent. The
    /// sum is exact: so many lengths of 64 bits are below 2 to the 128th.
    fn parts(self) -> Option<Vec<&'a [T]>> {
        let sum: u128 = self.lengths.iter().map(|&length| u128::from(length)).sum();
        if sum != self.all.len() as u128 {
            return None;
        }
        let mut rest = self.all;
        let mut parts = Vec::with_capacity(self.lengths.len());
        for &length in self.lengths {
            let (part, behind) = rest.split_at(length as usize);
            parts.push(part);
            rest = behind;
        }
        Some(parts)
    }
}

/// Why a board gave no answer. The place is in the slot's own file; the slot is 0
/// where no slot is at fault.
#[derive(Clone, Copy, Debug, PartialEq, Eq)]
pub struct BoardRefusal {
    pub refusal: Refusal,
    pub slot: u8,
}

/// One chip with its readings.
struct Slot<'a> {
    file: &'a [u8],
    words: &'a [u64],
    read: &'a [u8],
}

/// The slots, or none where they do not add up: their number is not 1 to 16, one
/// list of lengths is longer than another, or lengths do not add up to what is
/// lent.
fn slots<'a>(
    files: Lent<'a, u8>,
    words: Lent<'a, u64>,
    read: Lent<'a, u8>,
) -> Option<Vec<Slot<'a>>> {
    let count = files.lengths.len();
    if !(1..=MOST_SLOTS).contains(&count)
        || words.lengths.len() != count
        || read.lengths.len() != count
    {
        return None;
    }
    let words_and_read = words.parts()?.into_iter().zip(read.parts()?);
    let slots = files.parts()?.into_iter().zip(words_and_read);
    Some(
        slots
            .map(|(file, (words, read))| Slot { file, words, read })
            .collect(),
    )
}

/// Writes the records of all slots to the list and returns how many they are, and
/// the number of steps of all. The list keeps its bytes beyond the records, and
/// all of them on a refusal.
pub fn isolate_board(
    files: Lent<'_, u8>,
    attention_type: u8,
    words: Lent<'_, u64>,
    read: Lent<'_, u8>,
    list: &mut [u8],
) -> Result<(usize, usize), BoardRefusal> {
    let of_no_slot = |refusal| BoardRefusal { refusal, slot: 0 };
    let slots = slots(files, words, read)
        .ok_or(of_no_slot(Refusal::new(refusal::BOARD_DOES_NOT_ADD_UP, 0)))?;
    let mut board = Found::default();
    for (number, slot) in slots.iter().enumerate() {
        let number = number as u8;
        let found = isolation::find(
            slot.file,
            Limits::LIBRARY,
            number,
            attention_type,
            slot.words,
            slot.read,
        );
        let found = found.map_err(|refusal| BoardRefusal {
            refusal,
            slot: number,
        })?;
        board.records.extend(found.records);
        board.steps += found.steps;
    }
    board.put(list).map_err(of_no_slot)
}

/// All that one board call is lent. The list has `room` bytes.
#[derive(Clone, Debug, PartialEq, Eq)]
pub struct Board {
    pub files: Vec<u8>,
    pub file_lengths: Vec<u64>,
    pub attention_type: u8,
    pub words: Vec<u64>,
    pub word_lengths: Vec<u64>,
    pub read: Vec<u8>,
    pub read_lengths: Vec<u64>,
    pub room: usize,
}

/// A board call of one of the implementations.
pub type IsolateBoard = fn(
    Lent<'_, u8>,
    u8,
    Lent<'_, u64>,
    Lent<'_, u8>,
    &mut [u8],
) -> Result<(usize, usize), BoardRefusal>;

impl Board {
    /// A board without a slot.
    pub fn new(attention_type: u8, room: usize) -> Self {
        Board {
            files: Vec::new(),
            file_lengths: Vec::new(),
            attention_type,
            words: Vec::new(),
            word_lengths: Vec::new(),
            read: Vec::new(),
            read_lengths: Vec::new(),
            room,
        }
    }

    /// One slot more.
    pub fn add(&mut self, file: &[u8], words: &[u64], read: &[u8]) {
        self.files.extend(file);
        self.file_lengths.push(file.len() as u64);
        self.words.extend(words);
        self.word_lengths.push(words.len() as u64);
        self.read.extend(read);
        self.read_lengths.push(read.len() as u64);
    }

    /// The call, by one of the implementations.
    pub fn isolate(
        &self,
        isolate_board: IsolateBoard,
        list: &mut [u8],
    ) -> Result<(usize, usize), BoardRefusal> {
        isolate_board(
            Lent::new(&self.files, &self.file_lengths),
            self.attention_type,
            Lent::new(&self.words, &self.word_lengths),
            Lent::new(&self.read, &self.read_lengths),
            list,
        )
    }
}
