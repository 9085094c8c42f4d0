//! The same calls written for speed, in safe Rust with the standard library.
//! The reference beside it is written for clarity and is slow for that reason
//! alone, so times are compared with this one.
//!
//! One pass over the bytes reads the layout and looks up the registers that
//! captures and rules name; a second one over the child entries alone finds
//! their node instances. No tree is built: what is needed again is read from
//! the file again.

mod records;

pub use records::{read_records, write_records};

use std::num::NonZeroU32;
use std::ops::Range;

use crate::board::{BoardRefusal, Lent, MOST_SLOTS};
use crate::checker::Summary;
use crate::isolation::{Record, ONLY_SLOT, RECORD_BYTES};
use crate::layout::{
    is_attention_type, Limits, CHIP_KEYWORD, EXPRESSION_AND, EXPRESSION_CONSTANT, EXPRESSION_NOT,
    EXPRESSION_OR, EXPRESSION_REGISTER, EXPRESSION_SHIFT_LEFT, EXPRESSION_SHIFT_RIGHT,
    FEWEST_OPERANDS, HIGHEST_BIT, MAX_EXPRESSION_LEVEL, NODE_KEYWORD, READABLE, REGISTER_KEYWORD,
    ROOT_KEYWORD, VERSION, WRITABLE,
};
use crate::readings::READ;
use crate::refusal::{self, Refusal};
use crate::report::LIST_RECORDS;

/// As [`crate::check`].
pub fn check(file: &[u8]) -> Result<Summary, Refusal> {
    let chip = Chip::read(file, Limits::LIBRARY, 0)?;
    Ok(Summary {
        model: chip.model,
        registers: chip.registers,
        register_instances: chip.register_instances,
        nodes: chip.nodes,
        node_instances: chip.node_instances.len(),
        roots: chip.roots,
    })
}

/// As [`crate::address`].
pub fn address(file: &[u8], id: u32, instance: u8) -> Result<(usize, usize), Refusal> {
    let sought = match id >> 24 {
        0 => u64::from(name(id, instance)),
        _ => NO_NAME,
    };
    let chip = Chip::read_for(file, Limits::LIBRARY, 0, sought)?;
    chip.address.ok_or(Refusal::new(refusal::ABSENT, 0))
}

/// As [`crate::isolate`].
pub fn isolate(
    file: &[u8],
    attention_type: u8,
    words: &[u64],
    read: &[u8],
    list: &mut [u8],
) -> Result<(usize, usize), Refusal> {
    let (chip, (records, steps)) = isolated(file, attention_type, words, read)?;
    if list.len() / RECORD_BYTES < records {
        return Err(Refusal::new(refusal::NO_ROOM, records));
    }
    let (mut places, _) = list.as_chunks_mut::<RECORD_BYTES>();
    for instance in &chip.node_instances {
        let first = chip.record_of(instance, ONLY_SLOT);
        places = put_records(places, first, instance.listed);
    }
    Ok((records, steps))
}

/// As [`crate::isolate_board`].
pub fn isolate_board(
    files: Lent<'_, u8>,
    attention_type: u8,
    words: Lent<'_, u64>,
    read: Lent<'_, u8>,
    list: &mut [u8],
) -> Result<(usize, usize), BoardRefusal> {
    let slots = files.lengths.len();
    if !(1..=MOST_SLOTS).contains(&slots)
        || words.lengths.len() != slots
        || read.lengths.len() != slots
        || !adds_up(files)
        || !adds_up(words)
        || !adds_up(read)
    {
        return refuse_board(Refusal::new(refusal::BOARD_DOES_NOT_ADD_UP, 0), 0);
    }
    // Nothing is put to the list before it is known that no slot is refused.
    let mut listed = Vec::new();
    let (mut records, mut steps) = (0, 0);
    let (mut files_left, mut words_left, mut read_left) = (files.all, words.all, read.all);
    for slot in 0..slots {
        let file = take_part(&mut files_left, files.lengths[slot]);
        let words = take_part(&mut words_left, words.lengths[slot]);
        let read = take_part(&mut read_left, read.lengths[slot]);
        let slot = slot as u8;
        match isolated(file, attention_type, words, read) {
            Ok((chip, (of_slot, steps_of_slot))) => {
                records += of_slot;
                steps += steps_of_slot;
                let instances = chip.node_instances.iter();
                listed.extend(
                    instances
                        .filter(|instance| instance.listed != 0)
                        .map(|instance| (chip.record_of(instance, slot), instance.listed)),
                );
            }
            Err(refusal) => return refuse_board(refusal, slot),
        }
    }
    if list.len() / RECORD_BYTES < records {
        return refuse_board(Refusal::new(refusal::NO_ROOM, records), 0);
    }
    let (mut places, _) = list.as_chunks_mut::<RECORD_BYTES>();
    for (first, bits) in listed {
        places = put_records(places, first, bits);
    }
    Ok((records, steps))
}

#[cold]
fn refuse_board<T>(refusal: Refusal, slot: u8) -> Result<T, BoardRefusal> {
    Err(BoardRefusal { refusal, slot })
}

/// Whether the lengths add up to what is lent.
fn adds_up<T>(lent: Lent<'_, T>) -> bool {
    let mut lengths = lent.lengths.iter();
    let sum = lengths.try_fold(0u64, |sum, &length| sum.checked_add(length));
    sum == Some(lent.all.len() as u64)
}

/// The first part, of a length that is known to be there.
fn take_part<'a, T>(left: &mut &'a [T], length: u64) -> &'a [T] {
    let (part, rest) = left.split_at(length as usize);
    *left = rest;
    part
}

/// The chip with its bits to list, and how many they are, and the steps.
fn isolated<'a>(
    file: &'a [u8],
    attention_type: u8,
    words: &[u64],
    read: &[u8],
) -> Result<(Chip<'a>, (usize, usize)), Refusal> {
    let mut chip = Chip::read(file, Limits::LIBRARY, attention_type)?;
    let root = chip.root()?;
    let instances = chip.register_instances;
    // All of them together are above 1 exactly if one is.
    let together = read.iter().fold(0, |bits, &byte| bits | byte);
    if words.len() != instances || read.len() != instances || together > READ {
        return Err(Refusal::new(refusal::READINGS_DO_NOT_FIT, 0));
    }
    let counts = chip.isolate_from(root, words, read)?;
    Ok((chip, counts))
}

/// Puts the records of these bits to the first places, all like `first` but for
/// the bit. Returns the places behind them.
#[inline]
fn put_records(places: &mut [Record], first: Record, bits: u64) -> &mut [Record] {
    let (own, rest) = places.split_at_mut(bits.count_ones() as usize);
    for (place, bit) in own.iter_mut().zip(bits_of(bits)) {
        *place = first;
        place[BIT_AT] = bit;
    }
    rest
}

/// The place of the bit in a record.
const BIT_AT: usize = 5;

/// As [`crate::report`], to the front of a lent text, which gets as much as it
/// has room for. Returns the length of the whole text.
pub fn report(file: &[u8], attention_type: u8, readings_file: &[u8], text: &mut [u8]) -> usize {
    let mut text = Text { text, length: 0 };
    if let Err(refusal) = report_to(file, attention_type, readings_file, &mut text) {
        let mut line = Line::new();
        line.named("refused ", u32::from(refusal.number));
        line.named(" place ", refusal.place as u32);
        text.put(line.ended());
    }
    text.length
}

/// Puts nothing where it refuses.
fn report_to(
    file: &[u8],
    attention_type: u8,
    readings_file: &[u8],
    text: &mut Text<'_>,
) -> Result<(), Refusal> {
    let mut chip = Chip::read(file, Limits::PROGRAM, attention_type)?;
    let root = chip.root()?;
    let (words, read) = chip
        .decode(readings_file)
        .ok_or(Refusal::new(refusal::READINGS_DO_NOT_FIT, 0))?;
    let (records, steps) = chip.isolate_from(root, &words, &read)?;
    if records > LIST_RECORDS {
        return Err(Refusal::new(refusal::NO_ROOM, records));
    }
    // The lines of one instance differ in the bit alone.
    let mut lines = Vec::new();
    for instance in &chip.node_instances {
        if instance.listed == 0 {
            continue;
        }
        let mut start = Line::new();
        start.named("type ", u32::from(attention_type));
        start.named(" node ", u32::from(instance.id));
        start.named(" inst ", u32::from(instance.number));
        start.put(b" bit ");
        lines.clear();
        lines.reserve(LINE_BYTES * instance.listed.count_ones() as usize);
        for bit in bits_of(instance.listed) {
            let mut line = start;
            line.number_below_100(bit);
            // All bytes of the line are copied, since copies of a fixed size
            // are fast, and those behind its end are dropped.
            let end = lines.len() + line.ended().len();
            lines.extend_from_slice(&line.bytes);
            lines.truncate(end);
        }
        text.put(&lines);
    }
    let mut line = Line::new();
    line.named("steps ", steps as u32);
    text.put(line.ended());
    Ok(())
}

/// A lent text and how long it would be with room for all.
struct Text<'a> {
    text: &'a mut [u8],
    length: usize,
}

impl Text<'_> {
    fn put(&mut self, bytes: &[u8]) {
        let room = self.text.get_mut(self.length..).unwrap_or_default();
        let most = room.len().min(bytes.len());
        room[..most].copy_from_slice(&bytes[..most]);
        self.length += bytes.len();
    }
}

/// The longest line is `type 5 node 65535 inst 255 bit 63` with its end.
const LINE_BYTES: usize = 40;

#[derive(Clone, Copy)]
struct Line {
    bytes: [u8; LINE_BYTES],
    length: usize,
}

impl Line {
    fn new() -> Self {
        Line {
            bytes: [0; LINE_BYTES],
            length: 0,
        }
    }

    #[inline]
    fn put(&mut self, bytes: &[u8]) {
        self.bytes[self.length..self.length + bytes.len()].copy_from_slice(bytes);
        self.length += bytes.len();
    }

    #[inline]
    fn number_below_100(&mut self, number: u8) {
        if number >= 10 {
            self.put(&[b'0' + number / 10]);
        }
        self.put(&[b'0' + number % 10]);
    }

    fn named(&mut self, word: &str, number: u32) {
        self.put(word.as_bytes());
        let mut digits = [0; 10];
        let mut first = digits.len();
        let mut left = number;
        loop {
            first -= 1;
            digits[first] = b'0' + (left % 10) as u8;
            left /= 10;
            if left == 0 {
                break;
            }
        }
        self.put(&digits[first..]);
    }

    /// The line with its end.
    #[inline]
    fn ended(&mut self) -> &[u8] {
        self.put(b"\n");
        &self.bytes[..self.length]
    }
}

/// The numbers of a word's bits, from 0 up. Bit 0 is leftmost, so the zeros
/// before the first 1 are the number of the next bit. One pass for each bit.
#[inline]
fn bits_of(word: u64) -> impl Iterator<Item = u8> {
    let mut left = word;
    std::iter::from_fn(move || {
        if left == 0 {
            return None;
        }
        let bit = left.leading_zeros() as u8;
        left ^= mask_of(bit);
        Some(bit)
    })
}

/// The word in which this bit alone is set.
#[inline]
fn mask_of(bit: u8) -> u64 {
    1 << (HIGHEST_BIT - bit)
}

/// The name of an instance: its register or node ID and its number. In the
/// file a register's name is 4 bytes in this order.
#[inline]
fn name(id: u32, instance: u8) -> u32 {
    id << 8 | u32::from(instance)
}

/// A refusal in one word, so that it is returned in a register: the number
/// above 24 bits of place. All places are in files that are not too long.
#[derive(Clone, Copy)]
struct Stop(NonZeroU32);

const _: () = assert!(Limits::LIBRARY.bytes < 1 << 24);

impl Stop {
    #[cold]
    fn new(number: u8, place: usize) -> Self {
        let packed = u32::from(number) << 24 | place as u32;
        Stop(NonZeroU32::new(packed).expect("refusal numbers begin at 1"))
    }

    fn place(self) -> usize {
        self.0.get() as usize & 0x00FF_FFFF
    }
}

impl From<Stop> for Refusal {
    fn from(stop: Stop) -> Self {
        Refusal::new((stop.0.get() >> 24) as u8, stop.place())
    }
}

/// What names are multiplied by. The lower 24 bits are the golden section, so that
/// names of IDs in a row are spread, and all of them about the square root of 2
/// without its 1, so that those of instances in a row are. Names that are made to
/// collide in another table do not collide here.
const FACTOR: u32 = 0x6A9E_3779;

/// From names or IDs to numbers that are not 0: open addressing, so large that
/// about half of the places stay empty. A place has the name above the number;
/// an empty one is 0.
struct Names {
    places: Vec<u64>,
    /// Leaves as many bits of a mixed name as a place's index has.
    shift: u32,
}

impl Names {
    /// Before it is known how many there may be.
    const NONE: Names = Names {
        places: Vec::new(),
        shift: 0,
    };

    fn with_room(names: usize) -> Self {
        let bits = (2 * names.max(4)).next_power_of_two().trailing_zeros();
        Names {
            places: vec![0; 1 << bits],
            shift: u32::BITS - bits,
        }
    }

    /// Makes room for so many names, and more than before. Returns how many that
    /// is.
    #[cold]
    fn grow(&mut self, names: usize) -> usize {
        let mut larger = Names::with_room(names.max(self.places.len()));
        for &place in self.places.iter().filter(|&&place| place != 0) {
            let (at, _) = larger.view().find((place >> 32) as u32);
            larger.places[at] = place;
        }
        *self = larger;
        self.places.len() / 2
    }

    /// For many lookups in a row: what is the same in all of them need not be
    /// fetched each time.
    #[inline]
    fn view(&self) -> View<'_> {
        View {
            places: &self.places,
            shift: self.shift,
        }
    }

    #[inline]
    fn get(&self, name: u32) -> Option<NonZeroU32> {
        self.view().get(name)
    }

    /// False if the name was there already.
    #[inline]
    fn insert(&mut self, name: u32, number: NonZeroU32) -> bool {
        let (at, there) = self.view().find(name);
        if there == 0 {
            self.places[at] = u64::from(name) << 32 | u64::from(number.get());
        }
        there == 0
    }
}

#[derive(Clone, Copy)]
struct View<'a> {
    places: &'a [u64],
    shift: u32,
}

impl View<'_> {
    /// Where the name stands, or the empty place for it; and what is there.
    #[inline]
    fn find(self, name: u32) -> (usize, u64) {
        let mask = self.places.len() - 1;
        let mut at = (name.wrapping_mul(FACTOR) >> self.shift) as usize & mask;
        loop {
            let there = self.places[at];
            if there == 0 || (there >> 32) as u32 == name {
                return (at, there);
            }
            at = (at + 1) & mask;
        }
    }

    #[inline]
    fn get(self, name: u32) -> Option<NonZeroU32> {
        NonZeroU32::new(self.find(name).1 as u32)
    }

    /// Why a register instance that does not fit is refused where it is named.
    #[cold]
    fn fault_of(self, name: u32, at: usize) -> Stop {
        let number = match self.get(name) {
            Some(_) => refusal::UNFIT_REGISTER,
            None => refusal::ABSENT,
        };
        Stop::new(number, at)
    }

    /// The kind that goes with an instance's name, and 0 if it is not there.
    #[inline]
    fn kind(self, name: u32) -> u8 {
        self.find(name).1 as u8 & KIND
    }
}

/// The bits of a number that are the kind.
const KIND: u8 = 3;

/// The number that goes with an instance's name: its position plus one, above
/// two bits for its kind.
#[inline]
fn numbered(position: usize, kind: u8) -> NonZeroU32 {
    let number = (position as u32 + 1) << 2 | u32::from(kind);
    NonZeroU32::new(number).expect("a position plus one is not 0")
}

#[inline]
fn position_of(number: NonZeroU32) -> usize {
    (number.get() >> 2) as usize - 1
}

/// The IDs so far. One above or below them all is new; they are put into a
/// table only when one comes that lies between.
struct Ids {
    lowest: u32,
    highest: u32,
    table: Option<Names>,
}

impl Ids {
    fn new() -> Self {
        Ids {
            lowest: u32::MAX,
            highest: 0,
            table: None,
        }
    }

    /// False if the ID was there already. `earlier` gives all IDs so far, and
    /// `most` says how many there may be in the end.
    #[inline]
    fn insert<I: Iterator<Item = u32>>(
        &mut self,
        id: u32,
        most: usize,
        earlier: impl Fn() -> I,
    ) -> bool {
        let is_outside = id > self.highest || id < self.lowest;
        if self.table.is_none() && is_outside {
            self.lowest = self.lowest.min(id);
            self.highest = self.highest.max(id);
            return true;
        }
        let table = match &mut self.table {
            Some(table) => table,
            None => {
                // One look at all of them costs less than a table.
                if earlier().any(|other| other == id) {
                    return false;
                }
                let table = self.table.insert(Names::with_room(most));
                for other in earlier() {
                    table.insert(other, NonZeroU32::MIN);
                }
                table
            }
        };
        table.insert(id, NonZeroU32::MIN)
    }
}

/// A set of byte values.
#[derive(Default)]
struct ByteSet([u64; 4]);

impl ByteSet {
    #[inline]
    fn insert(&mut self, byte: u8) -> bool {
        let word = &mut self.0[usize::from(byte >> 6)];
        let mark = 1 << (byte & 63);
        let is_new = *word & mark == 0;
        *word |= mark;
        is_new
    }
}

/// Where the file is read. The loops work on a copy of their own, which stays
/// in registers.
#[derive(Clone, Copy)]
struct Reader<'a> {
    file: &'a [u8],
    at: usize,
}

impl<'a> Reader<'a> {
    #[inline]
    fn byte(&mut self) -> Result<u8, Stop> {
        match self.file.get(self.at) {
            Some(&byte) => {
                self.at += 1;
                Ok(byte)
            }
            None => self.refuse(refusal::FIELD_CUT_SHORT, 0),
        }
    }

    #[inline]
    fn bytes<const N: usize>(&mut self) -> Result<[u8; N], Stop> {
        match self.file[self.at..].first_chunk::<N>() {
            Some(bytes) => {
                self.at += N;
                Ok(*bytes)
            }
            None => self.refuse(refusal::FIELD_CUT_SHORT, 0),
        }
    }

    /// So many records of N bytes, or as many of them as are wholly there.
    #[inline]
    fn records<const N: usize>(&mut self, count: usize) -> &'a [[u8; N]] {
        let (records, _) = self.file[self.at..].as_chunks::<N>();
        let records = &records[..count.min(records.len())];
        self.at += N * records.len();
        records
    }

    #[inline]
    fn register_id(&mut self) -> Result<u32, Stop> {
        let [a, b, c] = self.bytes()?;
        Ok(u32::from_be_bytes([0, a, b, c]))
    }

    #[inline]
    fn node_id(&mut self) -> Result<u16, Stop> {
        Ok(u16::from_be_bytes(self.bytes()?))
    }

    /// The name of a register instance, ID and number being two fields.
    #[inline]
    fn register_name(&mut self) -> Result<u32, Stop> {
        match self.records::<4>(1) {
            [bytes] => Ok(u32::from_be_bytes(*bytes)),
            _ => Ok(name(self.register_id()?, self.byte()?)),
        }
    }

    /// Refuses the field of `size` bytes that was read last.
    #[inline]
    fn refuse<T>(&self, number: u8, size: usize) -> Result<T, Stop> {
        Err(Stop::new(number, self.at - size))
    }

    fn keyword<const N: usize>(&mut self, letters: [u8; N]) -> Result<(), Stop> {
        if self.bytes::<N>()? != letters {
            return self.refuse(refusal::WRONG_KEYWORD, N);
        }
        Ok(())
    }

    #[inline]
    fn nonzero_byte(&mut self) -> Result<u8, Stop> {
        match self.byte()? {
            0 => self.refuse(refusal::ZERO_COUNT, 1),
            count => Ok(count),
        }
    }

    #[inline]
    fn register_type(&mut self) -> Result<u8, Stop> {
        match self.byte()? {
            known @ (1 | 2) => Ok(known),
            _ => self.refuse(refusal::UNKNOWN_VALUE, 1),
        }
    }

    /// Bit t of `seen` is set if attention type t was there before.
    #[inline]
    fn attention_type(&mut self, seen: &mut u8) -> Result<u8, Stop> {
        let attention_type = self.byte()?;
        if !is_attention_type(attention_type) {
            return self.refuse(refusal::UNKNOWN_VALUE, 1);
        }
        if *seen >> attention_type & 1 != 0 {
            return self.refuse(refusal::DUPLICATE, 1);
        }
        *seen |= 1 << attention_type;
        Ok(attention_type)
    }

    #[inline]
    fn at_least(&mut self, least: u8) -> Result<u8, Stop> {
        let byte = self.byte()?;
        if byte < least {
            return self.refuse(refusal::BAD_EXPRESSION, 1);
        }
        Ok(byte)
    }
}

struct NodeInstance {
    /// Offset of the number byte.
    at: u32,
    /// Offset of the wanted rule's expression, or 0.
    rule_at: u32,
    /// Offset of the first child entry.
    children_at: u32,
    /// The end of its children among all.
    children_end: u32,
    /// The bits that have a child.
    with_child: u64,
    /// The bits to list; all active bits while the instance waits.
    listed: u64,
    id: u16,
    number: u8,
    /// Bit t is set if there is a rule for attention type t.
    rule_types: u8,
}

struct Chip<'a> {
    file: &'a [u8],
    limits: Limits,
    wanted: u8,
    model: u32,
    registers: usize,
    register_instances: usize,
    /// The kind is the register's type, or 0 if it is not readable.
    register_names: Names,
    /// The name of a register instance whose address is wanted, or [`NO_NAME`].
    sought: u64,
    /// Offset and size of its address.
    address: Option<(usize, usize)>,
    nodes: usize,
    node_instances: Vec<NodeInstance>,
    node_names: Names,
    /// The positions of all children's node instances, in file order.
    children: Vec<u16>,
    roots: usize,
    /// The position of the wanted root's node instance.
    root: Option<usize>,
    /// The first refusal 12 or 13 of a capture or an expression.
    fault: Option<Stop>,
}

/// Names have 32 bits, so this is none.
const NO_NAME: u64 = u64::MAX;
/// Offset of the first register.
const REGISTERS_AT: usize = 20;
/// The fewest bytes of a register instance and of a register with one, and of
/// a node instance and of a node with one.
const REGISTER_INSTANCE_BYTES: usize = 5;
const REGISTER_BYTES: usize = 11;
const NODE_INSTANCE_BYTES: usize = 10;
const NODE_BYTES: usize = 14;

impl<'a> Chip<'a> {
    /// What is to be known of a file that is accepted. Of the rules only those
    /// for the wanted attention type are remembered.
    fn read(file: &'a [u8], limits: Limits, wanted: u8) -> Result<Self, Refusal> {
        Self::read_for(file, limits, wanted, NO_NAME)
    }

    /// The same, with the address of the register instance that is sought.
    fn read_for(file: &'a [u8], limits: Limits, wanted: u8, sought: u64) -> Result<Self, Refusal> {
        if file.len() > limits.bytes {
            return Err(Refusal::new(refusal::FILE_TOO_LONG, 0));
        }
        let mut chip = Chip {
            file,
            limits,
            wanted,
            model: 0,
            registers: 0,
            register_instances: 0,
            register_names: Names::NONE,
            sought,
            address: None,
            nodes: 0,
            node_instances: Vec::new(),
            node_names: Names::NONE,
            children: Vec::new(),
            roots: 0,
            root: None,
            fault: None,
        };
        chip.read_sections()?;
        Ok(chip)
    }

    fn read_sections(&mut self) -> Result<(), Stop> {
        let mut reader = Reader {
            file: self.file,
            at: 0,
        };
        reader.keyword(CHIP_KEYWORD)?;
        self.model = u32::from_be_bytes(reader.bytes()?);
        if reader.byte()? != VERSION {
            return reader.refuse(refusal::WRONG_VERSION, 1);
        }
        let mut reader = self.read_registers(reader)?;
        self.read_nodes(&mut reader)?;
        let roots = self.read_roots(&mut reader)?;
        if reader.at < self.file.len() {
            return reader.refuse(refusal::BYTES_AFTER_END, 0);
        }
        let in_order = self.link_children()?;
        self.link_roots(roots)?;
        if in_order {
            return Ok(());
        }
        match Cycles::first_on_one(self) {
            Some(position) => {
                let at = self.node_instances[position].at;
                Err(Stop::new(refusal::CYCLE, at as usize))
            }
            None => Ok(()),
        }
    }

    fn read_registers(&mut self, mut reader: Reader<'a>) -> Result<Reader<'a>, Stop> {
        reader.keyword(REGISTER_KEYWORD)?;
        let count = reader.register_id()? as usize;
        if count == 0 {
            return reader.refuse(refusal::ZERO_COUNT, 3);
        }
        // So many registers and register instances are read at most.
        let most = count.min(self.file.len() / REGISTER_BYTES + 1);
        let most = most.min(self.limits.register_instances + 1);
        let most_instances = self.file.len() / REGISTER_INSTANCE_BYTES + 1;
        let most_instances = most_instances.min(self.limits.register_instances);
        let mut room = 0;
        let mut ids = Ids::new();
        for _ in 0..count {
            let id = reader.register_id()?;
            if !ids.insert(id, most, || self.each_register_name().map(|name| name >> 8)) {
                return reader.refuse(refusal::DUPLICATE, 3);
            }
            let register_type = reader.register_type()?;
            let flags = reader.byte()?;
            if flags & !(READABLE | WRITABLE) != 0 {
                return reader.refuse(refusal::UNKNOWN_VALUE, 1);
            }
            let kind = if flags & READABLE != 0 {
                register_type
            } else {
                0
            };
            let instances = usize::from(reader.nonzero_byte()?);
            let in_all = self.register_instances + instances;
            if in_all > room {
                // The other registers may have as many instances as the first.
                let likely = if room == 0 { count * instances } else { in_all };
                room = self.register_names.grow(likely.min(most_instances));
            }
            if register_type == 1 {
                self.read_register_instances::<5>(&mut reader, id, kind, instances)?;
            } else {
                self.read_register_instances::<9>(&mut reader, id, kind, instances)?;
            }
        }
        self.registers = count;
        Ok(reader)
    }

    /// Instances of N bytes each, the number and the address.
    #[inline(always)]
    fn read_register_instances<const N: usize>(
        &mut self,
        reader: &mut Reader<'a>,
        id: u32,
        kind: u8,
        count: usize,
    ) -> Result<(), Stop> {
        let mut numbers = ByteSet::default();
        let at = reader.at;
        let whole = reader.records::<N>(count);
        for (index, record) in whole.iter().enumerate() {
            let at = at + index * N;
            let number = record[0];
            self.register_instance(id, number, kind, &mut numbers)
                .map_err(|number| Stop::new(number, at))?;
            if u64::from(name(id, number)) == self.sought {
                self.address = Some((at + 1, N - 1));
            }
        }
        if whole.len() < count {
            let at = reader.at;
            let number = reader.byte()?;
            self.register_instance(id, number, kind, &mut numbers)
                .map_err(|number| Stop::new(number, at))?;
            return reader.refuse(refusal::FIELD_CUT_SHORT, 0);
        }
        Ok(())
    }

    /// Counts it and puts its name into the table, or gives a refusal number.
    #[inline(always)]
    fn register_instance(
        &mut self,
        id: u32,
        number: u8,
        kind: u8,
        numbers: &mut ByteSet,
    ) -> Result<(), u8> {
        let position = self.register_instances;
        if position == self.limits.register_instances {
            return Err(refusal::TOO_MANY_INSTANCES);
        }
        if !numbers.insert(number) {
            return Err(refusal::DUPLICATE);
        }
        self.register_names
            .insert(name(id, number), numbered(position, kind));
        self.register_instances += 1;
        Ok(())
    }

    /// The names of the register instances that have been read, in file order.
    fn each_register_name(&self) -> impl Iterator<Item = u32> + 'a {
        let file = self.file;
        let mut at = REGISTERS_AT;
        let mut id = 0;
        let mut instance_bytes = 0;
        let mut left = 0;
        let next_name = move || {
            if left == 0 {
                id = u32::from_be_bytes([0, file[at], file[at + 1], file[at + 2]]);
                instance_bytes = 1 + 4 * usize::from(file[at + 3]);
                left = file[at + 5];
                at += 6;
            }
            let name = name(id, file[at]);
            left -= 1;
            at += instance_bytes;
            name
        };
        std::iter::repeat_with(next_name).take(self.register_instances)
    }

    fn read_nodes(&mut self, reader: &mut Reader<'a>) -> Result<(), Stop> {
        reader.keyword(NODE_KEYWORD)?;
        let count = usize::from(reader.node_id()?);
        if count == 0 {
            return reader.refuse(refusal::ZERO_COUNT, 2);
        }
        let most = count.min(self.file.len() / NODE_BYTES + 1);
        let most = most.min(self.limits.node_instances + 1);
        let most_instances = self.file.len() / NODE_INSTANCE_BYTES + 1;
        let most_instances = most_instances.min(self.limits.node_instances);
        let mut room = 0;
        let mut ids = Ids::new();
        for _ in 0..count {
            let id = reader.node_id()?;
            let earlier = || self.node_instances.iter().map(|i| u32::from(i.id));
            if !ids.insert(u32::from(id), most, earlier) {
                return reader.refuse(refusal::DUPLICATE, 2);
            }
            let register_type = reader.register_type()?;
            let mut numbers = ByteSet::default();
            let instances = reader.nonzero_byte()?;
            let in_all = self.node_instances.len() + usize::from(instances);
            if in_all > room {
                let first = count * usize::from(instances);
                let likely = if room == 0 { first } else { in_all };
                let likely = likely.min(most_instances);
                room = self.node_names.grow(likely);
                let before = self.node_instances.len();
                self.node_instances.reserve(likely.saturating_sub(before));
            }
            for _ in 0..instances {
                self.read_node_instance(reader, id, register_type, &mut numbers)?;
            }
        }
        self.nodes = count;
        Ok(())
    }

    fn read_node_instance(
        &mut self,
        reader: &mut Reader<'a>,
        id: u16,
        register_type: u8,
        numbers: &mut ByteSet,
    ) -> Result<(), Stop> {
        let at = reader.at as u32;
        let number = reader.byte()?;
        let position = self.node_instances.len();
        if position == self.limits.node_instances {
            return reader.refuse(refusal::TOO_MANY_INSTANCES, 1);
        }
        if !numbers.insert(number) {
            return reader.refuse(refusal::DUPLICATE, 1);
        }
        let captures = usize::from(reader.byte()?);
        let rules = reader.nonzero_byte()?;
        let children = usize::from(reader.byte()?);

        self.read_captures(reader, captures)?;

        let mut rule_types = 0;
        let mut rule_at = 0;
        for _ in 0..rules {
            let attention_type = reader.attention_type(&mut rule_types)?;
            if attention_type == self.wanted {
                rule_at = reader.at as u32;
            }
            *reader = self.read_expression(*reader, register_type)?;
        }

        let children_at = reader.at as u32;
        let with_child = read_children(reader, children)?;
        let children_before = match self.node_instances.last() {
            Some(last) => last.children_end,
            None => 0,
        };
        self.node_names
            .insert(name(u32::from(id), number), numbered(position, 0));
        self.node_instances.push(NodeInstance {
            at,
            rule_at,
            children_at,
            children_end: children_before + children as u32,
            with_child,
            listed: 0,
            id,
            number,
            rule_types,
        });
        Ok(())
    }

    fn read_captures(&mut self, reader: &mut Reader<'a>, count: usize) -> Result<(), Stop> {
        let at = reader.at;
        let whole = reader.records::<4>(count);
        if self.fault.is_none() {
            let names = self.register_names.view();
            let is_fault = |bytes: &[u8; 4]| names.kind(u32::from_be_bytes(*bytes)) == 0;
            if let Some(index) = whole.iter().position(is_fault) {
                let name = u32::from_be_bytes(whole[index]);
                self.fault = Some(names.fault_of(name, at + 4 * index));
            }
        }
        if whole.len() < count {
            // One of these refuses.
            reader.register_id()?;
            reader.byte()?;
        }
        Ok(())
    }

    /// Without recursion: `open` has, for the expressions around the one to read
    /// that have operands behind it, how many these are, and their level.
    fn read_expression(
        &mut self,
        mut reader: Reader<'a>,
        register_type: u8,
    ) -> Result<Reader<'a>, Stop> {
        let names = self.register_names.view();
        let mut open = [(0u8, 0u8); MAX_EXPRESSION_LEVEL];
        let mut opened = 0;
        let mut level = 1;
        loop {
            let at = reader.at;
            let kind = reader.byte()?;
            if usize::from(level) > MAX_EXPRESSION_LEVEL {
                return reader.refuse(refusal::BAD_EXPRESSION, 1);
            }
            match kind {
                EXPRESSION_REGISTER => {
                    let name = reader.register_name()?;
                    if names.kind(name) != register_type && self.fault.is_none() {
                        self.fault = Some(names.fault_of(name, at));
                    }
                }
                EXPRESSION_CONSTANT => {
                    reader.bytes::<8>()?;
                }
                EXPRESSION_AND | EXPRESSION_OR => {
                    let operands = reader.at_least(FEWEST_OPERANDS)?;
                    level += 1;
                    open[opened] = (operands - 1, level);
                    opened += 1;
                    continue;
                }
                EXPRESSION_NOT => {
                    level += 1;
                    continue;
                }
                EXPRESSION_SHIFT_LEFT | EXPRESSION_SHIFT_RIGHT => {
                    reader.at_least(1)?;
                    level += 1;
                    continue;
                }
                _ => return reader.refuse(refusal::UNKNOWN_VALUE, 1),
            }
            // It is done, and the next operand of the innermost open one follows.
            if opened == 0 {
                return Ok(reader);
            }
            let (left, its_level) = &mut open[opened - 1];
            level = *its_level;
            *left -= 1;
            if *left == 0 {
                opened -= 1;
            }
        }
    }

    /// The entries of the roots.
    fn read_roots(&mut self, reader: &mut Reader<'a>) -> Result<&'a [[u8; 4]], Stop> {
        reader.keyword(ROOT_KEYWORD)?;
        let count = usize::from(reader.nonzero_byte()?);
        let at = reader.at;
        let mut seen = 0;
        for _ in 0..count {
            reader.attention_type(&mut seen)?;
            reader.node_id()?;
            reader.byte()?;
        }
        self.roots = count;
        Ok(self.file[at..reader.at].as_chunks().0)
    }

    /// Finds the children's node instances. True if all of them stand behind
    /// their parents in the file, or all before them: then there is no cycle.
    #[inline(never)]
    fn link_children(&mut self) -> Result<bool, Stop> {
        let last = self.node_instances.last();
        let total = last.map_or(0, |last| last.children_end);
        let mut children = Vec::with_capacity(total as usize);
        let names = self.node_names.view();
        let mut is_forward = true;
        let mut is_backward = true;
        for (parent, instance) in self.node_instances.iter().enumerate() {
            let at = instance.children_at as usize;
            if self.fault.is_some_and(|fault| fault.place() < at) {
                break;
            }
            let start = children.len();
            let count = instance.children_end as usize - start;
            if count == 0 {
                continue;
            }
            let (entries, _) = self.file[at..at + 4 * count].as_chunks::<4>();
            for (index, &[_, high, low, number]) in entries.iter().enumerate() {
                let name = u32::from_be_bytes([0, high, low, number]);
                match names.get(name) {
                    Some(named) => children.push(position_of(named) as u16),
                    None => return Err(Stop::new(refusal::ABSENT, at + 4 * index)),
                }
            }
            let parent = parent as u16;
            let of_parent = children[start..].iter().copied();
            is_forward &= of_parent.clone().fold(u16::MAX, u16::min) > parent;
            is_backward &= of_parent.fold(0, u16::max) < parent;
        }
        self.children = children;
        match self.fault {
            Some(fault) => Err(fault),
            None => Ok(is_forward | is_backward),
        }
    }

    /// Finds the wanted root. All roots need their rule.
    fn link_roots(&mut self, roots: &[[u8; 4]]) -> Result<(), Stop> {
        for (index, &[attention_type, high, low, number]) in roots.iter().enumerate() {
            let name = u32::from_be_bytes([0, high, low, number]);
            let position = self.node_names.get(name).map(position_of);
            let with_rule = position.filter(|&position| {
                self.node_instances[position].rule_types >> attention_type & 1 != 0
            });
            let Some(position) = with_rule else {
                let at = self.file.len() - 4 * (roots.len() - index);
                return Err(Stop::new(refusal::ABSENT, at));
            };
            if attention_type == self.wanted {
                self.root = Some(position);
            }
        }
        Ok(())
    }

    /// The part of `children` that is of this instance.
    #[inline]
    fn children_of(&self, position: usize) -> Range<usize> {
        let start = match position {
            0 => 0,
            _ => self.node_instances[position - 1].children_end,
        };
        start as usize..self.node_instances[position].children_end as usize
    }

    fn root(&self) -> Result<usize, Refusal> {
        if !is_attention_type(self.wanted) {
            return Err(Refusal::new(refusal::UNKNOWN_ATTENTION, 0));
        }
        self.root.ok_or(Refusal::new(refusal::NO_ROOT, 0))
    }

    /// The record of an instance's bit 0 in a slot.
    #[inline]
    fn record_of(&self, instance: &NodeInstance, slot: u8) -> Record {
        let [a, b, c, d] = self.model.to_be_bytes();
        let [high, low] = instance.id.to_be_bytes();
        let (kind, number) = (self.wanted, instance.number);
        [
            a, b, c, d, kind, 0, high, low, number, slot, 0, 0, 0, 0, 0, 0,
        ]
    }

    /// Words and read bytes, if the readings file fits.
    fn decode(&self, readings_file: &[u8]) -> Option<(Vec<u64>, Vec<u8>)> {
        let count = self.register_instances;
        let (records, []) = readings_file.as_chunks::<16>() else {
            return None;
        };
        if records.len() != count {
            return None;
        }
        let mut words = Vec::with_capacity(count);
        let mut read = Vec::with_capacity(count);
        for (record, name) in records.iter().zip(self.each_register_name()) {
            let record = u128::from_be_bytes(*record);
            let word = record as u64;
            // The read byte and three zeros.
            let fits = match (record >> 64) as u32 {
                0 => word == 0,
                0x0100_0000 => true,
                _ => false,
            };
            if !fits || (record >> 96) as u32 != name {
                return None;
            }
            words.push(word);
            read.push((record >> 88) as u8);
        }
        Some((words, read))
    }

    /// Puts the bits to list of each reached instance, and returns how many
    /// they are, and the steps. The word of an instance is found when it is
    /// reached, so that the bits above it need only one look at it.
    fn isolate_from(
        &mut self,
        root: usize,
        words: &[u64],
        read: &[u8],
    ) -> Result<(usize, usize), Refusal> {
        // The tables of a small file are small, since clearing them takes longer
        // than all else there.
        if self.node_instances.len() <= FEW_NODE_INSTANCES {
            self.walk_from::<FEW_NODE_INSTANCES>(root, words, read)
        } else {
            self.walk_from::<{ Limits::LIBRARY.node_instances }>(root, words, read)
        }
    }

    /// With tables for N node instances.
    #[inline(never)]
    fn walk_from<const N: usize>(
        &mut self,
        root: usize,
        words: &[u64],
        read: &[u8],
    ) -> Result<(usize, usize), Refusal> {
        let mut walk = Walk {
            seen: [Seen::Not; N],
            waiting: [0; N],
            left: 0,
            first_unread: None,
            records: 0,
            steps: 0,
        };
        let value = self.value_of(root, words, read);
        walk.reach(root, &mut self.node_instances[root], value);
        while walk.left > 0 {
            walk.left -= 1;
            let position = usize::from(walk.waiting[walk.left]);
            let instance = &self.node_instances[position];
            let active = instance.listed;
            let at = instance.children_at as usize;
            let children = &self.children[self.children_of(position)];
            let (entries, _) = self.file[at..].as_chunks::<4>();
            let mut with_showing_child = 0;
            for (&child, &[bit, ..]) in children.iter().zip(entries) {
                let followed = active & mask_of(bit);
                // It is below that; to say so spares the checks of the bounds.
                let child = usize::from(child) % N;
                if walk.seen[child] == Seen::Not && followed != 0 {
                    let value = self.value_of(child, words, read);
                    walk.reach(child, &mut self.node_instances[child], value);
                }
                if walk.seen[child] == Seen::Showing {
                    with_showing_child |= followed;
                }
            }
            let listed = active & !with_showing_child;
            self.node_instances[position].listed = listed;
            walk.records += listed.count_ones() as usize;
        }

        match walk.first_unread {
            Some((_, place)) => Err(Refusal::new(refusal::REGISTER_UNREAD, place)),
            None => Ok((walk.records, walk.steps)),
        }
    }

    /// The active bits of an instance, or the place of the first unread
    /// register of its wanted rule.
    #[inline]
    fn value_of(&self, position: usize, words: &[u64], read: &[u8]) -> Result<u64, usize> {
        match self.node_instances[position].rule_at as usize {
            0 => Ok(0),
            mut at => self.evaluate(&mut at, words, read),
        }
    }

    /// The value of the expression at `at`, which moves behind it, or the
    /// place of its first unread register.
    fn evaluate(&self, at: &mut usize, words: &[u64], read: &[u8]) -> Result<u64, usize> {
        let start = *at;
        let file = self.file;
        match file[start] {
            EXPRESSION_REGISTER => {
                *at = start + 5;
                let name = [
                    file[start + 1],
                    file[start + 2],
                    file[start + 3],
                    file[start + 4],
                ];
                let named = self.register_names.get(u32::from_be_bytes(name));
                match named.map(position_of) {
                    Some(position) if read[position] == READ => Ok(words[position]),
                    _ => Err(start),
                }
            }
            EXPRESSION_CONSTANT => {
                *at = start + 9;
                let bytes = file[start + 1..].first_chunk::<8>();
                Ok(bytes.map_or(0, |bytes| u64::from_be_bytes(*bytes)))
            }
            EXPRESSION_AND => {
                *at = start + 2;
                let mut value = u64::MAX;
                for _ in 0..file[start + 1] {
                    value &= self.evaluate(at, words, read)?;
                }
                Ok(value)
            }
            EXPRESSION_OR => {
                *at = start + 2;
                let mut value = 0;
                for _ in 0..file[start + 1] {
                    value |= self.evaluate(at, words, read)?;
                }
                Ok(value)
            }
            EXPRESSION_NOT => {
                *at = start + 1;
                Ok(!self.evaluate(at, words, read)?)
            }
            kind => {
                *at = start + 2;
                let shift = u32::from(file[start + 1]);
                let value = self.evaluate(at, words, read)?;
                let shifted = if kind == EXPRESSION_SHIFT_LEFT {
                    value.checked_shl(shift)
                } else {
                    value.checked_shr(shift)
                };
                Ok(shifted.unwrap_or(0))
            }
        }
    }
}

/// What isolation has seen of a node instance.
#[derive(Clone, Copy, PartialEq, Eq)]
enum Seen {
    /// It is not reached, or not yet.
    Not,
    Silent,
    /// It has an active bit, or an unread register.
    Showing,
}

/// Files with so many node instances are small.
const FEW_NODE_INSTANCES: usize = 32;

/// How far isolation is in a file of at most N node instances.
struct Walk<const N: usize> {
    /// By the instances' positions.
    seen: [Seen; N],
    /// The first `left` are reached instances with active bits that have a
    /// child, and their children are still to be looked at.
    waiting: [u16; N],
    left: usize,
    /// The position of an instance and the place in its rule.
    first_unread: Option<(usize, usize)>,
    records: usize,
    steps: usize,
}

impl<const N: usize> Walk<N> {
    /// An instance is reached, and this is the value of its rule. All its
    /// active bits are to list, but for those of a waiting instance whose child
    /// turns out to show something.
    #[inline]
    fn reach(&mut self, position: usize, instance: &mut NodeInstance, value: Result<u64, usize>) {
        self.steps += 1;
        self.seen[position] = match value {
            Ok(0) => Seen::Silent,
            Ok(active) => {
                instance.listed = active;
                if active & instance.with_child != 0 {
                    self.waiting[self.left] = position as u16;
                    self.left += 1;
                } else {
                    self.records += active.count_ones() as usize;
                }
                Seen::Showing
            }
            Err(place) => {
                let unread = (position, place);
                let first = self.first_unread.map_or(unread, |first| first.min(unread));
                self.first_unread = Some(first);
                Seen::Showing
            }
        };
    }
}

/// The bits that the child entries have.
#[inline]
fn read_children(reader: &mut Reader<'_>, count: usize) -> Result<u64, Stop> {
    let at = reader.at;
    let whole = reader.records::<4>(count);
    let mut bits = 0;
    let mut together = 0;
    for &[bit, ..] in whole {
        bits |= mask_of(bit & HIGHEST_BIT);
        together |= bit;
    }
    // As many bits as entries: none of them twice.
    let all_fit = together <= HIGHEST_BIT && bits.count_ones() as usize == whole.len();
    if all_fit && whole.len() == count {
        return Ok(bits);
    }
    reader.at = at;
    refuse_children(reader, count)
}

/// One field after the other, to find the first that is wrong.
#[cold]
fn refuse_children(reader: &mut Reader<'_>, count: usize) -> Result<u64, Stop> {
    let mut bits = 0;
    for _ in 0..count {
        let bit = reader.byte()?;
        if bit > HIGHEST_BIT {
            return reader.refuse(refusal::BIT_TOO_HIGH, 1);
        }
        if bits & mask_of(bit) != 0 {
            return reader.refuse(refusal::DUPLICATE, 1);
        }
        bits |= mask_of(bit);
        reader.node_id()?;
        reader.byte()?;
    }
    Ok(bits)
}

/// Tarjan's search: every instance and every child is looked at once, and
/// instances that lead to each other are found together.
struct Cycles<'a> {
    chip: &'a Chip<'a>,
    /// 0 before an instance is entered, then its turn, and [`CLOSED`] when all
    /// that lead to it and are led to by it are found.
    turns: Vec<u16>,
    entered: u16,
    /// The instances that are entered and not closed, by turn.
    open: Vec<u16>,
    first: Option<usize>,
}

const CLOSED: u16 = u16::MAX;

impl<'a> Cycles<'a> {
    /// The first instance in file order that lies on a cycle.
    fn first_on_one(chip: &'a Chip<'a>) -> Option<usize> {
        let count = chip.node_instances.len();
        let mut search = Cycles {
            chip,
            turns: vec![0; count],
            entered: 0,
            open: Vec::with_capacity(count),
            first: None,
        };
        for position in 0..count {
            if search.turns[position] == 0 {
                search.enter(position);
            }
        }
        search.first
    }

    /// Returns the earliest turn of an open instance that this one leads to,
    /// its own included.
    fn enter(&mut self, position: usize) -> u16 {
        self.entered += 1;
        let own = self.entered;
        self.turns[position] = own;
        self.open.push(position as u16);

        let mut earliest = own;
        let mut leads_to_itself = false;
        let chip = self.chip;
        for &child in &chip.children[chip.children_of(position)] {
            let child = usize::from(child);
            leads_to_itself |= child == position;
            let turn = match self.turns[child] {
                0 => self.enter(child),
                turn => turn,
            };
            earliest = earliest.min(turn);
        }

        if earliest == own {
            // The open ones from this one on lead to each other.
            let is_on_one = leads_to_itself || self.open.last() != Some(&(position as u16));
            while let Some(closed) = self.open.pop() {
                let closed = usize::from(closed);
                self.turns[closed] = CLOSED;
                if is_on_one {
                    self.first = Some(self.first.map_or(closed, |first| first.min(closed)));
                }
                if closed == position {
                    break;
                }
            }
        }
        earliest
    }
}
