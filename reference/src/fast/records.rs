//! Files as records, written for speed.
//!
//! Writing goes over the records once, kind by kind in the file's order: each loop
//! takes the records that are allowed where it stands. The first record that none
//! takes is the one that is not allowed. Reading checks the file, counts its
//! records and puts them.

use super::Chip;
use crate::layout::{
    Limits, CHIP_KEYWORD, EXPRESSION_AND, EXPRESSION_CONSTANT, EXPRESSION_NOT, EXPRESSION_OR,
    EXPRESSION_REGISTER, EXPRESSION_SHIFT_LEFT, EXPRESSION_SHIFT_RIGHT, NODE_KEYWORD,
    REGISTER_KEYWORD, ROOT_KEYWORD, VERSION,
};
use crate::records::{
    Record, CAPTURE, CHILD, EXPRESSION, NODE, NODE_INSTANCE, RECORD_BYTES, REGISTER,
    REGISTER_INSTANCE, ROOT, RULE,
};
use crate::refusal::{self, Refusal};

/// As [`crate::write_records`].
pub fn write_records(model: u32, records: &[u8], out: &mut [u8]) -> Result<usize, Refusal> {
    let mut writer = Writer::new(records);
    writer.write(model);
    let taken = RECORD_BYTES * writer.taken;
    if taken < records.len() || writer.is_owed {
        return Err(Refusal::new(refusal::RECORD_NOT_ALLOWED, taken));
    }
    let file = &writer.file[..writer.at];
    Chip::read(file, Limits::LIBRARY, 0)?;
    match out.get_mut(..file.len()) {
        Some(out) => out.copy_from_slice(file),
        None => return Err(Refusal::new(refusal::OUTPUT_TOO_SHORT, file.len())),
    }
    Ok(file.len())
}

/// As [`crate::read_records`].
pub fn read_records(file: &[u8], out: &mut [u8]) -> Result<usize, Refusal> {
    let chip = Chip::read(file, Limits::LIBRARY, 0)?;
    let mut count = Count(0);
    walk(&chip, &mut count);
    let bytes = RECORD_BYTES * count.0;
    if out.len() < bytes {
        return Err(Refusal::new(refusal::OUTPUT_TOO_SHORT, bytes));
    }
    let (places, _) = out.as_chunks_mut();
    walk(&chip, &mut Put { places, at: 0 });
    Ok(bytes)
}

/// All bytes of a file that are there without any record.
const FIXED_BYTES: usize = 31;
/// The most bytes of a file for one record: of a constant, and of a register
/// instance.
const MOST_BYTES: usize = 9;

/// The first half of a record, as kind, type, amount, number and ID, and the
/// value.
#[inline]
fn halves(record: &Record) -> (u64, u64) {
    let both = u128::from_be_bytes(*record);
    ((both >> 64) as u64, both as u64)
}

/// The first half of a record of a kind and type that uses nothing else.
const fn first_half(kind: u8, type_byte: u8) -> u64 {
    (kind as u64) << 56 | (type_byte as u64) << 48
}

// What a record may have in its first half.

const TYPE: u64 = 0x00FF_0000_0000_0000;
const AMOUNT: u64 = 0x0000_FF00_0000_0000;
const NUMBER: u64 = 0x0000_00FF_0000_0000;
const REGISTER_ID: u64 = 0x00FF_FFFF;
const NODE_ID: u64 = 0xFFFF;

#[inline]
fn type_of(high: u64) -> u8 {
    (high >> 48) as u8
}

#[inline]
fn amount_of(high: u64) -> u8 {
    (high >> 40) as u8
}

#[inline]
fn number_of(high: u64) -> u8 {
    (high >> 32) as u8
}

/// A register ID and a number, as they stand in the file.
#[inline]
fn register_name(high: u64) -> [u8; 4] {
    ((high as u32) << 8 | u32::from(number_of(high))).to_be_bytes()
}

/// A byte, a node ID and a number, as they stand in the file.
#[inline]
fn with_node_name(byte: u8, high: u64) -> [u8; 4] {
    let name = (high as u32 & NODE_ID as u32) << 8 | u32::from(number_of(high));
    (u32::from(byte) << 24 | name).to_be_bytes()
}

struct Writer<'a> {
    /// The whole records.
    records: &'a [Record],
    /// So many of them are written.
    taken: usize,
    /// Whether the next one is to be an expression.
    is_owed: bool,
    /// Longer than it can become.
    file: Vec<u8>,
    at: usize,
}

impl<'a> Writer<'a> {
    fn new(records: &'a [u8]) -> Self {
        let (records, _) = records.as_chunks();
        Writer {
            records,
            taken: 0,
            is_owed: false,
            file: vec![0; FIXED_BYTES + MOST_BYTES * records.len()],
            at: 0,
        }
    }

    #[inline]
    fn put<const N: usize>(&mut self, bytes: [u8; N]) {
        self.file[self.at..self.at + N].copy_from_slice(&bytes);
        self.at += N;
    }

    /// Puts the last bytes of a count to a place that was left for it.
    fn put_count<const N: usize>(&mut self, at: usize, count: usize) {
        let bytes = count.to_be_bytes();
        self.file[at..at + N].copy_from_slice(&bytes[bytes.len() - N..]);
    }

    /// The halves of the next record, if its first half is this one but for the
    /// bits of the mask.
    #[inline]
    fn next(&self, first: u64, mask: u64) -> Option<(u64, u64)> {
        let (high, low) = halves(self.records.get(self.taken)?);
        (high & !mask == first).then_some((high, low))
    }

    /// The same for a record that does not use its value.
    #[inline]
    fn next_without_value(&self, first: u64, mask: u64) -> Option<u64> {
        let (high, low) = self.next(first, mask)?;
        (low == 0).then_some(high)
    }

    /// Takes records with N bytes each in the file, as long as there are such, and
    /// at most 255. Returns how many.
    #[inline]
    fn take_run<const N: usize>(&mut self, bytes_of: impl Fn(u64, u64) -> Option<[u8; N]>) -> u8 {
        let (places, _) = self.file[self.at..].as_chunks_mut::<N>();
        let records = &self.records[self.taken..];
        let mut count = 0;
        for (place, record) in places.iter_mut().zip(records).take(255) {
            let (high, low) = halves(record);
            match bytes_of(high, low) {
                Some(bytes) => *place = bytes,
                None => break,
            }
            count += 1;
        }
        self.taken += usize::from(count);
        self.at += N * usize::from(count);
        count
    }

    fn write(&mut self, model: u32) {
        self.put(CHIP_KEYWORD);
        self.put(model.to_be_bytes());
        self.put([VERSION]);
        self.write_registers();
        self.write_nodes();
        if !self.is_owed {
            self.write_roots();
        }
    }

    fn write_registers(&mut self) {
        self.put(REGISTER_KEYWORD);
        let count_at = self.at;
        self.put([0; 3]);
        let mut count = 0;
        let first = first_half(REGISTER, 0);
        while let Some(high) = self.next_without_value(first, TYPE | AMOUNT | REGISTER_ID) {
            if count == 0xFF_FFFF {
                break;
            }
            count += 1;
            self.taken += 1;
            let [_, a, b, c] = (high as u32).to_be_bytes();
            self.put([a, b, c, type_of(high), amount_of(high), 0]);
            let count_at = self.at - 1;
            self.file[count_at] = match type_of(high) {
                1 => self.take_run(short_instance),
                _ => self.take_run(long_instance),
            };
        }
        self.put_count::<3>(count_at, count);
    }

    fn write_nodes(&mut self) {
        self.put(NODE_KEYWORD);
        let count_at = self.at;
        self.put([0; 2]);
        let mut count = 0;
        let first = first_half(NODE, 0);
        while let Some(high) = self.next_without_value(first, TYPE | NODE_ID) {
            if count == 0xFFFF {
                break;
            }
            count += 1;
            self.taken += 1;
            let [_, _, a, b] = (high as u32).to_be_bytes();
            self.put([a, b, type_of(high), 0]);
            let count_at = self.at - 1;
            self.file[count_at] = self.write_node_instances();
            if self.is_owed {
                break;
            }
        }
        self.put_count::<2>(count_at, count);
    }

    fn write_node_instances(&mut self) -> u8 {
        let mut count = 0;
        let first = first_half(NODE_INSTANCE, 0);
        while let Some(high) = self.next_without_value(first, NUMBER) {
            if count == u8::MAX {
                break;
            }
            count += 1;
            self.taken += 1;
            let counts_at = self.at + 1;
            self.put([number_of(high), 0, 0, 0]);
            let captures = self.take_run(capture);
            let rules = self.write_rules();
            let children = match self.is_owed {
                true => 0,
                false => self.take_run(child),
            };
            self.file[counts_at..counts_at + 3].copy_from_slice(&[captures, rules, children]);
            if self.is_owed {
                break;
            }
        }
        count
    }

    fn write_rules(&mut self) -> u8 {
        let mut count = 0;
        while let Some(high) = self.next_without_value(first_half(RULE, 0), TYPE) {
            if count == u8::MAX {
                break;
            }
            count += 1;
            self.taken += 1;
            self.put([type_of(high)]);
            self.write_expression();
            if self.is_owed {
                break;
            }
        }
        count
    }

    /// An expression with all its operands. Where it ends too soon, one is owed.
    fn write_expression(&mut self) {
        let mut owed = 1;
        while owed > 0 {
            let Some(record) = self.records.get(self.taken) else {
                break;
            };
            let (high, low) = halves(record);
            let type_byte = type_of(high);
            let rest = high ^ first_half(EXPRESSION, type_byte);
            match type_byte {
                EXPRESSION_REGISTER if low == 0 && rest & !(NUMBER | REGISTER_ID) == 0 => {
                    let [a, b, c, d] = register_name(high);
                    self.put([type_byte, a, b, c, d]);
                }
                EXPRESSION_CONSTANT if rest == 0 => {
                    self.put([type_byte]);
                    self.put(low.to_be_bytes());
                }
                EXPRESSION_AND | EXPRESSION_OR if low == 0 && rest & !AMOUNT == 0 => {
                    self.put([type_byte, amount_of(high)]);
                    owed += usize::from(amount_of(high));
                }
                EXPRESSION_NOT if low == 0 && rest == 0 => {
                    self.put([type_byte]);
                    owed += 1;
                }
                EXPRESSION_SHIFT_LEFT | EXPRESSION_SHIFT_RIGHT
                    if low == 0 && rest & !AMOUNT == 0 =>
                {
                    self.put([type_byte, amount_of(high)]);
                    owed += 1;
                }
                _ => break,
            }
            owed -= 1;
            self.taken += 1;
        }
        self.is_owed = owed > 0;
    }

    fn write_roots(&mut self) {
        self.put(ROOT_KEYWORD);
        let count_at = self.at;
        self.put([0]);
        self.file[count_at] = self.take_run(root);
    }
}

/// Of a register of type 1.
#[inline]
fn short_instance(high: u64, low: u64) -> Option<[u8; 5]> {
    let is_one = high & !NUMBER == first_half(REGISTER_INSTANCE, 0);
    if !is_one || low > u64::from(u32::MAX) {
        return None;
    }
    let [a, b, c, d] = (low as u32).to_be_bytes();
    Some([number_of(high), a, b, c, d])
}

/// Of a register of any other type.
#[inline]
fn long_instance(high: u64, low: u64) -> Option<[u8; 9]> {
    let is_one = high & !NUMBER == first_half(REGISTER_INSTANCE, 0);
    let [a, b, c, d, e, f, g, h] = low.to_be_bytes();
    is_one.then_some([number_of(high), a, b, c, d, e, f, g, h])
}

#[inline]
fn capture(high: u64, low: u64) -> Option<[u8; 4]> {
    let is_one = low == 0 && high & !(NUMBER | REGISTER_ID) == first_half(CAPTURE, 0);
    is_one.then_some(register_name(high))
}

#[inline]
fn child(high: u64, low: u64) -> Option<[u8; 4]> {
    let is_one = low == 0 && high & !(AMOUNT | NUMBER | NODE_ID) == first_half(CHILD, 0);
    is_one.then_some(with_node_name(amount_of(high), high))
}

#[inline]
fn root(high: u64, low: u64) -> Option<[u8; 4]> {
    let is_one = low == 0 && high & !(TYPE | NUMBER | NODE_ID) == first_half(ROOT, 0);
    is_one.then_some(with_node_name(type_of(high), high))
}

/// What is done with the records of a file.
trait Visit {
    fn one(&mut self, high: u64, low: u64);
    /// A record for each of these entries, by their first halves.
    fn run<const N: usize>(
        &mut self,
        entries: &[[u8; N]],
        halves_of: impl Fn(&[u8; N]) -> (u64, u64),
    );
}

struct Count(usize);

impl Visit for Count {
    #[inline]
    fn one(&mut self, _: u64, _: u64) {
        self.0 += 1;
    }

    #[inline]
    fn run<const N: usize>(&mut self, entries: &[[u8; N]], _: impl Fn(&[u8; N]) -> (u64, u64)) {
        self.0 += entries.len();
    }
}

/// There are as many places as records.
struct Put<'a> {
    places: &'a mut [Record],
    at: usize,
}

#[inline]
fn record(high: u64, low: u64) -> Record {
    (u128::from(high) << 64 | u128::from(low)).to_be_bytes()
}

impl Visit for Put<'_> {
    #[inline]
    fn one(&mut self, high: u64, low: u64) {
        self.places[self.at] = record(high, low);
        self.at += 1;
    }

    #[inline]
    fn run<const N: usize>(
        &mut self,
        entries: &[[u8; N]],
        halves_of: impl Fn(&[u8; N]) -> (u64, u64),
    ) {
        let places = &mut self.places[self.at..self.at + entries.len()];
        for (place, entry) in places.iter_mut().zip(entries) {
            let (high, low) = halves_of(entry);
            *place = record(high, low);
        }
        self.at += entries.len();
    }
}

/// Where an accepted file is read: no field is missing.
struct Bytes<'a> {
    file: &'a [u8],
    at: usize,
}

impl<'a> Bytes<'a> {
    #[inline]
    fn take<const N: usize>(&mut self) -> [u8; N] {
        let bytes = self.file[self.at..].first_chunk::<N>();
        self.at += N;
        *bytes.expect("the file is accepted")
    }

    #[inline]
    fn run<const N: usize>(&mut self, count: u8) -> &'a [[u8; N]] {
        let end = self.at + N * usize::from(count);
        let (entries, _) = self.file[self.at..end].as_chunks();
        self.at = end;
        entries
    }
}

/// A register's ID and number of 4 bytes in the first half of a record.
#[inline]
fn register_named(first: u64, name: &[u8; 4]) -> u64 {
    let name = u32::from_be_bytes(*name);
    first | u64::from(name & 0xFF) << 32 | u64::from(name >> 8)
}

/// A node's ID and number, the last 3 bytes of 4.
#[inline]
fn node_named(first: u64, entry: &[u8; 4]) -> u64 {
    let [_, a, b, number] = *entry;
    first | u64::from(number) << 32 | u64::from(u16::from_be_bytes([a, b]))
}

/// Visits the records of an accepted file.
fn walk(chip: &Chip<'_>, visit: &mut impl Visit) {
    let mut bytes = Bytes {
        file: chip.file,
        at: super::REGISTERS_AT,
    };
    for _ in 0..chip.registers {
        walk_register(&mut bytes, visit);
    }
    bytes.take::<6>();
    for _ in 0..chip.nodes {
        let [a, b, type_byte, instances] = bytes.take();
        let id = u64::from(u16::from_be_bytes([a, b]));
        visit.one(first_half(NODE, type_byte) | id, 0);
        for _ in 0..instances {
            walk_node_instance(&mut bytes, visit);
        }
    }
    bytes.take::<4>();
    let [roots] = bytes.take();
    visit.run(bytes.run(roots), |entry: &[u8; 4]| {
        (node_named(first_half(ROOT, entry[0]), entry), 0)
    });
}

fn walk_register(bytes: &mut Bytes<'_>, visit: &mut impl Visit) {
    let [a, b, c, type_byte, flags, instances] = bytes.take();
    let id = u64::from(u32::from_be_bytes([0, a, b, c]));
    let first = first_half(REGISTER, type_byte);
    visit.one(first | u64::from(flags) << 40 | id, 0);
    let numbered = |number: u8| first_half(REGISTER_INSTANCE, 0) | u64::from(number) << 32;
    if type_byte == 1 {
        visit.run(bytes.run(instances), |&[number, a, b, c, d]| {
            let address = u32::from_be_bytes([a, b, c, d]);
            (numbered(number), u64::from(address))
        });
    } else {
        visit.run(bytes.run(instances), |&[number, a, b, c, d, e, f, g, h]| {
            let address = u64::from_be_bytes([a, b, c, d, e, f, g, h]);
            (numbered(number), address)
        });
    }
}

fn walk_node_instance(bytes: &mut Bytes<'_>, visit: &mut impl Visit) {
    let [number, captures, rules, children] = bytes.take();
    visit.one(first_half(NODE_INSTANCE, 0) | u64::from(number) << 32, 0);
    visit.run(bytes.run(captures), |name: &[u8; 4]| {
        (register_named(first_half(CAPTURE, 0), name), 0)
    });
    for _ in 0..rules {
        let [attention_type] = bytes.take();
        visit.one(first_half(RULE, attention_type), 0);
        walk_expression(bytes, visit);
    }
    visit.run(bytes.run(children), |entry: &[u8; 4]| {
        let bit = u64::from(entry[0]) << 40;
        (node_named(first_half(CHILD, 0) | bit, entry), 0)
    });
}

fn walk_expression(bytes: &mut Bytes<'_>, visit: &mut impl Visit) {
    let mut owed = 1;
    while owed > 0 {
        let [type_byte] = bytes.take();
        let first = first_half(EXPRESSION, type_byte);
        owed -= 1;
        match type_byte {
            EXPRESSION_REGISTER => visit.one(register_named(first, &bytes.take()), 0),
            EXPRESSION_CONSTANT => visit.one(first, u64::from_be_bytes(bytes.take())),
            EXPRESSION_NOT => {
                visit.one(first, 0);
                owed += 1;
            }
            _ => {
                let [amount] = bytes.take();
                visit.one(first | u64::from(amount) << 40, 0);
                let is_shift = type_byte >= EXPRESSION_SHIFT_LEFT;
                owed += if is_shift { 1 } else { usize::from(amount) };
            }
        }
    }
}
