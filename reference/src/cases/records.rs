//! Hand-made calls that write and read records. The answers are written from the
//! papers; offsets in the file that results stand beside the pieces.

use crate::hex;
use crate::large::B1;
use crate::records::RECORD_BYTES;
use crate::refusal::Refusal;

/// A call that writes a file, and the file or its refusal.
pub struct Writing {
    pub name: String,
    pub model: u32,
    pub records: Vec<u8>,
    pub room: usize,
    pub answer: Result<Vec<u8>, Refusal>,
}

/// A call that reads a file, and its records or its refusal.
pub struct Reading {
    pub name: String,
    pub file: Vec<u8>,
    pub room: usize,
    pub answer: Result<Vec<u8>, Refusal>,
}

// The records of B1: a register and its instance, a node and its instance with a
// rule that has one reading, and a root.

/// 20 ID 1, 23 type 1, 24 flags 80, 25 instances.
const REGISTER: &str = "01 01 80 00 00 00 00 01 00 00 00 00 00 00 00 00";
/// 26 number 0, 27 address 1000.
const INSTANCE: &str = "02 00 00 00 00 00 00 00 00 00 00 00 00 00 10 00";
/// 31 keyword, 35 count, 37 ID 1, 39 type 1, 40 instances.
const NODE: &str = "03 01 00 00 00 00 00 01 00 00 00 00 00 00 00 00";
/// 41 number 0, 42 captures, 43 rules, 44 children.
const NODE_INSTANCE: &str = "04 00 00 00 00 00 00 00 00 00 00 00 00 00 00 00";
/// 45 attention type 3.
const RULE: &str = "06 03 00 00 00 00 00 00 00 00 00 00 00 00 00 00";
/// 46 expression type 01, 47 register ID 1, 50 instance 0.
const READING: &str = "07 01 00 00 00 00 00 01 00 00 00 00 00 00 00 00";
/// 51 keyword, 55 count, 56 attention type 3, 57 node ID 1, 59 instance 0.
const ROOT: &str = "09 03 00 00 00 00 00 01 00 00 00 00 00 00 00 00";

const B1_RECORDS: [&str; 7] = [REGISTER, INSTANCE, NODE, NODE_INSTANCE, RULE, READING, ROOT];

// Others.

/// Of register 1, instance 0.
const CAPTURE: &str = "05 00 00 00 00 00 00 01 00 00 00 00 00 00 00 00";
/// Bit 7, node 2, instance 0.
const CHILD: &str = "08 00 07 00 00 00 00 02 00 00 00 00 00 00 00 00";
const CONSTANT: &str = "07 02 00 00 00 00 00 00 01 23 45 67 89 AB CD EF";
const AND_2: &str = "07 10 02 00 00 00 00 00 00 00 00 00 00 00 00 00";
const OR_2: &str = "07 11 02 00 00 00 00 00 00 00 00 00 00 00 00 00";
const NOT: &str = "07 12 00 00 00 00 00 00 00 00 00 00 00 00 00 00";
const LEFT_8: &str = "07 13 08 00 00 00 00 00 00 00 00 00 00 00 00 00";
const RIGHT_8: &str = "07 14 08 00 00 00 00 00 00 00 00 00 00 00 00 00";

/// One of each kind, in the order of the kinds' numbers.
const ONE_OF_EACH: [&str; 9] = [
    REGISTER,
    INSTANCE,
    NODE,
    NODE_INSTANCE,
    CAPTURE,
    RULE,
    READING,
    CHILD,
    ROOT,
];

/// A file with every kind of element. Model/level A1B2C3D4, 172 bytes.
const FULL: &str = "43 48 49 50 44 41 54 41 A1 B2 C3 D4 01 52 45 47 53 00 00 02 \
    12 34 56 02 C0 02 09 01 23 45 67 89 AB CD EF FF FF FF FF FF FF FF FF FE \
    00 00 00 01 40 01 03 80 00 00 01 4E 4F 44 45 00 02 \
    01 02 02 02 \
    04 02 02 01 12 34 56 09 12 34 56 FF \
    01 10 03 01 12 34 56 09 12 02 FF 00 00 00 00 00 00 01 13 3F 01 12 34 56 FF \
    05 11 02 14 FF 02 00 00 00 00 00 00 00 80 12 12 01 12 34 56 09 \
    3F FF FE 00 \
    80 00 01 00 02 02 80 00 00 00 00 00 00 00 \
    FF FE 02 01 00 00 01 00 03 02 00 00 00 00 00 00 00 00 \
    52 4F 4F 54 02 01 01 02 04 05 01 02 04";

const FULL_RECORDS: [&str; 33] = [
    "01 02 C0 00 00 12 34 56 00 00 00 00 00 00 00 00",
    "02 00 00 09 00 00 00 00 01 23 45 67 89 AB CD EF",
    "02 00 00 FF 00 00 00 00 FF FF FF FF FF FF FF FE",
    "01 01 40 00 00 00 00 00 00 00 00 00 00 00 00 00",
    "02 00 00 03 00 00 00 00 00 00 00 00 80 00 00 01",
    "03 02 00 00 00 00 01 02 00 00 00 00 00 00 00 00",
    "04 00 00 04 00 00 00 00 00 00 00 00 00 00 00 00",
    "05 00 00 09 00 12 34 56 00 00 00 00 00 00 00 00",
    "05 00 00 FF 00 12 34 56 00 00 00 00 00 00 00 00",
    "06 01 00 00 00 00 00 00 00 00 00 00 00 00 00 00",
    "07 10 03 00 00 00 00 00 00 00 00 00 00 00 00 00",
    "07 01 00 09 00 12 34 56 00 00 00 00 00 00 00 00",
    "07 12 00 00 00 00 00 00 00 00 00 00 00 00 00 00",
    "07 02 00 00 00 00 00 00 FF 00 00 00 00 00 00 01",
    "07 13 3F 00 00 00 00 00 00 00 00 00 00 00 00 00",
    "07 01 00 FF 00 12 34 56 00 00 00 00 00 00 00 00",
    "06 05 00 00 00 00 00 00 00 00 00 00 00 00 00 00",
    "07 11 02 00 00 00 00 00 00 00 00 00 00 00 00 00",
    "07 14 FF 00 00 00 00 00 00 00 00 00 00 00 00 00",
    "07 02 00 00 00 00 00 00 00 00 00 00 00 00 00 80",
    "07 12 00 00 00 00 00 00 00 00 00 00 00 00 00 00",
    "07 12 00 00 00 00 00 00 00 00 00 00 00 00 00 00",
    "07 01 00 09 00 12 34 56 00 00 00 00 00 00 00 00",
    "08 00 3F 00 00 00 FF FE 00 00 00 00 00 00 00 00",
    "04 00 00 80 00 00 00 00 00 00 00 00 00 00 00 00",
    "06 02 00 00 00 00 00 00 00 00 00 00 00 00 00 00",
    "07 02 00 00 00 00 00 00 80 00 00 00 00 00 00 00",
    "03 02 00 00 00 00 FF FE 00 00 00 00 00 00 00 00",
    "04 00 00 00 00 00 00 00 00 00 00 00 00 00 00 00",
    "06 03 00 00 00 00 00 00 00 00 00 00 00 00 00 00",
    "07 02 00 00 00 00 00 00 00 00 00 00 00 00 00 00",
    "09 01 00 04 00 00 01 02 00 00 00 00 00 00 00 00",
    "09 05 00 04 00 00 01 02 00 00 00 00 00 00 00 00",
];

const PLENTY: usize = 4_096;

fn bytes(text: &str) -> Vec<u8> {
    hex::decode(text).expect("it is hexadecimal")
}

fn joined(records: &[&str]) -> Vec<u8> {
    bytes(&records.concat())
}

/// The records with another byte in one of them.
fn with(records: &[&str], record: usize, byte: usize, value: u8) -> Vec<u8> {
    let mut records = joined(records);
    records[RECORD_BYTES * record + byte] = value;
    records
}

/// The record with another byte.
fn changed(record: &str, byte: usize, value: u8) -> String {
    hex::encode(&with(&[record], 0, byte, value))
}

/// The records of B1 with others at these places instead.
fn b1_with(range: std::ops::Range<usize>, others: &[&str]) -> Vec<u8> {
    let mut records = B1_RECORDS.to_vec();
    records.splice(range, others.iter().copied());
    joined(&records)
}

#[derive(Default)]
pub(super) struct Calls {
    pub writings: Vec<Writing>,
    pub readings: Vec<Reading>,
}

impl Calls {
    fn write(&mut self, name: &str, room: usize, records: Vec<u8>, answer: Answer) {
        self.writings.push(Writing {
            name: name.to_string(),
            model: 1,
            records,
            room,
            answer,
        });
    }

    fn read(&mut self, name: &str, room: usize, file: Vec<u8>, answer: Answer) {
        self.readings.push(Reading {
            name: name.to_string(),
            file,
            room,
            answer,
        });
    }

    /// In plenty of room and in none: every other refusal comes before 41.
    fn refused(&mut self, name: &str, records: Vec<u8>, number: u8, place: usize) {
        self.write(name, PLENTY, records.clone(), refused(number, place));
        let without_room = format!("{name}-no-room");
        self.write(&without_room, 0, records, refused(number, place));
    }

    /// Refused by 40 at the record of this number.
    fn not_allowed(&mut self, name: &str, records: Vec<u8>, record: usize) {
        self.refused(name, records, 40, RECORD_BYTES * record);
    }

    /// The last record is allowed: a record of kind 0 behind it is what is not.
    fn allowed(&mut self, name: &str, mut records: Vec<u8>) {
        let last = records.len() / RECORD_BYTES;
        records.extend([0; RECORD_BYTES]);
        self.not_allowed(name, records, last);
    }

    /// The file of the records, and the records of the file, in rooms from a byte
    /// less to plenty.
    fn both_ways(&mut self, name: &str, model: u32, records: &[u8], file: &[u8]) {
        let rooms = |needed: usize| {
            let fits = move |room| room >= needed;
            [
                0,
                1,
                needed / 2,
                needed - 1,
                needed,
                needed + 1,
                needed + 16,
            ]
            .map(|room| (room, fits(room)))
        };
        for (room, fits) in rooms(file.len()) {
            let answer = match fits {
                true => Ok(file.to_vec()),
                false => refused(41, file.len()),
            };
            self.write(&format!("{name}-in-{room}"), room, records.to_vec(), answer);
            let last = self.writings.last_mut().expect("it was just put there");
            last.model = model;
        }
        for (room, fits) in rooms(records.len()) {
            let answer = match fits {
                true => Ok(records.to_vec()),
                false => refused(41, records.len()),
            };
            self.read(&format!("{name}-in-{room}"), room, file.to_vec(), answer);
        }
    }
}

type Answer = Result<Vec<u8>, Refusal>;

fn refused(number: u8, place: usize) -> Answer {
    Err(Refusal::new(number, place))
}

pub(super) fn all() -> Calls {
    let mut calls = Calls::default();
    round_trips(&mut calls);
    cut_lists(&mut calls);
    order(&mut calls);
    unknown_kinds(&mut calls);
    used_and_unused(&mut calls);
    addresses(&mut calls);
    owed(&mut calls);
    too_many(&mut calls);
    counted_anew(&mut calls);
    checker(&mut calls);
    before_the_checker(&mut calls);
    reading_refused(&mut calls);
    calls
}

fn round_trips(calls: &mut Calls) {
    let b1 = joined(&B1_RECORDS);
    calls.both_ways("b1", 1, &b1, &B1);
    for model in [0, 0xFFFF_FFFF, 0x8000_0001] {
        let mut file = B1.to_vec();
        file[8..12].copy_from_slice(&u32::to_be_bytes(model));
        calls.both_ways(&format!("b1-model-{model}"), model, &b1, &file);
    }
    let full = joined(&FULL_RECORDS);
    calls.both_ways("full", 0xA1B2_C3D4, &full, &bytes(FULL));
    // Every bit of an address of 4 bytes and of a constant; IDs and numbers of FF.
    let records = joined(&[
        "01 01 80 00 00 FF FF FF 00 00 00 00 00 00 00 00",
        "02 00 00 FF 00 00 00 00 00 00 00 00 FF FF FF FF",
        "03 01 00 00 00 00 FF FF 00 00 00 00 00 00 00 00",
        "04 00 00 FF 00 00 00 00 00 00 00 00 00 00 00 00",
        "06 03 00 00 00 00 00 00 00 00 00 00 00 00 00 00",
        "07 02 00 00 00 00 00 00 FF FF FF FF FF FF FF FF",
        "09 03 00 FF 00 00 FF FF 00 00 00 00 00 00 00 00",
    ]);
    let file = "43 48 49 50 44 41 54 41 00 00 00 07 01 52 45 47 53 00 00 01 \
        FF FF FF 01 80 01 FF FF FF FF FF 4E 4F 44 45 00 01 FF FF 01 01 FF 00 01 00 \
        03 02 FF FF FF FF FF FF FF FF 52 4F 4F 54 01 03 FF FF FF";
    calls.both_ways("all-bits", 7, &records, &bytes(file));
}

/// The records of B1 cut to each length. A cut record is 40 at its first byte; the
/// whole ones before it make a file without something, or owe an expression.
fn cut_lists(calls: &mut Calls) {
    let b1 = joined(&B1_RECORDS);
    // No registers, no instance, no nodes, no instance, no rules; owed; no roots.
    let of_whole = [
        (5, 17),
        (5, 25),
        (5, 35),
        (5, 40),
        (5, 43),
        (40, 80),
        (5, 55),
    ];
    for length in 0..b1.len() {
        let whole = length / RECORD_BYTES;
        let (number, place) = match length % RECORD_BYTES {
            0 => of_whole[whole],
            _ => (40, RECORD_BYTES * whole),
        };
        let records = b1[..length].to_vec();
        calls.refused(&format!("b1-cut-{length}"), records, number, place);
    }
    // Bytes behind the last record, whatever they are.
    for more in 1..RECORD_BYTES {
        for byte in [0, 9, 255] {
            let mut records = b1.clone();
            records.resize(b1.len() + more, byte);
            calls.not_allowed(&format!("b1-and-{more}-of-{byte}"), records, 7);
        }
    }
    let mut records = b1.clone();
    records.extend(&b1[..15]);
    calls.not_allowed("b1-and-cut-register", records, 7);
    // While an operand is owed.
    for cut in 1..RECORD_BYTES {
        let mut records = b1_with(5..7, &[AND_2, READING, READING]);
        records.truncate(7 * RECORD_BYTES + cut);
        calls.not_allowed(&format!("operand-cut-to-{cut}"), records, 7);
    }
}

/// "the first record that those before it don't allow": after each kind of record,
/// those that may follow and those that may not.
fn order(calls: &mut Calls) {
    let second_node = [REGISTER, INSTANCE, NODE, NODE_INSTANCE, NODE];
    let register_behind = [REGISTER, INSTANCE, REGISTER];
    let cases: [(&str, &[&str], &[u8]); 24] = [
        ("first", &[], &[1, 3, 9]),
        ("register", &[REGISTER], &[1, 2, 3, 9]),
        ("instance", &B1_RECORDS[..2], &[1, 2, 3, 9]),
        ("second-register", &register_behind, &[1, 2, 3, 9]),
        ("node", &B1_RECORDS[..3], &[3, 4, 9]),
        ("node-first", &[NODE], &[3, 4, 9]),
        ("node-instance", &B1_RECORDS[..4], &[3, 4, 5, 6, 8, 9]),
        ("second-node", &second_node, &[3, 4, 9]),
        (
            "capture",
            &[NODE, NODE_INSTANCE, CAPTURE],
            &[3, 4, 5, 6, 8, 9],
        ),
        (
            "second-capture",
            &[NODE, NODE_INSTANCE, CAPTURE, CAPTURE],
            &[3, 4, 5, 6, 8, 9],
        ),
        ("rule", &[NODE, NODE_INSTANCE, RULE], &[7]),
        ("reading", &B1_RECORDS[..6], &[3, 4, 6, 8, 9]),
        (
            "reading-after-capture",
            &[NODE, NODE_INSTANCE, CAPTURE, RULE, READING],
            &[3, 4, 6, 8, 9],
        ),
        (
            "constant",
            &[NODE, NODE_INSTANCE, RULE, CONSTANT],
            &[3, 4, 6, 8, 9],
        ),
        ("and", &[NODE, NODE_INSTANCE, RULE, AND_2], &[7]),
        (
            "and-of-one",
            &[NODE, NODE_INSTANCE, RULE, AND_2, READING],
            &[7],
        ),
        (
            "and-of-two",
            &[NODE, NODE_INSTANCE, RULE, AND_2, READING, CONSTANT],
            &[3, 4, 6, 8, 9],
        ),
        ("or", &[NODE, NODE_INSTANCE, RULE, OR_2, READING], &[7]),
        ("not", &[NODE, NODE_INSTANCE, RULE, NOT], &[7]),
        ("left", &[NODE, NODE_INSTANCE, RULE, LEFT_8], &[7]),
        ("right", &[NODE, NODE_INSTANCE, RULE, RIGHT_8], &[7]),
        ("child", &[NODE, NODE_INSTANCE, CHILD], &[3, 4, 8, 9]),
        (
            "child-after-rule",
            &[NODE, NODE_INSTANCE, RULE, NOT, READING, CHILD],
            &[3, 4, 8, 9],
        ),
        ("root", &B1_RECORDS, &[9]),
    ];
    for (name, before, may_follow) in cases {
        for (kind, record) in (1..).zip(ONE_OF_EACH) {
            let records = joined(&[before, &[record]].concat());
            let name = format!("kind-{kind}-after-{name}");
            match may_follow.contains(&kind) {
                true => calls.allowed(&name, records),
                false => calls.not_allowed(&name, records, before.len()),
            }
        }
    }
    // A root alone, and what may not follow it.
    for (kind, record) in (1..9).zip(ONE_OF_EACH) {
        calls.not_allowed(
            &format!("kind-{kind}-after-root-alone"),
            joined(&[ROOT, record]),
            1,
        );
    }
    // Two expressions for a rule, also where the second one is not of an AND.
    let records = b1_with(5..6, &[READING, CONSTANT]);
    calls.not_allowed("two-expressions", records, 6);
    // A capture behind a rule of the same instance, and of the next one.
    let records = b1_with(6..6, &[CAPTURE]);
    calls.not_allowed("capture-after-rule", records, 6);
    let records = b1_with(6..6, &[NODE_INSTANCE, CAPTURE]);
    calls.refused("capture-of-the-next", records, 7, 51);
}

fn unknown_kinds(calls: &mut Calls) {
    for kind in [0, 10, 11, 16, 128, 255] {
        for record in 0..B1_RECORDS.len() {
            let records = with(&B1_RECORDS, record, 0, kind);
            calls.not_allowed(&format!("kind-{kind}-at-{record}"), records, record);
        }
    }
    for kind in [0, 3, 9, 15, 21, 0x20, 0x82, 255] {
        let records = with(&B1_RECORDS, 5, 1, kind);
        calls.not_allowed(&format!("expression-type-{kind}"), records, 5);
    }
    // Of an operand, and where none is owed.
    let records = b1_with(5..6, &[NOT, &changed(NOT, 1, 0)]);
    calls.not_allowed("operand-type-0", records, 6);
    let records = b1_with(6..6, &[&changed(NOT, 1, 0)]);
    calls.not_allowed("expression-type-0-not-owed", records, 6);
}

/// Each byte of each kind of record: one that is used may be anything, any other
/// has to be zero.
fn used_and_unused(calls: &mut Calls) {
    let in_node: &[&str] = &[NODE, NODE_INSTANCE];
    let in_rule: &[&str] = &[NODE, NODE_INSTANCE, RULE];
    let type_2 = &changed(REGISTER, 1, 2);
    let cases: [(&str, &[&str], &str, &[usize]); 17] = [
        ("register", &[], REGISTER, &[1, 2, 5, 6, 7]),
        (
            "instance-of-type-1",
            &[REGISTER],
            INSTANCE,
            &[3, 12, 13, 14, 15],
        ),
        (
            "instance-of-type-2",
            &[type_2],
            INSTANCE,
            &[3, 8, 9, 10, 11, 12, 13, 14, 15],
        ),
        ("node", &[], NODE, &[1, 6, 7]),
        ("node-instance", &[NODE], NODE_INSTANCE, &[3]),
        ("capture", in_node, CAPTURE, &[3, 5, 6, 7]),
        ("rule", in_node, RULE, &[1]),
        ("reading", in_rule, READING, &[3, 5, 6, 7]),
        (
            "constant",
            in_rule,
            CONSTANT,
            &[8, 9, 10, 11, 12, 13, 14, 15],
        ),
        ("and", in_rule, AND_2, &[2]),
        ("or", in_rule, OR_2, &[2]),
        ("not", in_rule, NOT, &[]),
        ("left", in_rule, LEFT_8, &[2]),
        ("right", in_rule, RIGHT_8, &[2]),
        ("child", in_node, CHILD, &[2, 3, 6, 7]),
        ("root", &[], ROOT, &[1, 3, 6, 7]),
        ("root-behind-all", &B1_RECORDS, ROOT, &[1, 3, 6, 7]),
    ];
    for (name, before, record, used) in cases {
        // Byte 1 of an expression is its type, which is not free.
        let is_expression = record.starts_with("07");
        for byte in 1..RECORD_BYTES {
            if byte == 1 && is_expression {
                continue;
            }
            for value in [1, 0x80, 0xFF] {
                let name = format!("{name}-byte-{byte}-is-{value}");
                let records = joined(&[before, &[&*changed(record, byte, value)]].concat());
                match used.contains(&byte) {
                    true => calls.allowed(&name, records),
                    false => calls.not_allowed(&name, records, before.len()),
                }
            }
        }
    }
    // In the middle of a list that goes on, and as its last byte.
    for record in 0..B1_RECORDS.len() {
        let records = with(&B1_RECORDS, record, 4, 1);
        calls.not_allowed(&format!("b1-byte-4-of-{record}"), records, record);
    }
    let records = with(&B1_RECORDS, 6, 15, 1);
    calls.not_allowed("b1-last-byte", records, 6);
}

/// Types of registers that are not known have addresses of 8 bytes; the checker
/// refuses them by 6 at 23.
fn addresses(calls: &mut Calls) {
    for kind in [0, 3, 4, 0x10, 255] {
        for byte in 8..12 {
            let register = changed(REGISTER, 1, kind);
            let instance = changed(INSTANCE, byte, 1);
            let records = b1_with(0..2, &[&register, &instance]);
            calls.refused(&format!("type-{kind}-address-{byte}"), records, 6, 23);
        }
    }
    // Each instance goes by its own register.
    let type_2 = changed(REGISTER, 1, 2);
    let long = changed(INSTANCE, 8, 1);
    let records = joined(&[REGISTER, INSTANCE, &type_2, &long, &long]);
    calls.allowed("long-after-short", records);
    let records = joined(&[&type_2, &long, REGISTER, &long]);
    calls.not_allowed("short-after-long", records, 3);
    let records = joined(&[REGISTER, INSTANCE, INSTANCE, &long]);
    calls.not_allowed("third-instance-too-long", records, 3);
    // The type is the last register's, and 8 bytes of it make the file longer: the
    // node's type at 39 is 4 bytes further.
    let node = changed(NODE, 1, 9);
    let records = b1_with(0..3, &[&type_2, INSTANCE, &node]);
    calls.refused("node-type-behind-long-address", records, 6, 43);
    // The second register, at 31, has ID 2 and type 3.
    let type_3 = changed(&changed(REGISTER, 7, 2), 1, 3);
    let records = b1_with(2..2, &[&type_3, &long]);
    calls.refused("second-register-of-type-3", records, 6, 34);
}

/// "where whole records end with an expression still owed", and records where none
/// is owed.
fn owed(calls: &mut Calls) {
    let node: &[&str] = &[REGISTER, INSTANCE, NODE, NODE_INSTANCE, RULE];
    let and = |count| changed(AND_2, 2, count);
    let or = |count| changed(OR_2, 2, count);
    let ends: [(&str, &[&str]); 14] = [
        ("nothing", &[]),
        ("not", &[NOT]),
        ("not-not", &[NOT, NOT]),
        ("left", &[LEFT_8]),
        ("right", &[RIGHT_8]),
        ("and", &[AND_2]),
        ("and-one", &[AND_2, READING]),
        ("or-one", &[OR_2, CONSTANT]),
        ("and-and", &[AND_2, READING, AND_2, READING]),
        ("and-not", &[AND_2, NOT, READING]),
        ("or-not", &[OR_2, READING, NOT]),
        ("and-of-1", &[&and(1)]),
        ("or-of-1", &[&or(1)]),
        ("and-0-in-and", &[AND_2, &and(0)]),
    ];
    for (name, expression) in ends {
        let records = [node, expression].concat();
        calls.not_allowed(&format!("owed-{name}"), joined(&records), records.len());
        // Anything else than an expression there.
        for (kind, record) in (1..).zip(ONE_OF_EACH) {
            if kind != 7 {
                let name = format!("owed-{name}-kind-{kind}");
                let with_other = joined(&[&records[..], &[record]].concat());
                calls.not_allowed(&name, with_other, records.len());
            }
        }
    }
    // 255 operands: the last one is missing, and one is too many.
    for (missing, name) in [(1, "missing"), (0, "there")] {
        let and = and(255);
        let mut records = [node, &[&and]].concat();
        records.resize(records.len() + 255 - missing, READING);
        match missing {
            1 => calls.not_allowed(
                &format!("operand-255-{name}"),
                joined(&records),
                records.len(),
            ),
            _ => {
                records.push(READING);
                let last = records.len() - 1;
                calls.not_allowed("operand-256", joined(&records), last);
            }
        }
    }
    // Counts of 0 and 1 are left to the checker: 9 at 47.
    for (name, with_count) in [("and", and), ("or", or)] as [(&str, fn(u8) -> String); 2] {
        let (zero, one) = (with_count(0), with_count(1));
        calls.refused(&format!("{name}-0"), b1_with(5..6, &[&zero]), 9, 47);
        let records = b1_with(5..6, &[&one, READING]);
        calls.refused(&format!("{name}-1"), records, 9, 47);
        let records = b1_with(5..6, &[&zero, READING]);
        calls.not_allowed(&format!("{name}-0-and-operand"), records, 6);
        let records = b1_with(5..6, &[&one, READING, READING]);
        calls.not_allowed(&format!("{name}-1-and-two"), records, 7);
        // As an operand: 46 AND, 48 the count's own type byte, 49 its count.
        let records = b1_with(5..6, &[AND_2, &zero, READING]);
        calls.refused(&format!("{name}-0-in-and"), records, 9, 49);
    }
    // A shift of 0 is the checker's too.
    for shift in [LEFT_8, RIGHT_8] {
        let zero = changed(shift, 2, 0);
        let records = b1_with(5..6, &[&zero, READING]);
        calls.refused(&format!("{}-by-0", &shift[3..5]), records, 9, 47);
    }
}

/// "past its count field's largest value": 255 are allowed, and the 256th is not.
fn too_many(calls: &mut Calls) {
    let numbered = |record: &str, number: usize| changed(record, 3, number as u8);
    type Each = Box<dyn Fn(usize) -> Vec<String>>;
    let cases: [(&str, &[&str], Each); 6] = [
        (
            "instances",
            &[REGISTER],
            Box::new(move |number| vec![numbered(INSTANCE, number)]),
        ),
        (
            "node-instances",
            &B1_RECORDS[..3],
            Box::new(move |number| vec![numbered(NODE_INSTANCE, number)]),
        ),
        (
            "captures",
            &B1_RECORDS[..4],
            Box::new(|_| vec![CAPTURE.to_string()]),
        ),
        (
            "rules",
            &B1_RECORDS[..4],
            Box::new(|_| vec![RULE.to_string(), READING.to_string()]),
        ),
        (
            "children",
            &B1_RECORDS[..6],
            Box::new(|number| vec![changed(CHILD, 2, number as u8)]),
        ),
        (
            "roots",
            &B1_RECORDS[..6],
            Box::new(|_| vec![ROOT.to_string()]),
        ),
    ];
    for (name, before, each) in cases {
        let mut records = joined(before);
        for number in 0..255 {
            records.extend(bytes(&each(number).concat()));
        }
        calls.allowed(&format!("255-{name}"), records.clone());
        let place = records.len() / RECORD_BYTES;
        records.extend(bytes(&each(255).concat()));
        calls.not_allowed(&format!("256-{name}"), records.clone(), place);
        records.extend(joined(&B1_RECORDS[2..]));
        calls.not_allowed(&format!("256-{name}-and-more"), records, place);
    }
    let mut nodes = joined(&B1_RECORDS[..2]);
    for id in 0..65_535u32 {
        let [_, _, a, b] = id.to_be_bytes();
        nodes.extend([3, 1, 0, 0, 0, 0, a, b, 0, 0, 0, 0, 0, 0, 0, 0]);
    }
    // The first node has no instance, at 40.
    calls.refused("65535-nodes", nodes.clone(), 5, 40);
    nodes.extend(bytes(&changed(NODE, 6, 255)));
    calls.not_allowed("65536-nodes", nodes, 65_537);
}

/// The counters of each parent start anew: 200 of two parents each are allowed.
fn counted_anew(calls: &mut Calls) {
    type Records = &'static [&'static str];
    let cases: [(&str, Records, Records, Records); 7] = [
        ("instances", &[], &[REGISTER], &[INSTANCE]),
        ("node-instances", &[], &[NODE], &[NODE_INSTANCE]),
        ("captures", &[NODE], &[NODE_INSTANCE], &[CAPTURE]),
        ("rules", &[NODE], &[NODE_INSTANCE], &[RULE, READING]),
        ("children", &[NODE], &[NODE_INSTANCE], &[CHILD]),
        ("captures-by-node", &[], &[NODE, NODE_INSTANCE], &[CAPTURE]),
        ("children-by-node", &[], &[NODE, NODE_INSTANCE], &[CHILD]),
    ];
    for (name, before, parent, each) in cases {
        let mut records = joined(before);
        for _ in 0..3 {
            records.extend(joined(parent));
            for _ in 0..200 {
                records.extend(joined(each));
            }
        }
        calls.allowed(&format!("200-{name}-each"), records.clone());
        for _ in 200..255 {
            records.extend(joined(each));
        }
        let place = records.len() / RECORD_BYTES;
        records.extend(joined(each));
        calls.not_allowed(&format!("256-{name}-of-the-third"), records, place);
    }
    // 200 captures, 200 rules and 200 children of one node instance.
    let mut records = joined(&B1_RECORDS[..4]);
    for each in [&[CAPTURE][..], &[RULE, READING], &[CHILD]] {
        for _ in 0..200 {
            records.extend(joined(each));
        }
    }
    calls.allowed("200-of-each", records);
}

/// The checker's refusals of the file that would result, as far as records can
/// make one: no byte is missing or too many there, and all keywords are right.
fn checker(calls: &mut Calls) {
    // Zero counts.
    calls.refused("empty", Vec::new(), 5, 17);
    calls.refused("no-registers", b1_with(0..2, &[]), 5, 17);
    calls.refused("no-instance", b1_with(1..2, &[]), 5, 25);
    calls.refused("no-nodes", b1_with(2..6, &[]), 5, 35);
    calls.refused("no-node-instance", b1_with(3..6, &[]), 5, 40);
    calls.refused("no-rule", b1_with(4..6, &[]), 5, 43);
    calls.refused("no-root", b1_with(6..7, &[]), 5, 55);
    calls.refused("roots-alone", joined(&[ROOT, ROOT]), 5, 17);
    // The second register without an instance: 31 ID, 36 count.
    let second = changed(REGISTER, 7, 2);
    calls.refused("second-no-instance", b1_with(2..2, &[&second]), 5, 36);

    // Unknown values.
    let b1 = |record, byte, value| with(&B1_RECORDS, record, byte, value);
    calls.refused("register-type", b1(0, 1, 3), 6, 23);
    calls.refused("flags", b1(0, 2, 0x81), 6, 24);
    calls.refused("node-type", b1(2, 1, 0), 6, 39);
    calls.refused("rule-type", b1(4, 1, 6), 6, 45);
    calls.refused("root-type", b1(6, 1, 0), 6, 56);

    // Duplicates.
    let again = |at, records: &[&str]| b1_with(at..at, records);
    calls.refused("register-twice", again(2, &[REGISTER, INSTANCE]), 7, 31);
    calls.refused("instance-twice", again(2, &[INSTANCE]), 7, 31);
    let node = &B1_RECORDS[2..6];
    calls.refused("node-twice", again(6, node), 7, 51);
    calls.refused("node-instance-twice", again(6, &node[1..]), 7, 51);
    calls.refused("rule-twice", again(6, &node[2..]), 7, 51);
    calls.refused("root-twice", again(7, &[ROOT]), 7, 60);
    let own_child = changed(CHILD, 7, 1);
    let twice = [&*own_child, &own_child];
    calls.refused("child-twice", again(6, &twice), 7, 55);

    // Counts, shifts and levels of expressions: 46 is level 1, 62 level 17.
    let mut deep = vec![NOT; 16];
    deep.push(READING);
    calls.refused("level-17", b1_with(5..6, &deep), 9, 62);
    calls.refused("bit-64", again(6, &[&changed(CHILD, 2, 64)]), 10, 51);

    // Names.
    calls.refused(
        "capture-absent",
        again(4, &[&changed(CAPTURE, 7, 2)]),
        12,
        45,
    );
    calls.refused("reading-absent", b1(5, 3, 1), 12, 46);
    calls.refused("child-absent", again(6, &[CHILD]), 12, 51);
    calls.refused("root-absent", b1(6, 3, 1), 12, 56);
    calls.refused("root-without-rule", b1(6, 1, 2), 12, 56);
    calls.refused("write-only", b1(0, 2, 0x40), 13, 46);
    calls.refused("another-type", b1(2, 1, 2), 13, 46);
    let mut write_only = b1_with(4..4, &[CAPTURE]);
    write_only[2] = 0x40;
    calls.refused("write-only-captured", write_only, 13, 45);
    calls.refused("cycle", again(6, &[&own_child]), 14, 41);

    // Instances: 8,193 of registers, 255 each, and 1,025 of nodes.
    let (records, place) = instances(8_193);
    calls.refused("register-instance-8193", records, 8, place);
    let (records, place) = node_instances(1_025);
    calls.refused("node-instance-1025", records, 8, place);

    // Level 16 is accepted: 15 NOTs before the reading.
    let mut deep = vec![NOT; 15];
    deep.push(READING);
    let mut file = B1.to_vec();
    file.splice(46..46, [0x12; 15]);
    calls.both_ways("level-16", 1, &b1_with(5..6, &deep), &file);
}

/// So many register instances, 255 of a register, before the node and root of B1;
/// and the place of the last one's number.
fn instances(count: usize) -> (Vec<u8>, usize) {
    let mut records = Vec::new();
    let mut place = 20;
    for index in 0..count {
        if index % 255 == 0 {
            let [a, b] = (index as u16 / 255).to_be_bytes();
            records.extend([1, 1, 0x80, 0, 0, 0, a, b, 0, 0, 0, 0, 0, 0, 0, 0]);
            place += 6;
        }
        let number = (index % 255) as u8;
        records.extend([2, 0, 0, number, 0, 0, 0, 0, 0, 0, 0, 0, 0, 0, 0, 0]);
        place += 5;
    }
    records.extend(joined(&B1_RECORDS[2..]));
    (records, place - 5)
}

/// So many node instances, 255 of a node, behind the register of B1; and the place
/// of the last one's number.
fn node_instances(count: usize) -> (Vec<u8>, usize) {
    let mut records = joined(&B1_RECORDS[..2]);
    let mut place = 37;
    for index in 0..count {
        if index % 255 == 0 {
            let [a, b] = (index as u16 / 255).to_be_bytes();
            records.extend([3, 1, 0, 0, 0, 0, a, b, 0, 0, 0, 0, 0, 0, 0, 0]);
            place += 4;
        }
        let number = (index % 255) as u8;
        records.extend([4, 0, 0, number, 0, 0, 0, 0, 0, 0, 0, 0, 0, 0, 0, 0]);
        records.extend(joined(&[RULE, READING]));
        place += 10;
    }
    records.extend(joined(&[ROOT]));
    (records, place - 10)
}

/// "Refusals, in this order": a 40 behind each of the checker's refusals.
fn before_the_checker(calls: &mut Calls) {
    let faults: Vec<(String, Vec<u8>)> = calls
        .writings
        .iter()
        .filter(|writing| writing.records.len() < 1_024)
        .filter_map(|writing| match &writing.answer {
            Err(refusal) if refusal.number < 40 && writing.room > 0 => {
                Some((writing.name.clone(), writing.records.clone()))
            }
            _ => None,
        })
        .collect();
    for (name, fault) in faults {
        let count = fault.len() / RECORD_BYTES;
        let behind: [(&str, Vec<u8>); 4] = [
            ("a-cut-record", bytes(ROOT)[..1].to_vec()),
            ("an-expression", bytes(READING)),
            ("kind-10", bytes(&changed(ROOT, 0, 10))),
            ("an-unused-byte", bytes(&changed(ROOT, 8, 1))),
        ];
        for (what, record) in behind {
            let records = [&fault[..], &record].concat();
            calls.not_allowed(&format!("{name}-and-{what}"), records, count);
        }
    }
}

/// Reading has the checker's refusals, also those that records cannot make, before
/// 41.
fn reading_refused(calls: &mut Calls) {
    let mut refused_in = |name: &str, file: &[u8], number: u8, place: usize| {
        for (with, room) in [("", PLENTY), ("-no-room", 0)] {
            let name = format!("{name}{with}");
            calls.read(&name, room, file.to_vec(), refused(number, place));
        }
    };
    refused_in("empty", &[], 2, 0);
    refused_in("b1-59", &B1[..59], 2, 59);
    refused_in("b1-61", &[&B1[..], &[0]].concat(), 11, 60);
    let mut with = |name: &str, at: usize, byte: u8, number: u8, place: usize| {
        let mut file = B1.to_vec();
        file[at] = byte;
        refused_in(name, &file, number, place);
    };
    with("keyword", 13, 0x43, 3, 13);
    with("version", 12, 2, 4, 12);
    with("no-root", 55, 0, 5, 55);
    with("register-type", 23, 3, 6, 23);
    with("expression-type", 46, 3, 6, 46);
    with("root-absent", 59, 1, 12, 56);
    with("write-only", 24, 0x40, 13, 46);
    with("count-0", 46, 0x10, 9, 47);
    let mut cycle = B1.to_vec();
    cycle[44] = 1;
    cycle.splice(51..51, [0, 0, 1, 0]);
    refused_in("cycle", &cycle, 14, 41);
    cycle[51] = 64;
    refused_in("bit-64", &cycle, 10, 51);
    let mut twice = B1.to_vec();
    twice[55] = 2;
    twice.extend([3, 0, 1, 0]);
    refused_in("root-twice", &twice, 7, 60);
    refused_in("too-long", &vec![0; 1_048_577], 1, 0);
}
