//! Isolation calls aimed at single bits: which bits of a word are found, in
//! which order, listed or followed. The answers come from the numbers of the
//! bits, and the words from a row of 64 digits, without a shift or a count.
//!
//! The attention type is 3 in all of them. The root is instance 0 of node 1 and
//! has register 1 as its rule. Its children are instances of node 2, each with
//! the number of its parent's bit; all of them have register 2 as their rule.

use super::isolation::Isolation;
use crate::hex;
use crate::isolation::{Found, Record, RECORD_BYTES};
use crate::large::{ATTENTION_TYPE, B1};
use crate::readings::READ;
use crate::refusal::{self, Refusal};

/// Registers 1 and 2 with instance 0 each, and two nodes.
const START: &str = "43 48 49 50 44 41 54 41 00 00 00 01 01 52 45 47 53 00 00 02 \
    00 00 01 01 80 01 00 00 00 10 00 00 00 02 01 80 01 00 00 00 20 00 4E 4F 44 45 00 02";
const ROOTS: &str = "52 4F 4F 54 01 03 00 01 00";

/// Named sets of bits, each from its lowest bit up.
type Pattern = (String, Vec<u8>);

pub(super) fn all() -> Vec<Isolation> {
    let every: Vec<u8> = (0..64).collect();
    let single: Vec<Pattern> = (0..64).map(|bit| (bit.to_string(), vec![bit])).collect();
    let mut several = vec![
        ("0-63".to_string(), vec![0, 63]),
        ("0-1".to_string(), vec![0, 1]),
        ("62-63".to_string(), vec![62, 63]),
        ("all".to_string(), every.clone()),
        ("all-but-0".to_string(), (1..64).collect()),
        ("all-but-63".to_string(), (0..63).collect()),
        ("even".to_string(), (0..64).step_by(2).collect()),
        ("odd".to_string(), (1..64).step_by(2).collect()),
    ];
    // The last bit of a byte and the first of the next: 7 and 8 to 55 and 56.
    several.extend((8..64).step_by(8).map(|bit| {
        let last = bit - 1;
        (format!("{last}-{bit}"), vec![last, bit])
    }));

    let mut calls = Vec::new();
    // No child: every active bit is listed.
    calls.push(call("none", &[], &[], &[], Room::Exact));
    calls.push(call("none", &[0, 63], &[], &[0, 63], Room::Exact));
    for (name, bits) in single.iter().chain(&several) {
        calls.push(call(name, &[], bits, &[], Room::Exact));
    }
    // A child at each bit, in falling order: every active bit is followed.
    let each: Vec<u8> = (0..64).rev().collect();
    for (name, bits) in single.iter().chain(&several) {
        calls.push(call(name, &each, bits, &[], Room::Exact));
    }
    let ends = [0, 1, 31, 32, 62, 63].map(|bit| &single[bit]);
    for (name, bits) in ends.into_iter().chain(&several) {
        calls.push(call(name, &each, bits, &[63], Room::Exact));
        for (with_child, shown) in [(&[][..], &[][..]), (&each, &[]), (&each, &[63])] {
            calls.push(call(name, with_child, bits, shown, Room::OneByteTooFew));
        }
    }
    // A child at some bits, and bits without one beside them.
    for with_child in [&[0][..], &[63], &[63, 0], &[32, 31]] {
        for bits in [
            &[0][..],
            &[63],
            &[0, 63],
            &[31, 32],
            &[0, 1, 31, 32, 62, 63],
        ] {
            let name = joined(bits);
            for shown in [&[][..], &[0], &[63]] {
                calls.push(call(&name, with_child, bits, shown, Room::Exact));
            }
        }
    }
    for shown in [&[][..], &[0, 63]] {
        for room in [Room::Exact, Room::OneByteTooFew] {
            calls.push(call("all", &[63, 0], &every, shown, room));
        }
    }
    calls
}

/// How long the list is.
#[derive(Clone, Copy, PartialEq, Eq)]
enum Room {
    Exact,
    OneByteTooFew,
}

/// `with_child` are the root's bits with a child, in the order of their entries
/// and instances, `active` its active bits, and `shown` those of each child.
fn call(name: &str, with_child: &[u8], active: &[u8], shown: &[u8], room: Room) -> Isolation {
    let mut listed = Vec::new();
    for &bit in active {
        if !with_child.contains(&bit) || shown.is_empty() {
            listed.push(record(1, 0, bit));
        }
    }
    let mut steps = 1;
    for number in with_child.iter().filter(|bit| active.contains(bit)) {
        steps += 1;
        for &bit in shown {
            listed.push(record(2, *number, bit));
        }
    }

    let name = format!(
        "bits-{name}-children-{}-show-{}",
        joined(with_child),
        joined(shown)
    );
    let needed = listed.len();
    let exact = RECORD_BYTES * needed;
    let (name, room, answer) = match room {
        Room::Exact => {
            let records = listed;
            (name, exact, Ok(Found { records, steps }))
        }
        Room::OneByteTooFew => {
            let refusal = Refusal::new(refusal::NO_ROOM, needed);
            (format!("{name}-one-byte-too-few"), exact - 1, Err(refusal))
        }
    };
    let words = match with_child {
        [] => vec![word(active)],
        _ => vec![word(active), word(shown)],
    };
    Isolation {
        name,
        file: file(with_child),
        read: vec![READ; words.len()],
        words,
        room,
        answer,
    }
}

/// The record of a node's instance and bit: model/level 1 and slot 0.
fn record(node: u8, instance: u8, bit: u8) -> Record {
    [0, 0, 0, 1, 3, bit, 0, node, instance, 0, 0, 0, 0, 0, 0, 0]
}

/// The bits' numbers in one word.
fn joined(bits: &[u8]) -> String {
    match bits.len() {
        0 => "none".to_string(),
        64 => "all".to_string(),
        _ => bits.iter().map(u8::to_string).collect::<Vec<_>>().join("-"),
    }
}

/// Bit 0 is the leftmost digit.
fn word(bits: &[u8]) -> u64 {
    let digit = |bit| if bits.contains(&bit) { '1' } else { '0' };
    let digits: String = (0..64).map(digit).collect();
    u64::from_str_radix(&digits, 2).expect("64 digits of base 2")
}

/// B1 where there are no children.
fn file(with_child: &[u8]) -> Vec<u8> {
    let children = with_child.len() as u8;
    if children == 0 {
        return B1.to_vec();
    }
    let bytes = |text: &str| hex::decode(text).expect("the pieces are hexadecimal");
    let mut file = bytes(START);
    // ID, type, instances; number, captures, rules, children; the rule.
    file.extend([0, 1, 1, 1, 0, 0, 1, children]);
    file.extend([ATTENTION_TYPE, 1, 0, 0, 1, 0]);
    for &bit in with_child {
        file.extend([bit, 0, 2, bit]);
    }
    file.extend([0, 2, 1, children]);
    for &number in with_child {
        file.extend([number, 0, 1, 0, ATTENTION_TYPE, 1, 0, 0, 2, 0]);
    }
    file.extend(bytes(ROOTS));
    file
}
