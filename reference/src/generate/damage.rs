//! Damages valid files. A damaged file may by chance still be valid.

use super::captures::{capture_a_closed, close_a_captured};
use super::draft::{valid_file, Field, FieldKind, FieldMap, Shape};
use super::random::Random;
use crate::layout::{Limits, EXPRESSION_NOT, MAX_EXPRESSION_LEVEL, READABLE, WRITABLE};

const COUNTS: [FieldKind; 10] = [
    FieldKind::RegisterCount,
    FieldKind::RegisterInstanceCount,
    FieldKind::NodeCount,
    FieldKind::NodeInstanceCount,
    FieldKind::CaptureCount,
    FieldKind::RuleCount,
    FieldKind::ChildCount,
    FieldKind::OperandCount,
    FieldKind::Shift,
    FieldKind::RootCount,
];

const UNIQUE: [FieldKind; 7] = [
    FieldKind::RegisterId,
    FieldKind::RegisterInstance,
    FieldKind::NodeId,
    FieldKind::NodeInstance,
    FieldKind::RuleAttention,
    FieldKind::ChildBit,
    FieldKind::RootAttention,
];

const REFERENCES: [FieldKind; 8] = [
    FieldKind::CaptureRegister,
    FieldKind::CaptureInstance,
    FieldKind::ExpressionRegister,
    FieldKind::ExpressionInstance,
    FieldKind::ChildNode,
    FieldKind::ChildInstance,
    FieldKind::RootNode,
    FieldKind::RootInstance,
];

const VALUES: [FieldKind; 10] = [
    FieldKind::Keyword,
    FieldKind::Version,
    FieldKind::RegisterType,
    FieldKind::Flags,
    FieldKind::NodeType,
    FieldKind::RuleAttention,
    FieldKind::ExpressionType,
    FieldKind::ChildBit,
    FieldKind::RootAttention,
    FieldKind::Model,
];

/// The file with one damage, sometimes with two.
pub fn damaged_file(random: &mut Random, map: &FieldMap) -> Vec<u8> {
    if random.one_in(40) {
        return over_a_limit(random);
    }
    let mut bytes = map.bytes.clone();
    damage(random, map, &mut bytes);
    if random.one_in(6) {
        damage(random, map, &mut bytes);
    }
    bytes
}

/// The map is that of the undamaged file, so a second damage may hit what its
/// name does not say.
fn damage(random: &mut Random, map: &FieldMap, bytes: &mut Vec<u8>) {
    match random.below(16) {
        0 => cut(random, bytes),
        1 => flip_bit(random, bytes),
        2 => change_byte(random, bytes),
        3 => insert_byte(random, bytes),
        4 => remove_byte(random, bytes),
        5 => repeat_bytes(random, bytes),
        6 => add_at_end(random, bytes),
        7 | 8 => change_count(random, map, bytes),
        9 => copy_unique(random, map, bytes),
        10 => change_reference(random, map, bytes),
        11 => change_value(random, map, bytes),
        12 => close_register(random, map, bytes),
        13 => redirect_child(random, map, bytes),
        14 => deepen(random, map, bytes),
        _ => change_field(random, map, bytes),
    }
}

fn cut(random: &mut Random, bytes: &mut Vec<u8>) {
    let length = random.below(bytes.len() + 1);
    bytes.truncate(length);
}

fn flip_bit(random: &mut Random, bytes: &mut [u8]) {
    if !bytes.is_empty() {
        let at = random.below(bytes.len());
        bytes[at] ^= 1 << random.below(8);
    }
}

fn change_byte(random: &mut Random, bytes: &mut [u8]) {
    if !bytes.is_empty() {
        let at = random.below(bytes.len());
        bytes[at] = random.byte();
    }
}

fn insert_byte(random: &mut Random, bytes: &mut Vec<u8>) {
    let at = random.below(bytes.len() + 1);
    bytes.insert(at, random.byte());
}

fn remove_byte(random: &mut Random, bytes: &mut Vec<u8>) {
    if !bytes.is_empty() {
        let at = random.below(bytes.len());
        bytes.remove(at);
    }
}

fn repeat_bytes(random: &mut Random, bytes: &mut Vec<u8>) {
    if !bytes.is_empty() {
        let from = random.below(bytes.len());
        let to = (from + random.between(1, 20)).min(bytes.len());
        let repeated = bytes[from..to].to_vec();
        bytes.splice(to..to, repeated);
    }
}

fn add_at_end(random: &mut Random, bytes: &mut Vec<u8>) {
    for _ in 0..random.between(1, 5) {
        bytes.push(random.byte());
    }
}

/// A field of one of the kinds, if the file has any and still holds it.
pub(super) fn any_field(
    random: &mut Random,
    map: &FieldMap,
    bytes: &[u8],
    kinds: &[FieldKind],
) -> Option<Field> {
    for _ in 0..4 {
        let kind = *random.pick(kinds);
        let fields: Vec<Field> = map
            .fields_of(kind)
            .filter(|field| field.at + field.size <= bytes.len())
            .collect();
        if !fields.is_empty() {
            return Some(*random.pick(&fields));
        }
    }
    None
}

fn change_count(random: &mut Random, map: &FieldMap, bytes: &mut [u8]) {
    if let Some(field) = any_field(random, map, bytes, &COUNTS) {
        let last = &mut bytes[field.at + field.size - 1];
        *last = match random.below(5) {
            0 | 1 => 0,
            2 => last.wrapping_sub(1),
            3 => last.wrapping_add(1),
            _ => random.byte(),
        };
    }
}

/// Copies an ID, number, attention type or bit over the next of its kind.
fn copy_unique(random: &mut Random, map: &FieldMap, bytes: &mut [u8]) {
    let kind = *random.pick(&UNIQUE);
    let fields: Vec<Field> = map
        .fields_of(kind)
        .filter(|field| field.at + field.size <= bytes.len())
        .collect();
    if fields.len() > 1 {
        let first = random.below(fields.len() - 1);
        let from = fields[first].at..fields[first].at + fields[first].size;
        bytes.copy_within(from, fields[first + 1].at);
    }
}

fn change_reference(random: &mut Random, map: &FieldMap, bytes: &mut [u8]) {
    if let Some(field) = any_field(random, map, bytes, &REFERENCES) {
        let other = any_field(random, map, bytes, &[field.kind]);
        match other {
            Some(other) if random.one_in(2) => {
                bytes.copy_within(other.at..other.at + other.size, field.at);
            }
            _ => {
                let at = field.at + random.below(field.size);
                bytes[at] = random.byte();
            }
        }
    }
}

fn change_value(random: &mut Random, map: &FieldMap, bytes: &mut [u8]) {
    if let Some(field) = any_field(random, map, bytes, &VALUES) {
        let at = field.at + random.below(field.size);
        bytes[at] = match random.below(3) {
            0 => random.byte(),
            1 => bytes[at].wrapping_add(1),
            _ => *random.pick(&[0, 1, 2, 3, 5, 6, 16, 21, 63, 64, 255]),
        };
    }
}

/// Takes away a register's readability, or captures one without it, or changes
/// a node's type.
fn close_register(random: &mut Random, map: &FieldMap, bytes: &mut [u8]) {
    let is_done = match random.below(4) {
        0 => close_a_captured(random, map, bytes),
        1 => capture_a_closed(random, map, bytes),
        _ => false,
    };
    if is_done {
        return;
    }
    let kinds = [FieldKind::Flags, FieldKind::Flags, FieldKind::NodeType];
    if let Some(field) = any_field(random, map, bytes, &kinds) {
        let byte = &mut bytes[field.at];
        *byte = match field.kind {
            FieldKind::NodeType => 3 - (*byte).min(2),
            _ => *byte & !READABLE & WRITABLE,
        };
    }
}

/// Points a child entry to any node instance of the file.
fn redirect_child(random: &mut Random, map: &FieldMap, bytes: &mut [u8]) {
    let Some(entry) = any_field(random, map, bytes, &[FieldKind::ChildNode]) else {
        return;
    };
    let mut names = Vec::new();
    let mut id = [0, 0];
    for field in &map.fields {
        match field.kind {
            FieldKind::NodeId => id.copy_from_slice(&map.bytes[field.at..field.at + 2]),
            FieldKind::NodeInstance => names.push([id[0], id[1], map.bytes[field.at]]),
            _ => {}
        }
    }
    if entry.at + 3 <= bytes.len() {
        let name: [u8; 3] = *random.pick(&names);
        bytes[entry.at..entry.at + 3].copy_from_slice(&name);
    }
}

/// Puts NOTs before an expression, mostly so many that it is one level too
/// deep or just not.
fn deepen(random: &mut Random, map: &FieldMap, bytes: &mut Vec<u8>) {
    if let Some(field) = any_field(random, map, bytes, &[FieldKind::ExpressionType]) {
        let count = match random.below(4) {
            0 => MAX_EXPRESSION_LEVEL - 1,
            1 | 2 => MAX_EXPRESSION_LEVEL,
            _ => random.between(1, MAX_EXPRESSION_LEVEL),
        };
        bytes.splice(field.at..field.at, vec![EXPRESSION_NOT; count]);
    }
}

fn change_field(random: &mut Random, map: &FieldMap, bytes: &mut [u8]) {
    let field = *random.pick(&map.fields);
    if field.at + field.size <= bytes.len() {
        for byte in &mut bytes[field.at..field.at + field.size] {
            *byte = random.byte();
        }
    }
}

/// A file that is valid but for one register or node instance too many, or a
/// few, mostly for the station alone.
fn over_a_limit(random: &mut Random) -> Vec<u8> {
    let mut shape = Shape::small(random);
    let over = if random.one_in(2) {
        1
    } else {
        random.between(1, 40)
    };
    let limits = match random.one_in(8) {
        true => Limits::LIBRARY,
        false => Limits::PROGRAM,
    };
    if random.one_in(2) {
        shape.register_instances = limits.register_instances + over;
    } else {
        shape.node_instances = limits.node_instances + over;
    }
    let mut bytes = valid_file(random, &shape).bytes;
    if random.one_in(4) {
        flip_bit(random, &mut bytes);
    }
    bytes
}
