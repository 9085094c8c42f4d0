//! Lists of records: those of accepted files, and damaged ones; and the room that
//! a call has for what it writes.

use super::draft::{valid_file, Shape};
use super::random::Random;
use crate::fast;
use crate::large;
use crate::layout::{
    Limits, EXPRESSION_AND, EXPRESSION_CONSTANT, EXPRESSION_NOT, EXPRESSION_OR,
    EXPRESSION_REGISTER, EXPRESSION_SHIFT_LEFT, EXPRESSION_SHIFT_RIGHT, MAX_EXPRESSION_LEVEL,
};
use crate::records::{
    Record, CAPTURE, CHILD, EXPRESSION, NODE, NODE_INSTANCE, RECORD_BYTES, REGISTER,
    REGISTER_INSTANCE, ROOT, RULE,
};
use crate::refusal;

/// The refusals of writing. A file of records has all its bytes, keywords and its
/// version, so the others do not occur.
pub const WRITING_NUMBERS: [u8; 12] = [1, 5, 6, 7, 8, 9, 10, 12, 13, 14, 40, 41];

/// All that one call of the writer is lent. The output has `room` bytes.
#[derive(Clone, Debug, PartialEq, Eq)]
pub struct Writing {
    pub model: u32,
    pub records: Vec<u8>,
    pub room: usize,
}

/// A call with the records of the file or, where it is refused, of another one;
/// in two of three cases they are damaged.
pub fn writing_around(random: &mut Random, file: &[u8]) -> Writing {
    let mut list = match records_of(file) {
        Some(list) => list,
        None => valid_list(random),
    };
    let mut tail = Vec::new();
    if !random.one_in(3) {
        damage(random, &mut list, &mut tail);
        if random.one_in(5) {
            damage(random, &mut list, &mut tail);
        }
    }
    writing_of(random, list, &tail)
}

/// A call that is mostly refused by the number, or succeeds if it is 0.
pub fn aimed_writing(random: &mut Random, number: u8) -> Writing {
    let mut list = match number {
        refusal::FILE_TOO_LONG => too_long(random),
        refusal::TOO_MANY_INSTANCES => too_many_instances(random),
        _ => valid_list(random),
    };
    let mut tail = Vec::new();
    match number {
        refusal::ZERO_COUNT => lack(random, &mut list),
        refusal::UNKNOWN_VALUE => put_unknown_value(random, &mut list),
        refusal::DUPLICATE => put_twice(random, &mut list),
        refusal::BAD_EXPRESSION => spoil_expression(random, &mut list),
        refusal::BIT_TOO_HIGH => raise_bit(random, &mut list),
        refusal::ABSENT => rename(random, &mut list),
        refusal::UNFIT_REGISTER => close_register(random, &mut list),
        refusal::CYCLE => redirect_child(random, &mut list),
        refusal::RECORD_NOT_ALLOWED => disallow(random, &mut list, &mut tail),
        _ => {}
    }
    let mut writing = writing_of(random, list, &tail);
    match (number, needed(&writing)) {
        (0, Some(needed)) => writing.room = needed + random.below(40),
        (refusal::OUTPUT_TOO_SHORT, Some(needed)) => writing.room = short_room(random, needed),
        _ => {}
    }
    writing
}

fn writing_of(random: &mut Random, list: Vec<Record>, tail: &[u8]) -> Writing {
    let mut writing = Writing {
        model: random.next() as u32 >> random.below(32),
        records: [list.as_flattened(), tail].concat(),
        room: 0,
    };
    writing.room = match needed(&writing) {
        Some(needed) => room(random, needed),
        None => refused_room(random, writing.records.len()),
    };
    writing
}

/// How many bytes the output needs, if nothing else is refused.
fn needed(writing: &Writing) -> Option<usize> {
    let answer = fast::write_records(writing.model, &writing.records, &mut []);
    place_of_41(answer)
}

fn place_of_41(answer: Result<usize, refusal::Refusal>) -> Option<usize> {
    match answer {
        Err(refusal) if refusal.number == refusal::OUTPUT_TOO_SHORT => Some(refusal.place),
        _ => None,
    }
}

/// The room for the records of a file.
pub fn reading_room(random: &mut Random, file: &[u8]) -> usize {
    match place_of_41(fast::read_records(file, &mut [])) {
        Some(needed) => room(random, needed),
        None => refused_room(random, file.len()),
    }
}

/// The room where so many bytes are needed.
fn room(random: &mut Random, needed: usize) -> usize {
    match random.below(8) {
        0 | 1 => short_room(random, needed),
        2 | 3 => needed,
        4 => needed + 1,
        5 => needed + random.below(16),
        _ => needed + random.below(600),
    }
}

/// Too little room for so many bytes, which are not 0.
fn short_room(random: &mut Random, needed: usize) -> usize {
    match random.below(6) {
        0 => 0,
        1 | 2 => needed - 1,
        3 => needed.saturating_sub(random.between(1, 32)),
        _ => random.below(needed),
    }
}

/// The room of a call that is refused before it matters.
fn refused_room(random: &mut Random, lent: usize) -> usize {
    match random.below(4) {
        0 => 0,
        1 => random.below(100),
        _ => random.below(2 * lent + 64).min(1 << 16),
    }
}

/// The records of a file, if it is accepted.
fn records_of(file: &[u8]) -> Option<Vec<Record>> {
    let needed = place_of_41(fast::read_records(file, &mut []))?;
    let mut list = vec![[0; RECORD_BYTES]; needed / RECORD_BYTES];
    fast::read_records(file, list.as_flattened_mut()).ok()?;
    Some(list)
}

/// The records of a valid file, mostly a small one.
fn valid_list(random: &mut Random) -> Vec<Record> {
    let shape = match random.below(12) {
        0 => Shape::middle(random),
        _ => Shape::small(random),
    };
    let file = valid_file(random, &shape).bytes;
    records_of(&file).expect("the file is valid")
}

fn damage(random: &mut Random, list: &mut Vec<Record>, tail: &mut Vec<u8>) {
    match random.below(20) {
        0..=9 => disallow(random, list, tail),
        10 => lack(random, list),
        11 => put_unknown_value(random, list),
        12 => put_twice(random, list),
        13 => spoil_expression(random, list),
        14 => raise_bit(random, list),
        15 => rename(random, list),
        16 => close_register(random, list),
        17 => redirect_child(random, list),
        18 => change_any_byte(random, list),
        _ => {
            // Mostly a list that is like none.
            list.truncate(8);
            for record in list.iter_mut() {
                *record = any_record(random);
            }
        }
    }
}

/// An expression that uses nothing but a count or shift, or not even that.
fn expression(type_byte: u8, amount: u8) -> Record {
    let mut record = [0; RECORD_BYTES];
    record[0] = EXPRESSION;
    record[1] = type_byte;
    record[2] = amount;
    record
}

// Where records of a kind stand.

fn places_of(list: &[Record], is_one: impl Fn(&Record) -> bool) -> Vec<usize> {
    (0..list.len()).filter(|&at| is_one(&list[at])).collect()
}

fn any_of(random: &mut Random, list: &[Record], is_one: impl Fn(&Record) -> bool) -> Option<usize> {
    let places = places_of(list, is_one);
    match places.is_empty() {
        true => None,
        false => Some(*random.pick(&places)),
    }
}

fn any_of_kind(random: &mut Random, list: &[Record], kind: u8) -> Option<usize> {
    any_of(random, list, |record| record[0] == kind)
}

/// The first place from here on with a record that is not of this kind.
fn end_of_run(list: &[Record], from: usize, kind: u8) -> usize {
    let run = list[from..].iter().take_while(|record| record[0] == kind);
    from + run.count()
}

// Records that are not allowed.

/// Mostly makes a record not allowed where it stands.
fn disallow(random: &mut Random, list: &mut Vec<Record>, tail: &mut Vec<u8>) {
    match random.below(17) {
        0 | 1 => set_unused_byte(random, list),
        2 => change_kind(random, list),
        3 => change_expression_type(random, list),
        4 => remove_one(random, list),
        5 => insert_one(random, list),
        6 => swap(random, list),
        7 => move_some(random, list),
        8 => cut(random, list, tail),
        9 => {
            let record = any_record(random);
            tail.extend(&record[..random.between(1, RECORD_BYTES - 1)]);
        }
        10 => end_while_owed(random, list, tail),
        11 => add_expression(random, list),
        12 => change_operands(random, list),
        13 => fill_up(random, list),
        14 => set_upper_address(random, list),
        15 => change_any_byte(random, list),
        _ => double(random, list),
    }
}

/// A well-formed record of any kind, or nearly one.
fn any_record(random: &mut Random) -> Record {
    let mut record = [0; RECORD_BYTES];
    record[0] = match random.one_in(12) {
        true => random.byte(),
        false => random.between(1, 9) as u8,
    };
    let small = |random: &mut Random| random.between(0, 5) as u8;
    match record[0] {
        REGISTER | RULE | ROOT => record[1] = small(random),
        NODE => record[1] = random.between(1, 2) as u8,
        EXPRESSION => {
            record[1] = *random.pick(&[1, 2, 0x10, 0x11, 0x12, 0x13, 0x14]);
            if matches!(record[1], 0x10 | 0x11 | 0x13 | 0x14) {
                record[2] = small(random);
            }
        }
        CHILD => record[2] = random.bit(),
        REGISTER_INSTANCE | NODE_INSTANCE => record[3] = small(random),
        _ => {}
    }
    if random.one_in(8) {
        record[random.below(RECORD_BYTES)] = random.byte();
    }
    record
}

/// The bytes that a record does not use, but for the first four of an address.
fn unused_bytes(record: &Record) -> &'static [usize] {
    match (record[0], record[1]) {
        (REGISTER, _) => &[3, 4, 8, 9, 10, 11, 12, 13, 14, 15],
        (REGISTER_INSTANCE, _) => &[1, 2, 4, 5, 6, 7],
        (NODE, _) => &[2, 3, 4, 5, 8, 9, 10, 11, 12, 13, 14, 15],
        (CAPTURE, _) => &[1, 2, 4, 8, 9, 10, 11, 12, 13, 14, 15],
        (RULE, _) | (EXPRESSION, EXPRESSION_NOT) => {
            &[2, 3, 4, 5, 6, 7, 8, 9, 10, 11, 12, 13, 14, 15]
        }
        (EXPRESSION, EXPRESSION_REGISTER) => &[2, 4, 8, 9, 10, 11, 12, 13, 14, 15],
        (EXPRESSION, 0x10..=0x14) => &[3, 4, 5, 6, 7, 8, 9, 10, 11, 12, 13, 14, 15],
        (EXPRESSION, _) => &[2, 3, 4, 5, 6, 7],
        (CHILD, _) => &[1, 4, 5, 8, 9, 10, 11, 12, 13, 14, 15],
        (ROOT, _) => &[2, 4, 5, 8, 9, 10, 11, 12, 13, 14, 15],
        _ => &[1, 2, 4, 5, 6, 7, 8, 9, 10, 11, 12, 13, 14, 15],
    }
}

/// A byte that is not 0.
fn nonzero(random: &mut Random) -> u8 {
    match random.one_in(2) {
        true => 1 << random.below(8),
        false => random.between(1, 255) as u8,
    }
}

/// Of each kind equally often.
fn set_unused_byte(random: &mut Random, list: &mut [Record]) {
    let kind = random.between(1, 9) as u8;
    if let Some(at) = any_of_kind(random, list, kind) {
        let byte = *random.pick(unused_bytes(&list[at]));
        list[at][byte] = nonzero(random);
    }
}

/// The upper bytes of an address, which are unused where the register has type 1.
fn set_upper_address(random: &mut Random, list: &mut [Record]) {
    if let Some(at) = any_of_kind(random, list, REGISTER_INSTANCE) {
        list[at][random.between(8, 11)] = nonzero(random);
    }
}

fn change_any_byte(random: &mut Random, list: &mut [Record]) {
    if !list.is_empty() {
        let record = random.pick_mut(list);
        record[random.below(RECORD_BYTES)] = random.byte();
    }
}

fn change_kind(random: &mut Random, list: &mut [Record]) {
    if !list.is_empty() {
        let kind = match random.below(4) {
            0 => random.byte(),
            1 => *random.pick(&[0, 10, 255]),
            _ => random.between(1, 9) as u8,
        };
        random.pick_mut(list)[0] = kind;
    }
}

fn change_expression_type(random: &mut Random, list: &mut [Record]) {
    if let Some(at) = any_of_kind(random, list, EXPRESSION) {
        list[at][1] = match random.below(3) {
            0 => random.byte(),
            1 => *random.pick(&[0, 3, 0x0F, 0x15]),
            _ => *random.pick(&[1, 2, 0x10, 0x11, 0x12, 0x13, 0x14]),
        };
    }
}

fn remove_one(random: &mut Random, list: &mut Vec<Record>) {
    if !list.is_empty() {
        let at = random.below(list.len());
        list.remove(at);
    }
}

/// One of the list's own, or any.
fn insert_one(random: &mut Random, list: &mut Vec<Record>) {
    let record = match list.is_empty() || random.one_in(2) {
        true => any_record(random),
        false => *random.pick(list),
    };
    let at = random.below(list.len() + 1);
    list.insert(at, record);
}

/// The same record twice in a row.
fn double(random: &mut Random, list: &mut Vec<Record>) {
    if !list.is_empty() {
        let at = random.below(list.len());
        list.insert(at, list[at]);
    }
}

fn swap(random: &mut Random, list: &mut [Record]) {
    if list.len() > 1 {
        let first = random.below(list.len() - 1);
        let second = match random.one_in(2) {
            true => first + 1,
            false => random.below(list.len()),
        };
        list.swap(first, second);
    }
}

fn move_some(random: &mut Random, list: &mut [Record]) {
    if list.len() > 1 {
        let from = random.below(list.len());
        let to = random.between(from, list.len() - 1) + 1;
        let by = random.below(to - from + 1);
        list[from..to].rotate_left(by);
    }
}

/// Cuts the list, mostly in the middle of a record.
fn cut(random: &mut Random, list: &mut Vec<Record>, tail: &mut Vec<u8>) {
    if !list.is_empty() {
        let at = random.below(list.len());
        let left = random.below(RECORD_BYTES);
        tail.clear();
        tail.extend(&list[at][..left]);
        list.truncate(at);
    }
}

/// Cuts the list behind a rule or an expression that owes one, now and then in the
/// middle of the next record.
fn end_while_owed(random: &mut Random, list: &mut Vec<Record>, tail: &mut Vec<u8>) {
    let owes = |record: &Record| {
        record[0] == RULE || record[0] == EXPRESSION && record[1] >= EXPRESSION_AND
    };
    if let Some(at) = any_of(random, list, owes) {
        tail.clear();
        if random.one_in(3) && at + 1 < list.len() {
            tail.extend(&list[at + 1][..random.between(1, RECORD_BYTES - 1)]);
        }
        list.truncate(at + 1);
    }
}

/// An expression more, mostly beside another one.
fn add_expression(random: &mut Random, list: &mut Vec<Record>) {
    let beside = any_of_kind(random, list, EXPRESSION).map_or(0, |at| at + 1);
    let at = match random.one_in(4) {
        true => random.below(list.len() + 1),
        false => beside,
    };
    let record = *random.pick(&[
        expression(EXPRESSION_CONSTANT, 0),
        expression(EXPRESSION_NOT, 0),
        expression(EXPRESSION_AND, 0),
        expression(EXPRESSION_OR, 2),
        expression(EXPRESSION_SHIFT_LEFT, 3),
    ]);
    list.insert(at, record);
}

fn is_and_or(record: &Record) -> bool {
    record[0] == EXPRESSION && matches!(record[1], EXPRESSION_AND | EXPRESSION_OR)
}

fn is_shift(record: &Record) -> bool {
    record[0] == EXPRESSION && matches!(record[1], EXPRESSION_SHIFT_LEFT | EXPRESSION_SHIFT_RIGHT)
}

/// Another count of an AND or OR.
fn change_operands(random: &mut Random, list: &mut [Record]) {
    if let Some(at) = any_of(random, list, is_and_or) {
        let count = list[at][2];
        list[at][2] = match random.below(5) {
            0 => 0,
            1 => 255,
            2 => count.wrapping_sub(1),
            3 => count.wrapping_add(1),
            _ => random.byte(),
        };
    }
}

/// So many of a kind in a row that its count is full, or one too many.
fn fill_up(random: &mut Random, list: &mut Vec<Record>) {
    let kinds = [REGISTER_INSTANCE, NODE_INSTANCE, CAPTURE, RULE, CHILD, ROOT];
    let kind = *random.pick(&kinds);
    let Some(at) = any_of_kind(random, list, kind) else {
        return;
    };
    let count = random.between(254, 258);
    let constant = expression(EXPRESSION_CONSTANT, 0);
    let mut more = Vec::new();
    for number in 0..count {
        let mut record = list[at];
        match kind {
            REGISTER_INSTANCE | NODE_INSTANCE => record[3] = number as u8,
            CHILD => record[2] = number as u8,
            _ => {}
        }
        more.push(record);
        if kind == RULE {
            more.push(constant);
        }
    }
    let end = match kind {
        // The rule keeps its own expression.
        RULE => at,
        _ => end_of_run(list, at, kind),
    };
    list.splice(at..end, more);
}

// What the checker refuses in the file that results.

/// Takes away all records of a run, or the last ones of the list.
fn lack(random: &mut Random, list: &mut Vec<Record>) {
    let kinds = [REGISTER_INSTANCE, NODE_INSTANCE, RULE, ROOT, REGISTER, NODE];
    match *random.pick(&kinds) {
        REGISTER => list.retain(|record| record[0] > REGISTER_INSTANCE),
        NODE => list.retain(|record| matches!(record[0], REGISTER | REGISTER_INSTANCE | ROOT)),
        ROOT => list.retain(|record| record[0] != ROOT),
        RULE => {
            // The rules of a node instance, with their expressions.
            if let Some(at) = any_of_kind(random, list, RULE) {
                let is_of_rule = |record: &Record| matches!(record[0], RULE | EXPRESSION);
                let before = list[..at].iter().rposition(|record| !is_of_rule(record));
                let from = before.map_or(0, |before| before + 1);
                let rules = list[from..].iter().take_while(|record| is_of_rule(record));
                let end = from + rules.count();
                list.drain(from..end);
            }
        }
        NODE_INSTANCE => {
            // All that stands between a node and the next one.
            if let Some(at) = any_of_kind(random, list, NODE) {
                let behind = &list[at + 1..];
                let own = behind
                    .iter()
                    .take_while(|record| !matches!(record[0], NODE | ROOT));
                let end = at + 1 + own.count();
                list.drain(at + 1..end);
            }
        }
        _ => {
            if let Some(at) = any_of_kind(random, list, REGISTER) {
                let end = end_of_run(list, at + 1, REGISTER_INSTANCE);
                list.drain(at + 1..end);
            }
        }
    }
}

/// A type or flags that are not known.
fn put_unknown_value(random: &mut Random, list: &mut [Record]) {
    let kind = *random.pick(&[REGISTER, NODE, RULE, ROOT]);
    if let Some(at) = any_of_kind(random, list, kind) {
        let record = &mut list[at];
        if kind == REGISTER && random.one_in(2) {
            record[2] |= 1 << random.below(6);
        } else {
            record[1] = *random.pick(&[0, 6, 7, 128, 255]);
        }
    }
}

/// The ID, number, type or bit of a record over that of another one of its kind.
fn put_twice(random: &mut Random, list: &mut Vec<Record>) {
    let kinds = [
        REGISTER,
        REGISTER_INSTANCE,
        NODE,
        NODE_INSTANCE,
        RULE,
        CHILD,
        ROOT,
    ];
    let kind = *random.pick(&kinds);
    let places = places_of(list, |record| record[0] == kind);
    if places.len() > 1 {
        let first = random.below(places.len() - 1);
        let from = list[places[first]];
        let to = &mut list[places[first + 1]];
        match kind {
            REGISTER | NODE => to[4..8].copy_from_slice(&from[4..8]),
            REGISTER_INSTANCE | NODE_INSTANCE => to[3] = from[3],
            RULE | ROOT => to[1] = from[1],
            _ => to[2] = from[2],
        }
    } else {
        double(random, list);
    }
}

/// A count under 2 with as many operands, a shift of 0, or a level too many.
fn spoil_expression(random: &mut Random, list: &mut Vec<Record>) {
    let Some(at) = any_of_kind(random, list, EXPRESSION) else {
        return;
    };
    match random.below(5) {
        // An AND of one, before the expression.
        0 => list.insert(at, expression(EXPRESSION_AND, 1)),
        // An OR of nothing instead of an expression without operands.
        1 if list[at][1] < EXPRESSION_AND => list[at] = expression(EXPRESSION_OR, 0),
        2 => list.insert(at, expression(EXPRESSION_SHIFT_RIGHT, 0)),
        3 => {
            if let Some(at) = any_of(random, list, is_shift) {
                list[at][2] = 0;
            }
        }
        _ => {
            let count = match random.below(8) {
                0 => MAX_EXPRESSION_LEVEL - 1,
                1 => random.between(17, 2_000),
                _ => MAX_EXPRESSION_LEVEL,
            };
            let nots = std::iter::repeat_n(expression(EXPRESSION_NOT, 0), count);
            list.splice(at..at, nots);
        }
    }
}

fn raise_bit(random: &mut Random, list: &mut Vec<Record>) {
    let mut at = any_of_kind(random, list, CHILD);
    if at.is_none() {
        // A child behind the last record of a node instance.
        let is_root = |record: &Record| record[0] == ROOT;
        let first_root = list.iter().position(is_root).unwrap_or(list.len());
        let mut child = [0; RECORD_BYTES];
        child[0] = CHILD;
        list.insert(first_root, child);
        at = Some(first_root);
    }
    if let Some(at) = at {
        list[at][2] = *random.pick(&[64, 65, 127, 128, 255]);
    }
}

/// Another register or node where one is named.
fn rename(random: &mut Random, list: &mut [Record]) {
    let names = |record: &Record| match record[0] {
        CAPTURE | CHILD | ROOT => true,
        EXPRESSION => record[1] == EXPRESSION_REGISTER,
        _ => false,
    };
    if let Some(at) = any_of(random, list, names) {
        let byte = *random.pick(&[3, 6, 7, 7]);
        list[at][byte] = match random.one_in(2) {
            true => list[at][byte].wrapping_add(1),
            false => random.byte(),
        };
    }
}

/// A register that is not readable, or another type of a register or node, with an
/// address that fits both.
fn close_register(random: &mut Random, list: &mut [Record]) {
    if random.one_in(3) {
        if let Some(at) = any_of_kind(random, list, NODE) {
            list[at][1] = 3 - list[at][1].min(2);
        }
    } else if let Some(at) = any_of_kind(random, list, REGISTER) {
        if random.one_in(2) {
            list[at][2] &= 0x40;
        } else {
            list[at][1] = 3 - list[at][1].min(2);
            let end = end_of_run(list, at + 1, REGISTER_INSTANCE);
            for instance in &mut list[at + 1..end] {
                instance[8..12].fill(0);
            }
        }
    }
}

/// A child entry that names another node instance of the file, often its own.
fn redirect_child(random: &mut Random, list: &mut Vec<Record>) {
    let mut names = Vec::new();
    let mut id = [0; 4];
    for (at, record) in list.iter().enumerate() {
        match record[0] {
            NODE => id.copy_from_slice(&record[4..8]),
            NODE_INSTANCE => names.push((at, id, record[3])),
            _ => {}
        }
    }
    if names.is_empty() {
        return;
    }
    let (of, own_id, own_number) = *random.pick(&names);
    let (_, id, number) = match random.one_in(2) {
        true => (of, own_id, own_number),
        false => *random.pick(&names),
    };
    let own = list[of + 1..]
        .iter()
        .take_while(|record| !matches!(record[0], NODE | NODE_INSTANCE | ROOT));
    let end = of + 1 + own.count();
    let bits: Vec<u8> = list[of + 1..end]
        .iter()
        .filter(|record| record[0] == CHILD)
        .map(|record| record[2])
        .collect();
    let free = (0..64).find(|bit| !bits.contains(bit)).unwrap_or(0);
    let mut child = [0; RECORD_BYTES];
    child[0] = CHILD;
    child[2] = free;
    child[3] = number;
    child[4..8].copy_from_slice(&id);
    list.insert(end, child);
}

/// More instances than the library takes: a few, or just as many.
fn too_many_instances(random: &mut Random) -> Vec<Record> {
    let more = match random.below(4) {
        0 => 0,
        1 => random.between(1, 20),
        _ => 1,
    };
    let in_one = *random.pick(&[1, 100, 255]);
    let Limits {
        register_instances,
        node_instances,
        ..
    } = Limits::LIBRARY;
    // The records of a file at the limit, with more instances of its last register
    // or node.
    let (file, kind) = match random.one_in(4) {
        true => (
            large::register_instances(register_instances, in_one),
            REGISTER_INSTANCE,
        ),
        false => (
            large::short_node_instances(node_instances, in_one),
            NODE_INSTANCE,
        ),
    };
    let mut list = records_of(&file).unwrap_or_default();
    let Some(last) = list.iter().rposition(|record| record[0] == kind) else {
        return list;
    };
    let end = match kind {
        NODE_INSTANCE => list.len() - 1,
        _ => last + 1,
    };
    let mut again = list[last..end].to_vec();
    for number in 0..more {
        again[0][3] = 255 - number as u8;
        list.splice(end..end, again.iter().copied());
    }
    list
}

/// A list whose file is too long, or nearly.
fn too_long(random: &mut Random) -> Vec<Record> {
    let file = large::captures(Limits::LIBRARY, 0);
    let mut list = records_of(&file).unwrap_or_default();
    let Some(rule) = any_of_kind(random, &list, RULE) else {
        return list;
    };
    let levels = *random.pick(&[0, 1, 1, 2, 20]);
    let nots = std::iter::repeat_n(expression(EXPRESSION_NOT, 0), levels);
    list.splice(rule + 1..rule + 1, nots);
    list
}

#[cfg(test)]
mod tests {
    use super::*;
    use crate::generate;
    use crate::write_records;

    fn number_of(writing: &Writing) -> u8 {
        let mut out = vec![0; writing.room];
        let answer = write_records(writing.model, &writing.records, &mut out);
        answer.map_or_else(|refusal| refusal.number, |_| 0)
    }

    #[test]
    fn a_seed_decides_the_lists() {
        let mut first = Random::new(90);
        let mut second = Random::new(90);
        for _ in 0..200 {
            let file = generate::case(&mut first).file;
            assert_eq!(generate::case(&mut second).file, file);
            let writing = writing_around(&mut first, &file);
            assert_eq!(writing, writing_around(&mut second, &file));
        }
    }

    /// Every outcome is hit often by the lists that are aimed at it.
    #[test]
    fn aims_are_hit() {
        let mut random = Random::new(91);
        for number in WRITING_NUMBERS.into_iter().chain([0]) {
            let rounds = match number {
                refusal::FILE_TOO_LONG => 4,
                refusal::TOO_MANY_INSTANCES => 20,
                _ => 400,
            };
            let hits = (0..rounds)
                .filter(|_| number_of(&aimed_writing(&mut random, number)) == number)
                .count();
            assert!(hits * 3 > rounds, "{number}: {hits} of {rounds}");
        }
    }

    /// All of them occur around any files too, but for those that need large lists.
    #[test]
    fn lists_of_every_outcome() {
        let mut random = Random::new(92);
        let mut seen = [0; 42];
        let mut reading = [0; 42];
        for _ in 0..8_000 {
            let file = generate::case(&mut random).file;
            let writing = writing_around(&mut random, &file);
            seen[usize::from(number_of(&writing))] += 1;
            let mut out = vec![0; reading_room(&mut random, &file)];
            let answer = fast::read_records(&file, &mut out);
            reading[answer.map_or_else(|refusal| usize::from(refusal.number), |_| 0)] += 1;
        }
        for number in [0, 5, 6, 7, 9, 10, 12, 13, 14, 40, 41] {
            assert!(seen[number] > 40, "{number}: {seen:?}");
        }
        for number in [0, 2, 3, 4, 5, 6, 7, 8, 9, 10, 11, 12, 13, 14, 41] {
            assert!(reading[number] > 5, "{number}: {reading:?}");
        }
    }
}
