//! The bench samples.

use reference::{address, check, hex, isolate, Refusal, Summary};

const B1: &str = "43 48 49 50 44 41 54 41 00 00 00 01 01 52 45 47 53 00 00 01 \
                  00 00 01 01 80 01 00 00 00 10 00 4E 4F 44 45 00 01 00 01 01 \
                  01 00 00 01 00 03 01 00 00 01 00 52 4F 4F 54 01 03 00 01 00";

const BIT_0: u64 = 0x8000_0000_0000_0000;

fn b1() -> Vec<u8> {
    hex::decode(B1).unwrap()
}

/// B1 with another byte at an offset.
fn b1_with(at: usize, byte: u8) -> Vec<u8> {
    let mut file = b1();
    file[at] = byte;
    file
}

/// B1 with another expression in its rule.
fn b1_with_expression(expression: &str) -> Vec<u8> {
    let mut file = b1();
    file.splice(46..51, hex::decode(expression).unwrap());
    file
}

/// B1 with its register captured, these flags, and a constant as its rule.
fn b1_captured(flags: u8) -> Vec<u8> {
    let mut file = b1_with_expression("02 80 00 00 00 00 00 00 00");
    file[24] = flags;
    file[42] = 1;
    file.splice(45..45, [0, 0, 1, 0]);
    file
}

fn refused<T>(number: u8, place: usize) -> Result<T, Refusal> {
    Err(Refusal { number, place })
}

/// The answer of isolation with one reading, and the list after it.
fn isolated(
    file: &[u8],
    attention_type: u8,
    word: u64,
    read: u8,
    room: usize,
) -> (Result<(usize, usize), Refusal>, Vec<u8>) {
    let mut list = vec![0xEE; room];
    let answer = isolate(file, attention_type, &[word], &[read], &mut list);
    (answer, list)
}

/// The list with these records, in room for two.
fn list(records: &[[u8; 16]]) -> Vec<u8> {
    let mut list = records.concat();
    list.resize(32, 0xEE);
    list
}

/// The value of an expression of constants, seen by its listed bits.
fn value(expression: &str) -> u64 {
    let mut list = [0; 64 * 16];
    let file = b1_with_expression(expression);
    let (records, _) = isolate(&file, 3, &[0], &[1], &mut list).unwrap();
    let bits = list.chunks(16).take(records).map(|record| record[5]);
    bits.fold(0, |word, bit| word | BIT_0 >> bit)
}

#[test]
fn b1_is_accepted() {
    let summary = Summary {
        model: 1,
        registers: 1,
        register_instances: 1,
        nodes: 1,
        node_instances: 1,
        roots: 1,
    };
    assert_eq!(b1().len(), 60);
    assert_eq!(check(&b1()), Ok(summary));
}

#[test]
fn b1_reading_of_bit_0() {
    let expected = list(&[[0, 0, 0, 1, 3, 0, 0, 1, 0, 0, 0, 0, 0, 0, 0, 0]]);
    assert_eq!(isolated(&b1(), 3, BIT_0, 1, 32), (Ok((1, 1)), expected));
}

#[test]
fn b1_reading_of_1() {
    let expected = list(&[[0, 0, 0, 1, 3, 0x3F, 0, 1, 0, 0, 0, 0, 0, 0, 0, 0]]);
    assert_eq!(isolated(&b1(), 3, 1, 1, 32), (Ok((1, 1)), expected));
}

#[test]
fn b1_reading_of_0() {
    assert_eq!(isolated(&b1(), 3, 0, 1, 32), (Ok((0, 1)), list(&[])));
}

#[test]
fn b1_other_attention_types() {
    assert_eq!(
        isolated(&b1(), 1, BIT_0, 1, 32),
        (refused(16, 0), list(&[]))
    );
    assert_eq!(
        isolated(&b1(), 6, BIT_0, 1, 32),
        (refused(15, 0), list(&[]))
    );
    assert_eq!(
        isolated(&b1(), 0, BIT_0, 1, 32),
        (refused(15, 0), list(&[]))
    );
}

#[test]
fn b1_lengths() {
    assert_eq!(check(&[]), refused(2, 0));
    assert_eq!(check(&b1()[..59]), refused(2, 59));
    let mut longer = b1();
    longer.push(0);
    assert_eq!(check(&longer), refused(11, 60));
}

#[test]
fn b1_changed() {
    let mut chip = b1();
    chip[13..17].copy_from_slice(b"CHIP");
    assert_eq!(check(&chip), refused(3, 13));
    assert_eq!(check(&b1_with(12, 2)), refused(4, 12));
    assert_eq!(check(&b1_with(24, 0x00)), refused(13, 46));
    assert_eq!(check(&b1_with(24, 0x01)), refused(6, 24));
    assert_eq!(check(&b1_with(59, 1)), refused(12, 56));
}

#[test]
fn b1_its_own_child() {
    let mut file = b1_with(44, 1);
    file.splice(51..51, [0, 0, 1, 0]);
    assert_eq!(check(&file), refused(14, 41));
}

#[test]
fn refused_files_are_refused_by_isolation_and_address() {
    for file in [
        Vec::new(),
        b1_with(12, 2),
        b1_with(24, 0),
        b1_with(59, 1),
        b1_captured(0x40),
    ] {
        let refusal = check(&file).unwrap_err();
        assert_eq!(isolated(&file, 9, 0, 9, 32), (Err(refusal), list(&[])));
        assert_eq!(address(&file, 9, 9), Err(refusal));
    }
}

#[test]
fn captured_registers_are_readable() {
    for flags in [0x00, 0x40] {
        let file = b1_captured(flags);
        assert_eq!(check(&file), refused(13, 45));
        assert_eq!(address(&file, 1, 0), refused(13, 45));
        assert_eq!(isolated(&file, 3, 0, 1, 32), (refused(13, 45), list(&[])));
    }
    let expected = list(&[[0, 0, 0, 1, 3, 0, 0, 1, 0, 0, 0, 0, 0, 0, 0, 0]]);
    for flags in [0x80, 0xC0] {
        let file = b1_captured(flags);
        assert_eq!(address(&file, 1, 0), Ok((27, 4)));
        // It may be unread: no rule names it.
        let answer = isolated(&file, 3, 0, 0, 32);
        assert_eq!(answer, (Ok((1, 1)), expected.clone()));
    }
}

#[test]
fn b1_unread() {
    assert_eq!(
        isolated(&b1(), 3, BIT_0, 0, 32),
        (refused(18, 46), list(&[]))
    );
}

#[test]
fn b1_no_room() {
    assert_eq!(isolated(&b1(), 3, BIT_0, 1, 0), (refused(19, 1), vec![]));
    assert_eq!(
        isolated(&b1(), 3, BIT_0, 1, 15),
        (refused(19, 1), vec![0xEE; 15])
    );
    let exact = vec![0, 0, 0, 1, 3, 0, 0, 1, 0, 0, 0, 0, 0, 0, 0, 0];
    assert_eq!(isolated(&b1(), 3, BIT_0, 1, 16), (Ok((1, 1)), exact));
}

#[test]
fn values() {
    assert_eq!(value("14 08 13 08 02 00 00 00 00 00 00 FF FF"), 0xFFFF);
    assert_eq!(
        value("12 02 00 00 00 00 00 00 00 FF"),
        0xFFFF_FFFF_FFFF_FF00
    );
    assert_eq!(value("13 40 02 FF FF FF FF FF FF FF FF"), 0);
    assert_eq!(value("14 FF 02 FF FF FF FF FF FF FF FF"), 0);
    assert_eq!(
        value("14 01 02 80 00 00 00 00 00 00 00"),
        0x4000_0000_0000_0000
    );
    assert_eq!(
        value("10 02 02 00 00 00 00 00 00 00 0F 02 00 00 00 00 00 00 00 3C"),
        0x0C
    );
    assert_eq!(
        value("11 02 02 00 00 00 00 00 00 00 0F 02 00 00 00 00 00 00 00 3C"),
        0x3F
    );
}

#[test]
fn levels() {
    let nots = |count: usize| "12".repeat(count) + "01 00 00 01 00";
    assert!(check(&b1_with_expression(&nots(15))).is_ok());
    assert_eq!(check(&b1_with_expression(&nots(16))), refused(9, 62));
}

#[test]
fn addresses() {
    assert_eq!(address(&b1(), 1, 0), Ok((27, 4)));
    assert_eq!(address(&b1(), 1, 1), refused(12, 0));
    assert_eq!(address(&b1(), 2, 0), refused(12, 0));
    assert_eq!(address(&b1(), 0x0100_0001, 0), refused(12, 0));

    // Type 2 for the register and its node: an address of 8 bytes.
    let mut file = b1_with(39, 2);
    file[23] = 2;
    file.splice(31..31, [0, 0, 0, 0]);
    assert_eq!(address(&file, 1, 0), Ok((27, 8)));
}
