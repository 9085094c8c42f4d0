//! The station's text.

use reference::{hex, large, readings, report};

const BIT_0: &str = "80 00 00 00 00 00 00 00";
const BIT_63: &str = "00 00 00 00 00 00 00 01";
const NO_BIT: &str = "00 00 00 00 00 00 00 00";

/// The readings file of one register, 1 instance 0.
fn reading(read: u8, value: &str) -> Vec<u8> {
    let mut bytes = vec![0, 0, 1, 0, read, 0, 0, 0];
    bytes.extend(hex::decode(value).unwrap());
    bytes
}

/// The text for a file with the reading of bit 0 and type 3.
fn of_file(file: &[u8]) -> String {
    report(file, 3, &reading(1, BIT_0))
}

/// B1 with another byte at an offset.
fn b1_with(at: usize, byte: u8) -> Vec<u8> {
    let mut file = large::B1.to_vec();
    file[at] = byte;
    file
}

/// B1 with another expression in its rule.
fn b1_with_expression(expression: &str) -> Vec<u8> {
    let mut file = large::B1.to_vec();
    file.splice(46..51, hex::decode(expression).unwrap());
    file
}

#[test]
fn b1() {
    let text = |value| report(&large::B1, 3, &reading(1, value));
    assert_eq!(text(BIT_0), "type 3 node 1 inst 0 bit 0\nsteps 1\n");
    assert_eq!(text(BIT_63), "type 3 node 1 inst 0 bit 63\nsteps 1\n");
    assert_eq!(text(NO_BIT), "steps 1\n");
    assert_eq!(
        text("C0 00 00 00 00 00 00 02"),
        "type 3 node 1 inst 0 bit 0\n\
         type 3 node 1 inst 0 bit 1\n\
         type 3 node 1 inst 0 bit 62\n\
         steps 1\n"
    );
}

#[test]
fn other_types() {
    let text = |attention_type| report(&large::B1, attention_type, &reading(1, BIT_0));
    for attention_type in [1, 2, 4, 5] {
        assert_eq!(text(attention_type), "refused 16 place 0\n");
    }
    for attention_type in [0, 6, 255] {
        assert_eq!(text(attention_type), "refused 15 place 0\n");
    }
}

#[test]
fn refused_files() {
    assert_eq!(of_file(&[]), "refused 2 place 0\n");
    assert_eq!(of_file(&large::B1[..59]), "refused 2 place 59\n");
    let longer = [&large::B1[..], &[0]].concat();
    assert_eq!(of_file(&longer), "refused 11 place 60\n");
    let mut chip = large::B1;
    chip[13..17].copy_from_slice(b"CHIP");
    assert_eq!(of_file(&chip), "refused 3 place 13\n");
    assert_eq!(of_file(&b1_with(12, 2)), "refused 4 place 12\n");
    assert_eq!(of_file(&b1_with(24, 0x00)), "refused 13 place 46\n");
    assert_eq!(of_file(&b1_with(24, 0x01)), "refused 6 place 24\n");
    assert_eq!(of_file(&b1_with(59, 1)), "refused 12 place 56\n");
    // Its register is captured and write-only, and no rule names it.
    let mut captured = b1_with_expression("02 80 00 00 00 00 00 00 00");
    captured[24] = 0x40;
    captured[42] = 1;
    captured.splice(45..45, [0, 0, 1, 0]);
    assert_eq!(of_file(&captured), "refused 13 place 45\n");
    captured[24] = 0x80;
    assert_eq!(of_file(&captured), "type 3 node 1 inst 0 bit 0\nsteps 1\n");
    let mut own_child = b1_with(44, 1);
    own_child.splice(51..51, [0, 0, 1, 0]);
    assert_eq!(of_file(&own_child), "refused 14 place 41\n");
    assert_eq!(of_file(&[0; 65_537]), "refused 1 place 0\n");
    assert_eq!(of_file(&[0; 65_536]), "refused 3 place 0\n");
}

#[test]
fn unread() {
    let text = |read, value| report(&large::B1, 3, &reading(read, value));
    assert_eq!(text(0, NO_BIT), "refused 18 place 46\n");
    // An unread value that is not zero.
    assert_eq!(text(0, BIT_0), "refused 17 place 0\n");
    assert_eq!(text(2, NO_BIT), "refused 17 place 0\n");
}

/// 17 comes after 1 to 16 and before 18 and 19.
#[test]
fn readings_that_do_not_fit() {
    let fitting = reading(1, BIT_0);
    let longer = [&fitting[..], &[0]].concat();
    let record_more = [&fitting[..], &fitting[..]].concat();
    let mut other_id = fitting.clone();
    other_id[2] = 2;
    let mut other_instance = fitting.clone();
    other_instance[3] = 1;
    let mut not_zero = fitting.clone();
    not_zero[7] = 1;
    let too_long = vec![0; 16_385];
    for unfit in [
        &[],
        &fitting[..15],
        &longer,
        &record_more,
        &other_id,
        &other_instance,
        &not_zero,
        &too_long,
    ] {
        assert_eq!(report(&large::B1, 3, unfit), "refused 17 place 0\n");
        assert_eq!(report(&large::B1, 1, unfit), "refused 16 place 0\n");
        assert_eq!(report(&large::B1, 6, unfit), "refused 15 place 0\n");
        assert_eq!(report(&b1_with(59, 1), 6, unfit), "refused 12 place 56\n");
        assert_eq!(report(&[], 3, unfit), "refused 2 place 0\n");
    }
}

/// The number of lines, and the last line.
fn lines(text: &str) -> (usize, &str) {
    (text.lines().count(), text.lines().last().unwrap())
}

#[test]
fn expressions() {
    let text = |expression: &str| of_file(&b1_with_expression(expression));
    // (FFFF << 8) >> 8.
    let shifted = text("14 08 13 08 02 00 00 00 00 00 00 FF FF");
    assert!(shifted.starts_with("type 3 node 1 inst 0 bit 48\n"));
    assert_eq!(lines(&shifted), (17, "steps 1"));
    // NOT FF.
    let inverted = text("12 02 00 00 00 00 00 00 00 FF");
    assert!(inverted.starts_with("type 3 node 1 inst 0 bit 0\n"));
    assert!(inverted.ends_with("type 3 node 1 inst 0 bit 55\nsteps 1\n"));
    assert_eq!(lines(&inverted), (57, "steps 1"));
    // Levels 16 and 17.
    let nots = |count: usize| text(&("12".repeat(count) + "01 00 00 01 00"));
    assert_eq!(lines(&nots(15)), (64, "steps 1"));
    assert_eq!(nots(16), "refused 9 place 62\n");
}

/// Nodes 1, 2, 65535 and 4, of instances 0, 200, 255 and 9: 1 has 2 and 65535
/// as children at bits 0 and 1, and each of these has 4 at bit 5.
#[test]
fn diamond() {
    let file = hex::decode(
        "43 48 49 50 44 41 54 41 00 00 00 01 01 \
        52 45 47 53 00 00 01 00 00 01 01 80 01 00 00 00 10 00 \
        4E 4F 44 45 00 04 \
        00 01 01 01 00 00 01 02 03 02 C0 00 00 00 00 00 00 00 00 00 02 C8 01 FF FF FF \
        00 02 01 01 C8 00 01 01 03 02 04 00 00 00 00 00 00 00 05 00 04 09 \
        FF FF 01 01 FF 00 01 01 03 02 04 00 00 00 00 00 00 00 05 00 04 09 \
        00 04 01 01 09 00 01 00 03 01 00 00 01 00 \
        52 4F 4F 54 01 03 00 01 00",
    )
    .unwrap();
    let mut other = file.clone();
    assert_eq!(of_file(&file), "type 3 node 4 inst 9 bit 0\nsteps 4\n");
    // A second active bit of node 65535, without a child.
    let constant = [4, 0, 0, 0, 0, 0, 0, 0, 5];
    let at = file.windows(9).rposition(|part| part == constant).unwrap();
    other[at + 7] = 1;
    assert_eq!(
        of_file(&other),
        "type 3 node 65535 inst 255 bit 63\ntype 3 node 4 inst 9 bit 0\nsteps 4\n"
    );
}

/// Node 1 has node 2, of instance 200, at bits 0 and 9 as its child, and no
/// child at bit 5. It has these three bits active where its register has bit 0.
/// Node 2 has this rule for type 3 and a constant for type 4: 79 its number byte,
/// 83 the type of the rule, 84 its expression.
fn with_a_child(rule: &str) -> Vec<u8> {
    let nodes = "4E 4F 44 45 00 02 00 01 01 01 00 00 01 02 \
        03 11 03 01 00 00 01 00 14 05 01 00 00 01 00 14 09 01 00 00 01 00 \
        00 00 02 C8 09 00 02 C8 \
        00 02 01 01 C8 00 02 00 03";
    let other = "04 02 FF FF FF FF FF FF FF FF 52 4F 4F 54 01 03 00 01 00";
    let mut file = large::B1[..31].to_vec();
    file.extend(hex::decode(&[nodes, rule, other].concat()).unwrap());
    file
}

#[test]
fn a_child_that_shows_nothing() {
    let listed = "type 3 node 1 inst 0 bit 0\n\
        type 3 node 1 inst 0 bit 5\n\
        type 3 node 1 inst 0 bit 9\n\
        steps 2\n";
    // The constant 0, and what is beyond the register.
    for rule in ["02 00 00 00 00 00 00 00 00", "13 40 01 00 00 01 00"] {
        assert_eq!(of_file(&with_a_child(rule)), listed);
    }
    // A rule for type 4 and one for type 2, and none for 3.
    let mut file = with_a_child("02 FF FF FF FF FF FF FF FF");
    assert_eq!(lines(&of_file(&file)), (1 + 64 + 1, "steps 2"));
    file[83] = 2;
    assert_eq!(of_file(&file), listed);
    // The child shows bit 0.
    let file = with_a_child("01 00 00 01 00");
    assert_eq!(
        of_file(&file),
        "type 3 node 1 inst 0 bit 5\n\
         type 3 node 2 inst 200 bit 0\n\
         steps 2\n"
    );
    // The root shows nothing.
    let silent = report(&file, 3, &reading(1, NO_BIT));
    assert_eq!(silent, "steps 1\n");
}

#[test]
fn an_unread_child() {
    // Register 2 is read or not, and is ANDed with 0 in the second rule.
    let mut file = with_a_child("01 00 00 02 00");
    let register = [0, 0, 2, 1, 0x80, 1, 0, 0, 0, 0x20, 0];
    file[19] = 2;
    file.splice(31..31, register);
    let readings_file = |read| {
        let mut bytes = reading(1, BIT_0);
        bytes.extend(readings::record(2, 0, 0, read));
        bytes
    };
    // 11 bytes behind where it is with one register.
    assert_eq!(report(&file, 3, &readings_file(0)), "refused 18 place 95\n");
    let text = report(&file, 3, &readings_file(1));
    assert_eq!(lines(&text), (4, "steps 2"));
    file.splice(95..95, [0x10, 2, 2, 0, 0, 0, 0, 0, 0, 0, 0]);
    assert_eq!(
        report(&file, 3, &readings_file(0)),
        "refused 18 place 106\n"
    );
    let text = report(&file, 3, &readings_file(1));
    assert_eq!(lines(&text), (4, "steps 2"));
}

/// The list holds 4,096 records.
#[test]
fn the_list_is_full() {
    // 64 node instances with 64 active bits each, and a root whose bits all
    // have a child.
    let full = large::full_counts();
    let readings_file: Vec<u8> = (0..255)
        .flat_map(|instance| readings::record(1, instance, u64::MAX, 1))
        .collect();
    let text = report(&full, 3, &readings_file);
    assert_eq!(lines(&text), (4_097, "steps 65"));

    // A row in which the first instances have all bits active, one of them
    // with a child, and the next one has others.
    let row = large::children(256, 1, false);
    let text = |first: usize, others: u64| {
        let word = |position| match position {
            _ if position < first => u64::MAX,
            _ if position == first => others,
            _ => 0,
        };
        let readings_file: Vec<u8> = (0..256)
            .flat_map(|position| readings::record(position as u32 + 1, 0, word(position), 1))
            .collect();
        report(&row, 3, &readings_file)
    };
    // The next one shows nothing, so the bit above it is listed.
    assert_eq!(lines(&text(64, 0)), (64 * 63 + 2, "steps 65"));
    assert_eq!(lines(&text(65, 0)), (4_097, "steps 66"));
    assert!(text(65, 0).ends_with("type 3 node 65 inst 0 bit 63\nsteps 66\n"));
    assert!(text(65, 0).contains("type 3 node 65 inst 0 bit 0\n"));
    assert_eq!(text(66, 0), "refused 19 place 4159\n");
    assert_eq!(lines(&text(65, 1)), (4_097, "steps 66"));
    assert!(!text(65, 1).contains("type 3 node 65 inst 0 bit 0\n"));
    assert_eq!(text(65, 3), "refused 19 place 4097\n");
    assert_eq!(text(256, 0), "refused 19 place 16129\n");
}
