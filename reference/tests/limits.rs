//! The largest files, and those one larger.

use reference::checker::check_within;
use reference::large::{self, MOST_CHILDREN};
use reference::{check, fast, isolate, report, Limits, Refusal, Summary};

const START: &[u8] = b"CHIPDATA\x00\x00\x00\x01\x01";
const REGISTERS: &[u8] = b"REGS\x00\x00\x01\x00\x00\x01\x01\x80\x01\x00\x00\x00\x10\x00";
const RULE: &[u8] = &[3, 1, 0, 0, 1, 0];
const ROOTS: &[u8] = b"ROOT\x01\x03\x00\x01\x00";

/// Instance counts of `most`, and a last one of what is left.
fn groups(instances: usize, most: usize) -> Vec<usize> {
    (0..instances)
        .step_by(most)
        .map(|before| most.min(instances - before))
        .collect()
}

fn with_register_instances(instances: usize, most: usize) -> Vec<u8> {
    let groups = groups(instances, most);
    let mut file = START.to_vec();
    file.extend(b"REGS\x00\x00");
    file.push(groups.len() as u8);
    for (group, &count) in groups.iter().enumerate() {
        file.extend([0, 0, group as u8 + 1, 1, 0x80, count as u8]);
        for number in 0..count {
            file.extend([number as u8, 0, 0, 0, 0]);
        }
    }
    file.extend(b"NODE\x00\x01\x00\x01\x01\x01\x00\x00\x01\x00");
    file.extend(RULE);
    file.extend(ROOTS);
    file
}

fn with_node_instances(instances: usize, most: usize) -> Vec<u8> {
    let groups = groups(instances, most);
    let mut file = [START, REGISTERS, b"NODE\x00"].concat();
    file.push(groups.len() as u8);
    for (group, &count) in groups.iter().enumerate() {
        file.extend([0, group as u8 + 1, 1, count as u8]);
        for number in 0..count {
            file.extend([number as u8, 0, 1, 0]);
            file.extend(RULE);
        }
    }
    file.extend(ROOTS);
    file
}

/// `instances` of one node or more, of at most 255 each: 46 bytes, 4 for each
/// node, 10 for each instance, 4 for each capture, and one for each NOT in the
/// first rule. All captures that fit are in the first instances.
fn with_captures(instances: usize, captures: usize, nots: usize) -> Vec<u8> {
    let groups = groups(instances, 255);
    let mut file = [START, REGISTERS, b"NODE\x00"].concat();
    file.push(groups.len() as u8);
    let mut left = captures;
    for (group, &count) in groups.iter().enumerate() {
        file.extend([0, group as u8 + 1, 1, count as u8]);
        for number in 0..count {
            let here = left.min(255);
            left -= here;
            file.extend([number as u8, here as u8, 1, 0]);
            for _ in 0..here {
                file.extend([0, 0, 1, 0]);
            }
            file.push(3);
            if group == 0 && number == 0 {
                file.extend(vec![0x12; nots]);
            }
            file.extend([1, 0, 0, 1, 0]);
        }
    }
    assert_eq!(left, 0);
    file.extend(ROOTS);
    file
}

fn refused<T>(number: u8, place: usize) -> Result<T, Refusal> {
    Err(Refusal { number, place })
}

/// The check by the station's limits.
fn station_check(file: &[u8]) -> Result<Summary, Refusal> {
    check_within(file, Limits::PROGRAM)
}

#[test]
fn the_limits() {
    let [library, program] = [Limits::LIBRARY, Limits::PROGRAM];
    assert_eq!([library.bytes, program.bytes], [1_048_576, 65_536]);
    let registers = [library.register_instances, program.register_instances];
    assert_eq!(registers, [8_192, 1_024]);
    let nodes = [library.node_instances, program.node_instances];
    assert_eq!(nodes, [1_024, 256]);
}

#[test]
fn register_instances() {
    let summary = station_check(&with_register_instances(1_024, 200)).unwrap();
    assert_eq!((summary.registers, summary.register_instances), (6, 1_024));
    // 20 bytes, six heads of 6 bytes, 1,024 instances of 5.
    for instances in [1_025, 1_250] {
        let file = with_register_instances(instances, 200);
        assert_eq!(station_check(&file), refused(8, 5_176));
        assert_eq!(check(&file).unwrap().register_instances, instances);
    }
    // Instance 1,025 is the first of a ninth register: nine heads.
    assert!(station_check(&with_register_instances(1_024, 128)).is_ok());
    let file = with_register_instances(1_025, 128);
    assert_eq!(station_check(&file), refused(8, 5_194));
    assert!(check(&file).is_ok());

    let summary = check(&with_register_instances(8_192, 200)).unwrap();
    assert_eq!((summary.registers, summary.register_instances), (41, 8_192));
    // 20 bytes, 41 heads of 6 bytes, 8,192 instances of 5.
    for instances in [8_193, 8_400] {
        let file = with_register_instances(instances, 200);
        assert_eq!(check(&file), refused(8, 41_226));
        assert_eq!(fast::check(&file), refused(8, 41_226));
        assert_eq!(station_check(&file), refused(8, 5_176));
    }
    // Instance 8,193 is the first of a 65th register: 65 heads.
    assert!(check(&with_register_instances(8_192, 128)).is_ok());
    let file = with_register_instances(8_193, 128);
    assert_eq!(check(&file), refused(8, 41_370));
}

#[test]
fn node_instances() {
    let summary = station_check(&with_node_instances(256, 200)).unwrap();
    assert_eq!((summary.nodes, summary.node_instances), (2, 256));
    // 37 bytes, two heads of 4 bytes, 256 instances of 10.
    let file = with_node_instances(257, 200);
    assert_eq!(station_check(&file), refused(8, 2_605));
    assert_eq!(check(&file).unwrap().node_instances, 257);
    // Instance 257 is the first of a third node: three heads.
    assert!(station_check(&with_node_instances(256, 128)).is_ok());
    let file = with_node_instances(257, 128);
    assert_eq!(station_check(&file), refused(8, 2_609));

    let summary = check(&with_node_instances(1_024, 200)).unwrap();
    assert_eq!((summary.nodes, summary.node_instances), (6, 1_024));
    // 37 bytes, six heads of 4 bytes, 1,024 instances of 10.
    let file = with_node_instances(1_025, 200);
    assert_eq!(check(&file), refused(8, 10_301));
    assert_eq!(fast::check(&file), refused(8, 10_301));
    assert_eq!(station_check(&file), refused(8, 2_605));
    // Instance 1,025 is the first of a ninth node: nine heads.
    assert!(check(&with_node_instances(1_024, 128)).is_ok());
    assert_eq!(check(&with_node_instances(1_025, 128)), refused(8, 10_313));
}

#[test]
fn file_bytes() {
    // 46 + 4 + 67 * 10 + 16,204 * 4.
    let largest = with_captures(67, 16_204, 0);
    assert_eq!(largest.len(), 65_536);
    assert_eq!(station_check(&largest).unwrap().node_instances, 67);
    let longer = with_captures(67, 16_204, 1);
    assert_eq!(longer.len(), 65_537);
    assert_eq!(station_check(&longer), refused(1, 0));
    assert_eq!(check(&longer).unwrap().node_instances, 67);

    let mut with_end = largest;
    with_end.push(0);
    assert_eq!(station_check(&with_end), refused(1, 0));
    assert_eq!(check(&with_end), refused(11, 65_536));
    assert_eq!(station_check(&vec![0; 65_537]), refused(1, 0));
    assert_eq!(station_check(&vec![0; 65_536]), refused(3, 0));

    // 46 + 5 * 4 + 1,023 * 10 + 259,570 * 4.
    let largest = with_captures(1_023, 259_570, 0);
    assert_eq!(largest.len(), 1_048_576);
    for check in [check, fast::check] {
        assert_eq!(check(&largest).unwrap().node_instances, 1_023);
    }
    let longer = with_captures(1_023, 259_570, 1);
    assert_eq!(longer.len(), 1_048_577);
    for check in [check, fast::check, station_check] {
        assert_eq!(check(&longer), refused(1, 0));
    }
    assert_eq!(station_check(&largest), refused(1, 0));
    assert_eq!(check(&vec![0; 1_048_577]), refused(1, 0));
    assert_eq!(check(&vec![0; 1_048_576]), refused(3, 0));
}

/// The station's text for files that are too large for it: the library's answer
/// does not matter, and neither does what follows.
#[test]
fn the_text() {
    let text = |file: &[u8]| report(file, 3, &[]);
    let registers = with_register_instances(1_025, 200);
    assert_eq!(text(&registers), "refused 8 place 5176\n");
    assert_eq!(text(&registers[..5_177]), "refused 8 place 5176\n");
    assert_eq!(text(&registers[..5_176]), "refused 2 place 5176\n");
    assert_eq!(check(&registers[..5_177]), refused(2, 5_177));
    let nodes = with_node_instances(257, 200);
    assert_eq!(text(&nodes), "refused 8 place 2605\n");
    assert_eq!(text(&with_captures(67, 16_204, 1)), "refused 1 place 0\n");
    assert_eq!(text(&with_captures(67, 16_204, 0)), "refused 17 place 0\n");
    // Both too many: the first in byte order.
    let both = large::node_instances(1_025);
    assert_eq!(
        text(&both),
        format!("refused 8 place {}\n", 20 + 1_024 * 11 + 6)
    );
    assert_eq!(check(&both).unwrap_err().number, 8);
}

#[test]
fn a_refusal_1_precedes_those_of_isolation() {
    let mut list = [7; 8];
    let answer = isolate(&vec![0; 1_100_000], 0, &[], &[9], &mut list);
    assert_eq!(answer, refused(1, 0));
    assert_eq!(list, [7; 8]);
}

/// A row of as many instances, each the child of the one before it, as there may
/// be.
#[test]
fn the_longest_chain() {
    for count in [256u16, 1_024] {
        let mut file = [START, REGISTERS, b"NODE", &count.to_be_bytes()].concat();
        for id in 1..=count {
            file.extend(id.to_be_bytes());
            file.extend([1, 1, 0, 0, 1, u8::from(id < count)]);
            file.extend(RULE);
            if id < count {
                file.push(0);
                file.extend((id + 1).to_be_bytes());
                file.push(0);
            }
        }
        file.extend(ROOTS);
        let [high, low] = count.to_be_bytes();
        for isolate in [isolate, fast::isolate] {
            let mut list = [7; 24];
            let answer = isolate(&file, 3, &[1 << 63], &[1], &mut list);
            assert_eq!(answer, Ok((1, usize::from(count))));
            assert_eq!(list[..8], [0, 0, 0, 1, 3, 0, high, low]);
            assert_eq!(list[8..16], [0; 8]);
            assert_eq!(list[16..], [7; 8]);
        }
    }
}

/// What the isolation calls that are measured give, on so many node instances.
/// All of them reach all instances. Node 1 has 60 children in the mixed file too.
fn calls_to_measure_with(count: usize, without_child: usize, above_silent: usize) {
    let row = large::children(count, 1, false);
    let forward = large::children(count, MOST_CHILDREN, false);
    let backward = large::children(count, MOST_CHILDREN, true);
    let mixed = large::mixed_children(count, MOST_CHILDREN);
    let last_bit_row = large::row_at(count, 63);
    let bit_0 = vec![1 << 63; count];
    let bit_63 = vec![1; count];
    let all = vec![u64::MAX; count];
    let read = vec![1; count];
    let without_row = 64 * count - (count - 1);
    let [high, low] = (count as u16).to_be_bytes();
    let of_last = |bit| [0, 0, 0, 1, 3, bit, high, low, 0, 0, 0, 0, 0, 0, 0, 0];
    let of_1 = |bit| [0, 0, 0, 1, 3, bit, 0, 1, 0, 0, 0, 0, 0, 0, 0, 0];
    for (file, words, records, first) in [
        (&row, &bit_0, 1, of_last(0)),
        (&last_bit_row, &bit_63, 1, of_last(63)),
        (&last_bit_row, &all, without_row, of_1(0)),
        (&row, &all, without_row, of_1(1)),
        (&large::children(count, 1, true), &bit_0, 1, of_1(0)),
        (&forward, &bit_0, 1, of_last(0)),
        (&forward, &all, without_child, of_1(60)),
        (&backward, &all, without_child, of_1(0)),
        (&mixed, &all, without_child, of_1(60)),
        (&forward, &large::every_fourth(count), above_silent, of_1(0)),
    ] {
        for isolate in [isolate, fast::isolate] {
            let mut list = vec![7; 16 * records + 5];
            let answer = isolate(file, 3, words, &read, &mut list);
            assert_eq!(answer, Ok((records, count)));
            assert_eq!(list[..16], first);
            assert_eq!(list[16 * records..], [7; 5]);
            let answer = isolate(file, 3, words, &read, &mut list[..16 * records - 1]);
            assert_eq!(answer, refused(19, records));
        }
    }
}

#[test]
fn calls_to_measure_256_with() {
    // Each instance that is not among the last 60 has 60 children, and those
    // have 59, 58 and so on: 11,760 and 1,770 of the 16,384 bits lead on.
    let without_child = 16_384 - 11_760 - 1_770;
    assert_eq!(without_child, 2_854);
    // 64 instances have active bits. 49 of these have 15 children that have
    // some, and the others have 14, 13 and so on to none: 735 and 105.
    let above_silent = 64 * 64 - 735 - 105;
    assert_eq!(above_silent, 3_256);
    calls_to_measure_with(256, without_child, above_silent);
}

#[test]
fn calls_to_measure_1_024_with() {
    // 964 times 60 children, and 1,770 as above.
    let without_child = 65_536 - 57_840 - 1_770;
    // 256 instances have active bits. 241 of these have 15 children that have
    // some, and the others 105 together.
    let above_silent = 256 * 64 - 3_615 - 105;
    calls_to_measure_with(1_024, without_child, above_silent);
}
