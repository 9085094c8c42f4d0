//! Readings and the readings file.

use reference::generate::{self, Random};
use reference::{hex, isolate, isolate_with_readings_file, readings, Accepted, Limits, Refusal};

/// Registers 9 (instances 7 and 2, type 1) and 4 (instance 0, type 2). Node 1
/// ORs the two instances of register 9.
const FILE: &str = "43 48 49 50 44 41 54 41 00 00 00 01 01 \
    52 45 47 53 00 00 02 \
    00 00 09 01 80 02 07 00 00 10 00 02 00 00 10 04 \
    01 02 04 02 C0 01 00 00 00 00 00 00 00 20 00 \
    4E 4F 44 45 00 01 00 01 01 01 00 00 01 00 \
    03 11 02 01 00 00 09 07 01 00 00 09 02 \
    52 4F 4F 54 01 03 00 01 00";

const READINGS: &str = "00 00 09 07 01 00 00 00 80 00 00 00 00 00 00 00 \
    00 00 09 02 01 00 00 00 00 00 00 00 00 00 00 01 \
    01 02 04 00 00 00 00 00 00 00 00 00 00 00 00 00";

const UNFIT: Refusal = Refusal {
    number: 17,
    place: 0,
};

fn answer(readings_file: &[u8], attention_type: u8) -> Result<(usize, usize), Refusal> {
    let mut list = [7; 40];
    let file = hex::decode(FILE).unwrap();
    let limits = Limits::PROGRAM;
    let answer =
        isolate_with_readings_file(&file, limits, attention_type, readings_file, &mut list);
    match answer {
        Ok((2, 1)) => {
            assert_eq!(list[..9], [0, 0, 0, 1, 3, 0, 0, 1, 0]);
            assert_eq!(list[9..16], [0; 7]);
            assert_eq!(list[16..25], [0, 0, 0, 1, 3, 63, 0, 1, 0]);
            assert_eq!(list[25..32], [0; 7]);
            assert_eq!(list[32..], [7; 8]);
        }
        Ok(_) => {}
        Err(_) => assert_eq!(list, [7; 40]),
    }
    answer
}

/// The sample readings with another byte at an offset.
fn with(at: usize, byte: u8) -> Vec<u8> {
    let mut readings = hex::decode(READINGS).unwrap();
    readings[at] = byte;
    readings
}

#[test]
fn the_sample() {
    assert_eq!(answer(&hex::decode(READINGS).unwrap(), 3), Ok((2, 1)));
}

#[test]
fn sizes() {
    let whole = hex::decode(READINGS).unwrap();
    for length in 0..whole.len() {
        assert_eq!(answer(&whole[..length], 3), Err(UNFIT));
    }
    let longer = [&whole[..], &[0]].concat();
    assert_eq!(answer(&longer, 3), Err(UNFIT));
    let record_more = [&whole[..], &[0; 16]].concat();
    assert_eq!(answer(&record_more, 3), Err(UNFIT));
}

#[test]
fn names_and_zeros() {
    for at in [0, 1, 2, 3, 5, 6, 7, 16, 19, 21, 32, 33, 34, 35, 37, 38, 39] {
        assert_eq!(answer(&with(at, 0x55), 3), Err(UNFIT), "at {at}");
    }
    // The right records in another order.
    let mut turned = hex::decode(READINGS).unwrap();
    turned.rotate_left(16);
    assert_eq!(answer(&turned, 3), Err(UNFIT));
}

#[test]
fn read_bytes_and_unread_values() {
    assert_eq!(answer(&with(4, 2), 3), Err(UNFIT));
    assert_eq!(answer(&with(4, 255), 3), Err(UNFIT));
    // Unread with a value.
    assert_eq!(answer(&with(4, 0), 3), Err(UNFIT));
    for at in 40..48 {
        assert_eq!(answer(&with(at, 1), 3), Err(UNFIT), "at {at}");
    }
    // Unread without a value, and named by the rule: FILE has 20 bytes before
    // the first register, 16 and 15 for the two, 14 to the rule, and then the
    // attention type, 11, 02.
    let mut unread = with(4, 0);
    unread[8] = 0;
    let at = 20 + 16 + 15 + 14 + 3;
    assert_eq!(
        answer(&unread, 3),
        Err(Refusal {
            number: 18,
            place: at
        })
    );
    // Read, of a register that no rule names.
    let mut read = with(36, 1);
    read[47] = 0xFF;
    assert_eq!(answer(&read, 3), Ok((2, 1)));
}

#[test]
fn the_type_is_refused_first() {
    assert_eq!(
        answer(&[], 0),
        Err(Refusal {
            number: 15,
            place: 0
        })
    );
    assert_eq!(
        answer(&[], 6),
        Err(Refusal {
            number: 15,
            place: 0
        })
    );
    assert_eq!(
        answer(&[], 5),
        Err(Refusal {
            number: 16,
            place: 0
        })
    );
    assert_eq!(answer(&[], 3), Err(UNFIT));
}

#[test]
fn lists_that_do_not_fit() {
    let file = hex::decode(FILE).unwrap();
    let answer = |words: &[u64], read: &[u8]| {
        let mut list = [7; 40];
        let answer = isolate(&file, 3, words, read, &mut list);
        assert!(answer.is_ok() || list == [7; 40]);
        answer
    };
    assert_eq!(answer(&[0, 0, 0], &[1, 1, 1]), Ok((0, 1)));
    assert_eq!(answer(&[0, 0, 0], &[1, 1, 0]), Ok((0, 1)));
    assert_eq!(answer(&[0, 0], &[1, 1, 1]), Err(UNFIT));
    assert_eq!(answer(&[0, 0, 0], &[1, 1]), Err(UNFIT));
    assert_eq!(answer(&[0, 0, 0, 0], &[1, 1, 1]), Err(UNFIT));
    assert_eq!(answer(&[0, 0, 0], &[1, 1, 1, 1]), Err(UNFIT));
    assert_eq!(answer(&[0, 0, 0], &[1, 1, 2]), Err(UNFIT));
    assert_eq!(answer(&[], &[]), Err(UNFIT));
    // 17 before 18 and 19.
    assert_eq!(answer(&[0, 0, 0], &[0, 0, 2]), Err(UNFIT));
}

/// Both ways to give the same readings have the same answer.
#[test]
fn a_readings_file_means_its_lists() {
    let mut random = Random::new(17);
    let mut compared = 0;
    for _ in 0..10_000 {
        let case = generate::case(&mut random);
        let bytes = generate::readings_file(&mut random, &case);
        let Ok(Accepted { tree, .. }) = Accepted::read(&case.file) else {
            continue;
        };
        let mut by_file = vec![7; case.room];
        let mut by_lists = vec![7; case.room];
        let answer = isolate_with_readings_file(
            &case.file,
            Limits::LIBRARY,
            case.attention_type,
            &bytes,
            &mut by_file,
        );
        match readings::decode(&tree, &bytes) {
            Ok((words, read)) => {
                let expected = isolate(
                    &case.file,
                    case.attention_type,
                    &words,
                    &read,
                    &mut by_lists,
                );
                assert_eq!(answer, expected);
                assert_eq!(by_file, by_lists);
                assert_eq!(readings::encode(&tree, &words, &read), bytes);
                compared += 1;
            }
            Err(refusal) => {
                assert_eq!(refusal, UNFIT);
                assert!(matches!(answer.unwrap_err().number, 15..=17));
                assert_eq!(by_file, by_lists);
            }
        }
    }
    assert!(compared > 1_000);
}
