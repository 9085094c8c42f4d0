//! Readings files that do not fit.

use super::random::Random;
use crate::layout::Limits;
use crate::readings::{RECORD_BYTES, UNREAD};

/// What is wrong with a readings file.
#[derive(Clone, Copy, Debug, PartialEq, Eq)]
pub enum Misfit {
    ByteLess,
    ByteMore,
    RecordLess,
    RecordMore,
    AnyLength,
    Empty,
    /// Longer than that of any chip data file that the station takes.
    TooLong,
    WrongId,
    WrongInstance,
    /// The read byte is 2 or more.
    ReadByte,
    ZeroByte,
    /// An unread value is not zero.
    UnreadValue,
    /// The records of two register instances stand in each other's place.
    Swapped,
    AnyByte,
}

pub const MISFITS: [Misfit; 14] = [
    Misfit::ByteLess,
    Misfit::ByteMore,
    Misfit::RecordLess,
    Misfit::RecordMore,
    Misfit::AnyLength,
    Misfit::Empty,
    Misfit::TooLong,
    Misfit::WrongId,
    Misfit::WrongInstance,
    Misfit::ReadByte,
    Misfit::ZeroByte,
    Misfit::UnreadValue,
    Misfit::Swapped,
    Misfit::AnyByte,
];

impl Misfit {
    /// Changes a readings file. One with too few records for the change stays
    /// as it is; any length and any byte may by chance still fit.
    pub fn put(self, random: &mut Random, bytes: &mut Vec<u8>) {
        match self {
            Misfit::ByteLess => drop(bytes.pop()),
            Misfit::ByteMore => bytes.push(random.below(2) as u8),
            Misfit::RecordLess => bytes.truncate(bytes.len().saturating_sub(RECORD_BYTES)),
            Misfit::RecordMore => {
                let length = bytes.len() + RECORD_BYTES;
                lengthen(random, bytes, length);
            }
            Misfit::AnyLength => {
                let length = random.below(2 * bytes.len() + 2);
                lengthen(random, bytes, length);
                bytes.truncate(length);
            }
            Misfit::Empty => bytes.clear(),
            Misfit::TooLong => {
                let more = *random.pick(&[1, RECORD_BYTES, 5_000, 65_536]);
                let most = Limits::PROGRAM.register_instances * RECORD_BYTES;
                lengthen(random, bytes, most + more);
            }
            Misfit::Swapped => swap_records(random, bytes),
            _ => {
                if let Some(record) = any_record(random, bytes) {
                    self.put_in_record(random, record);
                }
            }
        }
    }

    fn put_in_record(self, random: &mut Random, record: &mut [u8]) {
        match self {
            Misfit::WrongId => change(random, &mut record[..3]),
            Misfit::WrongInstance => change(random, &mut record[3..4]),
            Misfit::ReadByte => {
                record[4] = match random.below(2) {
                    0 => 2,
                    _ => random.between(2, 255) as u8,
                }
            }
            Misfit::ZeroByte => change(random, &mut record[5..8]),
            Misfit::UnreadValue => {
                record[4] = UNREAD;
                if record[8..] == [0; 8] {
                    change(random, &mut record[8..]);
                }
            }
            _ => change(random, record),
        }
    }
}

/// Makes it so long, if it is not longer, by its own records once more or by
/// zeros.
fn lengthen(random: &mut Random, bytes: &mut Vec<u8>, length: usize) {
    let own = bytes.len();
    let again = own > 0 && random.one_in(2);
    while bytes.len() < length {
        bytes.push(if again { bytes[bytes.len() - own] } else { 0 });
    }
}

fn any_record<'a>(random: &mut Random, bytes: &'a mut [u8]) -> Option<&'a mut [u8]> {
    let records = bytes.len() / RECORD_BYTES;
    let at = random.below(records.max(1));
    bytes.chunks_exact_mut(RECORD_BYTES).nth(at)
}

/// Changes one bit of some bytes.
fn change(random: &mut Random, bytes: &mut [u8]) {
    *random.pick_mut(bytes) ^= 1 << random.below(8);
}

/// Swaps two records, mostly neighbours.
fn swap_records(random: &mut Random, bytes: &mut [u8]) {
    let (records, _) = bytes.as_chunks_mut::<RECORD_BYTES>();
    if records.len() < 2 {
        return;
    }
    let first = random.below(records.len() - 1);
    let second = match random.below(3) {
        0 => random.between(first + 1, records.len() - 1),
        _ => first + 1,
    };
    records.swap(first, second);
}

#[cfg(test)]
mod tests {
    use super::*;
    use crate::generate::{aimed_case, readings, Sizes};
    use crate::readings::{decode, encode, Readings};
    use crate::{large, layout, refusal};

    /// Every change of a file that fits is refused, but for those that may by
    /// chance fit and for the swap of one record.
    #[test]
    fn misfits_do_not_fit() {
        let mut random = Random::new(23);
        for misfit in MISFITS {
            let mut refused = 0;
            for round in 0..100 {
                let file = match round {
                    0 => large::register_instances(1_024, 7),
                    1 => large::B1.to_vec(),
                    _ => aimed_case(&mut random, 0, Sizes::Small).file,
                };
                let Ok(tree) = layout::read(&file) else {
                    continue;
                };
                let (words, read) = readings(&mut random, tree.register_instances.len());
                if Readings::fit(&tree, &words, &read).is_err() {
                    continue;
                }
                let whole = encode(&tree, &words, &read);
                assert!(decode(&tree, &whole).is_ok());
                let mut bytes = whole.clone();
                misfit.put(&mut random, &mut bytes);
                match decode(&tree, &bytes) {
                    Ok(_) => {
                        let alone = misfit == Misfit::Swapped && words.len() == 1;
                        let chance = [Misfit::AnyLength, Misfit::AnyByte].contains(&misfit);
                        assert!(alone || chance, "{misfit:?}");
                    }
                    Err(unfit) => {
                        assert_eq!(unfit.number, refusal::READINGS_DO_NOT_FIT);
                        refused += 1;
                    }
                }
                if misfit == Misfit::TooLong {
                    assert!(bytes.len() > 16_384);
                }
            }
            assert!(refused >= 30, "{misfit:?} {refused}");
        }
    }

    #[test]
    fn nothing_to_change() {
        let mut random = Random::new(24);
        for misfit in MISFITS {
            for length in 0..RECORD_BYTES {
                misfit.put(&mut random, &mut vec![0; length]);
            }
        }
    }
}
