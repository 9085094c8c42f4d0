//! Seeded cases for isolation: files, valid and damaged, with attention types,
//! readings and room; boards of several of them; and lists of records.
//!
//! The same seed gives the same cases.

mod aimed;
mod boards;
mod captures;
mod colliding;
mod damage;
mod draft;
mod misfit;
mod places;
mod random;
mod records;
mod silent;

pub use aimed::{aimed_case, full_list_case, large_case, too_large_case, Sizes, HIGHEST_NUMBER};
pub use boards::{board_around, listing_case};
pub use colliding::{
    case_of, colliding_case, colliding_file, crowds, crowds_of_the_largest, name_like,
};
pub use damage::damaged_file;
pub use draft::{valid_file, Field, FieldKind, FieldMap, Shape};
pub use misfit::{Misfit, MISFITS};
pub use places::{Crowd, Places, CLASSES};
pub use random::Random;
pub use records::{aimed_writing, reading_room, writing_around, Writing, WRITING_NUMBERS};

use crate::isolation;
use crate::layout::{self, Limits};
use crate::readings::{self, READ, UNREAD};

/// All that one isolation call is lent. The list has `room` bytes.
#[derive(Clone, Debug, PartialEq, Eq)]
pub struct Case {
    pub file: Vec<u8>,
    pub attention_type: u8,
    pub words: Vec<u64>,
    pub read: Vec<u8>,
    pub room: usize,
}

/// A case with a valid or a damaged file.
pub fn case(random: &mut Random) -> Case {
    let shape = Shape::any(random);
    let map = valid_file(random, &shape);
    let register_instances = map.count(FieldKind::RegisterInstance);
    let attention_types: Vec<u8> = map
        .fields_of(FieldKind::RootAttention)
        .map(|field| map.bytes[field.at])
        .collect();
    let file = match random.below(100) {
        0..=54 => map.bytes,
        55 if random.one_in(8) => too_long(random, map.bytes),
        _ => damaged_file(random, &map),
    };
    case_on(random, file, register_instances, &attention_types, 2)
}

/// A case on a file, with readings that mostly fit so many register instances and
/// a type that mostly is one of `with_root`. In one of `silenced` cases some
/// children show nothing.
fn case_on(
    random: &mut Random,
    file: Vec<u8>,
    instances: usize,
    with_root: &[u8],
    silenced: usize,
) -> Case {
    let (words, read) = readings(random, instances);
    let mut case = Case {
        attention_type: attention_type(random, with_root),
        file,
        words,
        read,
        room: room(random),
    };
    if random.one_in(silenced) {
        silent::silence_children(random, &mut case);
    }
    case
}

fn too_long(random: &mut Random, mut file: Vec<u8>) -> Vec<u8> {
    let limits = *random.pick(&[Limits::PROGRAM, Limits::LIBRARY]);
    file.resize(limits.bytes + 1 + random.below(64), 0);
    file
}

/// Mostly one of `with_root`.
fn attention_type(random: &mut Random, with_root: &[u8]) -> u8 {
    match random.below(20) {
        0 => *random.pick(&[0, 6, 255]),
        1 => random.between(1, 5) as u8,
        _ => *random.pick(with_root),
    }
}

/// Words and read bytes that mostly fit so many register instances.
pub fn readings(random: &mut Random, instances: usize) -> (Vec<u64>, Vec<u8>) {
    let density = random.below(5);
    let mut words: Vec<u64> = (0..instances).map(|_| word(random, density)).collect();
    let unread_share = *random.pick(&[0, 0, 0, 1, 2, 10, 50]);
    let mut read: Vec<u8> = (0..instances)
        .map(|_| {
            if random.below(100) < unread_share {
                UNREAD
            } else {
                READ
            }
        })
        .collect();
    match random.below(60) {
        0 => words.push(0),
        1 => read.push(READ),
        2 => drop(words.pop()),
        3 => drop(read.pop()),
        4 => {
            let at = random.below(instances);
            read[at] = *random.pick(&[2, 3, 128, 255]);
        }
        5 => {
            words.clear();
            read.clear();
        }
        _ => {}
    }
    (words, read)
}

fn word(random: &mut Random, density: usize) -> u64 {
    match density {
        0 => *random.pick(&[0, 1, 1 << 63, u64::MAX]),
        1 => 1 << random.bit(),
        2 => random.next() & random.next() & random.next(),
        3 => random.next() | random.next() | random.next(),
        _ => random.next(),
    }
}

/// The length of a list, not always whole records.
fn room(random: &mut Random) -> usize {
    let records = match random.below(10) {
        0 => 0,
        1 => random.below(4),
        2 => random.below(64),
        _ => 4_096,
    };
    records * isolation::RECORD_BYTES
        + if random.one_in(4) {
            random.below(16)
        } else {
            0
        }
}

/// The readings file of the case's readings, often one that does not fit. The
/// records of a case whose registers cannot be read have made-up names.
pub fn readings_file(random: &mut Random, case: &Case) -> Vec<u8> {
    let mut bytes = match layout::read(&case.file) {
        Ok(tree) => readings::encode(&tree, &case.words, &case.read),
        Err(_) => {
            let records = (1..).zip(&case.words).zip(&case.read);
            records
                .flat_map(|((id, &word), &read)| readings::record(id, 0, word, read))
                .collect()
        }
    };
    if random.one_in(3) {
        let misfit = *random.pick(&MISFITS);
        misfit.put(random, &mut bytes);
        if random.one_in(8) {
            let misfit = *random.pick(&MISFITS);
            misfit.put(random, &mut bytes);
        }
    }
    bytes
}

#[cfg(test)]
mod tests {
    use super::*;
    use crate::checker;

    #[test]
    fn a_seed_decides_the_cases() {
        let mut first = Random::new(5);
        let mut second = Random::new(5);
        for _ in 0..50 {
            assert_eq!(case(&mut first), case(&mut second));
        }
    }

    #[test]
    fn valid_files_are_accepted() {
        let mut random = Random::new(6);
        for _ in 0..3_000 {
            let shape = Shape::any(&mut random);
            let map = valid_file(&mut random, &shape);
            let verdict = checker::check(&map.bytes);
            let summary = verdict.unwrap_or_else(|refusal| panic!("{shape:?}: {refusal}"));
            assert_eq!(
                summary.register_instances,
                map.count(FieldKind::RegisterInstance)
            );
            assert_eq!(summary.node_instances, map.count(FieldKind::NodeInstance));
        }
    }

    #[test]
    fn the_field_map_covers_the_file() {
        let mut random = Random::new(7);
        for _ in 0..300 {
            let shape = Shape::any(&mut random);
            let map = valid_file(&mut random, &shape);
            let mut at = 0;
            for field in &map.fields {
                assert_eq!(field.at, at);
                at += field.size;
            }
            assert_eq!(at, map.bytes.len());
        }
    }

    /// Of the words that isolation finds for the instances it reaches, many
    /// have no bit, one, most or all.
    #[test]
    fn words_of_every_kind() {
        let mut random = Random::new(10);
        let mut words = Vec::new();
        for _ in 0..10_000 {
            let case = case(&mut random);
            words.extend(isolation::reached_words(
                &case.file,
                case.attention_type,
                &case.words,
                &case.read,
            ));
        }
        let count = |holds: fn(u64) -> bool| words.iter().filter(|&&word| holds(word)).count();
        let counts = [
            count(|word| word == 0),
            count(|word| word == 1 << 63),
            count(|word| word == 1),
            count(|word| word.count_ones() == 1),
            count(|word| (48..64).contains(&word.count_ones())),
            count(|word| word == u64::MAX),
        ];
        let fewest = words.len() / 50;
        assert!(counts.iter().all(|&count| count > fewest), "{counts:?}");
        // Each of the 64 alone.
        let is_there = |bit: u8| words.contains(&(1 << bit));
        assert!((0..64).all(is_there));
    }

    /// A cut is refused at the start of the field it falls into.
    #[test]
    fn cuts_are_refused_at_their_field() {
        let mut random = Random::new(8);
        for _ in 0..300 {
            let shape = Shape::small(&mut random);
            let map = valid_file(&mut random, &shape);
            for field in &map.fields {
                for length in field.at..field.at + field.size {
                    let refusal = checker::check(&map.bytes[..length]).unwrap_err();
                    assert_eq!((refusal.number, refusal.place), (2, field.at));
                }
            }
        }
    }
}
