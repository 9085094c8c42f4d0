//! Numbers that collide in a table that is searched by number.

use std::collections::HashSet;
use std::ops::Range;

use super::random::Random;
use crate::layout::Limits;

/// A table that is searched for a number from the number's starting place on,
/// place by place up to its end: a power of two of starting places, and 32
/// places behind them. It is for finding numbers that start at one place of a
/// table of so many places.
#[derive(Clone, Copy, Debug, PartialEq, Eq)]
pub struct Places {
    starts: usize,
}

/// The tables come in sizes, for so many register instances and node instances.
/// Those of the last are for as many as there may be.
pub const CLASSES: [(usize, usize); 4] = [
    (32, 8),
    (256, 64),
    (
        Limits::PROGRAM.register_instances,
        Limits::PROGRAM.node_instances,
    ),
    (
        Limits::LIBRARY.register_instances,
        Limits::LIBRARY.node_instances,
    ),
];

/// What numbers are multiplied by.
const FACTOR: u64 = 0x9E37_79B1;
/// The lower bits of the product that do not count.
const DROPPED: u32 = 16;

impl Places {
    const BEHIND: usize = 32;

    /// For so many instances, a power of two.
    pub const fn of(instances: usize) -> Self {
        assert!(instances.is_power_of_two());
        Places {
            starts: 2 * instances,
        }
    }

    /// Those of registers and of nodes, of the first class that has room for so
    /// many instances of each, or of the last one.
    pub fn of_class(register_instances: usize, node_instances: usize) -> (Self, Self) {
        let has_room = |&&(registers, nodes): &&(usize, usize)| {
            register_instances <= registers && node_instances <= nodes
        };
        let class = CLASSES.iter().find(has_room);
        let (registers, nodes) = *class.unwrap_or(&CLASSES[CLASSES.len() - 1]);
        (Places::of(registers), Places::of(nodes))
    }

    /// One with fewer starting places, if the power is low enough.
    pub fn at_most(self, power: usize) -> Self {
        Places {
            starts: self.starts.min(1 << power),
        }
    }

    /// The number of places.
    pub fn count(self) -> usize {
        self.starts + Self::BEHIND
    }

    /// The number of places where a number may start.
    pub fn starts(self) -> usize {
        self.starts
    }

    /// Where the search for a number starts.
    pub fn start(self, number: u64) -> usize {
        let mixed = ((number & 0xFFFF_FFFF) * FACTOR) >> DROPPED;
        mixed as usize & (self.starts - 1)
    }

    /// So many different numbers below `bound`, at most 2^32, that start in
    /// `starts`. There are to be twice as many of them.
    pub fn numbers(
        self,
        random: &mut Random,
        count: usize,
        bound: u64,
        starts: Range<usize>,
    ) -> Vec<u64> {
        let mut numbers = Vec::with_capacity(count);
        let mut taken = HashSet::with_capacity(count);
        while numbers.len() < count {
            let start = random.between(starts.start, starts.end - 1);
            let number = self.any_number(random, start, bound);
            if number < bound && taken.insert(number) {
                numbers.push(number);
            }
        }
        numbers
    }

    /// A number that starts there, below `bound` if that is not too low. The
    /// starting place says which some bits of the number's product are, and these
    /// with those below them say which the lower bits of the number are.
    fn any_number(self, random: &mut Random, start: usize, bound: u64) -> u64 {
        let bits = DROPPED + self.starts.trailing_zeros();
        let below = |bits: u32| (1 << bits) - 1;
        let word = random.next();
        let product = (start as u64) << DROPPED | word & below(DROPPED);
        let lower = product.wrapping_mul(inverse(FACTOR)) & below(bits);
        let upper = (word >> 32) % (bound >> bits).max(1);
        upper << bits | lower
    }

    /// The place of each number if it gets the first free one from its starting
    /// place on. None if there is none.
    pub fn put(self, numbers: &[u64]) -> Vec<Option<usize>> {
        let mut is_taken = vec![false; self.count()];
        let put = |&number: &u64| {
            let place = (self.start(number)..self.count()).find(|&place| !is_taken[place])?;
            is_taken[place] = true;
            Some(place)
        };
        numbers.iter().map(put).collect()
    }

    /// How crowded the table is with numbers that are [`Places::put`] in it.
    pub fn crowd(self, numbers: &[u64]) -> Crowd {
        let mut at_one_start = vec![0; self.starts];
        let mut crowd = Crowd::default();
        for (&number, place) in numbers.iter().zip(self.put(numbers)) {
            let start = self.start(number);
            at_one_start[start] += 1;
            crowd.most_at_one_start = crowd.most_at_one_start.max(at_one_start[start]);
            match place {
                Some(place) => crowd.longest_search = crowd.longest_search.max(place - start + 1),
                None => crowd.without_place += 1,
            }
        }
        crowd
    }
}

/// The word whose product with an odd one ends in 63 zeros and a 1.
const fn inverse(odd: u64) -> u64 {
    // Right in three bits, then in twice as many each time.
    let mut inverse = odd;
    let mut bits = 3;
    while bits < u64::BITS {
        inverse = inverse.wrapping_mul(2u64.wrapping_sub(odd.wrapping_mul(inverse)));
        bits *= 2;
    }
    inverse
}

/// How crowded a table is.
#[derive(Clone, Copy, Debug, Default, PartialEq, Eq)]
pub struct Crowd {
    pub most_at_one_start: usize,
    /// The places looked at until the last of them was free.
    pub longest_search: usize,
    /// Numbers from whose starting place on every place is taken.
    pub without_place: usize,
}

#[cfg(test)]
mod tests {
    use super::*;

    #[test]
    fn starting_places() {
        let registers = Places::of(1_024);
        let nodes = Places::of(256);
        // 1 * 0x9E3779B1 / 2^16 is 0x9E37.
        assert_eq!(registers.start(1), 0x9E37 & 2_047);
        assert_eq!(nodes.start(1), 0x9E37 & 511);
        assert_eq!(nodes.start(1 << 32 | 1), 0x9E37 & 511);
        assert_eq!(Places::of(8_192).start(1), 0x9E37 & 16_383);
        // 0xFFFFFFFF * 0x9E3779B1 is 0x9E3779B061C8864F.
        assert_eq!(registers.start(0xFFFF_FFFF), 0x61C8 & 2_047);
        let counts = CLASSES.map(|(registers, nodes)| {
            let places = Places::of_class(registers, nodes);
            (places.0.count(), places.1.count())
        });
        assert_eq!(
            counts,
            [(96, 48), (544, 160), (2_080, 544), (16_416, 2_080)]
        );
        // The class has room for both.
        let class = |registers, nodes| Places::of_class(registers, nodes).0.count();
        assert_eq!([class(32, 9), class(33, 8), class(1, 1)], [544, 544, 96]);
        assert_eq!([class(1, 257), class(1_025, 1)], [16_416, 16_416]);
        assert_eq!(class(8_193, 1_025), 16_416);
    }

    #[test]
    fn inverses() {
        for odd in [1, 3, FACTOR, u64::MAX] {
            assert_eq!(odd.wrapping_mul(inverse(odd)), 1);
        }
    }

    #[test]
    fn numbers_collide() {
        let mut random = Random::new(30);
        for (places, bounds) in [
            (Places::of(32), [1 << 24, 1 << 32]),
            (Places::of(1_024), [1 << 24, 1 << 32]),
            (Places::of(8_192), [1 << 24, 1 << 32]),
            (Places::of(8), [1 << 16, 1 << 24]),
            (Places::of(256), [1 << 16, 1 << 24]),
        ] {
            for bound in bounds {
                let last = places.starts() - 1;
                for start in [0, random.below(last), last] {
                    let numbers = places.numbers(&mut random, 64, bound, start..start + 1);
                    let different: HashSet<&u64> = numbers.iter().collect();
                    assert_eq!(different.len(), 64);
                    assert!(numbers.iter().all(|&number| number < bound));
                    let crowd = places.crowd(&numbers);
                    assert_eq!(crowd.most_at_one_start, 64);
                    // From the last start on there are 33 places.
                    let places_left = places.count() - start;
                    let without_place = 64usize.saturating_sub(places_left);
                    assert_eq!(crowd.without_place, without_place);
                    assert_eq!(crowd.longest_search, 64 - without_place);
                    // They collide in smaller tables too.
                    for power in 1..8 {
                        let crowd = places.at_most(power).crowd(&numbers);
                        assert_eq!(crowd.most_at_one_start, 64);
                    }
                }
            }
        }
    }

    #[test]
    fn numbers_without_collision() {
        let few: Vec<u64> = (1..=8).collect();
        let crowd = Places::of(1_024).crowd(&few);
        assert_eq!((crowd.most_at_one_start, crowd.without_place), (1, 0));
    }
}
