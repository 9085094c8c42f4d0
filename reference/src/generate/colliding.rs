//! Files whose IDs or names of instances start at the same places of a table
//! that is searched by number, and files near them: with an ID twice, with names
//! that are nearly those of instances, with cycles.

use std::collections::{BTreeMap, HashSet};
use std::ops::Range;

use super::aimed::turn_children_back;
use super::captures::{capture_a_closed, close_a_captured};
use super::damage::damaged_file;
use super::draft::{file_with, split, Field, FieldKind, FieldMap, Node, Register, Shape};
use super::places::{Crowd, Places, CLASSES};
use super::random::Random;
use super::{case_on, Case};
use crate::layout::{Limits, READABLE, WRITABLE};

/// Registers or nodes.
#[derive(Clone, Copy)]
struct Kind {
    /// Of the tables that are for as many of them as the file has.
    places: Places,
    id_bits: usize,
    id_field: FieldKind,
    instance_field: FieldKind,
}

const REGISTERS: Kind = Kind {
    places: Places::of(Limits::LIBRARY.register_instances),
    id_bits: 24,
    id_field: FieldKind::RegisterId,
    instance_field: FieldKind::RegisterInstance,
};

const NODES: Kind = Kind {
    places: Places::of(Limits::LIBRARY.node_instances),
    id_bits: 16,
    id_field: FieldKind::NodeId,
    instance_field: FieldKind::NodeInstance,
};

/// Registers and nodes of a file with so many instances.
fn kinds(register_instances: usize, node_instances: usize) -> [Kind; 2] {
    let (of_registers, of_nodes) = Places::of_class(register_instances, node_instances);
    [
        Kind {
            places: of_registers,
            ..REGISTERS
        },
        Kind {
            places: of_nodes,
            ..NODES
        },
    ]
}

/// Registers and nodes of the file.
fn kinds_of(map: &FieldMap) -> [Kind; 2] {
    kinds(
        map.count(FieldKind::RegisterInstance),
        map.count(FieldKind::NodeInstance),
    )
}

impl Kind {
    fn ids(self) -> u64 {
        1 << self.id_bits
    }

    /// The name of an instance is its ID times 256 and its number.
    fn names(self) -> u64 {
        self.ids() << 8
    }
}

/// A case whose file is a [`colliding_file`], as it is or with a fault.
pub fn colliding_case(random: &mut Random) -> Case {
    let map = colliding_file(random);
    case_of(random, &map)
}

/// A file that is accepted, but for those with one register instance or node
/// instance too many. Mostly its register IDs or names of register instances
/// collide, or those of nodes, or both.
pub fn colliding_file(random: &mut Random) -> FieldMap {
    let (register_instances, node_instances) = sizes(random);
    let [of_registers, of_nodes] = kinds(register_instances, node_instances);
    let registers = registers(random, of_registers, register_instances);
    let nodes = nodes(random, of_nodes, node_instances);
    // So many captures and children in the whole file, about.
    let captures = *random.pick(&[0, 40, 200, 400]);
    let children = *random.pick(&[0, 40, 100, 300]);
    let shape = Shape {
        register_instances,
        node_instances,
        most_captures: (2 * captures / node_instances).min(100),
        most_children: (2 * children / node_instances).min(16),
        most_expressions: random.between(1, 5),
        deep_rule_one_in: 200,
        silent_in_ten: *random.pick(&[0, 0, 2]),
        leading_in_ten: *random.pick(&[0, 2, 5]),
    };
    file_with(random, &shape, &registers, &nodes)
}

/// How many register instances and node instances a file has.
fn sizes(random: &mut Random) -> (usize, usize) {
    let limits = match random.below(16) {
        0 => Limits::LIBRARY,
        _ => Limits::PROGRAM,
    };
    let full_registers = limits.register_instances + random.below(2);
    let full_nodes = limits.node_instances + random.below(2);
    match random.below(64) {
        0 | 1 => (1, 1),
        2 => (full_registers, size(random)),
        3 | 4 => (size(random), full_nodes),
        5 => (limits.register_instances, full_nodes),
        6 => {
            // About as many as one of the tables is for.
            let (registers, nodes) = *random.pick(&CLASSES[..2]);
            let near = |random: &mut Random, count: usize| random.between(count - 1, count + 1);
            (near(random, registers), near(random, nodes))
        }
        _ => (size(random), size(random)),
    }
}

/// From the last starting place on a table has 33 places.
fn size(random: &mut Random) -> usize {
    match random.below(8) {
        0..=2 => random.between(1, 9),
        3 | 4 => random.between(32, 35),
        5 | 6 => random.between(9, 40),
        _ => random.between(60, 70),
    }
}

fn registers(random: &mut Random, kind: Kind, instances: usize) -> Vec<Register> {
    let only_type = random.one_in(2).then(|| random.between(1, 2) as u8);
    let closed_in_ten = *random.pick(&[0, 1, 3]);
    let named = named(random, kind, instances);
    let register = |(id, numbers)| Register {
        id: id as u32,
        register_type: only_type.unwrap_or(random.between(1, 2) as u8),
        flags: match random.below(10) < closed_in_ten {
            true => *random.pick(&[WRITABLE, 0]),
            false => *random.pick(&[READABLE, READABLE | WRITABLE]),
        },
        numbers,
    };
    named.into_iter().map(register).collect()
}

fn nodes(random: &mut Random, kind: Kind, instances: usize) -> Vec<Node> {
    let only_type = random.one_in(2).then(|| random.between(1, 2) as u8);
    let named = named(random, kind, instances);
    let node = |(id, numbers)| Node {
        id: id as u16,
        register_type: only_type.unwrap_or(random.between(1, 2) as u8),
        numbers,
    };
    named.into_iter().map(node).collect()
}

/// IDs with the numbers of their instances, of which there are so many.
fn named(random: &mut Random, kind: Kind, instances: usize) -> Vec<(u64, Vec<u8>)> {
    let mut named: Vec<(u64, Vec<u8>)> = match random.below(8) {
        0..=3 => {
            // Names collide; some IDs have another instance beside that.
            let mut names: HashSet<u64> = HashSet::new();
            let beside = *random.pick(&[0, 0, 1, 3]);
            for name in colliding(random, kind, instances, kind.names()) {
                if random.below(10) < beside {
                    names.insert(name ^ 1 << random.below(8));
                }
                names.insert(name);
            }
            let mut names: Vec<u64> = names.into_iter().collect();
            names.sort();
            random.shuffle(&mut names);
            names.truncate(instances);
            let mut named: BTreeMap<u64, Vec<u8>> = BTreeMap::new();
            for name in names {
                named.entry(name >> 8).or_default().push(name as u8);
            }
            named.into_iter().collect()
        }
        4..=6 => {
            // IDs collide.
            let counts = match random.below(2) {
                0 => vec![1; instances],
                _ => split(random, instances),
            };
            let ids = colliding(random, kind, counts.len(), kind.ids());
            let numbers = counts.iter().map(|&count| random.different_bytes(count));
            ids.into_iter().zip(numbers).collect()
        }
        _ => {
            // All are neighbours.
            let counts = split(random, instances);
            let first = random.below(4) as u64;
            let numbers = counts.iter().map(|&count| random.different_bytes(count));
            (first..).zip(numbers).collect()
        }
    };
    named.sort();
    put_in_order(random, &mut named);
    named
}

/// So many numbers below `bound` of which many start at the same places.
fn colliding(random: &mut Random, kind: Kind, count: usize, bound: u64) -> Vec<u64> {
    // Numbers that collide in a table collide in those that are smaller too.
    let places = match random.below(8) {
        0 => kind.places.at_most(random.between(3, 9)),
        1..=4 => kind.places,
        _ => match kind.id_field {
            FieldKind::RegisterId => REGISTERS.places,
            _ => NODES.places,
        },
    };
    let starts = starts(random, places, count, bound);
    places.numbers(random, count, bound, starts)
}

/// Starting places that are those of enough numbers below `bound`.
fn starts(random: &mut Random, places: Places, count: usize, bound: u64) -> Range<usize> {
    let end = places.starts();
    let fewest = 2 * count * end / bound as usize + 1;
    let any = random.below(end);
    let wanted = match random.below(10) {
        0..=3 => end - 1..end,
        4 => end.saturating_sub(random.between(2, 16))..end,
        5..=7 => any..any + 1,
        8 => any..any + random.between(2, 8),
        _ => 0..end,
    };
    let last = wanted.end.clamp(fewest, end);
    wanted.start.min(last - fewest)..last
}

/// Puts items that rise in another order.
fn put_in_order<T>(random: &mut Random, items: &mut [T]) {
    match random.below(8) {
        0 | 1 => {}
        2 | 3 => items.reverse(),
        4 => random.shuffle(items),
        // Up and down in turn, as 2 1 4 3.
        5 | 6 => {
            let from = random.below(2).min(items.len());
            let pairs = items[from..].chunks_exact_mut(2);
            pairs.for_each(|pair| pair.swap(0, 1));
        }
        // One of them stands elsewhere.
        _ => {
            let from = random.below(items.len());
            let to = place_in(random, items.len());
            items.swap(from, to);
        }
    }
}

/// A place in a list that is not empty: often the first, the middle or the last.
fn place_in(random: &mut Random, length: usize) -> usize {
    match random.below(6) {
        0 => 0,
        1 => length / 2,
        2 | 3 => length - 1,
        _ => random.below(length),
    }
}

/// A case with the file, as it is or with a fault.
pub fn case_of(random: &mut Random, map: &FieldMap) -> Case {
    let instances = map.count(FieldKind::RegisterInstance);
    let with_root: Vec<u8> = map
        .fields_of(FieldKind::RootAttention)
        .map(|field| map.bytes[field.at])
        .collect();
    let mut file = map.bytes.clone();
    match random.below(24) {
        0..=5 if repeat_one_without_place(random, map, &mut file) => {}
        0..=8 => {}
        9..=11 => repeat_an_id(random, map, &mut file),
        12..=17 => {
            for _ in 0..*random.pick(&[1, 1, 1, 2, 5]) {
                rename(random, map, &mut file);
            }
        }
        18 | 19 => turn_children_back(random, map, &mut file),
        20 => {
            close_a_captured(random, map, &mut file);
        }
        21 | 22 => {
            capture_a_closed(random, map, &mut file);
        }
        _ => file = damaged_file(random, map),
    }
    case_on(random, file, instances, &with_root, 4)
}

/// Gives a register or a node the ID of one before it.
fn repeat_an_id(random: &mut Random, map: &FieldMap, bytes: &mut [u8]) {
    let mut kinds = kinds_of(map);
    random.shuffle(&mut kinds);
    for kind in kinds {
        let count = map.count(kind.id_field);
        if count > 1 {
            let second = 1 + place_in(random, count - 1);
            let first = place_in(random, second);
            copy_id(map, kind, first, second, bytes);
            return;
        }
    }
}

/// Gives a register or a node the ID of one before it that has no place left.
/// False if there is none.
fn repeat_one_without_place(random: &mut Random, map: &FieldMap, bytes: &mut [u8]) -> bool {
    let mut kinds = kinds_of(map);
    random.shuffle(&mut kinds);
    for kind in kinds {
        let places = kind.places.put(&ids(map, kind));
        let last = places.len() - 1;
        let without: Vec<usize> = (0..last).filter(|&at| places[at].is_none()).collect();
        if !without.is_empty() {
            let first = *random.pick(&without);
            let second = first + 1 + place_in(random, last - first);
            copy_id(map, kind, first, second, bytes);
            return true;
        }
    }
    false
}

fn copy_id(map: &FieldMap, kind: Kind, first: usize, second: usize, bytes: &mut [u8]) {
    let fields: Vec<Field> = map.fields_of(kind.id_field).collect();
    let from = fields[first].at..fields[first].at + fields[first].size;
    bytes.copy_within(from, fields[second].at);
}

fn number_at(bytes: &[u8]) -> u64 {
    let mut number = 0;
    for &byte in bytes {
        number = number << 8 | u64::from(byte);
    }
    number
}

/// Changes the name of a capture, an expression, a child or a root.
fn rename(random: &mut Random, map: &FieldMap, bytes: &mut [u8]) {
    let mut fields = Vec::new();
    for _ in 0..4 {
        let kind = *random.pick(&[
            FieldKind::CaptureRegister,
            FieldKind::CaptureRegister,
            FieldKind::ExpressionRegister,
            FieldKind::ExpressionRegister,
            FieldKind::ChildNode,
            FieldKind::ChildNode,
            FieldKind::RootNode,
        ]);
        fields = map.fields_of(kind).collect();
        if !fields.is_empty() {
            break;
        }
    }
    if fields.is_empty() {
        return;
    }
    let field = fields[place_in(random, fields.len())];
    let [registers, nodes] = kinds_of(map);
    let kind = match field.size {
        3 => registers,
        _ => nodes,
    };
    // The instance stands behind the ID.
    let own = &mut bytes[field.at..field.at + field.size + 1];
    let name = other_name(random, kind, &names(map, kind), number_at(own));
    own.copy_from_slice(&name.to_be_bytes()[8 - own.len()..]);
}

/// The name of another instance, or one near it or near the given one.
fn other_name(random: &mut Random, kind: Kind, names: &[u64], own: u64) -> u64 {
    let other = *random.pick(names);
    match random.below(4) {
        0 => other,
        1 => own & !0xFF | other & 0xFF,
        2 => near(random, kind, own),
        _ => near(random, kind, other),
    }
}

/// A name that differs from the given one in its number, in its ID or in a part
/// of that, or that only starts at the same place, or at the last one.
fn near(random: &mut Random, kind: Kind, name: u64) -> u64 {
    let bits = kind.id_bits + 8;
    let last = kind.places.starts() - 1;
    let start = match random.below(9) {
        0 => return name ^ 1 << random.below(8),
        1 => return name & !0xFF | u64::from(random.byte()),
        2 => return name ^ 1 << random.between(8, bits - 1),
        3 => return name ^ 1 << random.between(bits - 8, bits - 1),
        4 => return (name + *random.pick(&[1, 256, kind.names() - 1])) % kind.names(),
        5 => return like_but_for_upper_bits(random, kind, name),
        6 | 7 => kind.places.start(name),
        _ => last,
    };
    let numbers = kind
        .places
        .numbers(random, 1, kind.names(), start..start + 1);
    numbers[0]
}

/// A name that differs in its upper eight or 16 bits alone and starts at the same
/// place or not far before it, so that a search for it may come by the given one.
fn like_but_for_upper_bits(random: &mut Random, kind: Kind, name: u64) -> u64 {
    let upper = *random.pick(&[8, 16]);
    let lowest = kind.id_bits + 8 - upper;
    let start = kind.places.start(name);
    let others = (0..256).map(|_| name ^ (random.between(1, (1 << upper) - 1) as u64) << lowest);
    let before = |other: &u64| start.wrapping_sub(kind.places.start(*other));
    others.min_by_key(before).unwrap_or(name)
}

/// The ID and number of a register instance near this one. It may be absent.
pub fn name_like(random: &mut Random, id: u32, instance: u8) -> (u32, u8) {
    let (registers, nodes) = *random.pick(&CLASSES);
    let [kind, _] = kinds(registers, nodes);
    let name = near(random, kind, u64::from(id) << 8 | u64::from(instance));
    ((name >> 8) as u32, name as u8)
}

fn ids(map: &FieldMap, kind: Kind) -> Vec<u64> {
    let fields = map.fields_of(kind.id_field);
    fields
        .map(|field| number_at(&map.bytes[field.at..field.at + field.size]))
        .collect()
}

/// The names of all instances.
fn names(map: &FieldMap, kind: Kind) -> Vec<u64> {
    let mut id = 0;
    let mut names = Vec::new();
    for field in &map.fields {
        let value = &map.bytes[field.at..field.at + field.size];
        if field.kind == kind.id_field {
            id = number_at(value);
        } else if field.kind == kind.instance_field {
            names.push(id << 8 | number_at(value));
        }
    }
    names
}

/// How crowded tables for as many instances as a file has are with its register
/// IDs, the names of its register instances, its node IDs and the names of its
/// node instances.
pub fn crowds(map: &FieldMap) -> [Crowd; 4] {
    crowds_in(map, kinds_of(map))
}

/// The same in tables for as many instances as there may be.
pub fn crowds_of_the_largest(map: &FieldMap) -> [Crowd; 4] {
    crowds_in(map, [REGISTERS, NODES])
}

fn crowds_in(map: &FieldMap, [registers, nodes]: [Kind; 2]) -> [Crowd; 4] {
    [
        registers.places.crowd(&ids(map, registers)),
        registers.places.crowd(&names(map, registers)),
        nodes.places.crowd(&ids(map, nodes)),
        nodes.places.crowd(&names(map, nodes)),
    ]
}

#[cfg(test)]
mod tests {
    use super::*;
    use crate::layout;
    use crate::{checker, refusal};

    const FILES: usize = 3_000;

    fn number(file: &[u8]) -> u8 {
        checker::check(file).map_or_else(|refusal| refusal.number, |_| 0)
    }

    /// In many files many numbers of each of the four kinds start at one place,
    /// and some have no place, among them the first ones that have none.
    #[test]
    fn files_collide() {
        let mut random = Random::new(31);
        let mut collided = 0;
        // Of those in tables that are for as many as there may be.
        let mut in_the_largest = [[0; 4]; 2];
        let mut alike = [0; 4];
        let mut last_with_place = [0; 4];
        let mut first_without_place = [0; 4];
        let mut without_place = [0; 4];
        for _ in 0..FILES {
            let map = colliding_file(&mut random);
            let crowds = crowds(&map);
            let many = |crowd: &Crowd| crowd.most_at_one_start >= 4;
            collided += usize::from(crowds.iter().any(many));
            for (kind, crowd) in crowds.iter().enumerate() {
                alike[kind] += usize::from(many(crowd));
                let is_at_the_end = crowd.longest_search == 33 && crowd.most_at_one_start >= 33;
                last_with_place[kind] += usize::from(is_at_the_end && crowd.without_place == 0);
                first_without_place[kind] += usize::from(crowd.without_place == 1);
                without_place[kind] += usize::from(crowd.without_place > 1);
            }
            for (kind, crowd) in crowds_of_the_largest(&map).iter().enumerate() {
                in_the_largest[0][kind] += usize::from(many(crowd));
                in_the_largest[1][kind] += usize::from(crowd.without_place > 0);
            }
        }
        assert!(collided > FILES * 2 / 3, "{collided}");
        let [alike_there, without_place_there] = in_the_largest;
        assert!(
            alike_there.iter().all(|&n| n > FILES / 20),
            "{in_the_largest:?}"
        );
        assert!(
            without_place_there.iter().all(|&n| n > 20),
            "{in_the_largest:?}"
        );
        assert!(alike.iter().all(|&n| n > FILES / 10), "{alike:?}");
        let at_the_end = [last_with_place, first_without_place, without_place];
        assert!(
            at_the_end.iter().flatten().all(|&n| n > 10),
            "{at_the_end:?}"
        );
    }

    /// Files with one instance, with as many as there may be, and with one more.
    #[test]
    fn files_of_every_size() {
        let mut random = Random::new(32);
        let mut one = 0;
        // Of the station and of the library.
        let mut full = [[0; 2]; 2];
        let mut over = [[0; 2]; 2];
        let mut of_class = [0; CLASSES.len()];
        let mut longest = 0;
        for _ in 0..FILES {
            let map = colliding_file(&mut random);
            let counts = [REGISTERS, NODES].map(|kind| map.count(kind.instance_field));
            one += usize::from(counts == [1, 1]);
            for (of, limits) in [Limits::PROGRAM, Limits::LIBRARY].into_iter().enumerate() {
                let most = [limits.register_instances, limits.node_instances];
                for kind in 0..2 {
                    full[of][kind] += usize::from(counts[kind] == most[kind]);
                    over[of][kind] += usize::from(counts[kind] == most[kind] + 1);
                }
                let is_over = (0..2).any(|kind| counts[kind] > most[kind]);
                let expected = if map.bytes.len() > limits.bytes {
                    refusal::FILE_TOO_LONG
                } else if is_over {
                    refusal::TOO_MANY_INSTANCES
                } else {
                    0
                };
                let answer = checker::check_within(&map.bytes, limits);
                let number = answer.map_or_else(|refusal| refusal.number, |_| 0);
                assert_eq!(number, expected);
            }
            let has_room =
                |&(registers, nodes): &(usize, usize)| counts[0] <= registers && counts[1] <= nodes;
            if let Some(class) = CLASSES.iter().position(has_room) {
                of_class[class] += 1;
            }
            longest = longest.max(map.bytes.len());
        }
        assert!(one >= 50, "{one}");
        assert!(
            [full[0], over[0]].iter().flatten().all(|&n| n >= 20),
            "{full:?} {over:?}"
        );
        assert!(
            [full[1], over[1]].iter().flatten().all(|&n| n >= 1),
            "{full:?} {over:?}"
        );
        assert!(of_class.iter().all(|&n| n >= 40), "{of_class:?}");
        assert!(longest > 20_000, "{longest}");
    }

    /// Both kinds of IDs stand in every order.
    #[test]
    fn ids_in_every_order() {
        let mut random = Random::new(33);
        let mut seen = [[0; 4]; 2];
        for _ in 0..FILES {
            let map = colliding_file(&mut random);
            for (kind, seen) in [REGISTERS, NODES].into_iter().zip(&mut seen) {
                let ids = ids(&map, kind);
                let rises: Vec<bool> = ids.windows(2).map(|pair| pair[0] < pair[1]).collect();
                if rises.len() < 3 {
                    continue;
                }
                let order = if rises.iter().all(|&rise| rise) {
                    0
                } else if !rises.contains(&true) {
                    1
                } else if rises.windows(2).all(|pair| pair[0] != pair[1]) {
                    2
                } else {
                    3
                };
                seen[order] += 1;
            }
        }
        let fewest = FILES / 20;
        assert!(seen.iter().flatten().all(|&n| n > fewest), "{seen:?}");
    }

    /// Cases are accepted and refused, by an ID that is the one before it, the
    /// first one or another, and by names of every kind.
    #[test]
    fn cases_of_every_outcome() {
        let mut random = Random::new(34);
        let mut seen = [0; 20];
        let mut collided = [0; 20];
        for _ in 0..FILES {
            let map = colliding_file(&mut random);
            let case = case_of(&mut random, &map);
            let number = usize::from(number(&case.file));
            seen[number] += 1;
            let without_place = crowds(&map).iter().any(|crowd| crowd.without_place > 0);
            collided[number] += usize::from(without_place);
        }
        assert!(seen[0] > FILES / 3, "{seen:?}");
        for number in [
            refusal::DUPLICATE,
            refusal::ABSENT,
            refusal::UNFIT_REGISTER,
            refusal::CYCLE,
        ] {
            let number = usize::from(number);
            assert!(seen[number] >= FILES / 40, "{number} {seen:?}");
            assert!(collided[number] >= 10, "{number} {collided:?}");
        }
        assert!(collided[0] > FILES / 20, "{collided:?}");
    }

    /// An ID that is there twice is refused where it stands the second time: at
    /// the second place, at the last one and between.
    #[test]
    fn ids_twice() {
        let mut random = Random::new(35);
        let mut seen = [[0; 3]; 2];
        for _ in 0..FILES / 2 {
            let map = colliding_file(&mut random);
            let mut file = map.bytes.clone();
            repeat_an_id(&mut random, &map, &mut file);
            let Err(refused) = layout::read(&file) else {
                continue;
            };
            if refused.number != refusal::DUPLICATE {
                continue;
            }
            for (kind, seen) in [REGISTERS, NODES].into_iter().zip(&mut seen) {
                let fields: Vec<Field> = map.fields_of(kind.id_field).collect();
                let place = fields.iter().position(|field| field.at == refused.place);
                match place {
                    Some(1) => seen[0] += 1,
                    Some(place) if place + 1 == fields.len() => seen[1] += 1,
                    Some(_) => seen[2] += 1,
                    None => {}
                }
            }
        }
        assert!(seen.iter().flatten().all(|&n| n > 40), "{seen:?}");
    }

    /// Changed names are those of instances, or nearly, or start at the same
    /// place.
    #[test]
    fn changed_names() {
        let mut random = Random::new(36);
        for kind in [REGISTERS, NODES] {
            let mut seen = [0; 6];
            for _ in 0..200 {
                let names = colliding(&mut random, kind, 40, kind.names());
                let own = names[0];
                for _ in 0..10 {
                    let name = other_name(&mut random, kind, &names, own);
                    assert!(name < kind.names());
                    let upper = (0xFF << kind.id_bits) as u64;
                    let kinds = [
                        names.contains(&name),
                        name != own && name >> 8 == own >> 8,
                        name != own && name & 0xFF == own & 0xFF,
                        name != own && (name ^ own) & !upper == 0,
                        kind.places.start(name) == kind.places.start(own) && !names.contains(&name),
                        kind.places.start(name) == kind.places.starts() - 1,
                    ];
                    for (seen, is_so) in seen.iter_mut().zip(kinds) {
                        *seen += usize::from(is_so);
                    }
                }
            }
            assert!(seen.iter().all(|&n| n > 30), "{seen:?}");
        }
    }
}
