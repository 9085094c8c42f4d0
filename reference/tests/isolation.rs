//! Isolation: samples of several node instances, and the definition by chains.

use std::collections::{BTreeMap, BTreeSet};

use reference::generate::{self, Case, Random};
use reference::tree::{Expression, NodeInstance, NodeName, Operation, RegisterName, Tree};
use reference::{
    bits_above_silent, cases, hex, isolate, layout, readings, report, Accepted, Refusal,
};

const START: &str = "43 48 49 50 44 41 54 41 00 00 00 01 01";
/// Four registers of ID 1 to 4, each with instance 0: 13 to 63.
const REGISTERS: &str = "52 45 47 53 00 00 04 \
    00 00 01 01 80 01 00 00 00 10 00 00 00 02 01 80 01 00 00 00 20 00 \
    00 00 03 01 80 01 00 00 00 30 00 00 00 04 01 80 01 00 00 00 40 00";
const ROOTS: &str = "52 4F 4F 54 01 03 00 01 00";

/// Node 1 has the children 2 at bit 0 and 3 at bit 63, these have the child 4
/// at bit 8. The node of ID n has register n as its rule. Number bytes: 74 of
/// node 1, 96 of node 4, 110 of node 3, 128 of node 2; the expressions stand 5
/// bytes later.
fn diamond() -> Vec<u8> {
    let nodes = "4E 4F 44 45 00 04 \
        00 01 01 01 00 00 01 02 03 01 00 00 01 00 00 00 02 00 3F 00 03 00 \
        00 04 01 01 00 00 01 00 03 01 00 00 04 00 \
        00 03 01 01 00 00 01 01 03 01 00 00 03 00 08 00 04 00 \
        00 02 01 01 00 00 01 01 03 01 00 00 02 00 08 00 04 00";
    hex::decode(&[START, REGISTERS, nodes, ROOTS].concat()).unwrap()
}

const BIT_0: u64 = 1 << 63;
const BIT_8: u64 = 1 << 55;
const BIT_63: u64 = 1;

fn isolated(
    file: &[u8],
    words: &[u64],
    read: &[u8],
    room: usize,
) -> (Result<(usize, usize), Refusal>, Vec<u8>) {
    let mut list = vec![0xEE; room];
    let answer = isolate(file, 3, words, read, &mut list);
    (answer, list)
}

/// The record of a bit of a node's instance 0, for type 3: model/level 1, slot 0.
fn record(node: u8, bit: u8) -> Vec<u8> {
    vec![0, 0, 0, 1, 3, bit, 0, node, 0, 0, 0, 0, 0, 0, 0, 0]
}

fn refused<T>(number: u8, place: usize) -> Result<T, Refusal> {
    Err(Refusal { number, place })
}

#[test]
fn the_bottom_of_a_diamond_is_listed_once() {
    let words = [BIT_0 | BIT_63, BIT_8, BIT_8, 1 << 60];
    let mut expected = record(4, 3);
    expected.extend([0xEE; 11]);
    assert_eq!(
        isolated(&diamond(), &words, &[1; 4], 27),
        (Ok((1, 4)), expected)
    );
}

#[test]
fn one_side_of_a_diamond() {
    let words = [BIT_0, BIT_8, u64::MAX, BIT_63];
    let expected = record(4, 63);
    assert_eq!(
        isolated(&diamond(), &words, &[1; 4], 16),
        (Ok((1, 3)), expected)
    );
    // Node 3 is not reached, so its register may be unread.
    let (answer, _) = isolated(&diamond(), &words, &[1, 1, 0, 1], 16);
    assert_eq!(answer, Ok((1, 3)));
}

#[test]
fn records_follow_the_file_and_then_the_bits() {
    let words = [u64::MAX, BIT_8 | BIT_0, BIT_63, 0xC000_0000_0000_0000];
    let (answer, list) = isolated(&diamond(), &words, &[1; 4], 16 * 100);
    // Node 1: bits 1 to 62; node 4: 0 and 1; node 3: 63; node 2: 0.
    assert_eq!(answer, Ok((66, 4)));
    let records: Vec<(u8, u8)> = list.chunks(16).take(66).map(|r| (r[7], r[5])).collect();
    let mut expected: Vec<(u8, u8)> = (1..=62).map(|bit| (1, bit)).collect();
    expected.extend([(4, 0), (4, 1), (3, 63), (2, 0)]);
    assert_eq!(records, expected);
    assert!(list[66 * 16..].iter().all(|&byte| byte == 0xEE));

    assert_eq!(
        isolated(&diamond(), &words, &[1; 4], 66 * 16 - 1),
        (refused(19, 66), vec![0xEE; 66 * 16 - 1])
    );
}

#[test]
fn the_first_unread_register_in_file_order() {
    let words = [BIT_0 | BIT_63, BIT_8, BIT_8, 0];
    let answer = |read: [u8; 4]| isolated(&diamond(), &words, &read, 0).0;
    // Node 3 stands before node 2, and node 4 before both.
    assert_eq!(answer([1, 0, 0, 1]), refused(18, 115));
    assert_eq!(answer([1, 0, 1, 1]), refused(18, 133));
    assert_eq!(answer([1, 0, 1, 0]), refused(18, 101));
    // Node 4 is not reached behind two unread registers.
    assert_eq!(answer([1, 0, 0, 0]), refused(18, 115));
    assert_eq!(answer([0, 0, 0, 0]), refused(18, 79));
}

#[test]
fn unread_comes_before_no_room() {
    let words = [u64::MAX, 0, 0, 0];
    let (answer, _) = isolated(&diamond(), &words, &[1, 0, 1, 1], 0);
    assert_eq!(answer, refused(18, 133));
}

#[test]
fn every_register_of_a_rule_counts() {
    // AND of 0, register 1 and NOT of register 2: 79 AND, 81 constant, 90
    // register 1, 95 NOT, 96 register 2.
    let nodes = "4E 4F 44 45 00 01 00 01 01 01 00 00 01 00 \
        03 10 03 02 00 00 00 00 00 00 00 00 01 00 00 01 00 12 01 00 00 02 00";
    let file = hex::decode(&[START, REGISTERS, nodes, ROOTS].concat()).unwrap();
    let answer = |read: [u8; 4]| isolated(&file, &[u64::MAX; 4], &read, 0).0;
    assert_eq!(answer([1, 1, 0, 0]), Ok((0, 1)));
    assert_eq!(answer([0, 1, 1, 1]), refused(18, 90));
    assert_eq!(answer([1, 0, 1, 1]), refused(18, 96));
    assert_eq!(answer([0, 0, 0, 0]), refused(18, 90));
}

#[test]
fn a_child_without_the_rule_is_reached_and_silent() {
    // Node 2 has only a rule for type 1, with an unread register.
    let nodes = "4E 4F 44 45 00 02 \
        00 01 01 01 00 00 01 01 03 01 00 00 01 00 00 00 02 00 \
        00 02 01 01 00 00 01 00 01 01 00 00 02 00";
    let file = hex::decode(&[START, REGISTERS, nodes, ROOTS].concat()).unwrap();
    let expected = record(1, 0);
    assert_eq!(
        isolated(&file, &[BIT_0, BIT_0, 0, 0], &[1, 0, 0, 0], 16),
        (Ok((1, 2)), expected)
    );
    assert_eq!(
        isolated(&file, &[BIT_0, BIT_0, 0, 0], &[1, 0, 0, 0], 15),
        (refused(19, 1), vec![0xEE; 15])
    );
}

#[test]
fn the_silent_bottom_of_a_diamond() {
    // Node 3 stands before node 2.
    let expected = [record(3, 8), record(2, 8)].concat();
    let words = [BIT_0 | BIT_63, BIT_8, BIT_8, 0];
    assert_eq!(
        isolated(&diamond(), &words, &[1; 4], 32),
        (Ok((2, 4)), expected)
    );
    // With another bit of each.
    let expected = [record(3, 8), record(3, 9), record(2, 7), record(2, 8)].concat();
    let words = [BIT_0 | BIT_63, BIT_8 | 1 << 56, BIT_8 | 1 << 54, 0];
    assert_eq!(
        isolated(&diamond(), &words, &[1; 4], 64),
        (Ok((4, 4)), expected)
    );
    assert_eq!(
        isolated(&diamond(), &words, &[1; 4], 63),
        (refused(19, 4), vec![0xEE; 63])
    );
    // Unread, it is refused whatever the room.
    assert_eq!(
        isolated(&diamond(), &words, &[1, 1, 1, 0], 0),
        (refused(18, 101), vec![])
    );
}

#[test]
fn the_silent_sides_of_a_diamond() {
    // Both of them; node 4 is not reached, and may be unread.
    let words = [u64::MAX, 0, 0, u64::MAX];
    let (answer, list) = isolated(&diamond(), &words, &[1, 1, 1, 0], 64 * 16);
    assert_eq!(answer, Ok((64, 3)));
    let bits = list.chunks(16).map(|record| (record[7], record[5]));
    assert!(bits.eq((0..64).map(|bit| (1, bit))));
    // One of them.
    let words = [BIT_0 | BIT_63, 0, BIT_8, BIT_63];
    let expected = [record(1, 0), record(4, 63)].concat();
    assert_eq!(
        isolated(&diamond(), &words, &[1; 4], 32),
        (Ok((2, 4)), expected)
    );
}

#[test]
fn a_silent_root_lists_nothing() {
    let words = [0, u64::MAX, u64::MAX, u64::MAX];
    assert_eq!(
        isolated(&diamond(), &words, &[1, 0, 0, 0], 0),
        (Ok((0, 1)), vec![])
    );
}

#[test]
fn hand_made_calls() {
    let mut names = BTreeSet::new();
    for case in cases::isolations() {
        let mut list = vec![0xEE; case.room];
        let answer = isolate(&case.file, 3, &case.words, &case.read, &mut list);
        let mut expected_list = vec![0xEE; case.room];
        if let Ok(found) = &case.answer {
            let records = found.records.concat();
            expected_list[..records.len()].copy_from_slice(&records);
        }
        let expected = case.answer.clone();
        let expected = expected.map(|found| (found.records.len(), found.steps));
        assert_eq!(answer, expected, "{}", case.name);
        assert_eq!(list, expected_list, "{}", case.name);

        // The station's list has room for all of them.
        if !matches!(case.answer, Err(Refusal { number: 19, .. })) {
            let tree = layout::read(&case.file).unwrap();
            let readings_file = readings::encode(&tree, &case.words, &case.read);
            let text = report::report(&case.file, 3, &readings_file);
            assert_eq!(text, report::text(&case.answer), "{}", case.name);
        }
        assert!(names.insert(case.name));
    }
    assert!(names.len() >= 400, "{}", names.len());
}

// The definition by chains, bit by bit and without marks.

struct Model<'a> {
    tree: &'a Tree,
    attention_type: u8,
    values: BTreeMap<(u32, u8), Option<u64>>,
}

impl Model<'_> {
    fn instance(&self, name: NodeName) -> usize {
        let mut instances = self.tree.node_instances.iter();
        instances
            .position(|instance| instance.name == name)
            .unwrap()
    }

    fn wanted<'b>(&self, instance: &'b NodeInstance) -> Option<&'b Expression> {
        instance
            .rule(self.attention_type)
            .map(|rule| &rule.expression)
    }

    fn named(expression: &Expression, names: &mut Vec<(usize, RegisterName)>) {
        match &expression.operation {
            Operation::Register(name) => names.push((expression.at, *name)),
            Operation::Constant(_) => {}
            Operation::And(operands) | Operation::Or(operands) => {
                operands
                    .iter()
                    .for_each(|operand| Self::named(operand, names));
            }
            Operation::Not(operand)
            | Operation::ShiftLeft(_, operand)
            | Operation::ShiftRight(_, operand) => Self::named(operand, names),
        }
    }

    fn unread(&self, instance: usize) -> Option<usize> {
        let mut names = Vec::new();
        if let Some(expression) = self.wanted(&self.tree.node_instances[instance]) {
            Self::named(expression, &mut names);
        }
        let unread = names
            .into_iter()
            .filter(|(_, name)| self.values[&(name.id, name.instance)].is_none());
        unread.map(|(at, _)| at).min()
    }

    /// Whether a bit of the expression is 1, for bits outside the register
    /// too.
    fn bit(&self, expression: &Expression, bit: i32) -> bool {
        let of_word = |word: u64| word & 1 << (63 - bit) != 0;
        if !(0..64).contains(&bit) {
            return false;
        }
        match &expression.operation {
            Operation::Register(name) => of_word(self.values[&(name.id, name.instance)].unwrap()),
            Operation::Constant(word) => of_word(*word),
            Operation::And(operands) => operands.iter().all(|operand| self.bit(operand, bit)),
            Operation::Or(operands) => operands.iter().any(|operand| self.bit(operand, bit)),
            Operation::Not(operand) => !self.bit(operand, bit),
            Operation::ShiftLeft(shift, operand) => self.bit(operand, bit + i32::from(*shift)),
            Operation::ShiftRight(shift, operand) => self.bit(operand, bit - i32::from(*shift)),
        }
    }

    fn is_active(&self, instance: usize, bit: u8) -> bool {
        self.unread(instance).is_none()
            && self
                .wanted(&self.tree.node_instances[instance])
                .is_some_and(|expression| self.bit(expression, i32::from(bit)))
    }

    fn shows_nothing(&self, instance: usize) -> bool {
        (0..64).all(|bit| !self.is_active(instance, bit))
    }

    /// Every chain that begins at the instance, one link after the other, and
    /// the bits to list at the ends of chains: "active bits without a child, and
    /// those whose child shows nothing".
    fn follow(
        &self,
        instance: usize,
        reached: &mut BTreeSet<usize>,
        ends: &mut BTreeSet<(usize, u8)>,
    ) {
        reached.insert(instance);
        for bit in 0..64 {
            if self.is_active(instance, bit) {
                let children = &self.tree.node_instances[instance].children;
                let child = children.iter().find(|child| child.bit == bit);
                let child = child.map(|child| self.instance(child.node));
                if child.is_none_or(|child| self.shows_nothing(child)) {
                    ends.insert((instance, bit));
                }
                if let Some(child) = child {
                    self.follow(child, reached, ends);
                }
            }
        }
    }

    fn answer(&self, root: usize, list: &mut [u8]) -> Result<(usize, usize), Refusal> {
        let mut reached = BTreeSet::new();
        let mut ends = BTreeSet::new();
        self.follow(root, &mut reached, &mut ends);
        if let Some(place) = reached.iter().find_map(|&instance| self.unread(instance)) {
            return refused(18, place);
        }
        if ends.len() > list.len() / 16 {
            return refused(19, ends.len());
        }
        for (record, &(instance, bit)) in ends.iter().enumerate() {
            let name = self.tree.node_instances[instance].name;
            let [high, low] = name.id.to_be_bytes();
            let mut bytes = self.tree.model.to_be_bytes().to_vec();
            bytes.extend([self.attention_type, bit, high, low, name.instance]);
            bytes.extend([0; 7]);
            list[record * 16..record * 16 + 16].copy_from_slice(&bytes);
        }
        Ok((ends.len(), reached.len()))
    }
}

/// A random case is small enough for the number of its chains.
fn is_small(tree: &Tree) -> bool {
    let entries: usize = tree.node_instances.iter().map(|i| i.children.len()).sum();
    entries <= 16
}

#[test]
fn isolation_agrees_with_the_chains() {
    let mut random = Random::new(3);
    let mut seen = BTreeMap::new();
    let mut above_silent = 0;
    for _ in 0..40_000 {
        let case = generate::case(&mut random);
        let mut list = vec![0xEE; case.room];
        let answer = isolate(
            &case.file,
            case.attention_type,
            &case.words,
            &case.read,
            &mut list,
        );
        let mut expected_list = vec![0xEE; case.room];
        let number = answer.map_or_else(|refusal| refusal.number, |_| 0);
        if matches!(number, 0 | 18 | 19) {
            let accepted = Accepted::read(&case.file).unwrap();
            if !is_small(&accepted.tree) {
                continue;
            }
            let model = model(&accepted, &case);
            let root = accepted.tree.roots.iter();
            let mut root = root.filter(|root| root.attention_type == case.attention_type);
            let root = model.instance(root.next().unwrap().node);
            assert_eq!(answer, model.answer(root, &mut expected_list));
            let Case { words, read, .. } = &case;
            let bits = bits_above_silent(&case.file, case.attention_type, words, read);
            above_silent += usize::from(bits > 0);
        }
        assert_eq!(list, expected_list);
        *seen.entry(number).or_insert(0) += 1;
    }
    assert!(seen[&0] > 5_000 && seen[&18] > 500 && seen[&19] > 500);
    assert!(above_silent > 1_000, "{above_silent}");
}

fn model<'a>(accepted: &'a Accepted, case: &Case) -> Model<'a> {
    let tree = &accepted.tree;
    let instances = tree.register_instances.iter();
    let values = instances
        .zip(case.words.iter().zip(&case.read))
        .map(|(instance, (&word, &read))| {
            let id = tree.registers[instance.register].id;
            ((id, instance.number), (read == 1).then_some(word))
        })
        .collect();
    Model {
        tree,
        attention_type: case.attention_type,
        values,
    }
}

/// Readings that agree on what the reached wanted rules name give the same
/// answer.
#[test]
fn other_readings_change_nothing() {
    let mut random = Random::new(4);
    let mut compared = 0;
    for _ in 0..20_000 {
        let case = generate::case(&mut random);
        let run = |words: &[u64], read: &[u8]| {
            let mut list = vec![0xEE; case.room];
            let answer = isolate(&case.file, case.attention_type, words, read, &mut list);
            (answer, list)
        };
        let first = run(&case.words, &case.read);
        let number = first.0.map_or_else(|refusal| refusal.number, |_| 0);
        if !matches!(number, 0 | 18 | 19) {
            continue;
        }
        let accepted = Accepted::read(&case.file).unwrap();
        if !is_small(&accepted.tree) {
            continue;
        }
        let model = model(&accepted, &case);
        let roots = &accepted.tree.roots;
        let root = roots
            .iter()
            .find(|r| r.attention_type == case.attention_type);
        let mut reached = BTreeSet::new();
        let root = model.instance(root.unwrap().node);
        model.follow(root, &mut reached, &mut BTreeSet::new());
        let mut names = Vec::new();
        for instance in reached {
            if let Some(expression) = model.wanted(&accepted.tree.node_instances[instance]) {
                Model::named(expression, &mut names);
            }
        }
        let named: BTreeSet<usize> = names
            .into_iter()
            .map(|(_, name)| accepted.index.register_instance(name).unwrap())
            .collect();
        let (mut words, mut read) = (case.words.clone(), case.read.clone());
        for position in 0..words.len() {
            if !named.contains(&position) {
                words[position] = random.next();
                read[position] = random.below(2) as u8;
            } else if read[position] == 0 {
                words[position] = random.next();
            }
        }
        assert_eq!(run(&words, &read), first);
        compared += 1;
    }
    assert!(compared > 5_000);
}
