//! Files at the limits, one beyond them, and files to measure with. They are the
//! same each time.

use std::ops::Range;

use crate::generate::{Places, Random};
use crate::layout::{
    Limits, EXPRESSION_AND, EXPRESSION_NOT, EXPRESSION_OR, EXPRESSION_REGISTER,
    EXPRESSION_SHIFT_LEFT, EXPRESSION_SHIFT_RIGHT, MAX_EXPRESSION_LEVEL, READABLE, WRITABLE,
};

/// Sample B1.
pub const B1: [u8; 60] = *b"CHIPDATA\x00\x00\x00\x01\x01\
    REGS\x00\x00\x01\x00\x00\x01\x01\x80\x01\x00\x00\x00\x10\x00\
    NODE\x00\x01\x00\x01\x01\x01\x00\x00\x01\x00\x03\x01\x00\x00\x01\x00\
    ROOT\x01\x03\x00\x01\x00";

/// The attention type that the files here have rules and a root for.
pub const ATTENTION_TYPE: u8 = 3;

const ROOTS: [u8; 9] = *b"ROOT\x01\x03\x00\x01\x00";

/// The start, and the register instances in registers of at most
/// `in_a_register` instances: IDs from 1 up, instances from 0 up, type 1.
fn start(instances: usize, in_a_register: usize) -> Vec<u8> {
    let registers = instances.div_ceil(in_a_register);
    start_with(&Order::Rising.ids(registers), instances, in_a_register)
}

/// The same with these IDs.
fn start_with(ids: &[u32], instances: usize, in_a_register: usize) -> Vec<u8> {
    let mut file = b"CHIPDATA\x00\x00\x00\x01\x01REGS".to_vec();
    file.extend(&(ids.len() as u32).to_be_bytes()[1..]);
    for (register, id) in ids.iter().enumerate() {
        let count = in_a_register.min(instances - register * in_a_register);
        file.extend(&id.to_be_bytes()[1..]);
        file.extend([1, READABLE, count as u8]);
        for number in 0..count {
            file.extend([number as u8, 0, 0, register as u8, number as u8]);
        }
    }
    file
}

/// The name of a register instance, by its position.
fn register_name(position: usize, in_a_register: usize) -> [u8; 4] {
    let [_, a, b, c] = ((position / in_a_register) as u32 + 1).to_be_bytes();
    [a, b, c, (position % in_a_register) as u8]
}

/// The order in which the IDs from 1 up stand in a file.
#[derive(Clone, Copy, Debug, PartialEq, Eq)]
pub enum Order {
    Rising,
    Falling,
    Shuffled,
    /// Down and up in turn: 2 1 4 3.
    Alternating,
}

pub const ORDERS: [Order; 4] = [
    Order::Rising,
    Order::Falling,
    Order::Shuffled,
    Order::Alternating,
];

impl Order {
    fn ids(self, count: usize) -> Vec<u32> {
        let mut ids: Vec<u32> = (1..=count as u32).collect();
        match self {
            Order::Rising => {}
            Order::Falling => ids.reverse(),
            Order::Shuffled => {
                let mut random = Random::new(count as u64);
                for left in (1..count).rev() {
                    ids.swap(left, random.below(left + 1));
                }
            }
            Order::Alternating => {
                let pairs = ids.chunks_exact_mut(2);
                pairs.for_each(|pair| pair.swap(0, 1));
            }
        }
        ids
    }
}

/// The name of the instance 0 of a register.
fn name_of(id: u32) -> [u8; 4] {
    let [_, a, b, c] = id.to_be_bytes();
    [a, b, c, 0]
}

/// What a node instance has beside its number, 0. Names of captured registers,
/// its one rule, and bits and positions of its children.
struct Instance {
    captures: Vec<[u8; 4]>,
    rule: Vec<u8>,
    children: Vec<(u8, usize)>,
}

/// Nodes of type 1 with IDs from 1 up and one instance each.
struct Nodes {
    instances: Vec<Instance>,
}

impl Nodes {
    /// `count` instances, each with a register as its rule.
    fn plain(count: usize, register: impl Fn(usize) -> [u8; 4]) -> Self {
        let instance = |position| {
            let mut rule = vec![EXPRESSION_REGISTER];
            rule.extend(register(position));
            Instance {
                captures: Vec::new(),
                rule,
                children: Vec::new(),
            }
        };
        Nodes {
            instances: (0..count).map(instance).collect(),
        }
    }

    /// The bytes of all nodes.
    fn bytes(&self) -> usize {
        let instances = self.instances.iter();
        instances
            .map(|instance| {
                let names = instance.captures.len() + instance.children.len();
                9 + 4 * names + instance.rule.len()
            })
            .sum()
    }

    /// The file with the root at the first node.
    fn write(&self, file: Vec<u8>) -> Vec<u8> {
        self.write_with(&Order::Rising.ids(self.instances.len()), 0, file)
    }

    /// The file with these IDs, and the root at the node of this position.
    fn write_with(&self, ids: &[u32], root: usize, mut file: Vec<u8>) -> Vec<u8> {
        let id_of = |position: usize| (ids[position] as u16).to_be_bytes();
        file.extend(b"NODE");
        file.extend((self.instances.len() as u16).to_be_bytes());
        for (position, instance) in self.instances.iter().enumerate() {
            file.extend(id_of(position));
            file.extend([1, 1, 0]);
            file.push(instance.captures.len() as u8);
            file.push(1);
            file.push(instance.children.len() as u8);
            file.extend(instance.captures.concat());
            file.push(ATTENTION_TYPE);
            file.extend(&instance.rule);
            for &(bit, child) in &instance.children {
                file.push(bit);
                file.extend(id_of(child));
                file.push(0);
            }
        }
        file.extend(ROOTS);
        let root_at = file.len() - 3;
        file[root_at..root_at + 2].copy_from_slice(&id_of(root));
        file
    }
}

/// So many register instances; the one rule names the last of them.
pub fn register_instances(instances: usize, in_a_register: usize) -> Vec<u8> {
    let last = register_name(instances - 1, in_a_register);
    Nodes::plain(1, |_| last).write(start(instances, in_a_register))
}

/// So many node instances, each with its own register as its rule.
pub fn node_instances(instances: usize) -> Vec<u8> {
    Nodes::plain(instances, |position| register_name(position, 1)).write(start(instances, 1))
}

/// So many node instances in nodes of at most `in_a_node` instances, IDs from 1
/// up and instances from 0 up. The one register is the rule of them all.
pub fn short_node_instances(instances: usize, in_a_node: usize) -> Vec<u8> {
    let mut file = start(1, 1);
    file.extend(b"NODE");
    file.extend((instances.div_ceil(in_a_node) as u16).to_be_bytes());
    for position in 0..instances {
        let (node, number) = (position / in_a_node, position % in_a_node);
        if number == 0 {
            file.extend((node as u16 + 1).to_be_bytes());
            file.extend([1, in_a_node.min(instances - position) as u8]);
        }
        file.extend([number as u8, 0, 1, 0, ATTENTION_TYPE, EXPRESSION_REGISTER]);
        file.extend(register_name(0, 1));
    }
    file.extend(ROOTS);
    file
}

/// A file of as many bytes as there may be and `more`, with as many captures as
/// it holds, of as many register instances as there may be in turn.
pub fn captures(limits: Limits, more: usize) -> Vec<u8> {
    let file = start(limits.register_instances, 128);
    let name = |position| register_name(position, 128);
    full_of_captures(file, limits, limits.register_instances, name, more)
}

/// A file of as many bytes as there may be and `more` that begins with these
/// registers, with as many captures as it holds, of the first `captured` register
/// instances in turn.
fn full_of_captures(
    file: Vec<u8>,
    limits: Limits,
    captured: usize,
    name: impl Fn(usize) -> [u8; 4],
    more: usize,
) -> Vec<u8> {
    let mut nodes = Nodes::plain(limits.node_instances, &name);
    let room = limits.bytes + more - file.len() - 6 - ROOTS.len() - nodes.bytes();
    for capture in 0..room / 4 {
        nodes.instances[capture % limits.node_instances]
            .captures
            .push(name(capture * 7 % captured));
    }
    for _ in 0..room % 4 {
        nodes.instances[0].rule.insert(0, EXPRESSION_NOT);
    }
    nodes.write(file)
}

/// A file that is not too long, whose rules are as long as it holds and go down
/// to the highest level, in all operations.
pub fn deep_expressions(limits: Limits) -> Vec<u8> {
    let file = start(limits.register_instances, 128);
    let name = |position| register_name(position, 128);
    let mut nodes = Nodes::plain(limits.node_instances, name);
    let mut left = limits.bytes - file.len() - 6 - ROOTS.len() - nodes.bytes();
    for (position, instance) in nodes.instances.iter_mut().enumerate() {
        let rule = &mut instance.rule;
        let before = rule.len();
        let share = left / (limits.node_instances - position);
        *rule = deep_rule(position, share + before);
        left -= rule.len() - before;
    }
    nodes.write(file)
}

/// An OR of rows that go down to the highest level, with a register at the end
/// of each.
fn deep_rule(position: usize, most_bytes: usize) -> Vec<u8> {
    let mut row = Vec::new();
    for level in 2..MAX_EXPRESSION_LEVEL {
        match level % 4 {
            0 => row.extend([EXPRESSION_SHIFT_LEFT, 3]),
            1 => row.extend([EXPRESSION_SHIFT_RIGHT, 3]),
            2 => row.push(EXPRESSION_NOT),
            _ => {
                row.extend([EXPRESSION_AND, 2, EXPRESSION_REGISTER]);
                row.extend(register_name(position * 3 + level, 128));
            }
        }
    }
    row.push(EXPRESSION_REGISTER);
    row.extend(register_name(position * 4 + 3, 128));
    let rows = (most_bytes.saturating_sub(2) / row.len()).clamp(2, 255);
    let mut rule = vec![EXPRESSION_OR, rows as u8];
    rule.extend(row.repeat(rows));
    rule
}

/// Node instances that each have a register of their own as their rule, and
/// children at the first bits, by position.
pub fn graph(children: &[Vec<usize>], root: usize) -> Vec<u8> {
    graph_from(0, children, root)
}

/// The same with the first child at this bit, the second at the next one, and
/// so on.
fn graph_from(first_bit: u8, children: &[Vec<usize>], root: usize) -> Vec<u8> {
    let mut nodes = Nodes::plain(children.len(), |position| register_name(position, 1));
    for (instance, children) in nodes.instances.iter_mut().zip(children) {
        instance.children = (first_bit..).zip(children.iter().copied()).collect();
    }
    let ids = Order::Rising.ids(children.len());
    nodes.write_with(&ids, root, start(children.len(), 1))
}

/// So many node instances, each but the last with `children` children at its
/// first bits, all of them earlier in the file where `backward`; the root is then
/// the last. Each has a register of its own. The next instance is among the
/// children, so a chain may reach them all.
pub fn children(instances: usize, children: usize, backward: bool) -> Vec<u8> {
    let places: Vec<usize> = match backward {
        false => (0..instances).collect(),
        true => (0..instances).rev().collect(),
    };
    graph(&row(children, &places), places[0])
}

/// As [`children`] with one child each, and one register for all of them.
pub fn row_of_one_register(instances: usize, backward: bool) -> Vec<u8> {
    let mut nodes = Nodes::plain(instances, |_| register_name(0, 1));
    let last = instances - 1;
    for (position, instance) in nodes.instances.iter_mut().enumerate() {
        instance.children = match backward {
            false if position < last => vec![(0, position + 1)],
            true if position > 0 => vec![(0, position - 1)],
            _ => Vec::new(),
        };
    }
    let root = if backward { last } else { 0 };
    nodes.write_with(&Order::Rising.ids(instances), root, start(1, 1))
}

/// As [`children`] forward with one child each, at this bit.
pub fn row_at(instances: usize, bit: u8) -> Vec<u8> {
    let places: Vec<usize> = (0..instances).collect();
    graph_from(bit, &row(1, &places), 0)
}

/// Readings for [`children`] forward: every fourth instance has all bits, the
/// first one of them the root's, and the others show nothing.
pub fn every_fourth(instances: usize) -> Vec<u64> {
    let word = |position| if position % 4 == 0 { u64::MAX } else { 0 };
    (0..instances).map(word).collect()
}

/// The children of each place: the `children` places that follow it in the
/// row, or as many as there are.
fn row(children: usize, places: &[usize]) -> Vec<Vec<usize>> {
    let mut all = vec![Vec::new(); places.len()];
    for (rank, &place) in places.iter().enumerate() {
        let following = &places[rank + 1..];
        all[place] = following[..children.min(following.len())].to_vec();
    }
    all
}

/// As [`children`], with parents before and behind their children.
pub fn mixed_children(instances: usize, children: usize) -> Vec<u8> {
    let places = Order::Shuffled.ids(instances);
    let places: Vec<usize> = places.iter().map(|&place| place as usize - 1).collect();
    graph(&row(children, &places), places[0])
}

/// [`MOST_CHILDREN`] children forward each, and the last instance has the one
/// before it as a child: they are the only ones on a cycle.
pub fn late_cycle(instances: usize) -> Vec<u8> {
    let last = instances - 1;
    let places: Vec<usize> = (0..=last).collect();
    let mut children = row(MOST_CHILDREN, &places);
    children[last].push(last - 1);
    graph(&children, 0)
}

/// So many registers of one instance, their IDs in this order; the one rule names
/// the last of them.
pub fn registers_in(order: Order, registers: usize) -> Vec<u8> {
    registers_with(&order.ids(registers))
}

/// Registers of one instance with these IDs; the one rule names the last of
/// them.
fn registers_with(ids: &[u32]) -> Vec<u8> {
    let last = name_of(ids[ids.len() - 1]);
    Nodes::plain(1, |_| last).write(start_with(ids, ids.len(), 1))
}

/// So many nodes of one instance, and as many registers, their IDs in this order.
pub fn nodes_in(order: Order, nodes: usize) -> Vec<u8> {
    nodes_with(&order.ids(nodes))
}

/// Nodes of one instance, and as many registers, with these IDs.
fn nodes_with(ids: &[u32]) -> Vec<u8> {
    let rule = |position: usize| name_of(ids[position]);
    let file = start_with(ids, ids.len(), 1);
    Nodes::plain(ids.len(), rule).write_with(ids, 0, file)
}

/// [`registers_in`] whose last register has the ID of the one before it.
pub fn late_duplicate(order: Order, registers: usize) -> Vec<u8> {
    let mut file = registers_in(order, registers);
    let last = file_position_of_register(registers - 1);
    file.copy_within(last - 11..last - 8, last);
    file
}

/// Where a register stands if all have one instance.
fn file_position_of_register(position: usize) -> usize {
    20 + 11 * position
}

/// [`MOST_CHILDREN`] children forward each, and the last of them is absent.
pub fn late_absent_child(instances: usize) -> Vec<u8> {
    let mut file = children(instances, MOST_CHILDREN, false);
    // Behind the child entry: the last node of 14 bytes, and the root.
    let behind = file.len() - ROOTS.len() - 14;
    let [high, low] = (instances as u16 + 1).to_be_bytes();
    file[behind - 3..behind].copy_from_slice(&[high, low, 0]);
    file
}

/// Where IDs or names of instances start in a table that is searched by number.
#[derive(Clone, Copy, Debug, PartialEq, Eq)]
pub enum Crowding {
    /// Those of the IDs from 1 up, which are spread.
    None,
    /// 64 at each of some places that are far from each other, or 16 where IDs
    /// have not enough bits for that.
    By64,
    /// All at the last four, or at a few more where that needs more bits.
    AtTheEnd,
}

/// What is crowded: registers or nodes.
#[derive(Clone, Copy)]
struct Crowded {
    places: Places,
    count: usize,
    /// The number of IDs that there are.
    ids: usize,
}

impl Crowded {
    /// As many registers as there may be.
    fn registers(limits: Limits) -> Self {
        Crowded {
            places: Places::of(limits.register_instances),
            count: limits.register_instances,
            ids: 1 << 24,
        }
    }

    /// As many nodes as there may be.
    fn nodes(limits: Limits) -> Self {
        Crowded {
            places: Places::of(limits.node_instances),
            count: limits.node_instances,
            ids: 1 << 16,
        }
    }
}

impl Crowding {
    /// IDs that rise, by the numbers that are searched for.
    fn ids(self, crowded: Crowded, number: impl Fn(u64) -> u64) -> Vec<u32> {
        let Crowded { places, count, ids } = crowded;
        let starts = places.starts();
        // Twice as many IDs as are taken.
        let alike = (ids / starts / 2).min(64);
        let at_the_end = (2 * count * starts / ids).max(4);
        let at = |wanted: Range<usize>, count: usize| -> Vec<u32> {
            let is_there = |id: &u32| wanted.contains(&places.start(number((*id).into())));
            (1..).filter(is_there).take(count).collect()
        };
        let mut ids: Vec<u32> = match self {
            Crowding::None => (1..=count as u32).collect(),
            Crowding::By64 => {
                let groups = count / alike;
                let start = |group| group * starts / groups;
                let group = |group| at(start(group)..start(group) + 1, alike);
                (0..groups).flat_map(group).collect()
            }
            Crowding::AtTheEnd => at(starts - at_the_end..starts, count),
        };
        ids.sort();
        ids
    }

    /// IDs of as many registers as there may be, whose instances 0 are crowded by
    /// their names.
    fn register_names(self, limits: Limits) -> Vec<u32> {
        self.ids(Crowded::registers(limits), |id| id << 8)
    }

    /// The same of nodes.
    fn node_names(self, limits: Limits) -> Vec<u32> {
        self.ids(Crowded::nodes(limits), |id| id << 8)
    }
}

/// As many registers as there may be, of one instance each, their IDs falling and
/// crowded.
pub fn crowded_registers(limits: Limits, crowding: Crowding) -> Vec<u8> {
    let mut ids = crowding.ids(Crowded::registers(limits), |id| id);
    ids.reverse();
    registers_with(&ids)
}

/// As many nodes as there may be, of one instance each, and as many registers,
/// their IDs falling and crowded as those of nodes.
pub fn crowded_nodes(limits: Limits, crowding: Crowding) -> Vec<u8> {
    let mut ids = crowding.ids(Crowded::nodes(limits), |id| id);
    ids.reverse();
    nodes_with(&ids)
}

/// A file of as many bytes as there may be, with as many captures as it holds, of
/// as many registers as there may be, with one instance each, in turn. Their names
/// are crowded.
pub fn crowded_captures(limits: Limits, crowding: Crowding) -> Vec<u8> {
    let ids = crowding.register_names(limits);
    let file = start_with(&ids, ids.len(), 1);
    let name = |position: usize| name_of(ids[position]);
    full_of_captures(file, limits, ids.len(), name, 0)
}

/// [`crowded_captures`] whose last capture is of a register that is absent. The
/// search for its name starts where that for the last register's does.
pub fn late_crowded_absence(limits: Limits, crowding: Crowding) -> Vec<u8> {
    let ids = crowding.register_names(limits);
    let places = Crowded::registers(limits).places;
    let start = |id: u32| places.start(u64::from(id) << 8);
    let last = ids[ids.len() - 1];
    let absent = (last + 1..).find(|&id| start(id) == start(last));
    let mut file = crowded_captures(limits, crowding);
    capture_last(&mut file, name_of(absent.expect("there are more")));
    file
}

/// As [`children`] forward with [`MOST_CHILDREN`], of as many nodes as there may
/// be, whose instances' names are crowded.
pub fn crowded_children(limits: Limits, crowding: Crowding) -> Vec<u8> {
    let places: Vec<usize> = (0..limits.node_instances).collect();
    let mut nodes = Nodes::plain(places.len(), |position| register_name(position, 1));
    for (instance, children) in nodes.instances.iter_mut().zip(row(MOST_CHILDREN, &places)) {
        instance.children = (0..).zip(children).collect();
    }
    nodes.write_with(&crowding.node_names(limits), 0, start(places.len(), 1))
}

/// [`captures`] whose last node instance captures, as its last, a register
/// instance that is absent.
pub fn late_absence(limits: Limits) -> Vec<u8> {
    let mut file = captures(limits, 0);
    let [_, _, _, registers] = (limits.register_instances as u32 / 128).to_be_bytes();
    capture_last(&mut file, [0, 0, registers + 1, 0]);
    file
}

/// As [`late_absence`], but the register is there: the last one, write-only,
/// with the last of the register instances.
pub fn late_write_only(limits: Limits) -> Vec<u8> {
    let others = limits.register_instances - 1;
    let last = others.div_ceil(128) as u8 + 1;
    let mut file = start(others, 128);
    file[REGISTER_COUNT_AT..REGISTER_COUNT_AT + 3].copy_from_slice(&[0, 0, last]);
    file.extend([0, 0, last, 1, WRITABLE, 1, 0, 0, 0, 8, 0]);
    let name = |position| register_name(position, 128);
    let mut file = full_of_captures(file, limits, others, name, 0);
    capture_last(&mut file, [0, 0, last, 0]);
    file
}

const REGISTER_COUNT_AT: usize = 17;

/// The last capture of a file full of captures names this register instance.
fn capture_last(file: &mut [u8], name: [u8; 4]) {
    // Behind the capture: a rule of 6 bytes, and the root.
    let behind = file.len() - ROOTS.len() - 6;
    file[behind - 4..behind].copy_from_slice(&name);
}

/// A file of about so many bytes, not too long, with some of everything: for each
/// 256 bytes a node instance and four registers, while there may be as many. An
/// instance has a rule over its four registers, the next four instances as
/// children, and captures in the rest of its bytes.
pub fn of_size(bytes: usize) -> Vec<u8> {
    of_size_in(Order::Rising, bytes)
}

/// The same with the IDs of registers and of nodes in this order.
pub fn of_size_in(order: Order, bytes: usize) -> Vec<u8> {
    let instances = (bytes / 256).clamp(1, Limits::LIBRARY.node_instances);
    let registers = 4 * instances;
    let ids = order.ids(registers);
    let file = start_with(&ids, registers, 1);
    let mut nodes = Nodes::plain(instances, |position| name_of(ids[position]));
    for (position, instance) in nodes.instances.iter_mut().enumerate() {
        let register = |index: usize| {
            let [a, b, c, number] = name_of(ids[4 * position + index]);
            [EXPRESSION_REGISTER, a, b, c, number]
        };
        // r0 | (r1 & ~r2) | r3 >> 1
        let rule = &mut instance.rule;
        *rule = vec![EXPRESSION_OR, 3];
        rule.extend(register(0));
        rule.extend([EXPRESSION_AND, 2]);
        rule.extend(register(1));
        rule.push(EXPRESSION_NOT);
        rule.extend(register(2));
        rule.extend([EXPRESSION_SHIFT_RIGHT, 1]);
        rule.extend(register(3));
        let following = position + 1..instances.min(position + 5);
        instance.children = (0..).zip(following).collect();
    }
    let other = file.len() + 6 + nodes.bytes() + ROOTS.len();
    for capture in 0..bytes.saturating_sub(other) / 4 {
        let register = name_of(ids[capture * 7 % registers]);
        nodes.instances[capture % instances].captures.push(register);
    }
    nodes.write_with(&order.ids(instances), 0, file)
}

/// A file whose counts of one byte are as high as they may be: a register and a
/// node of 255 instances each; the first node instance has 255 captures, five
/// rules, one of them an OR of 255 registers, and 64 children; five roots.
pub fn full_counts() -> Vec<u8> {
    let mut file = start(255, 255);
    file.extend(b"NODE\x00\x01\x00\x01\x01\xFF");
    file.extend([0, 255, 5, 64]);
    for capture in 0..255 {
        file.extend(register_name(254 - capture, 255));
    }
    for attention_type in 1..=5 {
        file.push(attention_type);
        if attention_type == ATTENTION_TYPE {
            file.extend([EXPRESSION_OR, 255]);
            for operand in 0..254 {
                file.push(EXPRESSION_REGISTER);
                file.extend(register_name(operand, 255));
            }
        }
        file.push(EXPRESSION_REGISTER);
        file.extend(register_name(254, 255));
    }
    for bit in 0..64 {
        file.extend([63 - bit, 0, 1, 191 + bit]);
    }
    for instance in 1..255 {
        file.extend([instance as u8, 0, 1, 0, ATTENTION_TYPE, EXPRESSION_REGISTER]);
        file.extend(register_name(instance, 255));
    }
    file.extend(b"ROOT\x05");
    for attention_type in 1..=5 {
        file.extend([attention_type, 0, 1, 0]);
    }
    file
}

/// As many children as 256 node instances may have in 65,536 bytes.
pub const MOST_CHILDREN: usize = 60;

#[cfg(test)]
mod tests {
    use super::*;
    use crate::checker::check_within;
    use crate::refusal::Refusal;
    use crate::{bits_above_silent, check, hex, isolate};

    #[test]
    fn b1_is_the_sample() {
        let text = "43 48 49 50 44 41 54 41 00 00 00 01 01 52 45 47 53 00 00 01 \
            00 00 01 01 80 01 00 00 00 10 00 4E 4F 44 45 00 01 00 01 01 \
            01 00 00 01 00 03 01 00 00 01 00 52 4F 4F 54 01 03 00 01 00";
        assert_eq!(hex::decode(text).unwrap(), B1);
    }

    fn counts(file: &[u8]) -> (usize, usize) {
        let summary = check(file).unwrap();
        (summary.register_instances, summary.node_instances)
    }

    const LIMITS: [Limits; 2] = [Limits::PROGRAM, Limits::LIBRARY];

    /// As many register instances and node instances as there may be.
    fn both(limits: Limits) -> (usize, usize) {
        (limits.register_instances, limits.node_instances)
    }

    #[test]
    fn at_the_limits_and_beyond() {
        for limits in LIMITS {
            let number = |file: &[u8]| check_within(file, limits).unwrap_err().number;
            let (registers, nodes) = both(limits);
            for in_one in [1, 255] {
                let file = register_instances(registers, in_one);
                assert_eq!(counts(&file), (registers, 1));
                assert!(check_within(&file, limits).is_ok());
                assert_eq!(number(&register_instances(registers + 1, in_one)), 8);
                let file = short_node_instances(nodes, in_one);
                assert_eq!(counts(&file), (1, nodes));
                assert!(check_within(&file, limits).is_ok());
                assert_eq!(number(&short_node_instances(nodes + 1, in_one)), 8);
            }
            assert_eq!(counts(&node_instances(nodes)), (nodes, nodes));
            assert_eq!(number(&node_instances(nodes + 1)), 8);

            let full = captures(limits, 0);
            assert_eq!(full.len(), limits.bytes);
            assert_eq!(counts(&full), both(limits));
            let longer = captures(limits, 1);
            assert_eq!(longer.len(), limits.bytes + 1);
            let refusal = Refusal::new(1, 0);
            assert_eq!(check_within(&longer, limits), Err(refusal));

            let deep = deep_expressions(limits);
            let most = limits.bytes;
            assert!((most - most / 32..=most).contains(&deep.len()));
            assert_eq!(counts(&deep), both(limits));
        }
    }

    #[test]
    fn files_to_measure_with() {
        for limits in LIMITS {
            files_to_measure_with_at(limits);
        }
    }

    fn files_to_measure_with_at(limits: Limits) {
        let (registers, nodes) = both(limits);
        for order in ORDERS {
            assert_eq!(counts(&registers_in(order, registers)), (registers, 1));
            assert_eq!(counts(&nodes_in(order, nodes)), (nodes, nodes));
            let place = file_position_of_register(registers - 1);
            let refusal = check(&late_duplicate(order, registers)).unwrap_err();
            assert_eq!(refusal, Refusal::new(7, place));
        }
        let rising = registers_in(Order::Rising, registers);
        assert_eq!(rising, register_instances(registers, 1));
        assert_eq!(nodes_in(Order::Rising, nodes), node_instances(nodes));
        let mixed = mixed_children(nodes, MOST_CHILDREN);
        assert_eq!(counts(&mixed), (nodes, nodes));
        assert_eq!(row_at(nodes, 0), children(nodes, 1, false));
        assert_eq!(counts(&row_at(nodes, 63)), (nodes, nodes));

        let file = late_absence(limits);
        let refusal = check(&file).unwrap_err();
        assert_eq!(refusal, Refusal::new(12, file.len() - 19));
        let mut file = late_write_only(limits);
        assert_eq!(file.len(), limits.bytes);
        let place = file.len() - 19;
        assert_eq!(check(&file).unwrap_err(), Refusal::new(13, place));
        // Another instance of it, which is not there, or register 1 instead.
        file[place + 3] = 1;
        assert_eq!(check(&file).unwrap_err(), Refusal::new(12, place));
        file[place + 2] = 1;
        assert_eq!(counts(&file), both(limits));
        let file = late_absent_child(nodes);
        let refusal = check(&file).unwrap_err();
        assert_eq!(refusal, Refusal::new(12, file.len() - 9 - 14 - 4));
        let file = late_cycle(nodes);
        let refusal = check(&file).unwrap_err();
        assert_eq!(refusal.number, 14);
        // The last two instances have 14 bytes each and one child each.
        assert_eq!(refusal.place, file.len() - 9 - 2 * 18 + 4);
    }

    #[test]
    fn sizes() {
        for power in 10..=20 {
            let bytes = 1 << power;
            let file = of_size(bytes);
            assert!((bytes - 4..=bytes).contains(&file.len()), "{}", file.len());
            let instances = (bytes / 256).min(1_024);
            assert_eq!(counts(&file), (4 * instances, instances));
            let words = vec![0xF << 60; 4 * instances];
            let read = vec![1; 4 * instances];
            let mut list = vec![0; 64 * 64 * 16];
            let answer = isolate(&file, ATTENTION_TYPE, &words, &read, &mut list);
            // Bit 4 of all, and the bits from the missing children's up of the
            // last four.
            assert_eq!(answer, Ok((instances + 10, instances)));
        }
    }

    #[test]
    fn sizes_in_other_orders() {
        for order in ORDERS {
            let file = of_size_in(order, 8_192);
            assert_eq!(counts(&file), (128, 32));
            assert_eq!(file.len(), of_size(8_192).len());
        }
        assert_eq!(Order::Alternating.ids(5), [2, 1, 4, 3, 5]);
    }

    /// At one place, and without one.
    fn crowd(crowded: Crowded, ids: &[u32], bits: usize) -> (usize, usize) {
        let numbers: Vec<u64> = ids.iter().map(|&id| u64::from(id) << bits).collect();
        let crowd = crowded.places.crowd(&numbers);
        (crowd.most_at_one_start, crowd.without_place)
    }

    #[test]
    fn names_are_crowded() {
        // So many at one place; and all at so many places, of which the last has
        // 32 behind it.
        for (limits, [of_registers, of_nodes]) in [
            (Limits::PROGRAM, [(64, 4), (64, 4)]),
            (Limits::LIBRARY, [(64, 16), (16, 64)]),
        ] {
            for (crowded, (alike, places)) in [
                (Crowded::registers(limits), of_registers),
                (Crowded::nodes(limits), of_nodes),
            ] {
                for (bits, of) in [(0, 1), (8, 256)] {
                    let ids = Crowding::By64.ids(crowded, |id| id * of);
                    assert_eq!(crowd(crowded, &ids, bits), (alike, 0));
                    let ids = Crowding::AtTheEnd.ids(crowded, |id| id * of);
                    let (_, without_place) = crowd(crowded, &ids, bits);
                    assert_eq!(without_place, crowded.count - places - 32);
                }
            }
        }
    }

    #[test]
    fn crowded_files() {
        for limits in LIMITS {
            let (registers, nodes) = both(limits);
            for crowding in [Crowding::None, Crowding::By64, Crowding::AtTheEnd] {
                let file = crowded_registers(limits, crowding);
                assert_eq!(counts(&file), (registers, 1));
                let file = crowded_nodes(limits, crowding);
                assert_eq!(counts(&file), (nodes, nodes));
                let file = crowded_captures(limits, crowding);
                assert_eq!(counts(&file), both(limits));
                assert_eq!(file.len(), limits.bytes);
                let file = crowded_children(limits, crowding);
                assert_eq!(counts(&file), (nodes, nodes));
                let refusal = check(&late_crowded_absence(limits, crowding)).unwrap_err();
                assert_eq!(refusal, Refusal::new(12, limits.bytes - 19));
            }
            let forward = children(nodes, MOST_CHILDREN, false);
            assert_eq!(crowded_children(limits, Crowding::None), forward);
            let falling = registers_in(Order::Falling, registers);
            assert_eq!(crowded_registers(limits, Crowding::None), falling);
        }
    }

    #[test]
    fn counts_are_full() {
        let file = full_counts();
        assert_eq!(counts(&file), (255, 255));
        assert_eq!(check(&file).unwrap().roots, 5);
        let words = [u64::MAX; 255];
        let mut list = vec![0; 64 * 64 * 16];
        let answer = isolate(&file, ATTENTION_TYPE, &words, &[1; 255], &mut list);
        assert_eq!(answer, Ok((64 * 64, 65)));
        // One operand of the OR, the first register, and one child, which shows
        // nothing.
        let mut words = [0; 255];
        words[0] = 1;
        let answer = isolate(&file, ATTENTION_TYPE, &words, &[1; 255], &mut list);
        assert_eq!(answer, Ok((1, 2)));
        assert_eq!(list[..10], [0, 0, 0, 1, 3, 63, 0, 1, 0, 0]);
    }

    #[test]
    fn most_children_are_silent() {
        for count in [256, 1_024] {
            let file = children(count, MOST_CHILDREN, false);
            let words = every_fourth(count);
            let read = vec![1; count];
            let mut list = vec![0; count * 64 * 16];
            let answer = isolate(&file, ATTENTION_TYPE, &words, &read, &mut list);
            // Each fourth instance has 64 active bits. 15 of these have a child
            // that shows something, and fewer near the end of the row.
            let showing = count / 4;
            let followed: usize = (0..showing).map(|rank| (showing - 1 - rank).min(15)).sum();
            assert_eq!(answer, Ok((showing * 64 - followed, count)));
            let above_silent = bits_above_silent(&file, ATTENTION_TYPE, &words, &read);
            let entries = (0..showing).map(|rank| (count - 1 - 4 * rank).min(60));
            assert_eq!(above_silent, entries.sum::<usize>() - followed);
        }
    }

    #[test]
    fn all_children_are_reached() {
        for (count, limits) in [(256, Limits::PROGRAM), (1_024, Limits::LIBRARY)] {
            let words = vec![u64::MAX; count];
            let read = vec![1; count];
            let mut list = vec![0; count * 64 * 16];
            for backward in [false, true] {
                for most in [1, MOST_CHILDREN] {
                    let file = children(count, most, backward);
                    assert!(file.len() <= limits.bytes);
                    let answer = isolate(&file, ATTENTION_TYPE, &words, &read, &mut list);
                    // Each bit without a child is listed.
                    let entries: usize = (1..count).map(|behind| most.min(behind)).sum();
                    assert_eq!(answer, Ok((count * 64 - entries, count)));
                }
                let file = row_of_one_register(count, backward);
                let answer = isolate(&file, ATTENTION_TYPE, &[1 << 63], &[1], &mut list);
                assert_eq!(answer, Ok((1, count)));
            }
        }
    }
}
