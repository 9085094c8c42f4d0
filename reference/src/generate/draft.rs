//! Writes files that are valid by construction, with a map of their fields.

use std::collections::HashSet;

use super::random::Random;
use crate::layout::{
    Limits, CHIP_KEYWORD, EXPRESSION_AND, EXPRESSION_CONSTANT, EXPRESSION_NOT, EXPRESSION_OR,
    EXPRESSION_REGISTER, EXPRESSION_SHIFT_LEFT, EXPRESSION_SHIFT_RIGHT, MAX_EXPRESSION_LEVEL,
    NODE_KEYWORD, READABLE, REGISTER_KEYWORD, ROOT_KEYWORD, VERSION, WRITABLE,
};

/// What a field of the file holds.
#[derive(Clone, Copy, Debug, PartialEq, Eq, Hash)]
pub enum FieldKind {
    Keyword,
    Model,
    Version,
    RegisterCount,
    RegisterId,
    RegisterType,
    Flags,
    RegisterInstanceCount,
    RegisterInstance,
    Address,
    NodeCount,
    NodeId,
    NodeType,
    NodeInstanceCount,
    NodeInstance,
    CaptureCount,
    RuleCount,
    ChildCount,
    CaptureRegister,
    CaptureInstance,
    RuleAttention,
    ExpressionType,
    ExpressionRegister,
    ExpressionInstance,
    Constant,
    OperandCount,
    Shift,
    ChildBit,
    ChildNode,
    ChildInstance,
    RootCount,
    RootAttention,
    RootNode,
    RootInstance,
}

#[derive(Clone, Copy, Debug, PartialEq, Eq)]
pub struct Field {
    pub kind: FieldKind,
    pub at: usize,
    pub size: usize,
}

/// A file and its fields in byte order, which cover it without gap.
#[derive(Clone, Debug, Default)]
pub struct FieldMap {
    pub bytes: Vec<u8>,
    pub fields: Vec<Field>,
}

impl FieldMap {
    pub fn fields_of(&self, kind: FieldKind) -> impl Iterator<Item = Field> + '_ {
        self.fields
            .iter()
            .copied()
            .filter(move |field| field.kind == kind)
    }

    pub fn count(&self, kind: FieldKind) -> usize {
        self.fields_of(kind).count()
    }

    fn put(&mut self, kind: FieldKind, value: &[u8]) {
        self.fields.push(Field {
            kind,
            at: self.bytes.len(),
            size: value.len(),
        });
        self.bytes.extend_from_slice(value);
    }

    fn put_byte(&mut self, kind: FieldKind, value: u8) {
        self.put(kind, &[value]);
    }

    fn put_register(&mut self, kind: FieldKind, value: u32) {
        self.put(kind, &value.to_be_bytes()[1..]);
    }

    fn put_node(&mut self, kind: FieldKind, value: u16) {
        self.put(kind, &value.to_be_bytes());
    }
}

/// How large a file is, and what its expressions look like.
#[derive(Clone, Copy, Debug)]
pub struct Shape {
    pub register_instances: usize,
    pub node_instances: usize,
    pub most_captures: usize,
    pub most_children: usize,
    /// Of one rule.
    pub most_expressions: usize,
    /// One rule in so many goes down to the highest level.
    pub deep_rule_one_in: usize,
    /// Of ten node instances, so many show nothing for most types whatever the
    /// readings are.
    pub silent_in_ten: usize,
    /// Of ten rules of the others, so many have active bits with a child
    /// whatever the readings are.
    pub leading_in_ten: usize,
}

const SHARES_IN_TEN: [usize; 4] = [0, 2, 5, 8];

impl Shape {
    pub fn any(random: &mut Random) -> Self {
        match random.below(100) {
            0..=59 => Self::small(random),
            60..=89 => Self::middle(random),
            90..=97 => Self::large(random),
            _ if random.one_in(6) => Self::at_a_limit(random, Limits::LIBRARY),
            _ => Self::at_a_limit(random, Limits::PROGRAM),
        }
    }

    pub fn small(random: &mut Random) -> Self {
        Shape {
            register_instances: random.between(1, 4),
            node_instances: random.between(1, 5),
            most_captures: random.below(3),
            most_children: random.between(0, 3),
            most_expressions: random.between(1, 6),
            deep_rule_one_in: 20,
            silent_in_ten: *random.pick(&SHARES_IN_TEN),
            leading_in_ten: *random.pick(&SHARES_IN_TEN),
        }
    }

    pub fn middle(random: &mut Random) -> Self {
        Shape {
            register_instances: random.between(1, 30),
            node_instances: random.between(2, 30),
            most_captures: random.below(6),
            most_children: random.between(1, 12),
            most_expressions: random.between(1, 12),
            deep_rule_one_in: 40,
            silent_in_ten: *random.pick(&SHARES_IN_TEN),
            leading_in_ten: *random.pick(&SHARES_IN_TEN),
        }
    }

    pub fn large(random: &mut Random) -> Self {
        Shape {
            register_instances: random.between(20, 400),
            node_instances: random.between(20, 150),
            most_captures: random.below(8),
            most_children: random.between(1, 16),
            most_expressions: random.between(1, 8),
            deep_rule_one_in: 100,
            silent_in_ten: *random.pick(&SHARES_IN_TEN),
            leading_in_ten: *random.pick(&SHARES_IN_TEN),
        }
    }

    /// As many register or node instances as a file may have, now and then one
    /// less.
    pub fn at_a_limit(random: &mut Random, limits: Limits) -> Self {
        let mut shape = Self::small(random);
        let of_three = random.below(3);
        if of_three != 1 {
            shape.register_instances = limits.register_instances - usize::from(random.one_in(8));
        }
        if of_three != 0 {
            shape.node_instances = limits.node_instances - usize::from(random.one_in(8));
        }
        shape
    }

    /// How long a file may be for the limits that its instances are within.
    fn most_bytes(&self) -> usize {
        let Limits {
            bytes,
            register_instances,
            node_instances,
        } = Limits::PROGRAM;
        let is_within =
            self.register_instances <= register_instances && self.node_instances <= node_instances;
        match is_within {
            true => bytes,
            false => Limits::LIBRARY.bytes,
        }
    }

    fn poorer(&self) -> Self {
        Shape {
            most_captures: self.most_captures / 2,
            most_children: self.most_children / 2,
            most_expressions: self.most_expressions.div_ceil(2),
            deep_rule_one_in: self.deep_rule_one_in * 4,
            ..*self
        }
    }
}

/// A file of the shape that meets every rule of the checker, if the shape's
/// instances are within the library's limits; and of the station's checker, if
/// they are within the station's. Captures, children and expressions become
/// fewer where the file would be too long for these.
pub fn valid_file(random: &mut Random, shape: &Shape) -> FieldMap {
    short_enough(shape, shape.most_bytes(), |shape| {
        Draft::new(random, shape).written()
    })
}

/// The same, and only for the library it may not be too long.
pub(super) fn long_file(random: &mut Random, shape: &Shape) -> FieldMap {
    short_enough(shape, Limits::LIBRARY.bytes, |shape| {
        Draft::new(random, shape).written()
    })
}

/// The same as [`valid_file`] with these registers and nodes, which have as many
/// instances as the shape.
pub(super) fn file_with(
    random: &mut Random,
    shape: &Shape,
    registers: &[Register],
    nodes: &[Node],
) -> FieldMap {
    short_enough(shape, shape.most_bytes(), |shape| {
        Draft::with(random, shape, registers.to_vec(), nodes.to_vec()).written()
    })
}

/// The first file that has not more bytes, of the shape or a poorer one.
fn short_enough(
    shape: &Shape,
    most_bytes: usize,
    mut written: impl FnMut(Shape) -> FieldMap,
) -> FieldMap {
    let mut shape = *shape;
    loop {
        let map = written(shape);
        if map.bytes.len() <= most_bytes {
            return map;
        }
        shape = shape.poorer();
    }
}

#[derive(Clone)]
pub(super) struct Register {
    pub id: u32,
    pub register_type: u8,
    pub flags: u8,
    pub numbers: Vec<u8>,
}

#[derive(Clone)]
pub(super) struct Node {
    pub id: u16,
    pub register_type: u8,
    pub numbers: Vec<u8>,
}

/// A register instance with its register's type.
#[derive(Clone, Copy)]
struct RegisterInstance {
    id: u32,
    number: u8,
    register_type: u8,
}

/// A node instance, what it has rules for, and its rank: children have a
/// higher one.
struct NodeInstance {
    id: u16,
    number: u8,
    attention_types: Vec<u8>,
    /// Its rules have no bit.
    is_silent: bool,
    rank: usize,
}

struct Draft<'a> {
    random: &'a mut Random,
    shape: Shape,
    registers: Vec<Register>,
    /// The instances of readable registers: captures may name these.
    readable: Vec<RegisterInstance>,
    nodes: Vec<Node>,
    node_instances: Vec<NodeInstance>,
    /// Positions of the node instances from the lowest rank up.
    by_rank: Vec<usize>,
    map: FieldMap,
}

impl<'a> Draft<'a> {
    fn new(random: &'a mut Random, shape: Shape) -> Self {
        let registers = registers(random, shape.register_instances);
        let nodes = nodes(random, shape.node_instances);
        Self::with(random, shape, registers, nodes)
    }

    fn with(
        random: &'a mut Random,
        shape: Shape,
        registers: Vec<Register>,
        nodes: Vec<Node>,
    ) -> Self {
        let readable = registers
            .iter()
            .filter(|register| register.flags & READABLE != 0)
            .flat_map(|register| {
                register.numbers.iter().map(|&number| RegisterInstance {
                    id: register.id,
                    number,
                    register_type: register.register_type,
                })
            })
            .collect();
        let node_instances = node_instances(random, &nodes, &shape);
        let mut by_rank: Vec<usize> = (0..node_instances.len()).collect();
        by_rank.sort_by_key(|&position| node_instances[position].rank);
        Draft {
            random,
            shape,
            registers,
            readable,
            nodes,
            node_instances,
            by_rank,
            map: FieldMap::default(),
        }
    }

    fn written(mut self) -> FieldMap {
        self.write();
        self.map
    }

    fn write(&mut self) {
        self.map.put(FieldKind::Keyword, &CHIP_KEYWORD);
        let model = self.random.next() as u32;
        self.map.put(FieldKind::Model, &model.to_be_bytes());
        self.map.put_byte(FieldKind::Version, VERSION);
        self.write_registers();
        self.write_nodes();
        self.write_roots();
    }

    fn write_registers(&mut self) {
        let map = &mut self.map;
        map.put(FieldKind::Keyword, &REGISTER_KEYWORD);
        map.put_register(FieldKind::RegisterCount, self.registers.len() as u32);
        for register in &self.registers {
            map.put_register(FieldKind::RegisterId, register.id);
            map.put_byte(FieldKind::RegisterType, register.register_type);
            map.put_byte(FieldKind::Flags, register.flags);
            map.put_byte(
                FieldKind::RegisterInstanceCount,
                register.numbers.len() as u8,
            );
            for &number in &register.numbers {
                map.put_byte(FieldKind::RegisterInstance, number);
                let address = self.random.next().to_be_bytes();
                let size = 4 * usize::from(register.register_type);
                map.put(FieldKind::Address, &address[..size]);
            }
        }
    }

    fn write_nodes(&mut self) {
        self.map.put(FieldKind::Keyword, &NODE_KEYWORD);
        self.map
            .put_node(FieldKind::NodeCount, self.nodes.len() as u16);
        let usable = [1, 2].map(|register_type| self.usable_registers(register_type));
        let mut position = 0;
        for node in 0..self.nodes.len() {
            let Node {
                id,
                register_type,
                ref numbers,
            } = self.nodes[node];
            let instances = numbers.len();
            self.map.put_node(FieldKind::NodeId, id);
            self.map.put_byte(FieldKind::NodeType, register_type);
            self.map
                .put_byte(FieldKind::NodeInstanceCount, instances as u8);
            let usable = &usable[usize::from(register_type) - 1];
            for _ in 0..instances {
                self.write_node_instance(position, usable);
                position += 1;
            }
        }
    }

    /// The register instances that rules of nodes of the type may name.
    fn usable_registers(&self, register_type: u8) -> Vec<RegisterInstance> {
        self.readable
            .iter()
            .copied()
            .filter(|register| register.register_type == register_type)
            .collect()
    }

    fn write_node_instance(&mut self, position: usize, usable: &[RegisterInstance]) {
        let instance = &self.node_instances[position];
        let attention_types = instance.attention_types.clone();
        let is_silent = instance.is_silent;
        let number = instance.number;
        let first_later = instance.rank + 1;

        let captures = if self.readable.is_empty() {
            0
        } else {
            self.random.between(0, self.shape.most_captures)
        };
        let children = if first_later == self.by_rank.len() {
            0
        } else {
            self.random.between(0, self.shape.most_children)
        };

        self.map.put_byte(FieldKind::NodeInstance, number);
        self.map.put_byte(FieldKind::CaptureCount, captures as u8);
        self.map
            .put_byte(FieldKind::RuleCount, attention_types.len() as u8);
        self.map.put_byte(FieldKind::ChildCount, children as u8);

        for _ in 0..captures {
            let register = *self.random.pick(&self.readable);
            self.map
                .put_register(FieldKind::CaptureRegister, register.id);
            self.map
                .put_byte(FieldKind::CaptureInstance, register.number);
        }
        let bits = self.random.different_bits(children);
        let with_child = bits.iter().fold(0, |word, bit| word | 1 << (63 - bit));
        for attention_type in attention_types {
            self.map.put_byte(FieldKind::RuleAttention, attention_type);
            self.write_rule_expression(usable, is_silent, with_child);
        }
        let mut before = None;
        for bit in bits {
            let later = child(self.random, &self.by_rank[first_later..], before);
            before = Some(later);
            let child = &self.node_instances[later];
            self.map.put_byte(FieldKind::ChildBit, bit);
            self.map.put_node(FieldKind::ChildNode, child.id);
            self.map.put_byte(FieldKind::ChildInstance, child.number);
        }
    }

    fn write_rule_expression(
        &mut self,
        usable: &[RegisterInstance],
        is_silent: bool,
        with_child: u64,
    ) {
        let mut writer = ExpressionWriter {
            random: self.random,
            map: &mut self.map,
            usable,
            left: self.shape.most_expressions,
        };
        if is_silent {
            writer.write_silent();
        } else if with_child != 0 && writer.random.below(10) < self.shape.leading_in_ten {
            writer.write_leading(with_child);
        } else if writer.random.one_in(self.shape.deep_rule_one_in) {
            writer.write_deep();
        } else if writer.random.one_in(5) {
            writer.write_leaf();
        } else {
            writer.write(MAX_EXPRESSION_LEVEL);
        }
    }

    /// Roots for some of the attention types that have a rule, mostly at
    /// instances of a low rank whose rules have a bit.
    fn write_roots(&mut self) {
        let mut roots = Vec::new();
        for attention_type in 1..=5 {
            let mut able: Vec<&NodeInstance> = self
                .node_instances
                .iter()
                .filter(|instance| instance.attention_types.contains(&attention_type))
                .collect();
            able.sort_by_key(|instance| (instance.is_silent, instance.rank));
            // Seldom for a type that few have a rule for.
            let is_rare = able.len() * 3 < self.node_instances.len();
            let is_left_out = self.random.one_in(3) || is_rare && !self.random.one_in(4);
            if able.is_empty() || (!roots.is_empty() && is_left_out) {
                continue;
            }
            let root = if self.random.one_in(4) {
                self.random.pick(&able)
            } else {
                able[0]
            };
            roots.push((attention_type, root.id, root.number));
        }
        self.random.shuffle(&mut roots);

        self.map.put(FieldKind::Keyword, &ROOT_KEYWORD);
        self.map.put_byte(FieldKind::RootCount, roots.len() as u8);
        for (attention_type, id, number) in roots {
            self.map.put_byte(FieldKind::RootAttention, attention_type);
            self.map.put_node(FieldKind::RootNode, id);
            self.map.put_byte(FieldKind::RootInstance, number);
        }
    }
}

fn registers(random: &mut Random, instances: usize) -> Vec<Register> {
    let only_type = random.one_in(2).then(|| random.between(1, 2) as u8);
    let mut ids = HashSet::new();
    let mut registers = Vec::new();
    for count in split(random, instances) {
        let id = loop {
            let id = match random.below(3) {
                0 => random.next() as u32 & 0x00FF_FFFF,
                1 => *random.pick(&[0, 1, 0x00FF_FFFF, 0x0000_FFFF, 0x0001_0000]),
                _ => random.below(4 * instances + 4) as u32,
            };
            if ids.insert(id) {
                break id;
            }
        };
        registers.push(Register {
            id,
            register_type: only_type.unwrap_or(random.between(1, 2) as u8),
            flags: match random.below(10) {
                0 => WRITABLE,
                1 => 0,
                2..=4 => READABLE,
                _ => READABLE | WRITABLE,
            },
            numbers: random.different_bytes(count),
        });
    }
    registers
}

fn nodes(random: &mut Random, instances: usize) -> Vec<Node> {
    let only_type = random.one_in(2).then(|| random.between(1, 2) as u8);
    let mut ids = HashSet::new();
    let mut nodes = Vec::new();
    for count in split(random, instances) {
        let id = loop {
            let id = match random.below(3) {
                0 => random.next() as u16,
                1 => *random.pick(&[0, 1, 0xFFFF, 0x00FF, 0x0100]),
                _ => random.below(4 * instances + 4) as u16,
            };
            if ids.insert(id) {
                break id;
            }
        };
        nodes.push(Node {
            id,
            register_type: only_type.unwrap_or(random.between(1, 2) as u8),
            numbers: random.different_bytes(count),
        });
    }
    nodes
}

fn node_instances(random: &mut Random, nodes: &[Node], shape: &Shape) -> Vec<NodeInstance> {
    let mut usual: Vec<u8> = (1..=5).collect();
    random.shuffle(&mut usual);
    let unusual = usual.split_off(random.between(1, 3));

    let mut ranks: Vec<usize> = (0..shape.node_instances).collect();
    match random.below(3) {
        0 => {}
        1 => ranks.reverse(),
        _ => random.shuffle(&mut ranks),
    }

    let names = nodes
        .iter()
        .flat_map(|node| node.numbers.iter().map(|&number| (node.id, number)));
    names
        .zip(ranks)
        .map(|((id, number), rank)| {
            // A third of the silent ones have rules, but none for the usual
            // types.
            let mut is_silent = rank > 0 && random.below(10) < shape.silent_in_ten;
            let mut attention_types = if is_silent && random.one_in(3) {
                is_silent = false;
                let mut others = unusual.clone();
                random.shuffle(&mut others);
                others.truncate(random.between(1, others.len()));
                others
            } else if random.one_in(6) {
                let mut any: Vec<u8> = (1..=5).collect();
                random.shuffle(&mut any);
                any.truncate(random.between(1, 5));
                any
            } else {
                usual.clone()
            };
            random.shuffle(&mut attention_types);
            NodeInstance {
                id,
                number,
                attention_types,
                is_silent,
                rank,
            }
        })
        .collect()
}

/// One of the instances of a higher rank: often the first of them, so that
/// there are long chains, or the last, so that many share it, or the child of
/// the bit before.
fn child(random: &mut Random, later: &[usize], before: Option<usize>) -> usize {
    match (random.below(6), before) {
        (0, _) | (1, None) => later[0],
        (2 | 3, _) => later[later.len() - 1],
        (4, Some(before)) => before,
        _ => *random.pick(later),
    }
}

/// Instance counts of 1 to 255 that make `total`.
pub(super) fn split(random: &mut Random, total: usize) -> Vec<usize> {
    let most = *random.pick(&[1, 2, 4, 16, 255]);
    let mut counts = Vec::new();
    let mut left = total;
    while left > 0 {
        let count = random.between(1, most.min(left));
        counts.push(count);
        left -= count;
    }
    counts
}

struct ExpressionWriter<'a> {
    random: &'a mut Random,
    map: &'a mut FieldMap,
    usable: &'a [RegisterInstance],
    /// Expressions that may still be begun, beside operands already promised.
    left: usize,
}

impl ExpressionWriter<'_> {
    fn write(&mut self, levels: usize) {
        self.left = self.left.saturating_sub(1);
        let kind = self.random.below(9);
        match kind {
            _ if levels == 1 || self.left == 0 => self.write_leaf(),
            0 | 1 if self.left >= 2 => self.write_operation(EXPRESSION_AND, levels),
            2..=4 if self.left >= 2 => self.write_operation(EXPRESSION_OR, levels),
            5 => {
                self.map.put_byte(FieldKind::ExpressionType, EXPRESSION_NOT);
                self.write(levels - 1);
            }
            6 => self.write_shift(EXPRESSION_SHIFT_LEFT, levels),
            7 => self.write_shift(EXPRESSION_SHIFT_RIGHT, levels),
            _ => self.write_leaf(),
        }
    }

    /// A row of NOTs and shifts with a leaf at the highest level.
    fn write_deep(&mut self) {
        for _ in 1..MAX_EXPRESSION_LEVEL {
            match self.random.below(4) {
                0 => self.put_shift(EXPRESSION_SHIFT_LEFT, 1),
                1 => self.put_shift(EXPRESSION_SHIFT_RIGHT, 1),
                _ => self.map.put_byte(FieldKind::ExpressionType, EXPRESSION_NOT),
            }
        }
        self.write_leaf();
    }

    /// An expression without a bit, whatever the readings are.
    fn write_silent(&mut self) {
        let all_levels = MAX_EXPRESSION_LEVEL;
        match self.random.below(8) {
            0 => {
                self.map.put_byte(FieldKind::ExpressionType, EXPRESSION_NOT);
                self.put_constant(u64::MAX);
            }
            1 => {
                let shift = *self.random.pick(&[64, 65, 128, 255]);
                let kind = *self
                    .random
                    .pick(&[EXPRESSION_SHIFT_LEFT, EXPRESSION_SHIFT_RIGHT]);
                self.put_shift(kind, shift);
                self.write(all_levels - 1);
            }
            2 | 3 => {
                // The operands in either order.
                self.put_operation(EXPRESSION_AND, 2);
                let is_first = self.random.one_in(2);
                if is_first {
                    self.put_constant(0);
                }
                self.write(all_levels - 1);
                if !is_first {
                    self.put_constant(0);
                }
            }
            4 if !self.usable.is_empty() => {
                let register = *self.random.pick(self.usable);
                self.put_operation(EXPRESSION_AND, 2);
                self.put_register(register);
                self.map.put_byte(FieldKind::ExpressionType, EXPRESSION_NOT);
                self.put_register(register);
            }
            5 => {
                let word = self.random.next();
                self.put_operation(EXPRESSION_AND, 2);
                self.put_constant(word);
                self.put_constant(!word);
            }
            _ => self.put_constant(0),
        }
    }

    /// An expression with some or all of these bits, whatever the readings are.
    fn write_leading(&mut self, bits: u64) {
        let some = match bits & self.random.next() {
            0 => bits,
            some => some,
        };
        match self.random.below(6) {
            0 => self.put_constant(some),
            1 => self.put_constant(bits),
            2 => {
                let more = self.random.next() & self.random.next();
                self.put_constant(bits | more);
            }
            _ => {
                self.put_operation(EXPRESSION_OR, 2);
                self.put_constant(some);
                self.write_leaf();
            }
        }
    }

    fn write_operation(&mut self, kind: u8, levels: usize) {
        let operands = self.random.between(2, self.left.min(6));
        self.put_operation(kind, operands as u8);
        for _ in 0..operands {
            self.write(levels - 1);
        }
    }

    fn write_shift(&mut self, kind: u8, levels: usize) {
        let shift = match self.random.below(4) {
            0 => *self.random.pick(&[1, 63, 64, 65, 255]),
            _ => self.random.between(1, 24) as u8,
        };
        self.put_shift(kind, shift);
        self.write(levels - 1);
    }

    fn put_operation(&mut self, kind: u8, operands: u8) {
        self.map.put_byte(FieldKind::ExpressionType, kind);
        self.map.put_byte(FieldKind::OperandCount, operands);
    }

    fn put_shift(&mut self, kind: u8, shift: u8) {
        self.map.put_byte(FieldKind::ExpressionType, kind);
        self.map.put_byte(FieldKind::Shift, shift);
    }

    fn write_leaf(&mut self) {
        if self.usable.is_empty() || self.random.one_in(5) {
            let constant = match self.random.below(4) {
                0 => 0,
                1 => u64::MAX,
                2 => 1 << self.random.bit(),
                _ => self.random.next(),
            };
            self.put_constant(constant);
        } else {
            let register = *self.random.pick(self.usable);
            self.put_register(register);
        }
    }

    fn put_constant(&mut self, constant: u64) {
        self.map
            .put_byte(FieldKind::ExpressionType, EXPRESSION_CONSTANT);
        self.map.put(FieldKind::Constant, &constant.to_be_bytes());
    }

    fn put_register(&mut self, register: RegisterInstance) {
        self.map
            .put_byte(FieldKind::ExpressionType, EXPRESSION_REGISTER);
        self.map
            .put_register(FieldKind::ExpressionRegister, register.id);
        self.map
            .put_byte(FieldKind::ExpressionInstance, register.number);
    }
}
