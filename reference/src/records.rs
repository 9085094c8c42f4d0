//! Chip data files as records of 16 bytes, one for each element in file order:
//! [`write_records`] makes the file of a list of records, [`read_records`] the
//! records of a file.

use crate::checker::Accepted;
use crate::layout::{
    self, CHIP_KEYWORD, NODE_KEYWORD, READABLE, REGISTER_KEYWORD, ROOT_KEYWORD, VERSION, WRITABLE,
};
use crate::refusal::{self, Refusal};
use crate::tree::{
    Expression, NodeInstance, NodeName, Operation, Register, RegisterName, RegisterType, Tree,
};

pub const RECORD_BYTES: usize = 16;

pub type Record = [u8; RECORD_BYTES];

// Kinds of records.

pub const REGISTER: u8 = 1;
pub const REGISTER_INSTANCE: u8 = 2;
pub const NODE: u8 = 3;
pub const NODE_INSTANCE: u8 = 4;
pub const CAPTURE: u8 = 5;
pub const RULE: u8 = 6;
pub const EXPRESSION: u8 = 7;
pub const CHILD: u8 = 8;
pub const ROOT: u8 = 9;

/// A writer of one of the implementations.
pub type WriteRecords = fn(u32, &[u8], &mut [u8]) -> Result<usize, Refusal>;
/// A reader of one of the implementations.
pub type ReadRecords = fn(&[u8], &mut [u8]) -> Result<usize, Refusal>;

/// Writes the file of the records to the front of `out` and returns its length.
/// A refusal leaves `out` as it was.
pub fn write_records(model: u32, records: &[u8], out: &mut [u8]) -> Result<usize, Refusal> {
    let file = file_of(model, records)?;
    Accepted::read(&file)?;
    put(&file, out)
}

/// Writes the records of a file to the front of `out` and returns how many bytes
/// they have. A refusal leaves `out` as it was.
pub fn read_records(file: &[u8], out: &mut [u8]) -> Result<usize, Refusal> {
    let accepted = Accepted::read(file)?;
    let records = records_of(file, &accepted.tree);
    put(records.as_flattened(), out)
}

fn put(bytes: &[u8], out: &mut [u8]) -> Result<usize, Refusal> {
    let place = out
        .get_mut(..bytes.len())
        .ok_or(Refusal::new(refusal::OUTPUT_TOO_SHORT, bytes.len()))?;
    place.copy_from_slice(bytes);
    Ok(bytes.len())
}

/// The file that would result, which the checker may refuse.
pub fn file_of(model: u32, records: &[u8]) -> Result<Vec<u8>, Refusal> {
    let refused = |at| Refusal::new(refusal::RECORD_NOT_ALLOWED, at);
    let mut draft = Draft::default();
    for (index, record) in records.chunks(RECORD_BYTES).enumerate() {
        Element::of_record(record)
            .and_then(|element| draft.add(element))
            .ok_or(refused(RECORD_BYTES * index))?;
    }
    if draft.owed > 0 {
        return Err(refused(records.len()));
    }
    Ok(draft.file(model))
}

/// What one record stands for, with the values of the fields that it uses.
#[derive(Clone, Copy, Debug, PartialEq, Eq)]
enum Element {
    Register { id: u32, kind: u8, flags: u8 },
    RegisterInstance { number: u8, address: u64 },
    Node { id: u16, kind: u8 },
    NodeInstance { number: u8 },
    Capture(RegisterName),
    Rule { attention_type: u8 },
    Reading(RegisterName),
    Constant(u64),
    And(u8),
    Or(u8),
    Not,
    ShiftLeft(u8),
    ShiftRight(u8),
    Child { bit: u8, node: NodeName },
    Root { attention_type: u8, node: NodeName },
}

/// The fields of a record. Those that an element does not use are 0.
#[derive(Clone, Copy, Default)]
struct Fields {
    kind: u8,
    type_byte: u8,
    amount: u8,
    number: u8,
    id: u32,
    value: u64,
}

impl Fields {
    fn of_kind(kind: u8) -> Self {
        Fields {
            kind,
            ..Fields::default()
        }
    }

    fn of_expression(type_byte: u8) -> Self {
        Fields {
            type_byte,
            ..Fields::of_kind(EXPRESSION)
        }
    }

    fn named_register(self, name: RegisterName) -> Self {
        Fields {
            number: name.instance,
            id: name.id,
            ..self
        }
    }

    fn named_node(self, name: NodeName) -> Self {
        Fields {
            number: name.instance,
            id: name.id.into(),
            ..self
        }
    }

    /// None if the record is cut short.
    fn of_record(record: &[u8]) -> Option<Self> {
        let &[kind, type_byte, amount, number, a, b, c, d, ref value @ ..] = record else {
            return None;
        };
        Some(Fields {
            kind,
            type_byte,
            amount,
            number,
            id: u32::from_be_bytes([a, b, c, d]),
            value: u64::from_be_bytes(value.try_into().ok()?),
        })
    }

    fn record(self) -> Record {
        let mut record = [0; RECORD_BYTES];
        record[0] = self.kind;
        record[1] = self.type_byte;
        record[2] = self.amount;
        record[3] = self.number;
        record[4..8].copy_from_slice(&self.id.to_be_bytes());
        record[8..].copy_from_slice(&self.value.to_be_bytes());
        record
    }

    /// The last 3 bytes of the ID, and the instance.
    fn register_name(self) -> RegisterName {
        RegisterName {
            id: self.id & 0x00FF_FFFF,
            instance: self.number,
        }
    }

    /// The last 2 bytes of the ID, and the instance.
    fn node_name(self) -> NodeName {
        NodeName {
            id: self.id as u16,
            instance: self.number,
        }
    }
}

impl Element {
    /// None if the record is cut short, its kind or expression type is unknown, or
    /// a byte that it does not use is not 0: an element's record has zeros there.
    fn of_record(record: &[u8]) -> Option<Self> {
        let fields = Fields::of_record(record)?;
        let element = Element::of_fields(fields)?;
        (element.fields().record() == record).then_some(element)
    }

    fn of_fields(fields: Fields) -> Option<Self> {
        Some(match fields.kind {
            REGISTER => Element::Register {
                id: fields.register_name().id,
                kind: fields.type_byte,
                flags: fields.amount,
            },
            REGISTER_INSTANCE => Element::RegisterInstance {
                number: fields.number,
                address: fields.value,
            },
            NODE => Element::Node {
                id: fields.node_name().id,
                kind: fields.type_byte,
            },
            NODE_INSTANCE => Element::NodeInstance {
                number: fields.number,
            },
            CAPTURE => Element::Capture(fields.register_name()),
            RULE => Element::Rule {
                attention_type: fields.type_byte,
            },
            EXPRESSION => return Element::of_expression(fields),
            CHILD => Element::Child {
                bit: fields.amount,
                node: fields.node_name(),
            },
            ROOT => Element::Root {
                attention_type: fields.type_byte,
                node: fields.node_name(),
            },
            _ => return None,
        })
    }

    fn of_expression(fields: Fields) -> Option<Self> {
        Some(match fields.type_byte {
            layout::EXPRESSION_REGISTER => Element::Reading(fields.register_name()),
            layout::EXPRESSION_CONSTANT => Element::Constant(fields.value),
            layout::EXPRESSION_AND => Element::And(fields.amount),
            layout::EXPRESSION_OR => Element::Or(fields.amount),
            layout::EXPRESSION_NOT => Element::Not,
            layout::EXPRESSION_SHIFT_LEFT => Element::ShiftLeft(fields.amount),
            layout::EXPRESSION_SHIFT_RIGHT => Element::ShiftRight(fields.amount),
            _ => return None,
        })
    }

    fn fields(self) -> Fields {
        let of_kind = Fields::of_kind;
        let of_expression = Fields::of_expression;
        match self {
            Element::Register { id, kind, flags } => Fields {
                type_byte: kind,
                amount: flags,
                id,
                ..of_kind(REGISTER)
            },
            Element::RegisterInstance { number, address } => Fields {
                number,
                value: address,
                ..of_kind(REGISTER_INSTANCE)
            },
            Element::Node { id, kind } => Fields {
                type_byte: kind,
                id: id.into(),
                ..of_kind(NODE)
            },
            Element::NodeInstance { number } => Fields {
                number,
                ..of_kind(NODE_INSTANCE)
            },
            Element::Capture(register) => of_kind(CAPTURE).named_register(register),
            Element::Rule { attention_type } => Fields {
                type_byte: attention_type,
                ..of_kind(RULE)
            },
            Element::Reading(register) => {
                of_expression(layout::EXPRESSION_REGISTER).named_register(register)
            }
            Element::Constant(value) => Fields {
                value,
                ..of_expression(layout::EXPRESSION_CONSTANT)
            },
            Element::And(amount) => Fields {
                amount,
                ..of_expression(layout::EXPRESSION_AND)
            },
            Element::Or(amount) => Fields {
                amount,
                ..of_expression(layout::EXPRESSION_OR)
            },
            Element::Not => of_expression(layout::EXPRESSION_NOT),
            Element::ShiftLeft(amount) => Fields {
                amount,
                ..of_expression(layout::EXPRESSION_SHIFT_LEFT)
            },
            Element::ShiftRight(amount) => Fields {
                amount,
                ..of_expression(layout::EXPRESSION_SHIFT_RIGHT)
            },
            Element::Child { bit, node } => Fields {
                amount: bit,
                ..of_kind(CHILD).named_node(node)
            },
            Element::Root {
                attention_type,
                node,
            } => Fields {
                type_byte: attention_type,
                ..of_kind(ROOT).named_node(node)
            },
        }
    }

    /// How many expressions have to follow an expression as its operands. None for
    /// other elements.
    fn operands(self) -> Option<usize> {
        match self {
            Element::Reading(_) | Element::Constant(_) => Some(0),
            Element::And(count) | Element::Or(count) => Some(count.into()),
            Element::Not | Element::ShiftLeft(_) | Element::ShiftRight(_) => Some(1),
            _ => None,
        }
    }

    /// The bytes of the element in the file, with counts of 0 where others are
    /// counted. A register instance has an address of so many bytes.
    fn bytes(self, address_size: usize) -> Vec<u8> {
        let type_byte = self.fields().type_byte;
        match self {
            Element::Register { id, kind, flags } => {
                let [_, a, b, c] = id.to_be_bytes();
                vec![a, b, c, kind, flags, 0]
            }
            Element::RegisterInstance { number, address } => {
                let address = address.to_be_bytes();
                let used = &address[address.len() - address_size..];
                [&[number], used].concat()
            }
            Element::Node { id, kind } => {
                let [a, b] = id.to_be_bytes();
                vec![a, b, kind, 0]
            }
            Element::NodeInstance { number } => vec![number, 0, 0, 0],
            Element::Capture(register) => register_bytes(register),
            Element::Rule { attention_type } => vec![attention_type],
            Element::Reading(register) => [vec![type_byte], register_bytes(register)].concat(),
            Element::Constant(value) => [&[type_byte], &value.to_be_bytes()[..]].concat(),
            Element::Not => vec![type_byte],
            Element::And(amount)
            | Element::Or(amount)
            | Element::ShiftLeft(amount)
            | Element::ShiftRight(amount) => vec![type_byte, amount],
            Element::Child { bit, node } => [vec![bit], node_bytes(node)].concat(),
            Element::Root {
                attention_type,
                node,
            } => [vec![attention_type], node_bytes(node)].concat(),
        }
    }
}

fn register_bytes(name: RegisterName) -> Vec<u8> {
    let [_, a, b, c] = name.id.to_be_bytes();
    vec![a, b, c, name.instance]
}

fn node_bytes(name: NodeName) -> Vec<u8> {
    let [a, b] = name.id.to_be_bytes();
    vec![a, b, name.instance]
}

/// What stands before a record. A rule stands there with its expression.
#[derive(Clone, Copy, Debug, Default, PartialEq, Eq)]
enum Before {
    #[default]
    Nothing,
    Register,
    RegisterInstance,
    Node,
    NodeInstance,
    Capture,
    Rule,
    Child,
    Root,
}

/// A section of the file behind its count.
#[derive(Default)]
struct Section {
    count: u32,
    bytes: Vec<u8>,
}

impl Section {
    /// One more, if the count field still has room for it.
    fn count_one(&mut self, most: u32) -> Option<()> {
        if self.count == most {
            return None;
        }
        self.count += 1;
        Some(())
    }

    /// Raises the count of one byte at this place, if it is not full.
    fn raise(&mut self, at: usize) -> Option<()> {
        self.bytes[at] = self.bytes[at].checked_add(1)?;
        Some(())
    }

    /// The place of a byte of the element that is put next.
    fn place_of(&self, byte: usize) -> usize {
        self.bytes.len() + byte
    }
}

/// The largest values of the counts of sections, of 3, 2 and 1 bytes.
const MOST_REGISTERS: u32 = 0x00FF_FFFF;
const MOST_NODES: u32 = 0xFFFF;
const MOST_ROOTS: u32 = 0xFF;

/// The address bytes of every register type but 1, the unknown ones among them.
const LONGEST_ADDRESS: usize = 8;

/// The file of the records so far.
#[derive(Default)]
struct Draft {
    registers: Section,
    nodes: Section,
    roots: Section,
    before: Before,
    /// How many expressions have to follow.
    owed: usize,
    /// Of the last register.
    address_size: usize,
    /// The place of the count of instances of the last register, in its section.
    register_instances_at: usize,
    /// Of the last node.
    node_instances_at: usize,
    /// The places of the counts of the last node instance.
    captures_at: usize,
    rules_at: usize,
    children_at: usize,
}

impl Draft {
    /// None if the records so far do not allow it.
    fn add(&mut self, element: Element) -> Option<()> {
        match element.operands() {
            Some(operands) => {
                self.owed = self.owed.checked_sub(1)? + operands;
                self.nodes.bytes.extend(element.bytes(0));
                Some(())
            }
            None if self.owed > 0 => None,
            None => self.add_other(element),
        }
    }

    /// Adds an element that is no expression, where none is owed.
    fn add_other(&mut self, element: Element) -> Option<()> {
        let before = self.before;
        self.before = match element {
            Element::Register { kind, .. } => {
                before.is_one_of(&[Before::Nothing, Before::Register, Before::RegisterInstance])?;
                self.registers.count_one(MOST_REGISTERS)?;
                let known = RegisterType::from_byte(kind);
                self.address_size = known.map_or(LONGEST_ADDRESS, RegisterType::address_size);
                self.register_instances_at = self.registers.place_of(5);
                Before::Register
            }
            Element::RegisterInstance { address, .. } => {
                before.is_one_of(&[Before::Register, Before::RegisterInstance])?;
                self.registers.raise(self.register_instances_at)?;
                // The bytes of the value before a shorter address are unused.
                if self.address_size < LONGEST_ADDRESS && address >> (8 * self.address_size) != 0 {
                    return None;
                }
                Before::RegisterInstance
            }
            Element::Node { .. } => {
                if before == Before::Root {
                    return None;
                }
                self.nodes.count_one(MOST_NODES)?;
                self.node_instances_at = self.nodes.place_of(3);
                Before::Node
            }
            Element::NodeInstance { .. } => {
                before.is_one_of(&[
                    Before::Node,
                    Before::NodeInstance,
                    Before::Capture,
                    Before::Rule,
                    Before::Child,
                ])?;
                self.nodes.raise(self.node_instances_at)?;
                self.captures_at = self.nodes.place_of(1);
                self.rules_at = self.nodes.place_of(2);
                self.children_at = self.nodes.place_of(3);
                Before::NodeInstance
            }
            Element::Capture(_) => {
                before.is_one_of(&[Before::NodeInstance, Before::Capture])?;
                self.nodes.raise(self.captures_at)?;
                Before::Capture
            }
            Element::Rule { .. } => {
                before.is_one_of(&[Before::NodeInstance, Before::Capture, Before::Rule])?;
                self.nodes.raise(self.rules_at)?;
                self.owed = 1;
                Before::Rule
            }
            Element::Child { .. } => {
                before.is_one_of(&[
                    Before::NodeInstance,
                    Before::Capture,
                    Before::Rule,
                    Before::Child,
                ])?;
                self.nodes.raise(self.children_at)?;
                Before::Child
            }
            Element::Root { .. } => {
                self.roots.count_one(MOST_ROOTS)?;
                Before::Root
            }
            _ => return None,
        };
        let section = match self.before {
            Before::Register | Before::RegisterInstance => &mut self.registers,
            Before::Root => &mut self.roots,
            _ => &mut self.nodes,
        };
        section.bytes.extend(element.bytes(self.address_size));
        Some(())
    }

    /// The whole file.
    fn file(&self, model: u32) -> Vec<u8> {
        let [_, a, b, c] = self.registers.count.to_be_bytes();
        let [_, _, d, e] = self.nodes.count.to_be_bytes();
        let [_, _, _, f] = self.roots.count.to_be_bytes();
        [
            &CHIP_KEYWORD[..],
            &model.to_be_bytes(),
            &[VERSION],
            &REGISTER_KEYWORD,
            &[a, b, c],
            &self.registers.bytes,
            &NODE_KEYWORD,
            &[d, e],
            &self.nodes.bytes,
            &ROOT_KEYWORD,
            &[f],
            &self.roots.bytes,
        ]
        .concat()
    }
}

impl Before {
    fn is_one_of(self, allowed: &[Before]) -> Option<()> {
        allowed.contains(&self).then_some(())
    }
}

/// The records of the tree of a file. Every register and every node has instances,
/// and these stand together.
fn records_of(file: &[u8], tree: &Tree) -> Vec<Record> {
    let mut records = Records(Vec::new());
    let instances = &tree.register_instances;
    let instances = instances.chunk_by(|one, next| one.register == next.register);
    for (register, instances) in tree.registers.iter().zip(instances) {
        records.add_register(register);
        for instance in instances {
            let size = register.register_type.address_size();
            let address = &file[instance.address_at..][..size];
            records.add_register_instance(instance.number, address);
        }
    }
    let instances = &tree.node_instances;
    let instances = instances.chunk_by(|one, next| one.node == next.node);
    for (node, instances) in tree.nodes.iter().zip(instances) {
        records.add(Element::Node {
            id: node.id,
            kind: node.register_type.to_byte(),
        });
        for instance in instances {
            records.add_node_instance(instance);
        }
    }
    for root in &tree.roots {
        records.add(Element::Root {
            attention_type: root.attention_type,
            node: root.node,
        });
    }
    records.0
}

struct Records(Vec<Record>);

impl Records {
    fn add(&mut self, element: Element) {
        self.0.push(element.fields().record());
    }

    fn add_register(&mut self, register: &Register) {
        let readable = if register.readable { READABLE } else { 0 };
        let writable = if register.writable { WRITABLE } else { 0 };
        self.add(Element::Register {
            id: register.id,
            kind: register.register_type.to_byte(),
            flags: readable | writable,
        });
    }

    fn add_register_instance(&mut self, number: u8, address: &[u8]) {
        let address = address
            .iter()
            .fold(0, |value, &byte| value << 8 | u64::from(byte));
        self.add(Element::RegisterInstance { number, address });
    }

    fn add_node_instance(&mut self, instance: &NodeInstance) {
        self.add(Element::NodeInstance {
            number: instance.name.instance,
        });
        for capture in &instance.captures {
            self.add(Element::Capture(capture.register));
        }
        for rule in &instance.rules {
            self.add(Element::Rule {
                attention_type: rule.attention_type,
            });
            self.add_expression(&rule.expression);
        }
        for child in &instance.children {
            self.add(Element::Child {
                bit: child.bit,
                node: child.node,
            });
        }
    }

    /// The expression and its operands. An accepted file has at most 16 levels.
    fn add_expression(&mut self, expression: &Expression) {
        match &expression.operation {
            Operation::Register(name) => self.add(Element::Reading(*name)),
            Operation::Constant(value) => self.add(Element::Constant(*value)),
            Operation::And(operands) => {
                self.add(Element::And(operands.len() as u8));
                self.add_operands(operands);
            }
            Operation::Or(operands) => {
                self.add(Element::Or(operands.len() as u8));
                self.add_operands(operands);
            }
            Operation::Not(operand) => {
                self.add(Element::Not);
                self.add_expression(operand);
            }
            Operation::ShiftLeft(shift, operand) => {
                self.add(Element::ShiftLeft(*shift));
                self.add_expression(operand);
            }
            Operation::ShiftRight(shift, operand) => {
                self.add(Element::ShiftRight(*shift));
                self.add_expression(operand);
            }
        }
    }

    fn add_operands(&mut self, operands: &[Expression]) {
        for operand in operands {
            self.add_expression(operand);
        }
    }
}
