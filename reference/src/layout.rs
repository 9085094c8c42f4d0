//! Reads a file into a [`Tree`], with refusals 1 to 11.
//!
//! The walk takes one field after the other and refuses at the first field
//! that breaks a rule. At one field the order is: cut short, instance limit,
//! level 17, the field's own value, duplicate.

use std::collections::HashSet;

use crate::refusal::{self, Refusal};
use crate::tree::{
    Capture, Child, Expression, Node, NodeInstance, NodeName, Operation, Register,
    RegisterInstance, RegisterName, RegisterType, Root, Rule, Tree,
};

/// How long a file may be, and how many instances it may have.
#[derive(Clone, Copy, Debug, PartialEq, Eq)]
pub struct Limits {
    pub bytes: usize,
    pub register_instances: usize,
    pub node_instances: usize,
}

impl Limits {
    /// Of the library's calls: check, address and isolation.
    pub const LIBRARY: Limits = Limits {
        bytes: 1_048_576,
        register_instances: 8_192,
        node_instances: 1_024,
    };
    /// Of the station's text.
    pub const PROGRAM: Limits = Limits {
        bytes: 65_536,
        register_instances: 1_024,
        node_instances: 256,
    };
}

/// The outermost expression has level 1.
pub const MAX_EXPRESSION_LEVEL: usize = 16;

pub const CHIP_KEYWORD: [u8; 8] = *b"CHIPDATA";
pub const REGISTER_KEYWORD: [u8; 4] = *b"REGS";
pub const NODE_KEYWORD: [u8; 4] = *b"NODE";
pub const ROOT_KEYWORD: [u8; 4] = *b"ROOT";

pub const VERSION: u8 = 1;
pub const READABLE: u8 = 0x80;
pub const WRITABLE: u8 = 0x40;

pub const LOWEST_ATTENTION: u8 = 1;
pub const HIGHEST_ATTENTION: u8 = 5;
pub const HIGHEST_BIT: u8 = 63;
pub const FEWEST_OPERANDS: u8 = 2;

pub const EXPRESSION_REGISTER: u8 = 0x01;
pub const EXPRESSION_CONSTANT: u8 = 0x02;
pub const EXPRESSION_AND: u8 = 0x10;
pub const EXPRESSION_OR: u8 = 0x11;
pub const EXPRESSION_NOT: u8 = 0x12;
pub const EXPRESSION_SHIFT_LEFT: u8 = 0x13;
pub const EXPRESSION_SHIFT_RIGHT: u8 = 0x14;

pub fn is_attention_type(byte: u8) -> bool {
    (LOWEST_ATTENTION..=HIGHEST_ATTENTION).contains(&byte)
}

/// The tree of a file that meets the layout, by the library's limits.
pub fn read(file: &[u8]) -> Result<Tree, Refusal> {
    read_within(file, Limits::LIBRARY)
}

/// The tree of a file that meets the layout, by these limits.
pub fn read_within(file: &[u8], limits: Limits) -> Result<Tree, Refusal> {
    if file.len() > limits.bytes {
        return Err(Refusal::new(refusal::FILE_TOO_LONG, 0));
    }
    let mut walk = Walk::new(file, limits);
    walk.start()?;
    walk.registers()?;
    walk.nodes()?;
    walk.roots()?;
    walk.end()?;
    Ok(walk.tree)
}

/// A field that is wholly there.
#[derive(Clone, Copy)]
struct Field<T> {
    at: usize,
    value: T,
}

impl<T> Field<T> {
    fn refuse(&self, number: u8) -> Refusal {
        Refusal::new(number, self.at)
    }
}

/// A set of byte values.
#[derive(Default)]
struct ByteSet([u64; 4]);

impl ByteSet {
    /// False if the byte was in the set already.
    fn insert(&mut self, byte: u8) -> bool {
        let word = &mut self.0[usize::from(byte >> 6)];
        let mark = 1 << (byte & 63);
        let is_new = *word & mark == 0;
        *word |= mark;
        is_new
    }
}

struct Walk<'a> {
    file: &'a [u8],
    limits: Limits,
    at: usize,
    tree: Tree,
}

impl<'a> Walk<'a> {
    fn new(file: &'a [u8], limits: Limits) -> Self {
        Walk {
            file,
            limits,
            at: 0,
            tree: Tree {
                model: 0,
                registers: Vec::new(),
                register_instances: Vec::new(),
                nodes: Vec::new(),
                node_instances: Vec::new(),
                roots: Vec::new(),
            },
        }
    }

    // Fields.

    fn bytes(&mut self, size: usize) -> Result<Field<&'a [u8]>, Refusal> {
        let at = self.at;
        let value = self
            .file
            .get(at..at + size)
            .ok_or(Refusal::new(refusal::FIELD_CUT_SHORT, at))?;
        self.at += size;
        Ok(Field { at, value })
    }

    /// A big-endian number of at most 8 bytes.
    fn number(&mut self, size: usize) -> Result<Field<u64>, Refusal> {
        let Field { at, value } = self.bytes(size)?;
        let value = value
            .iter()
            .fold(0, |number, &byte| number << 8 | u64::from(byte));
        Ok(Field { at, value })
    }

    fn byte(&mut self) -> Result<Field<u8>, Refusal> {
        let Field { at, value } = self.bytes(1)?;
        Ok(Field {
            at,
            value: value[0],
        })
    }

    fn register_id(&mut self) -> Result<Field<u32>, Refusal> {
        let Field { at, value } = self.number(3)?;
        Ok(Field {
            at,
            value: value as u32,
        })
    }

    fn node_id(&mut self) -> Result<Field<u16>, Refusal> {
        let Field { at, value } = self.number(2)?;
        Ok(Field {
            at,
            value: value as u16,
        })
    }

    fn keyword(&mut self, letters: &[u8]) -> Result<(), Refusal> {
        let keyword = self.bytes(letters.len())?;
        if keyword.value != letters {
            return Err(keyword.refuse(refusal::WRONG_KEYWORD));
        }
        Ok(())
    }

    /// A count of `size` bytes that may not be 0.
    fn count(&mut self, size: usize) -> Result<u64, Refusal> {
        let count = self.number(size)?;
        if count.value == 0 {
            return Err(count.refuse(refusal::ZERO_COUNT));
        }
        Ok(count.value)
    }

    fn register_type(&mut self) -> Result<RegisterType, Refusal> {
        let byte = self.byte()?;
        RegisterType::from_byte(byte.value).ok_or(byte.refuse(refusal::UNKNOWN_VALUE))
    }

    /// An attention type that is not yet in `seen`.
    fn attention_type(&mut self, seen: &mut ByteSet) -> Result<Field<u8>, Refusal> {
        let attention_type = self.byte()?;
        if !is_attention_type(attention_type.value) {
            return Err(attention_type.refuse(refusal::UNKNOWN_VALUE));
        }
        if !seen.insert(attention_type.value) {
            return Err(attention_type.refuse(refusal::DUPLICATE));
        }
        Ok(attention_type)
    }

    /// An instance number that is not yet in `seen`, when `instances` of at
    /// most `limit` instances in the file have been read.
    fn instance_number(
        &mut self,
        instances: usize,
        limit: usize,
        seen: &mut ByteSet,
    ) -> Result<Field<u8>, Refusal> {
        let number = self.byte()?;
        if instances == limit {
            return Err(number.refuse(refusal::TOO_MANY_INSTANCES));
        }
        if !seen.insert(number.value) {
            return Err(number.refuse(refusal::DUPLICATE));
        }
        Ok(number)
    }

    fn register_name(&mut self) -> Result<RegisterName, Refusal> {
        Ok(RegisterName {
            id: self.register_id()?.value,
            instance: self.byte()?.value,
        })
    }

    fn node_name(&mut self) -> Result<NodeName, Refusal> {
        Ok(NodeName {
            id: self.node_id()?.value,
            instance: self.byte()?.value,
        })
    }

    // Sections.

    fn start(&mut self) -> Result<(), Refusal> {
        self.keyword(&CHIP_KEYWORD)?;
        self.tree.model = self.number(4)?.value as u32;
        let version = self.byte()?;
        if version.value != VERSION {
            return Err(version.refuse(refusal::WRONG_VERSION));
        }
        Ok(())
    }

    fn registers(&mut self) -> Result<(), Refusal> {
        self.keyword(&REGISTER_KEYWORD)?;
        let mut ids = HashSet::new();
        for _ in 0..self.count(3)? {
            self.register(&mut ids)?;
        }
        Ok(())
    }

    fn register(&mut self, ids: &mut HashSet<u32>) -> Result<(), Refusal> {
        let id = self.register_id()?;
        if !ids.insert(id.value) {
            return Err(id.refuse(refusal::DUPLICATE));
        }
        let register_type = self.register_type()?;
        let flags = self.byte()?;
        if flags.value & !(READABLE | WRITABLE) != 0 {
            return Err(flags.refuse(refusal::UNKNOWN_VALUE));
        }
        let register = self.tree.registers.len();
        self.tree.registers.push(Register {
            id: id.value,
            register_type,
            readable: flags.value & READABLE != 0,
            writable: flags.value & WRITABLE != 0,
        });

        let mut numbers = ByteSet::default();
        for _ in 0..self.count(1)? {
            let number = self.instance_number(
                self.tree.register_instances.len(),
                self.limits.register_instances,
                &mut numbers,
            )?;
            let address = self.bytes(register_type.address_size())?;
            self.tree.register_instances.push(RegisterInstance {
                register,
                number: number.value,
                address_at: address.at,
            });
        }
        Ok(())
    }

    fn nodes(&mut self) -> Result<(), Refusal> {
        self.keyword(&NODE_KEYWORD)?;
        let mut ids = HashSet::new();
        for _ in 0..self.count(2)? {
            self.node(&mut ids)?;
        }
        Ok(())
    }

    fn node(&mut self, ids: &mut HashSet<u16>) -> Result<(), Refusal> {
        let id = self.node_id()?;
        if !ids.insert(id.value) {
            return Err(id.refuse(refusal::DUPLICATE));
        }
        let register_type = self.register_type()?;
        let node = self.tree.nodes.len();
        self.tree.nodes.push(Node {
            id: id.value,
            register_type,
        });

        let mut numbers = ByteSet::default();
        for _ in 0..self.count(1)? {
            let instance = self.node_instance(node, id.value, &mut numbers)?;
            self.tree.node_instances.push(instance);
        }
        Ok(())
    }

    fn node_instance(
        &mut self,
        node: usize,
        id: u16,
        numbers: &mut ByteSet,
    ) -> Result<NodeInstance, Refusal> {
        let number = self.instance_number(
            self.tree.node_instances.len(),
            self.limits.node_instances,
            numbers,
        )?;
        let capture_count = self.byte()?.value;
        let rule_count = self.count(1)?;
        let child_count = self.byte()?.value;

        let captures = (0..capture_count)
            .map(|_| self.capture())
            .collect::<Result<_, _>>()?;
        let mut attention_types = ByteSet::default();
        let rules = (0..rule_count)
            .map(|_| self.rule(&mut attention_types))
            .collect::<Result<_, _>>()?;
        let mut bits = ByteSet::default();
        let children = (0..child_count)
            .map(|_| self.child(&mut bits))
            .collect::<Result<_, _>>()?;

        Ok(NodeInstance {
            node,
            name: NodeName {
                id,
                instance: number.value,
            },
            at: number.at,
            captures,
            rules,
            children,
        })
    }

    fn capture(&mut self) -> Result<Capture, Refusal> {
        Ok(Capture {
            at: self.at,
            register: self.register_name()?,
        })
    }

    fn rule(&mut self, attention_types: &mut ByteSet) -> Result<Rule, Refusal> {
        Ok(Rule {
            attention_type: self.attention_type(attention_types)?.value,
            expression: self.expression(1)?,
        })
    }

    fn expression(&mut self, level: usize) -> Result<Expression, Refusal> {
        let kind = self.byte()?;
        if level > MAX_EXPRESSION_LEVEL {
            return Err(kind.refuse(refusal::BAD_EXPRESSION));
        }
        let operation = match kind.value {
            EXPRESSION_REGISTER => Operation::Register(self.register_name()?),
            EXPRESSION_CONSTANT => Operation::Constant(self.number(8)?.value),
            EXPRESSION_AND => Operation::And(self.operands(level)?),
            EXPRESSION_OR => Operation::Or(self.operands(level)?),
            EXPRESSION_NOT => Operation::Not(Box::new(self.expression(level + 1)?)),
            EXPRESSION_SHIFT_LEFT => {
                Operation::ShiftLeft(self.at_least(1)?, Box::new(self.expression(level + 1)?))
            }
            EXPRESSION_SHIFT_RIGHT => {
                Operation::ShiftRight(self.at_least(1)?, Box::new(self.expression(level + 1)?))
            }
            _ => return Err(kind.refuse(refusal::UNKNOWN_VALUE)),
        };
        Ok(Expression {
            at: kind.at,
            operation,
        })
    }

    fn operands(&mut self, level: usize) -> Result<Vec<Expression>, Refusal> {
        let count = self.at_least(FEWEST_OPERANDS)?;
        (0..count).map(|_| self.expression(level + 1)).collect()
    }

    /// An expression's count or shift, which is `least` or more.
    fn at_least(&mut self, least: u8) -> Result<u8, Refusal> {
        let byte = self.byte()?;
        if byte.value < least {
            return Err(byte.refuse(refusal::BAD_EXPRESSION));
        }
        Ok(byte.value)
    }

    fn child(&mut self, bits: &mut ByteSet) -> Result<Child, Refusal> {
        let bit = self.byte()?;
        if bit.value > HIGHEST_BIT {
            return Err(bit.refuse(refusal::BIT_TOO_HIGH));
        }
        if !bits.insert(bit.value) {
            return Err(bit.refuse(refusal::DUPLICATE));
        }
        Ok(Child {
            at: bit.at,
            bit: bit.value,
            node: self.node_name()?,
        })
    }

    fn roots(&mut self) -> Result<(), Refusal> {
        self.keyword(&ROOT_KEYWORD)?;
        let mut attention_types = ByteSet::default();
        for _ in 0..self.count(1)? {
            let attention_type = self.attention_type(&mut attention_types)?;
            let node = self.node_name()?;
            self.tree.roots.push(Root {
                at: attention_type.at,
                attention_type: attention_type.value,
                node,
            });
        }
        Ok(())
    }

    fn end(&self) -> Result<(), Refusal> {
        if self.at < self.file.len() {
            return Err(Refusal::new(refusal::BYTES_AFTER_END, self.at));
        }
        Ok(())
    }
}
