//! What a chip data file says, with the offsets that refusals name.
//!
//! Instances stand in flat lists in file order; an instance's index in its
//! list is its position.

/// Registers and nodes share the same two types.
#[derive(Clone, Copy, Debug, PartialEq, Eq)]
pub enum RegisterType {
    Scom,
    IndirectScom,
}

impl RegisterType {
    pub fn from_byte(byte: u8) -> Option<Self> {
        match byte {
            1 => Some(RegisterType::Scom),
            2 => Some(RegisterType::IndirectScom),
            _ => None,
        }
    }

    pub fn to_byte(self) -> u8 {
        match self {
            RegisterType::Scom => 1,
            RegisterType::IndirectScom => 2,
        }
    }

    pub fn address_size(self) -> usize {
        match self {
            RegisterType::Scom => 4,
            RegisterType::IndirectScom => 8,
        }
    }
}

#[derive(Clone, Copy, Debug, PartialEq, Eq)]
pub struct Register {
    pub id: u32,
    pub register_type: RegisterType,
    pub readable: bool,
    pub writable: bool,
}

#[derive(Clone, Copy, Debug, PartialEq, Eq)]
pub struct RegisterInstance {
    /// Index of the register it belongs to.
    pub register: usize,
    pub number: u8,
    /// Offset of the first address byte.
    pub address_at: usize,
}

#[derive(Clone, Copy, Debug, PartialEq, Eq, Hash)]
pub struct RegisterName {
    pub id: u32,
    pub instance: u8,
}

#[derive(Clone, Copy, Debug, PartialEq, Eq, Hash)]
pub struct NodeName {
    pub id: u16,
    pub instance: u8,
}

#[derive(Clone, Copy, Debug, PartialEq, Eq)]
pub struct Node {
    pub id: u16,
    pub register_type: RegisterType,
}

#[derive(Clone, Debug, PartialEq, Eq)]
pub struct NodeInstance {
    /// Index of the node it belongs to.
    pub node: usize,
    pub name: NodeName,
    /// Offset of the number byte.
    pub at: usize,
    pub captures: Vec<Capture>,
    pub rules: Vec<Rule>,
    pub children: Vec<Child>,
}

impl NodeInstance {
    pub fn rule(&self, attention_type: u8) -> Option<&Rule> {
        self.rules
            .iter()
            .find(|rule| rule.attention_type == attention_type)
    }
}

#[derive(Clone, Copy, Debug, PartialEq, Eq)]
pub struct Capture {
    pub at: usize,
    pub register: RegisterName,
}

#[derive(Clone, Debug, PartialEq, Eq)]
pub struct Rule {
    pub attention_type: u8,
    pub expression: Expression,
}

#[derive(Clone, Debug, PartialEq, Eq)]
pub struct Expression {
    /// Offset of the type byte.
    pub at: usize,
    pub operation: Operation,
}

#[derive(Clone, Debug, PartialEq, Eq)]
pub enum Operation {
    Register(RegisterName),
    Constant(u64),
    And(Vec<Expression>),
    Or(Vec<Expression>),
    Not(Box<Expression>),
    ShiftLeft(u8, Box<Expression>),
    ShiftRight(u8, Box<Expression>),
}

#[derive(Clone, Copy, Debug, PartialEq, Eq)]
pub struct Child {
    pub at: usize,
    pub bit: u8,
    pub node: NodeName,
}

#[derive(Clone, Copy, Debug, PartialEq, Eq)]
pub struct Root {
    pub at: usize,
    pub attention_type: u8,
    pub node: NodeName,
}

#[derive(Clone, Debug, PartialEq, Eq)]
pub struct Tree {
    pub model: u32,
    pub registers: Vec<Register>,
    pub register_instances: Vec<RegisterInstance>,
    pub nodes: Vec<Node>,
    pub node_instances: Vec<NodeInstance>,
    pub roots: Vec<Root>,
}
