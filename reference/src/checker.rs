//! The checker and the address query.

use std::fmt;

use crate::index::Index;
use crate::layout::Limits;
use crate::refusal::{self, Refusal};
use crate::tree::{RegisterName, Tree};
use crate::{cycles, layout, references};

/// A file that none of the refusals 1 to 14 meets, by some limits.
pub struct Accepted {
    pub tree: Tree,
    pub index: Index,
}

impl Accepted {
    /// By the library's limits.
    pub fn read(file: &[u8]) -> Result<Self, Refusal> {
        Self::read_within(file, Limits::LIBRARY)
    }

    pub fn read_within(file: &[u8], limits: Limits) -> Result<Self, Refusal> {
        let tree = layout::read_within(file, limits)?;
        let index = Index::new(&tree);
        references::check(&tree, &index)?;
        cycles::check(&tree, &index)?;
        Ok(Accepted { tree, index })
    }

    pub fn summary(&self) -> Summary {
        Summary {
            model: self.tree.model,
            registers: self.tree.registers.len(),
            register_instances: self.tree.register_instances.len(),
            nodes: self.tree.nodes.len(),
            node_instances: self.tree.node_instances.len(),
            roots: self.tree.roots.len(),
        }
    }

    /// Offset and size of a register instance's address.
    pub fn address(&self, name: RegisterName) -> Option<(usize, usize)> {
        let position = self.index.register_instance(name)?;
        let instance = &self.tree.register_instances[position];
        let register_type = self.tree.registers[instance.register].register_type;
        Some((instance.address_at, register_type.address_size()))
    }
}

#[derive(Clone, Copy, Debug, PartialEq, Eq)]
pub struct Summary {
    pub model: u32,
    pub registers: usize,
    pub register_instances: usize,
    pub nodes: usize,
    pub node_instances: usize,
    pub roots: usize,
}

impl fmt::Display for Summary {
    fn fmt(&self, f: &mut fmt::Formatter<'_>) -> fmt::Result {
        write!(
            f,
            "accepted {} {} {} {} {} {}",
            self.model,
            self.registers,
            self.register_instances,
            self.nodes,
            self.node_instances,
            self.roots
        )
    }
}

pub fn check(file: &[u8]) -> Result<Summary, Refusal> {
    check_within(file, Limits::LIBRARY)
}

/// The check by these limits.
pub fn check_within(file: &[u8], limits: Limits) -> Result<Summary, Refusal> {
    Ok(Accepted::read_within(file, limits)?.summary())
}

/// Offset and size of the address of a register instance. An instance that is
/// absent from an accepted file is refused at place 0.
pub fn address(file: &[u8], id: u32, instance: u8) -> Result<(usize, usize), Refusal> {
    Accepted::read(file)?
        .address(RegisterName { id, instance })
        .ok_or(Refusal::new(refusal::ABSENT, 0))
}

/// The checker's answer in one line.
pub fn verdict(file: &[u8]) -> String {
    match check(file) {
        Ok(summary) => summary.to_string(),
        Err(refusal) => refusal.to_string(),
    }
}
