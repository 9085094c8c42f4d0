//! From names to positions.

use std::collections::HashMap;

use crate::tree::{NodeName, RegisterName, Tree};

/// The position of every register instance and node instance of a tree.
pub struct Index {
    register_instances: HashMap<RegisterName, usize>,
    node_instances: HashMap<NodeName, usize>,
}

impl Index {
    pub fn new(tree: &Tree) -> Self {
        let register_instances = tree.register_instances.iter().enumerate();
        let node_instances = tree.node_instances.iter().enumerate();
        Index {
            register_instances: register_instances
                .map(|(at, instance)| {
                    let name = RegisterName {
                        id: tree.registers[instance.register].id,
                        instance: instance.number,
                    };
                    (name, at)
                })
                .collect(),
            node_instances: node_instances
                .map(|(at, instance)| (instance.name, at))
                .collect(),
        }
    }

    pub fn register_instance(&self, name: RegisterName) -> Option<usize> {
        self.register_instances.get(&name).copied()
    }

    pub fn node_instance(&self, name: NodeName) -> Option<usize> {
        self.node_instances.get(&name).copied()
    }
}
