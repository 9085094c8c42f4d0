//! Refusals 12 and 13: every name stands for something in the file, every
//! captured register is readable, and every register of a rule is readable and
//! of the node's type.
//!
//! Captures, rules and children of each node instance, then the roots, are
//! visited in byte order.

use crate::index::Index;
use crate::refusal::{self, Refusal};
use crate::tree::{
    Capture, Expression, NodeInstance, Operation, Register, RegisterName, RegisterType, Root, Tree,
};

pub fn check(tree: &Tree, index: &Index) -> Result<(), Refusal> {
    for instance in &tree.node_instances {
        check_node_instance(tree, index, instance)?;
    }
    for root in &tree.roots {
        check_root(tree, index, root)?;
    }
    Ok(())
}

fn absent(at: usize) -> Refusal {
    Refusal::new(refusal::ABSENT, at)
}

fn unfit(at: usize) -> Refusal {
    Refusal::new(refusal::UNFIT_REGISTER, at)
}

/// The register of a register instance that is named at this place.
fn named_register<'a>(
    tree: &'a Tree,
    index: &Index,
    name: RegisterName,
    at: usize,
) -> Result<&'a Register, Refusal> {
    let position = index.register_instance(name).ok_or(absent(at))?;
    Ok(&tree.registers[tree.register_instances[position].register])
}

fn check_node_instance(tree: &Tree, index: &Index, instance: &NodeInstance) -> Result<(), Refusal> {
    for capture in &instance.captures {
        check_capture(tree, index, capture)?;
    }
    let register_type = tree.nodes[instance.node].register_type;
    for rule in &instance.rules {
        check_expression(tree, index, register_type, &rule.expression)?;
    }
    for child in &instance.children {
        index.node_instance(child.node).ok_or(absent(child.at))?;
    }
    Ok(())
}

/// A captured register is there and readable. Its type is not asked for.
fn check_capture(tree: &Tree, index: &Index, capture: &Capture) -> Result<(), Refusal> {
    let register = named_register(tree, index, capture.register, capture.at)?;
    if !register.readable {
        return Err(unfit(capture.at));
    }
    Ok(())
}

fn check_expression(
    tree: &Tree,
    index: &Index,
    register_type: RegisterType,
    expression: &Expression,
) -> Result<(), Refusal> {
    match &expression.operation {
        Operation::Register(name) => {
            let register = named_register(tree, index, *name, expression.at)?;
            if !register.readable || register.register_type != register_type {
                return Err(unfit(expression.at));
            }
            Ok(())
        }
        Operation::Constant(_) => Ok(()),
        Operation::And(operands) | Operation::Or(operands) => operands
            .iter()
            .try_for_each(|operand| check_expression(tree, index, register_type, operand)),
        Operation::Not(operand)
        | Operation::ShiftLeft(_, operand)
        | Operation::ShiftRight(_, operand) => {
            check_expression(tree, index, register_type, operand)
        }
    }
}

fn check_root(tree: &Tree, index: &Index, root: &Root) -> Result<(), Refusal> {
    let has_rule = index
        .node_instance(root.node)
        .and_then(|position| tree.node_instances[position].rule(root.attention_type))
        .is_some();
    if !has_rule {
        return Err(absent(root.at));
    }
    Ok(())
}
