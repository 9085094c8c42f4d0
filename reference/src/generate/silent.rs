//! Readings with which children show nothing.

use super::random::Random;
use super::Case;
use crate::checker::Accepted;
use crate::tree::{Expression, Operation, RegisterName, Rule};

/// Sets to 0 what the wanted rules of some children read.
pub(super) fn silence_children(random: &mut Random, case: &mut Case) {
    let Ok(accepted) = Accepted::read(&case.file) else {
        return;
    };
    let instances = &accepted.tree.node_instances;
    let rules: Vec<&Rule> = instances
        .iter()
        .flat_map(|instance| &instance.children)
        .filter_map(|child| accepted.index.node_instance(child.node))
        .filter_map(|child| instances[child].rule(case.attention_type))
        .collect();
    if rules.is_empty() {
        return;
    }
    for _ in 0..random.between(1, 3) {
        let rule = random.pick(&rules);
        let mut named = Vec::new();
        registers(&rule.expression, &mut named);
        for name in named {
            let position = accepted.index.register_instance(name);
            if let Some(word) = position.and_then(|position| case.words.get_mut(position)) {
                *word = 0;
            }
        }
    }
}

/// The registers that an expression names.
fn registers(expression: &Expression, named: &mut Vec<RegisterName>) {
    match &expression.operation {
        Operation::Register(name) => named.push(*name),
        Operation::Constant(_) => {}
        Operation::And(operands) | Operation::Or(operands) => {
            operands
                .iter()
                .for_each(|operand| registers(operand, named));
        }
        Operation::Not(operand)
        | Operation::ShiftLeft(_, operand)
        | Operation::ShiftRight(_, operand) => registers(operand, named),
    }
}

#[cfg(test)]
mod tests {
    use std::collections::{BTreeMap, BTreeSet};

    use super::*;
    use crate::expression::bit_is_set;
    use crate::generate::{aimed_case, case, Sizes};
    use crate::isolation::{isolate, listed_bit, RECORD_BYTES};
    use crate::layout::Limits;
    use crate::tree::Child;

    /// Cases with a listed bit whose child shows nothing, by what the children
    /// and bits are.
    #[derive(Debug, Default)]
    struct AboveSilent {
        cases: usize,
        child_without_rule: usize,
        child_with_constant: usize,
        child_with_register: usize,
        child_with_other_rule: usize,
        child_before_its_parent: usize,
        child_of_two_bits: usize,
        child_of_two_instances: usize,
        five_steps: usize,
        beside_a_showing_child: usize,
        beside_a_bit_without_child: usize,
    }

    impl AboveSilent {
        fn add(&mut self, case: &Case) {
            let mut list = vec![[0; RECORD_BYTES]; 64 * Limits::LIBRARY.node_instances];
            let answer = isolate(
                &case.file,
                case.attention_type,
                &case.words,
                &case.read,
                list.as_flattened_mut(),
            );
            let Ok((records, steps)) = answer else { return };
            let accepted = Accepted::read(&case.file).unwrap();
            let mut listed: BTreeMap<usize, BTreeSet<u8>> = BTreeMap::new();
            for record in &list[..records] {
                let (node, bit) = listed_bit(record);
                let position = accepted.index.node_instance(node);
                listed.entry(position.unwrap()).or_default().insert(bit);
            }

            // The instance of each listed bit with a child, and the child.
            let mut ends: Vec<(usize, usize)> = Vec::new();
            let mut is_beside_showing = false;
            let mut is_beside_no_child = false;
            for (&position, bits) in &listed {
                let instance = &accepted.tree.node_instances[position];
                let rule = instance.rule(case.attention_type).unwrap();
                let value = |name| Some(case.words[accepted.index.register_instance(name)?]);
                let active = rule.expression.evaluate(&value).unwrap();
                let (silent, others): (Vec<&Child>, Vec<&Child>) = instance
                    .children
                    .iter()
                    .partition(|child| bits.contains(&child.bit));
                if !silent.is_empty() {
                    let is_followed = |child: &&Child| bit_is_set(active, child.bit);
                    is_beside_showing |= others.iter().any(is_followed);
                    is_beside_no_child |= bits.len() > silent.len();
                }
                for child in silent {
                    let child = accepted.index.node_instance(child.node);
                    ends.push((position, child.unwrap()));
                }
            }
            if ends.is_empty() {
                return;
            }

            let operation = |child: usize| {
                let rule = accepted.tree.node_instances[child].rule(case.attention_type);
                rule.map(|rule| &rule.expression.operation)
            };
            let any = |holds: &dyn Fn(usize, usize) -> bool| {
                usize::from(ends.iter().any(|&(parent, child)| holds(parent, child)))
            };
            self.cases += 1;
            self.child_without_rule += any(&|_, child| operation(child).is_none());
            self.child_with_constant +=
                any(&|_, child| matches!(operation(child), Some(Operation::Constant(_))));
            self.child_with_register +=
                any(&|_, child| matches!(operation(child), Some(Operation::Register(_))));
            self.child_with_other_rule += any(&|_, child| {
                let leaf =
                    |o: &Operation| matches!(o, Operation::Constant(_) | Operation::Register(_));
                operation(child).is_some_and(|operation| !leaf(operation))
            });
            self.child_before_its_parent += any(&|parent, child| child < parent);
            self.child_of_two_bits += any(&|parent, child| {
                ends.iter().filter(|&&end| end == (parent, child)).count() > 1
            });
            self.child_of_two_instances += any(&|parent, child| {
                let mut others = ends.iter();
                others.any(|&(other, same)| same == child && other != parent)
            });
            self.five_steps += usize::from(steps >= 5);
            self.beside_a_showing_child += usize::from(is_beside_showing);
            self.beside_a_bit_without_child += usize::from(is_beside_no_child);
        }
    }

    #[test]
    fn silent_children() {
        let mut random = Random::new(9);
        let mut seen = AboveSilent::default();
        for round in 0..10_000 {
            let case = match round % 2 {
                0 => case(&mut random),
                _ => aimed_case(&mut random, 0, Sizes::Any),
            };
            seen.add(&case);
        }
        let counts = [
            seen.child_without_rule,
            seen.child_with_constant,
            seen.child_with_register,
            seen.child_with_other_rule,
            seen.child_before_its_parent,
            seen.child_of_two_bits,
            seen.child_of_two_instances,
            seen.five_steps,
            seen.beside_a_showing_child,
            seen.beside_a_bit_without_child,
        ];
        assert!(seen.cases > 1_500, "{seen:?}");
        assert!(counts.iter().all(|&count| count > 100), "{seen:?}");
    }
}
