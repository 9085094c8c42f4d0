//! Captures of registers that are not readable.

use std::collections::HashSet;

use super::damage::any_field;
use super::draft::{Field, FieldKind, FieldMap};
use super::random::Random;
use crate::layout::READABLE;

/// A register of a valid file.
struct Register {
    id: [u8; 3],
    flags_at: usize,
    numbers: Vec<u8>,
    is_readable: bool,
    is_in_a_rule: bool,
}

impl Register {
    /// The name of one of its instances.
    fn name(&self, random: &mut Random) -> [u8; 4] {
        let [a, b, c] = self.id;
        [a, b, c, *random.pick(&self.numbers)]
    }

    /// Takes away its readability. False if its flags are not there.
    fn close(&self, bytes: &mut [u8]) -> bool {
        match bytes.get_mut(self.flags_at) {
            Some(flags) => {
                *flags &= !READABLE;
                true
            }
            None => false,
        }
    }
}

fn registers(map: &FieldMap) -> Vec<Register> {
    let value = |field: &Field| &map.bytes[field.at..field.at + field.size];
    let in_rules: HashSet<&[u8]> = map
        .fields
        .iter()
        .filter(|field| field.kind == FieldKind::ExpressionRegister)
        .map(value)
        .collect();
    let mut registers: Vec<Register> = Vec::new();
    for field in &map.fields {
        let value = value(field);
        match (field.kind, registers.last_mut()) {
            (FieldKind::RegisterId, _) => registers.push(Register {
                id: [value[0], value[1], value[2]],
                flags_at: 0,
                numbers: Vec::new(),
                is_readable: false,
                is_in_a_rule: in_rules.contains(value),
            }),
            (FieldKind::Flags, Some(register)) => {
                register.flags_at = field.at;
                register.is_readable = value[0] & READABLE != 0;
            }
            (FieldKind::RegisterInstance, Some(register)) => register.numbers.push(value[0]),
            _ => {}
        }
    }
    registers
}

/// A register that is not readable afterwards. Half of the time it is one that
/// was not before or that no rule names, if there is any, so that the captures
/// alone are at fault.
fn closed_register(random: &mut Random, map: &FieldMap, bytes: &mut [u8]) -> Option<Register> {
    let mut registers = registers(map);
    if random.one_in(2) {
        let is_apart = |register: &Register| !register.is_readable || !register.is_in_a_rule;
        if registers.iter().any(is_apart) {
            registers.retain(is_apart);
        }
    }
    let register = registers.swap_remove(random.below(registers.len()));
    register.close(bytes).then_some(register)
}

/// Takes away the readability of a captured register. False if there is none.
pub(super) fn close_a_captured(random: &mut Random, map: &FieldMap, bytes: &mut [u8]) -> bool {
    let Some(capture) = any_field(random, map, bytes, &[FieldKind::CaptureRegister]) else {
        return false;
    };
    let id = &map.bytes[capture.at..capture.at + capture.size];
    let registers = registers(map);
    let captured = registers.iter().find(|register| register.id == id);
    captured.is_some_and(|register| register.close(bytes))
}

/// Lets a capture name a register that is not readable. False if there is no
/// capture.
pub(super) fn capture_a_closed(random: &mut Random, map: &FieldMap, bytes: &mut [u8]) -> bool {
    let Some(capture) = any_field(random, map, bytes, &[FieldKind::CaptureInstance]) else {
        return false;
    };
    let Some(register) = closed_register(random, map, bytes) else {
        return false;
    };
    let end = capture.at + 1;
    bytes[end - 4..end].copy_from_slice(&register.name(random));
    true
}

/// Adds captures of a register that is not readable, a few of them of absent
/// instances, to one to three node instances. The bytes have the map's places.
fn add_captures(random: &mut Random, map: &FieldMap, bytes: &mut Vec<u8>) {
    let Some(register) = closed_register(random, map, bytes) else {
        return;
    };
    let mut counts: Vec<Field> = map.fields_of(FieldKind::CaptureCount).collect();
    random.shuffle(&mut counts);
    counts.truncate(random.between(1, 3));
    // From the last one up, so that the places before it stay.
    counts.sort_by_key(|count| count.at);
    for count in counts.iter().rev() {
        let captures = bytes[count.at];
        if captures == u8::MAX {
            continue;
        }
        let mut name = register.name(random);
        if random.one_in(8) {
            name[3] ^= 1 << random.below(8);
        }
        bytes[count.at] += 1;
        // Behind the counts of captures, rules and children.
        let at = count.at + 3 + 4 * random.below(usize::from(captures) + 1);
        bytes.splice(at..at, name);
    }
}

/// Captures of registers that are not readable, half of the time beside an
/// absent capture or faults of rules, which may stand before or behind them.
pub(super) fn capture_unreadable(random: &mut Random, map: &FieldMap, bytes: &mut Vec<u8>) {
    match random.below(6) {
        0 => {
            let kinds = [FieldKind::CaptureRegister, FieldKind::CaptureInstance];
            if let Some(at) = any_field(random, map, bytes, &kinds) {
                bytes[at.at + random.below(at.size)] ^= 1 << random.below(8);
            }
        }
        1 => {
            let kinds = [FieldKind::ExpressionRegister, FieldKind::ExpressionInstance];
            if let Some(at) = any_field(random, map, bytes, &kinds) {
                bytes[at.at + random.below(at.size)] ^= 1 << random.below(8);
            }
        }
        2 => {
            if let Some(at) = any_field(random, map, bytes, &[FieldKind::NodeType]) {
                bytes[at.at] = 3 - bytes[at.at];
            }
        }
        _ => {}
    }
    let is_done = match random.below(3) {
        0 => close_a_captured(random, map, bytes),
        1 => capture_a_closed(random, map, bytes),
        _ => false,
    };
    if !is_done {
        add_captures(random, map, bytes);
    }
}

#[cfg(test)]
mod tests {
    use super::*;
    use crate::generate::{aimed_case, valid_file, Shape, Sizes};
    use crate::index::Index;
    use crate::layout;
    use crate::refusal;
    use crate::tree::{Expression, Operation, RegisterName, Tree};
    use crate::{check, Refusal};

    /// The registers that an expression names, and where.
    fn names(expression: &Expression, found: &mut Vec<(usize, RegisterName)>) {
        match &expression.operation {
            Operation::Register(name) => found.push((expression.at, *name)),
            Operation::Constant(_) => {}
            Operation::And(operands) | Operation::Or(operands) => {
                operands.iter().for_each(|operand| names(operand, found));
            }
            Operation::Not(operand)
            | Operation::ShiftLeft(_, operand)
            | Operation::ShiftRight(_, operand) => names(operand, found),
        }
    }

    /// The node instances that child entries lead to from the roots.
    fn under_a_root(tree: &Tree) -> HashSet<usize> {
        let index = Index::new(tree);
        let roots = tree.roots.iter().map(|root| root.node);
        let mut waiting: Vec<usize> = roots.filter_map(|n| index.node_instance(n)).collect();
        let mut found = HashSet::new();
        while let Some(position) = waiting.pop() {
            if found.insert(position) {
                let children = tree.node_instances[position].children.iter();
                waiting.extend(children.filter_map(|child| index.node_instance(child.node)));
            }
        }
        found
    }

    #[derive(Clone, Copy, Debug, PartialEq, Eq, PartialOrd, Ord)]
    enum Of {
        /// With the position of its node instance.
        Capture(usize),
        Rule,
        ChildOrRoot,
    }

    /// All faults of numbers 12 and 13, by place and number.
    fn faults(tree: &Tree) -> Vec<(usize, u8, Of)> {
        let index = Index::new(tree);
        let register = |name: RegisterName| {
            let position = index.register_instance(name)?;
            Some(tree.registers[tree.register_instances[position].register])
        };
        let mut faults = Vec::new();
        for (position, instance) in tree.node_instances.iter().enumerate() {
            for capture in &instance.captures {
                match register(capture.register) {
                    None => faults.push((capture.at, 12, Of::Capture(position))),
                    Some(register) if !register.readable => {
                        faults.push((capture.at, 13, Of::Capture(position)));
                    }
                    Some(_) => {}
                }
            }
            let mut named = Vec::new();
            for rule in &instance.rules {
                names(&rule.expression, &mut named);
            }
            let register_type = tree.nodes[instance.node].register_type;
            for (at, name) in named {
                match register(name) {
                    None => faults.push((at, 12, Of::Rule)),
                    Some(register) => {
                        if !register.readable || register.register_type != register_type {
                            faults.push((at, 13, Of::Rule));
                        }
                    }
                }
            }
            for child in &instance.children {
                if index.node_instance(child.node).is_none() {
                    faults.push((child.at, 12, Of::ChildOrRoot));
                }
            }
        }
        for root in &tree.roots {
            let instance = index.node_instance(root.node);
            let rule = instance.and_then(|i| tree.node_instances[i].rule(root.attention_type));
            if rule.is_none() {
                faults.push((root.at, 12, Of::ChildOrRoot));
            }
        }
        faults.sort();
        faults
    }

    #[test]
    fn captures_of_valid_files() {
        let mut random = Random::new(31);
        let mut captures = 0;
        let mut in_no_rule = 0;
        let mut with_unreadable = 0;
        for _ in 0..2_000 {
            let shape = Shape::any(&mut random);
            let tree = layout::read(&valid_file(&mut random, &shape).bytes).unwrap();
            assert!(faults(&tree).is_empty());
            let mut named = Vec::new();
            for rule in tree.node_instances.iter().flat_map(|i| &i.rules) {
                names(&rule.expression, &mut named);
            }
            let in_rules: HashSet<RegisterName> = named.into_iter().map(|n| n.1).collect();
            for capture in tree.node_instances.iter().flat_map(|i| &i.captures) {
                captures += 1;
                in_no_rule += usize::from(!in_rules.contains(&capture.register));
            }
            with_unreadable += usize::from(tree.registers.iter().any(|r| !r.readable));
        }
        assert!(captures > 20_000, "{captures}");
        assert!(in_no_rule > captures / 5, "{in_no_rule} of {captures}");
        assert!(with_unreadable > 700, "{with_unreadable} of 2000");
    }

    /// The first fault decides. About half of the cases refused by 13 are so at
    /// a capture.
    #[test]
    fn cases_for_12_and_13() {
        let mut random = Random::new(32);
        for sizes in [Sizes::Small, Sizes::Any] {
            let mut by_13 = 0;
            let mut at_captures_under_a_root = 0;
            let mut at_other_captures = 0;
            let mut alone = 0;
            let mut before_an_absent_capture = 0;
            let mut before_a_rule = 0;
            let mut behind_an_absent_capture = 0;
            let mut behind_a_rule = 0;
            for round in 0..2_000 {
                let number = match round % 4 {
                    0 => refusal::ABSENT,
                    _ => refusal::UNFIT_REGISTER,
                };
                let file = aimed_case(&mut random, number, sizes).file;
                let Ok(tree) = layout::read(&file) else {
                    continue;
                };
                let faults = faults(&tree);
                let Some(&(place, number, of)) = faults.first() else {
                    continue;
                };
                assert_eq!(check(&file), Err(Refusal { number, place }));
                let captures_behind = || {
                    let behind = faults[1..].iter();
                    behind.filter(|fault| matches!(fault.2, Of::Capture(_)))
                };
                by_13 += usize::from(number == 13);
                match (number, of) {
                    (13, Of::Capture(position)) => {
                        if under_a_root(&tree).contains(&position) {
                            at_captures_under_a_root += 1;
                        } else {
                            at_other_captures += 1;
                        }
                        alone += usize::from(faults.len() == 1);
                        let is_absent = captures_behind().any(|fault| fault.1 == 12);
                        before_an_absent_capture += usize::from(is_absent);
                        before_a_rule += usize::from(faults.iter().any(|f| f.2 == Of::Rule));
                    }
                    (_, Of::Capture(_)) => {
                        let is_unreadable = captures_behind().any(|fault| fault.1 == 13);
                        behind_an_absent_capture += usize::from(is_unreadable);
                    }
                    (_, Of::Rule) => {
                        let is_unreadable = captures_behind().any(|fault| fault.1 == 13);
                        behind_a_rule += usize::from(is_unreadable);
                    }
                    _ => {}
                }
            }
            let at_captures = at_captures_under_a_root + at_other_captures;
            let counts = [
                at_captures_under_a_root,
                at_other_captures,
                alone,
                before_an_absent_capture,
                before_a_rule,
                behind_an_absent_capture,
                behind_a_rule,
            ];
            let half = by_13 * 2 / 5..=by_13 * 3 / 5;
            assert!(half.contains(&at_captures), "{at_captures} of {by_13}");
            assert!(counts.iter().all(|&count| count >= 10), "{counts:?}");
        }
    }
}
