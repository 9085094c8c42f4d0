//! Checkers that find IDs and names by a table that is searched by number, a
//! right one and wrong ones: the colliding cases tell them apart.

use reference::generate::{self, Case, FieldKind, FieldMap, Places, Random};
use reference::tree::{Expression, Operation, Register, RegisterType, Tree};
use reference::{check, cycles, layout};

/// What is wrong with a table or with its use.
#[derive(Clone, Copy, Debug, PartialEq, Eq)]
enum Wrong {
    Nothing,
    /// What stands at the next place is found.
    NextPlace,
    /// What stands at the starting place is found, whatever it is.
    StartingPlace,
    /// Numbers of which the lower 16 bits are the same are taken for the same.
    LowerBits,
    /// The same of all bits but the upper eight.
    UpperByte,
    /// An empty place is taken for what stands before it.
    MissIsThere,
    /// A number whose search comes to the end is taken for absent.
    FullIsAbsent,
    /// It is taken for the first one.
    FullIsFirst,
    /// One without a place gets the last one, and that of the other is lost.
    LastPlaceTwice,
    /// An ID that is the highest one is taken for new.
    EqualIsNew,
    /// An ID that is below the highest one is taken for new.
    LowerIsNew,
    /// An ID is compared with the one before it alone.
    OnlyTheOneBefore,
    /// A child is the instance behind the right one.
    NextChild,
}

const WRONG: [Wrong; 12] = [
    Wrong::NextPlace,
    Wrong::StartingPlace,
    Wrong::LowerBits,
    Wrong::UpperByte,
    Wrong::MissIsThere,
    Wrong::FullIsAbsent,
    Wrong::FullIsFirst,
    Wrong::LastPlaceTwice,
    Wrong::EqualIsNew,
    Wrong::LowerIsNew,
    Wrong::OnlyTheOneBefore,
    Wrong::NextChild,
];

struct Table {
    places: Vec<Option<usize>>,
    numbers: Vec<u64>,
    of: Places,
    bits: u32,
    wrong: Wrong,
}

impl Table {
    /// For numbers of so many bits.
    fn new(of: Places, bits: u32, wrong: Wrong) -> Self {
        Table {
            places: vec![None; of.count()],
            numbers: Vec::new(),
            of,
            bits,
            wrong,
        }
    }

    fn add(&mut self, number: u64) {
        let start = self.of.start(number);
        let free = (start..self.places.len()).find(|&at| self.places[at].is_none());
        match free {
            Some(at) => self.places[at] = Some(self.numbers.len()),
            None if self.wrong == Wrong::LastPlaceTwice => {
                let last = self.places.len() - 1;
                self.places[last] = Some(self.numbers.len());
            }
            None => {}
        }
        self.numbers.push(number);
    }

    fn is_same(&self, one: u64, other: u64) -> bool {
        let different = one ^ other;
        match self.wrong {
            Wrong::LowerBits => different & 0xFFFF == 0,
            Wrong::UpperByte => different << (64 - self.bits) << 8 == 0,
            _ => different == 0,
        }
    }

    fn find(&self, number: u64) -> Option<usize> {
        let start = self.of.start(number);
        for at in start..self.places.len() {
            let Some(there) = self.places[at] else {
                return match self.wrong {
                    Wrong::MissIsThere if at > start => self.places[at - 1],
                    _ => None,
                };
            };
            if self.wrong == Wrong::StartingPlace {
                return Some(there);
            }
            if self.is_same(self.numbers[there], number) {
                return match self.wrong {
                    Wrong::NextPlace => self.places.get(at + 1).copied().flatten().or(Some(there)),
                    _ => Some(there),
                };
            }
        }
        match self.wrong {
            Wrong::FullIsAbsent | Wrong::LastPlaceTwice => None,
            Wrong::FullIsFirst => Some(0),
            _ => self.numbers.iter().position(|&there| there == number),
        }
    }
}

/// Where an ID stands that is there already.
fn first_repeated(ids: &[u64], of: Places, bits: u32, wrong: Wrong) -> Option<usize> {
    let mut table = Table::new(of, bits, wrong);
    let mut highest = None;
    for (at, &id) in ids.iter().enumerate() {
        let is_new = match wrong {
            Wrong::EqualIsNew if Some(id) >= highest => true,
            Wrong::LowerIsNew if Some(id) < highest => true,
            Wrong::OnlyTheOneBefore => at == 0 || ids[at - 1] != id,
            _ => Some(id) > highest || table.find(id).is_none(),
        };
        if !is_new {
            return Some(at);
        }
        table.add(id);
        highest = highest.max(Some(id));
    }
    None
}

/// The number and place of the refusal by names and cycles, and what names stand
/// for, up to the refusal.
#[derive(Default, PartialEq, Eq)]
struct Named {
    refusal: Option<(u8, usize)>,
    found: Vec<usize>,
}

struct Checker<'a> {
    tree: &'a Tree,
    registers: Table,
    nodes: Table,
    named: Named,
}

type Step = Result<(), (u8, usize)>;

impl Checker<'_> {
    fn run(tree: &Tree, wrong: Wrong) -> Named {
        let (of_registers, of_nodes) =
            Places::of_class(tree.register_instances.len(), tree.node_instances.len());
        let mut registers = Table::new(of_registers, 32, wrong);
        for instance in &tree.register_instances {
            let id = tree.registers[instance.register].id;
            registers.add(u64::from(id) << 8 | u64::from(instance.number));
        }
        let mut nodes = Table::new(of_nodes, 24, wrong);
        for instance in &tree.node_instances {
            nodes.add(u64::from(instance.name.id) << 8 | u64::from(instance.name.instance));
        }
        let mut checker = Checker {
            tree,
            registers,
            nodes,
            named: Named::default(),
        };
        checker.named.refusal = checker.check().err();
        checker.named
    }

    fn register(&mut self, id: u32, instance: u8, at: usize) -> Result<Register, (u8, usize)> {
        let name = u64::from(id) << 8 | u64::from(instance);
        let position = self.registers.find(name).ok_or((12, at))?;
        self.named.found.push(position);
        Ok(self.tree.registers[self.tree.register_instances[position].register])
    }

    fn node(&mut self, id: u16, instance: u8, at: usize) -> Result<usize, (u8, usize)> {
        let name = u64::from(id) << 8 | u64::from(instance);
        let position = self.nodes.find(name).ok_or((12, at))?;
        self.named.found.push(position);
        Ok(position)
    }

    fn check(&mut self) -> Step {
        let mut children = Vec::new();
        for instance in &self.tree.node_instances {
            for capture in &instance.captures {
                let name = capture.register;
                if !self.register(name.id, name.instance, capture.at)?.readable {
                    return Err((13, capture.at));
                }
            }
            for rule in &instance.rules {
                self.expression(
                    &rule.expression,
                    self.tree.nodes[instance.node].register_type,
                )?;
            }
            let mut own = Vec::new();
            for child in &instance.children {
                let mut position = self.node(child.node.id, child.node.instance, child.at)?;
                if self.nodes.wrong == Wrong::NextChild {
                    position = (position + 1) % self.tree.node_instances.len();
                    self.named.found.push(position);
                }
                own.push(position);
            }
            children.push(own);
        }
        for root in &self.tree.roots {
            let position = self.node(root.node.id, root.node.instance, root.at)?;
            let rule = self.tree.node_instances[position].rule(root.attention_type);
            rule.ok_or((12, root.at))?;
        }
        match cycles::first_on_cycle(&children) {
            Some(position) => Err((14, self.tree.node_instances[position].at)),
            None => Ok(()),
        }
    }

    fn expression(&mut self, expression: &Expression, wanted: RegisterType) -> Step {
        match &expression.operation {
            Operation::Register(name) => {
                let register = self.register(name.id, name.instance, expression.at)?;
                match register.readable && register.register_type == wanted {
                    true => Ok(()),
                    false => Err((13, expression.at)),
                }
            }
            Operation::Constant(_) => Ok(()),
            Operation::And(operands) | Operation::Or(operands) => operands
                .iter()
                .try_for_each(|operand| self.expression(operand, wanted)),
            Operation::Not(operand)
            | Operation::ShiftLeft(_, operand)
            | Operation::ShiftRight(_, operand) => self.expression(operand, wanted),
        }
    }
}

/// The IDs that a case has at the places where those of the map are.
fn ids(case: &Case, map: &FieldMap, kind: FieldKind) -> Vec<u64> {
    let value = |at: usize, size: usize| {
        let bytes = case.file[at..at + size].iter();
        bytes.fold(0, |number, &byte| number << 8 | u64::from(byte))
    };
    let fields = map.fields_of(kind);
    fields.map(|field| value(field.at, field.size)).collect()
}

/// How many cases tell a wrong checker from the right one.
#[derive(Clone, Copy, Debug, Default)]
struct Caught {
    by_repeated_ids: usize,
    by_verdicts: usize,
    by_what_is_found: usize,
}

#[test]
fn wrong_tables_are_caught() {
    let mut random = Random::new(49);
    let mut caught = [Caught::default(); WRONG.len()];
    for _ in 0..4_000 {
        let map = generate::colliding_file(&mut random);
        let case = generate::case_of(&mut random, &map);
        if case.file.len() == map.bytes.len() {
            let (of_registers, of_nodes) = Places::of_class(
                map.count(FieldKind::RegisterInstance),
                map.count(FieldKind::NodeInstance),
            );
            for (kind, of, bits) in [
                (FieldKind::RegisterId, of_registers, 24),
                (FieldKind::NodeId, of_nodes, 16),
            ] {
                let ids = ids(&case, &map, kind);
                let right = first_repeated(&ids, of, bits, Wrong::Nothing);
                let plainly = (0..ids.len()).find(|&at| ids[..at].contains(&ids[at]));
                assert_eq!(right, plainly);
                for (wrong, caught) in WRONG.into_iter().zip(&mut caught) {
                    let is_caught = first_repeated(&ids, of, bits, wrong) != right;
                    caught.by_repeated_ids += usize::from(is_caught);
                }
            }
        }
        let Ok(tree) = layout::read(&case.file) else {
            continue;
        };
        let right = Checker::run(&tree, Wrong::Nothing);
        let refusal = check(&case.file).err();
        let refusal = refusal.map(|refusal| (refusal.number, refusal.place));
        assert_eq!(right.refusal, refusal);
        for (wrong, caught) in WRONG.into_iter().zip(&mut caught) {
            let named = Checker::run(&tree, wrong);
            caught.by_verdicts += usize::from(named.refusal != right.refusal);
            caught.by_what_is_found += usize::from(named.found != right.found);
        }
    }
    for (wrong, caught) in WRONG.into_iter().zip(caught) {
        let of_ids = [
            Wrong::EqualIsNew,
            Wrong::LowerIsNew,
            Wrong::OnlyTheOneBefore,
        ];
        let (by_ids, by_verdicts) = match wrong {
            _ if of_ids.contains(&wrong) => (30, 0),
            Wrong::NextChild | Wrong::NextPlace => (0, 30),
            Wrong::LowerBits => (1, 20),
            _ => (10, 20),
        };
        assert!(caught.by_repeated_ids >= by_ids, "{wrong:?} {caught:?}");
        assert!(caught.by_verdicts >= by_verdicts, "{wrong:?} {caught:?}");
    }
}
