//! Isolation: from a root down to the active bits without a child, and those
//! whose child shows nothing.

use crate::checker::Accepted;
use crate::expression::{bit_is_set, Unread};
use crate::layout::{is_attention_type, Limits, HIGHEST_BIT};
use crate::readings::{self, Readings};
use crate::refusal::{self, Refusal};
use crate::tree::{Child, NodeInstance, NodeName};

/// Model/level (4), attention type, bit, node ID (2), instance, slot, six zeros.
pub const RECORD_BYTES: usize = 16;

pub type Record = [u8; RECORD_BYTES];

/// The record of a listed bit.
pub fn record(model: u32, attention_type: u8, bit: u8, node: NodeName, slot: u8) -> Record {
    let mut record = [0; RECORD_BYTES];
    record[..4].copy_from_slice(&model.to_be_bytes());
    record[4] = attention_type;
    record[5] = bit;
    record[6..8].copy_from_slice(&node.id.to_be_bytes());
    record[8] = node.instance;
    record[9] = slot;
    record
}

/// The bit of a record and its node instance.
pub fn listed_bit(record: &Record) -> (NodeName, u8) {
    let [_, _, _, _, _, bit, high, low, instance, ..] = *record;
    let id = u16::from_be_bytes([high, low]);
    (NodeName { id, instance }, bit)
}

/// The slot of a chip that is alone.
pub const ONLY_SLOT: u8 = 0;

/// What isolation finds where nothing is refused.
#[derive(Clone, Debug, Default, PartialEq, Eq)]
pub struct Found {
    pub records: Vec<Record>,
    pub steps: usize,
}

impl Found {
    /// Writes the records to the list and returns how many they are, and the
    /// number of steps; or refuses for want of room.
    pub fn put(&self, list: &mut [u8]) -> Result<(usize, usize), Refusal> {
        if list.len() / RECORD_BYTES < self.records.len() {
            return Err(Refusal::new(refusal::NO_ROOM, self.records.len()));
        }
        for (place, record) in list.chunks_exact_mut(RECORD_BYTES).zip(&self.records) {
            place.copy_from_slice(record);
        }
        Ok((self.records.len(), self.steps))
    }
}

/// Writes the records to the list and returns how many they are, and the
/// number of steps. The list keeps its bytes beyond the records, and all of
/// them on a refusal.
pub fn isolate(
    file: &[u8],
    attention_type: u8,
    words: &[u64],
    read: &[u8],
    list: &mut [u8],
) -> Result<(usize, usize), Refusal> {
    isolate_within(file, Limits::LIBRARY, attention_type, words, read, list)
}

/// The same by these limits.
pub fn isolate_within(
    file: &[u8],
    limits: Limits,
    attention_type: u8,
    words: &[u64],
    read: &[u8],
    list: &mut [u8],
) -> Result<(usize, usize), Refusal> {
    find(file, limits, ONLY_SLOT, attention_type, words, read)?.put(list)
}

/// What there is to list of the chip in a slot, whatever room there is: refusals
/// 1 to 18.
pub fn find(
    file: &[u8],
    limits: Limits,
    slot: u8,
    attention_type: u8,
    words: &[u64],
    read: &[u8],
) -> Result<Found, Refusal> {
    let accepted = Accepted::read_within(file, limits)?;
    let root = accepted.root(attention_type)?;
    let readings = Readings::fit(&accepted.tree, words, read)?;
    accepted.find_from(root, slot, attention_type, readings)
}

/// As [`isolate_within`], with the readings taken from a readings file.
pub fn isolate_with_readings_file(
    file: &[u8],
    limits: Limits,
    attention_type: u8,
    readings_file: &[u8],
    list: &mut [u8],
) -> Result<(usize, usize), Refusal> {
    let accepted = Accepted::read_within(file, limits)?;
    let root = accepted.root(attention_type)?;
    let (words, read) = readings::decode(&accepted.tree, readings_file)?;
    let readings = Readings::fit(&accepted.tree, &words, &read)?;
    let found = accepted.find_from(root, ONLY_SLOT, attention_type, readings)?;
    found.put(list)
}

/// How many of the bits to list have a child, which then shows nothing. They
/// count also where the list has no room for them.
pub fn bits_above_silent(file: &[u8], attention_type: u8, words: &[u64], read: &[u8]) -> usize {
    let isolated = |list: &mut [Record]| {
        let list = list.as_flattened_mut();
        isolate(file, attention_type, words, read, list)
    };
    let needed = match isolated(&mut []) {
        Err(refusal) if refusal.number == refusal::NO_ROOM => refusal.place,
        _ => return 0,
    };
    let mut list = vec![[0; RECORD_BYTES]; needed];
    let (Ok(_), Ok(accepted)) = (isolated(&mut list), Accepted::read(file)) else {
        return 0;
    };
    let has_child = |record: &&Record| {
        let (node, bit) = listed_bit(record);
        let position = accepted.index.node_instance(node);
        position.is_some_and(|position| {
            let mut children = accepted.tree.node_instances[position].children.iter();
            children.any(|child| child.bit == bit)
        })
    };
    list.iter().filter(has_child).count()
}

/// The active bits of each instance that is reached, in file order. They are
/// given also where the list has no room; where the call is refused otherwise
/// there are none.
pub fn reached_words(file: &[u8], attention_type: u8, words: &[u64], read: &[u8]) -> Vec<u64> {
    let active = || {
        let accepted = Accepted::read(file)?;
        let root = accepted.root(attention_type)?;
        let readings = Readings::fit(&accepted.tree, words, read)?;
        accepted.active(root, attention_type, readings)
    };
    active().map_or_else(
        |_: Refusal| Vec::new(),
        |words| words.into_iter().flatten().collect(),
    )
}

/// What isolation knows of one node instance.
#[derive(Clone, Copy, PartialEq, Eq)]
enum Mark {
    Untouched,
    Waiting,
    /// With the wanted rule's value, or 0 if there is no such rule.
    Done(Result<u64, Unread>),
}

impl Accepted {
    /// The position of the root's node instance.
    fn root(&self, attention_type: u8) -> Result<usize, Refusal> {
        if !is_attention_type(attention_type) {
            return Err(Refusal::new(refusal::UNKNOWN_ATTENTION, 0));
        }
        let mut roots = self.tree.roots.iter();
        roots
            .find(|root| root.attention_type == attention_type)
            .and_then(|root| self.index.node_instance(root.node))
            .ok_or(Refusal::new(refusal::NO_ROOT, 0))
    }

    /// The bits to list, and a step for each reached instance.
    fn find_from(
        &self,
        root: usize,
        slot: u8,
        attention_type: u8,
        readings: Readings<'_>,
    ) -> Result<Found, Refusal> {
        let active = self.active(root, attention_type, readings)?;
        let mut found = Found::default();
        for (instance, &bits) in self.tree.node_instances.iter().zip(&active) {
            let Some(bits) = bits else { continue };
            found.steps += 1;
            let listed = bits & !self.with_showing_child(instance, &active);
            // From bit 0 up.
            let bits = (0..=HIGHEST_BIT).filter(|&bit| bit_is_set(listed, bit));
            let record = |bit| record(self.tree.model, attention_type, bit, instance.name, slot);
            found.records.extend(bits.map(record));
        }
        Ok(found)
    }

    /// The active bits of each instance that is reached.
    fn active(
        &self,
        root: usize,
        attention_type: u8,
        readings: Readings<'_>,
    ) -> Result<Vec<Option<u64>>, Refusal> {
        let marks = self.walk(root, attention_type, readings);
        let mut active = vec![None; marks.len()];
        for (active, mark) in active.iter_mut().zip(marks) {
            let Mark::Done(bits) = mark else { continue };
            let bits = bits.map_err(|unread| Refusal::new(refusal::REGISTER_UNREAD, unread.at))?;
            *active = Some(bits);
        }
        Ok(active)
    }

    /// The marks when none waits: an instance is done exactly if it is
    /// reached.
    fn walk(&self, root: usize, attention_type: u8, readings: Readings<'_>) -> Vec<Mark> {
        let mut marks = vec![Mark::Untouched; self.tree.node_instances.len()];
        let mut waiting = vec![root];
        marks[root] = Mark::Waiting;
        while let Some(position) = waiting.pop() {
            let instance = &self.tree.node_instances[position];
            let active = self.active_bits(instance, attention_type, readings);
            marks[position] = Mark::Done(active);
            for child in &instance.children {
                if !bit_is_set(active.unwrap_or(0), child.bit) {
                    continue;
                }
                let followed = self.index.node_instance(child.node);
                if let Some(next) = followed.filter(|&next| marks[next] == Mark::Untouched) {
                    marks[next] = Mark::Waiting;
                    waiting.push(next);
                }
            }
        }
        marks
    }

    fn active_bits(
        &self,
        instance: &NodeInstance,
        attention_type: u8,
        readings: Readings<'_>,
    ) -> Result<u64, Unread> {
        let value = |name| {
            self.index
                .register_instance(name)
                .and_then(|position| readings.value(position))
        };
        match instance.rule(attention_type) {
            Some(rule) => rule.expression.evaluate(&value),
            None => Ok(0),
        }
    }

    /// The bits of an instance whose child has an active bit. The other active
    /// bits are listed: "active bits without a child, and those whose child
    /// shows nothing".
    fn with_showing_child(&self, instance: &NodeInstance, active: &[Option<u64>]) -> u64 {
        let shows_something = |child: &&Child| {
            let position = self.index.node_instance(child.node);
            position.is_some_and(|position| active[position].unwrap_or(0) != 0)
        };
        instance
            .children
            .iter()
            .filter(shows_something)
            .fold(0, |word, child| word | 1u64 << (HIGHEST_BIT - child.bit))
    }
}
