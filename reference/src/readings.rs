//! Readings: a word and a read byte for each register instance, in file order.

use crate::refusal::{self, Refusal};
use crate::tree::Tree;

/// Register ID (3), instance, read byte, three zeros, value (8).
pub const RECORD_BYTES: usize = 16;

pub const UNREAD: u8 = 0;
pub const READ: u8 = 1;

/// Readings that fit a file. An unread word means nothing.
#[derive(Clone, Copy)]
pub struct Readings<'a> {
    words: &'a [u64],
    read: &'a [u8],
}

fn refused() -> Refusal {
    Refusal::new(refusal::READINGS_DO_NOT_FIT, 0)
}

impl<'a> Readings<'a> {
    pub fn fit(tree: &Tree, words: &'a [u64], read: &'a [u8]) -> Result<Self, Refusal> {
        let instances = tree.register_instances.len();
        if words.len() != instances || read.len() != instances || read.iter().any(|&r| r > READ) {
            return Err(refused());
        }
        Ok(Readings { words, read })
    }

    /// The reading at a register instance's position, if it was read.
    pub fn value(&self, position: usize) -> Option<u64> {
        (self.read[position] == READ).then(|| self.words[position])
    }
}

/// The words and read bytes of a readings file.
pub fn decode(tree: &Tree, readings_file: &[u8]) -> Result<(Vec<u64>, Vec<u8>), Refusal> {
    let instances = &tree.register_instances;
    if readings_file.len() != instances.len() * RECORD_BYTES {
        return Err(refused());
    }
    let mut words = Vec::with_capacity(instances.len());
    let mut read = Vec::with_capacity(instances.len());
    for (record, instance) in readings_file.chunks_exact(RECORD_BYTES).zip(instances) {
        let id = u32::from_be_bytes([0, record[0], record[1], record[2]]);
        let word = record[8..]
            .iter()
            .fold(0, |w, &byte| w << 8 | u64::from(byte));
        let fits = id == tree.registers[instance.register].id
            && record[3] == instance.number
            && record[4] <= READ
            && record[5..8] == [0; 3]
            && (record[4] == READ || word == 0);
        if !fits {
            return Err(refused());
        }
        words.push(word);
        read.push(record[4]);
    }
    Ok((words, read))
}

/// The readings file of lists that fit. Unread values are written as zero.
pub fn encode(tree: &Tree, words: &[u64], read: &[u8]) -> Vec<u8> {
    let mut file = Vec::with_capacity(words.len() * RECORD_BYTES);
    for ((instance, &word), &read) in tree.register_instances.iter().zip(words).zip(read) {
        let id = tree.registers[instance.register].id;
        file.extend(record(id, instance.number, word, read));
    }
    file
}

/// One record. An unread value is written as zero.
pub fn record(id: u32, instance: u8, word: u64, read: u8) -> [u8; RECORD_BYTES] {
    let mut record = [0; RECORD_BYTES];
    record[..3].copy_from_slice(&id.to_be_bytes()[1..]);
    record[3] = instance;
    record[4] = read;
    let value = if read == UNREAD { 0 } else { word };
    record[8..].copy_from_slice(&value.to_be_bytes());
    record
}
