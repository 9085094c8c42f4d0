//! Hand-made isolation calls. The answers are written from the papers; offsets
//! stand beside the pieces that files are put together from.
//!
//! The attention type is 3 in all of them, and the root is instance 0 of node 1.

use crate::hex;
use crate::isolation::{Found, Record, RECORD_BYTES};
use crate::readings::READ;
use crate::refusal::{self, Refusal};
use crate::report::LIST_RECORDS;

/// One call and its answer.
pub struct Isolation {
    pub name: String,
    pub file: Vec<u8>,
    pub words: Vec<u64>,
    pub read: Vec<u8>,
    /// The bytes of the list.
    pub room: usize,
    pub answer: Result<Found, Refusal>,
}

/// 0 keyword, 8 model/level, 12 version.
const START: &str = "43 48 49 50 44 41 54 41 00 00 00 01 01";
/// Four registers of ID 1 to 4, each with instance 0: 13 to 63.
const REGISTERS: &str = "52 45 47 53 00 00 04 \
    00 00 01 01 80 01 00 00 00 10 00 00 00 02 01 80 01 00 00 00 20 00 \
    00 00 03 01 80 01 00 00 00 30 00 00 00 04 01 80 01 00 00 00 40 00";
/// Type 3, node 1, instance 0.
const ROOTS: &str = "52 4F 4F 54 01 03 00 01 00";

/// 64 keyword, 68 count. The first node begins at 70: 70 ID, 72 type, 73
/// instances, 74 number, 75 captures, 76 rules, 77 children, 78 attention type
/// of the rule, 79 expression.
const TWO_NODES: &str = "4E 4F 44 45 00 02";
const THREE_NODES: &str = "4E 4F 44 45 00 03";
const FOUR_NODES: &str = "4E 4F 44 45 00 04";

// Nodes without children, of 14 bytes each. The node of ID n has register n as
// its rule; the number byte is the fifth, the expression the tenth.
const NODE_1: &str = "00 01 01 01 00 00 01 00 03 01 00 00 01 00";
const NODE_2: &str = "00 02 01 01 00 00 01 00 03 01 00 00 02 00";
const NODE_3: &str = "00 03 01 01 00 00 01 00 03 01 00 00 03 00";
const NODE_4: &str = "00 04 01 01 00 00 01 00 03 01 00 00 04 00";

// The same with one child or two, of 18 or 22 bytes each.
const NODE_1_BIT_0_TO_2: &str = "00 01 01 01 00 00 01 01 03 01 00 00 01 00 00 00 02 00";
const NODE_1_BITS_0_AND_63_TO_2: &str =
    "00 01 01 01 00 00 01 02 03 01 00 00 01 00 00 00 02 00 3F 00 02 00";
const NODE_1_BIT_0_TO_2_BIT_63_TO_3: &str =
    "00 01 01 01 00 00 01 02 03 01 00 00 01 00 00 00 02 00 3F 00 03 00";
const NODE_2_BIT_8_TO_3: &str = "00 02 01 01 00 00 01 01 03 01 00 00 02 00 08 00 03 00";
const NODE_2_BIT_8_TO_4: &str = "00 02 01 01 00 00 01 01 03 01 00 00 02 00 08 00 04 00";
const NODE_3_BIT_8_TO_4: &str = "00 03 01 01 00 00 01 01 03 01 00 00 03 00 08 00 04 00";
const NODE_3_BIT_8_TO_2: &str = "00 03 01 01 00 00 01 01 03 01 00 00 03 00 08 00 02 00";

/// Node 2 with register 2 as its rule for type 1, and none for type 3.
const NODE_2_OTHER_TYPE: &str = "00 02 01 01 00 00 01 00 01 01 00 00 02 00";
const NODE_3_OTHER_TYPE: &str = "00 03 01 01 00 00 01 00 01 01 00 00 03 00";

const BIT_0: u64 = 1 << 63;
const BIT_1: u64 = 1 << 62;
const BIT_2: u64 = 1 << 61;
const BIT_3: u64 = 1 << 60;
const BIT_8: u64 = 1 << 55;
const BIT_63: u64 = 1;

const ALL_READ: [u8; 4] = [READ; 4];
const PLENTY: usize = LIST_RECORDS * RECORD_BYTES;

pub(super) fn all() -> Vec<Isolation> {
    let mut calls = Calls(Vec::new());
    one_child(&mut calls);
    silent_rules(&mut calls);
    chains(&mut calls);
    shared_children(&mut calls);
    one_word(&mut calls);
    unread(&mut calls);
    roots(&mut calls);
    rooms(&mut calls);
    orders(&mut calls);
    calls.0
}

/// A listed bit: node, instance, bit.
type Bit = (u8, u8, u8);

/// Its record: model/level 1 and slot 0.
fn record(&(node, instance, bit): &Bit) -> Record {
    [0, 0, 0, 1, 3, bit, 0, node, instance, 0, 0, 0, 0, 0, 0, 0]
}

fn found(bits: &[Bit], steps: usize) -> Result<Found, Refusal> {
    Ok(Found {
        records: bits.iter().map(record).collect(),
        steps,
    })
}

struct Calls(Vec<Isolation>);

impl Calls {
    fn add(
        &mut self,
        name: &str,
        nodes: &[&str],
        (words, read): ([u64; 4], [u8; 4]),
        room: usize,
        answer: Result<Found, Refusal>,
    ) {
        let file = [START, REGISTERS, &nodes.concat(), ROOTS].concat();
        self.0.push(Isolation {
            name: name.to_string(),
            file: hex::decode(&file).expect("the pieces are hexadecimal"),
            words: words.to_vec(),
            read: read.to_vec(),
            room,
            answer,
        });
    }

    /// All registers are read, and there is room.
    fn found(&mut self, name: &str, nodes: &[&str], words: [u64; 4], bits: &[Bit], steps: usize) {
        let readings = (words, ALL_READ);
        self.add(name, nodes, readings, PLENTY, found(bits, steps));
    }

    /// Refused by 18.
    fn unread(&mut self, name: &str, nodes: &[&str], words: [u64; 4], read: [u8; 4], at: usize) {
        let refusal = Refusal::new(refusal::REGISTER_UNREAD, at);
        self.add(name, nodes, (words, read), PLENTY, Err(refusal));
        // Room comes after it.
        let name = format!("{name}-no-room");
        self.add(&name, nodes, (words, read), 0, Err(refusal));
    }
}

/// "An active bit whose child instance has no active bit for the wanted type
/// (also when the child has no rule for it) is listed itself".
fn one_child(calls: &mut Calls) {
    let nodes = [TWO_NODES, NODE_1_BIT_0_TO_2, NODE_2];
    calls.found("child-silent", &nodes, [BIT_0, 0, 0, 0], &[(1, 0, 0)], 2);
    // No rule names registers 3 and 4.
    let others = [BIT_0, 0, u64::MAX, u64::MAX];
    calls.found("child-silent-others", &nodes, others, &[(1, 0, 0)], 2);
    let words = [BIT_0, BIT_0, 0, 0];
    calls.found("child-shows-bit-0", &nodes, words, &[(2, 0, 0)], 2);
    let words = [BIT_0, BIT_63, 0, 0];
    calls.found("child-shows-bit-63", &nodes, words, &[(2, 0, 63)], 2);
    // The bit that has the child is not active.
    let words = [BIT_1, 0, 0, 0];
    calls.found("child-not-reached", &nodes, words, &[(1, 0, 1)], 1);
    let words = [BIT_1, u64::MAX, 0, 0];
    calls.found("child-not-reached-shows", &nodes, words, &[(1, 0, 1)], 1);

    let nodes = [TWO_NODES, NODE_1_BIT_0_TO_2, NODE_2_OTHER_TYPE];
    let words = [BIT_0, 0, 0, 0];
    calls.found("child-without-rule", &nodes, words, &[(1, 0, 0)], 2);
    let words = [BIT_0, u64::MAX, 0, 0];
    calls.found("child-other-type-shows", &nodes, words, &[(1, 0, 0)], 2);

    // Rules for types 1, 3 and 5, of which only that for 3 shows nothing.
    let three_rules = "00 02 01 01 00 00 03 00 01 01 00 00 03 00 03 01 00 00 02 00 \
        05 01 00 00 04 00";
    let nodes = [TWO_NODES, NODE_1_BIT_0_TO_2, three_rules];
    let words = [BIT_0, 0, u64::MAX, u64::MAX];
    calls.found("child-three-rules-silent", &nodes, words, &[(1, 0, 0)], 2);
    let words = [BIT_0, BIT_8, 0, 0];
    calls.found("child-three-rules-shows", &nodes, words, &[(2, 0, 8)], 2);

    // The child is another instance of the same node: 74 instance 0, 88
    // instance 9.
    let instances = "4E 4F 44 45 00 01 00 01 01 02 00 00 01 01 03 01 00 00 01 00 00 00 01 09 \
        09 00 01 00 03 01 00 00 02 00";
    let words = [BIT_0, 0, 0, 0];
    calls.found("child-same-node", &[instances], words, &[(1, 0, 0)], 2);
    let words = [BIT_0, BIT_8, 0, 0];
    calls.found(
        "child-same-node-shows",
        &[instances],
        words,
        &[(1, 9, 8)],
        2,
    );
}

/// Rules of node 2 that have no bit, and rules near them that have one.
fn silent_rules(calls: &mut Calls) {
    let rules = [
        (
            "constant",
            "02 00 00 00 00 00 00 00 00",
            "02 00 00 00 00 00 00 00 01",
            63,
        ),
        (
            "and",
            "10 02 02 00 00 00 00 00 00 00 00 01 00 00 02 00",
            "10 02 02 80 00 00 00 00 00 00 00 01 00 00 02 00",
            0,
        ),
        (
            "and-without-common",
            "10 02 02 00 00 00 00 00 00 00 0F 02 00 00 00 00 00 00 00 F0",
            "10 02 02 00 00 00 00 00 00 00 1F 02 00 00 00 00 00 00 00 F0",
            59,
        ),
        (
            "and-not",
            "10 02 01 00 00 02 00 12 01 00 00 02 00",
            "10 02 01 00 00 02 00 12 02 7F FF FF FF FF FF FF FF",
            0,
        ),
        (
            "or",
            "11 03 01 00 00 03 00 01 00 00 04 00 02 00 00 00 00 00 00 00 00",
            "11 03 01 00 00 03 00 01 00 00 04 00 02 00 80 00 00 00 00 00 00",
            8,
        ),
        (
            "not",
            "12 02 FF FF FF FF FF FF FF FF",
            "12 02 FF FF FF FF FF FF FF FE",
            63,
        ),
        (
            "left-shift",
            "13 40 01 00 00 02 00",
            "13 3F 01 00 00 02 00",
            0,
        ),
        (
            "right-shift",
            "14 FF 01 00 00 02 00",
            "14 3F 01 00 00 02 00",
            63,
        ),
    ];
    for (name, silent, showing, bit) in rules {
        let words = [BIT_0, u64::MAX, 0, 0];
        let child = ["00 02 01 01 00 00 01 00 03", silent].concat();
        let nodes = [TWO_NODES, NODE_1_BIT_0_TO_2, &child];
        let name = format!("rule-{name}");
        calls.found(&name, &nodes, words, &[(1, 0, 0)], 2);
        let child = ["00 02 01 01 00 00 01 00 03", showing].concat();
        let nodes = [TWO_NODES, NODE_1_BIT_0_TO_2, &child];
        let name = format!("{name}-shows");
        calls.found(&name, &nodes, words, &[(2, 0, bit)], 2);
    }
}

/// A child whose active bits all have a child shows something. Only the bit
/// right above a silent instance is listed.
fn chains(calls: &mut Calls) {
    let nodes = [THREE_NODES, NODE_1_BIT_0_TO_2, NODE_2_BIT_8_TO_3, NODE_3];
    let words = [BIT_0, BIT_8, BIT_63, 0];
    calls.found("chain-shows", &nodes, words, &[(3, 0, 63)], 3);
    let words = [BIT_0, BIT_8, 0, 0];
    calls.found("chain-end-silent", &nodes, words, &[(2, 0, 8)], 3);
    let words = [BIT_0, 0, u64::MAX, 0];
    calls.found("chain-middle-silent", &nodes, words, &[(1, 0, 0)], 2);
    let words = [BIT_0, BIT_8 | BIT_63, 0, 0];
    let bits = [(2, 0, 8), (2, 0, 63)];
    calls.found("chain-end-silent-own-bit", &nodes, words, &bits, 3);
    let words = [BIT_0, BIT_63, 0, 0];
    calls.found("chain-end-not-reached", &nodes, words, &[(2, 0, 63)], 2);
    let words = [BIT_0 | BIT_1, BIT_8, 0, 0];
    let bits = [(1, 0, 1), (2, 0, 8)];
    calls.found("chain-end-silent-two-levels", &nodes, words, &bits, 3);

    let nodes = [
        THREE_NODES,
        NODE_1_BIT_0_TO_2,
        NODE_2_BIT_8_TO_3,
        NODE_3_OTHER_TYPE,
    ];
    let words = [BIT_0, BIT_8, u64::MAX, 0];
    calls.found("chain-end-without-rule", &nodes, words, &[(2, 0, 8)], 3);

    // The instance in the middle has no rule: what is below it is not reached.
    let middle = "00 02 01 01 00 00 01 01 01 01 00 00 02 00 08 00 03 00";
    let nodes = [THREE_NODES, NODE_1_BIT_0_TO_2, middle, NODE_3];
    let words = [BIT_0, u64::MAX, u64::MAX, 0];
    calls.found("chain-middle-without-rule", &nodes, words, &[(1, 0, 0)], 2);

    let nodes = [
        FOUR_NODES,
        NODE_1_BIT_0_TO_2,
        NODE_2_BIT_8_TO_3,
        NODE_3_BIT_8_TO_4,
        NODE_4,
    ];
    let words = [BIT_0, BIT_8, BIT_8, 0];
    calls.found("chain-of-four-silent", &nodes, words, &[(3, 0, 8)], 4);
    let words = [BIT_0, BIT_8, BIT_8, BIT_8];
    calls.found("chain-of-four-shows", &nodes, words, &[(4, 0, 8)], 4);
}

/// A silent instance is one step, whatever the number of bits above it.
fn shared_children(calls: &mut Calls) {
    let nodes = [TWO_NODES, NODE_1_BITS_0_AND_63_TO_2, NODE_2];
    let words = [BIT_0 | BIT_63, 0, 0, 0];
    let bits = [(1, 0, 0), (1, 0, 63)];
    calls.found("two-bits-one-silent", &nodes, words, &bits, 2);
    let words = [BIT_63, 0, 0, 0];
    calls.found("one-bit-of-two-silent", &nodes, words, &[(1, 0, 63)], 2);
    let words = [BIT_0 | BIT_63, BIT_8, 0, 0];
    calls.found("two-bits-one-showing", &nodes, words, &[(2, 0, 8)], 2);

    // Nodes 2 and 3 both have node 4, and node 3 stands before node 2.
    let nodes = [
        FOUR_NODES,
        NODE_1_BIT_0_TO_2_BIT_63_TO_3,
        NODE_4,
        NODE_3_BIT_8_TO_4,
        NODE_2_BIT_8_TO_4,
    ];
    let words = [BIT_0 | BIT_63, BIT_8, BIT_8, 0];
    let bits = [(3, 0, 8), (2, 0, 8)];
    calls.found("diamond-bottom-silent", &nodes, words, &bits, 4);
    let words = [BIT_0 | BIT_63, BIT_8, BIT_8, BIT_8];
    calls.found("diamond-bottom-shows", &nodes, words, &[(4, 0, 8)], 4);
    let words = [BIT_0 | BIT_63, BIT_8, 0, 0];
    let bits = [(1, 0, 63), (2, 0, 8)];
    calls.found("diamond-side-and-bottom-silent", &nodes, words, &bits, 4);
    let words = [BIT_0 | BIT_63, BIT_8, 0, BIT_8];
    let bits = [(1, 0, 63), (4, 0, 8)];
    calls.found("diamond-side-silent", &nodes, words, &bits, 4);
    let words = [BIT_0 | BIT_63, 0, 0, u64::MAX];
    let bits = [(1, 0, 0), (1, 0, 63)];
    calls.found("diamond-sides-silent", &nodes, words, &bits, 3);

    // Node 2 is the child of node 1 and of node 3, which node 1 has too.
    let nodes = [
        THREE_NODES,
        NODE_1_BIT_0_TO_2_BIT_63_TO_3,
        NODE_2,
        NODE_3_BIT_8_TO_2,
    ];
    let words = [BIT_0 | BIT_63, 0, BIT_8, 0];
    let bits = [(1, 0, 0), (3, 0, 8)];
    calls.found("silent-at-two-depths", &nodes, words, &bits, 3);
    let words = [BIT_0 | BIT_63, BIT_1, BIT_8, 0];
    calls.found("showing-at-two-depths", &nodes, words, &[(2, 0, 1)], 3);
}

/// Node 1 has node 3 at bit 2, node 4 at bit 3 and node 2 at bit 1, in this
/// order. The other bits have no child.
const THREE_CHILDREN: &str =
    "00 01 01 01 00 00 01 03 03 01 00 00 01 00 02 00 03 00 03 00 04 00 01 00 02 00";

/// Bits without a child, with a silent one and with one that shows something,
/// in one word: the listed ones come in bit order.
fn one_word(calls: &mut Calls) {
    let nodes = [FOUR_NODES, THREE_CHILDREN, NODE_2, NODE_3, NODE_4];
    let words = [BIT_0 | BIT_1 | BIT_2 | BIT_3 | BIT_63, 0, BIT_8, 0];
    let bits = [(1, 0, 0), (1, 0, 1), (1, 0, 3), (1, 0, 63), (3, 0, 8)];
    calls.found("word-mixed", &nodes, words, &bits, 4);
    let words = [BIT_1 | BIT_2 | BIT_3, 0, 0, 0];
    let bits = [(1, 0, 1), (1, 0, 2), (1, 0, 3)];
    calls.found("word-all-silent", &nodes, words, &bits, 4);
    let words = [BIT_1 | BIT_2 | BIT_3, BIT_63, BIT_63, BIT_63];
    let bits = [(2, 0, 63), (3, 0, 63), (4, 0, 63)];
    calls.found("word-all-showing", &nodes, words, &bits, 4);
    let words = [BIT_2 | BIT_3, u64::MAX, 0, 0];
    let bits = [(1, 0, 2), (1, 0, 3)];
    calls.found("word-two-of-three", &nodes, words, &bits, 3);
    let all: Vec<Bit> = (0..64).map(|bit| (1, 0, bit)).collect();
    let words = [u64::MAX, 0, 0, 0];
    calls.found("word-full", &nodes, words, &all, 4);
}

/// "An unread child is still refusal 18."
fn unread(calls: &mut Calls) {
    // Node 1 at 70, node 2 at 88 with its expression at 97.
    let nodes = [TWO_NODES, NODE_1_BIT_0_TO_2, NODE_2];
    let words = [BIT_0, 0, 0, 0];
    calls.unread("unread-child", &nodes, words, [1, 0, 1, 1], 97);
    // What an unread word would be is ignored.
    let words = [BIT_0, BIT_8, 0, 0];
    calls.unread("unread-child-word", &nodes, words, [1, 0, 1, 1], 97);
    calls.unread("unread-parent", &nodes, words, [0, 0, 1, 1], 79);
    let read = [1, 1, 0, 0];
    let answer = found(&[(1, 0, 0)], 2);
    let readings = ([BIT_0, 0, 0, 0], read);
    calls.add("unread-others", &nodes, readings, PLENTY, answer);

    // An AND at 97 of the constant 0 and, at 108, register 2.
    let and = "00 02 01 01 00 00 01 00 03 10 02 02 00 00 00 00 00 00 00 00 01 00 00 02 00";
    let nodes = [TWO_NODES, NODE_1_BIT_0_TO_2, and];
    let words = [BIT_0, 0, 0, 0];
    calls.unread("unread-under-and", &nodes, words, [1, 0, 1, 1], 108);

    // The rule for type 1 names an unread register, and there is none for 3.
    let nodes = [TWO_NODES, NODE_1_BIT_0_TO_2, NODE_2_OTHER_TYPE];
    let readings = ([BIT_0, 0, 0, 0], [1, 0, 0, 0]);
    let answer = found(&[(1, 0, 0)], 2);
    calls.add("unread-other-type", &nodes, readings, PLENTY, answer);

    // Node 2 at 92, node 3 at 106: expressions at 101 and 115.
    let nodes = [THREE_NODES, NODE_1_BIT_0_TO_2_BIT_63_TO_3, NODE_2, NODE_3];
    let words = [BIT_0 | BIT_63, 0, 0, 0];
    calls.unread("unread-beside-silent", &nodes, words, [1, 1, 0, 1], 115);
    calls.unread("unread-before-silent", &nodes, words, [1, 0, 1, 1], 101);
    calls.unread("unread-both", &nodes, words, [1, 0, 0, 1], 101);

    // Node 2 at 88, node 3 at 106: expressions at 97 and 115.
    let nodes = [THREE_NODES, NODE_1_BIT_0_TO_2, NODE_2_BIT_8_TO_3, NODE_3];
    let words = [BIT_0, BIT_8, 0, 0];
    calls.unread("unread-end", &nodes, words, [1, 1, 0, 1], 115);
    // Below a silent instance nothing is reached.
    let readings = ([BIT_0, 0, 0, 0], [1, 1, 0, 1]);
    let answer = found(&[(1, 0, 0)], 2);
    calls.add("unread-below-silent", &nodes, readings, PLENTY, answer);
}

/// A silent root has no bit above it.
fn roots(calls: &mut Calls) {
    let nodes = [TWO_NODES, NODE_1_BIT_0_TO_2, NODE_2];
    calls.found("root-silent", &nodes, [0; 4], &[], 1);
    let words = [0, u64::MAX, u64::MAX, u64::MAX];
    calls.found("root-silent-others-show", &nodes, words, &[], 1);
    // Node 2 has the root as its child.
    let nodes = [
        TWO_NODES,
        NODE_1,
        "00 02 01 01 00 00 01 01 03 01 00 00 02 00 00 00 01 00",
    ];
    let words = [0, u64::MAX, 0, 0];
    calls.found("root-silent-below-another", &nodes, words, &[], 1);
}

/// Bits above silent instances need room as others do.
fn rooms(calls: &mut Calls) {
    let room = |calls: &mut Calls, name: &str, nodes: &[&str], words, bits: &[Bit], steps| {
        let readings = (words, ALL_READ);
        let needed = bits.len() * RECORD_BYTES;
        let refused = || Err(Refusal::new(refusal::NO_ROOM, bits.len()));
        for (with, room, answer) in [
            ("exact", needed, found(bits, steps)),
            ("fifteen-bytes-more", needed + 15, found(bits, steps)),
            ("one-place-more", needed + 16, found(bits, steps)),
            ("byte-less", needed - 1, refused()),
            ("place-less", needed - RECORD_BYTES, refused()),
            ("none", 0, refused()),
        ] {
            calls.add(
                &format!("{name}-room-{with}"),
                nodes,
                readings,
                room,
                answer,
            );
        }
    };
    let nodes = [TWO_NODES, NODE_1_BIT_0_TO_2, NODE_2];
    let words = [BIT_0, 0, 0, 0];
    room(calls, "silent", &nodes, words, &[(1, 0, 0)], 2);
    let nodes = [TWO_NODES, NODE_1_BITS_0_AND_63_TO_2, NODE_2];
    let words = [BIT_0 | BIT_63, 0, 0, 0];
    let bits = [(1, 0, 0), (1, 0, 63)];
    room(calls, "two-bits", &nodes, words, &bits, 2);
    let nodes = [FOUR_NODES, THREE_CHILDREN, NODE_2, NODE_3, NODE_4];
    let words = [BIT_0 | BIT_1 | BIT_2 | BIT_3, 0, BIT_8, 0];
    let bits = [(1, 0, 0), (1, 0, 1), (1, 0, 3), (3, 0, 8)];
    room(calls, "mixed", &nodes, words, &bits, 4);
}

/// "at its own place in the order": that of its node instance in the file.
fn orders(calls: &mut Calls) {
    let nodes = [TWO_NODES, NODE_2, NODE_1_BIT_0_TO_2];
    let words = [BIT_0, 0, 0, 0];
    calls.found("order-child-first", &nodes, words, &[(1, 0, 0)], 2);
    let words = [BIT_0 | BIT_1, BIT_8, 0, 0];
    let bits = [(2, 0, 8), (1, 0, 1)];
    calls.found("order-child-first-shows", &nodes, words, &bits, 2);
    // Node 2 at 70, node 1 at 84: expressions at 79 and 93.
    let words = [BIT_0, 0, 0, 0];
    calls.unread("order-child-first-unread", &nodes, words, [1, 0, 1, 1], 79);

    let nodes = [THREE_NODES, NODE_3, NODE_2_BIT_8_TO_3, NODE_1_BIT_0_TO_2];
    let words = [BIT_0 | BIT_63, BIT_8 | BIT_1, 0, 0];
    let bits = [(2, 0, 1), (2, 0, 8), (1, 0, 63)];
    calls.found("order-backward", &nodes, words, &bits, 3);
    let words = [BIT_0 | BIT_63, 0, 0, 0];
    let bits = [(1, 0, 0), (1, 0, 63)];
    calls.found("order-backward-middle-silent", &nodes, words, &bits, 2);

    // Between its two children, of which the first one is silent or the last.
    let nodes = [THREE_NODES, NODE_3, NODE_1_BIT_0_TO_2_BIT_63_TO_3, NODE_2];
    let words = [BIT_0 | BIT_8 | BIT_63, BIT_1, 0, 0];
    let bits = [(1, 0, 8), (1, 0, 63), (2, 0, 1)];
    calls.found("order-between-first-silent", &nodes, words, &bits, 3);
    let words = [BIT_0 | BIT_8 | BIT_63, 0, BIT_1, 0];
    let bits = [(3, 0, 1), (1, 0, 0), (1, 0, 8)];
    calls.found("order-between-last-silent", &nodes, words, &bits, 3);
}
