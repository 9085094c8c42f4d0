//! Hand-made checker cases, and isolation calls, board calls and those that write
//! and read records in modules of their own. The verdicts are written from the
//! papers; offsets stand beside the pieces that files are put together from.

mod bits;
mod boards;
mod isolation;
mod limits;
mod records;

pub use boards::BoardCase;
pub use isolation::Isolation;
pub use limits::AtALimit;
pub use records::{Reading, Writing};

use crate::hex;

pub struct Case {
    pub name: String,
    pub file: Vec<u8>,
    pub verdict: String,
}

// The pieces of B1.

/// 0 keyword, 8 model/level, 12 version.
const START: &str = "43 48 49 50 44 41 54 41 00 00 00 01 01";
/// 13 keyword, 17 count, 20 ID, 23 type, 24 flags, 25 instances, 26 number,
/// 27 address.
const REGISTERS: &str = "52 45 47 53 00 00 01 00 00 01 01 80 01 00 00 00 10 00";
/// 31 keyword, 35 count, 37 ID, 39 type, 40 instances.
const NODE: &str = "4E 4F 44 45 00 01 00 01 01 01";
/// 41 number, 42 captures, 43 rules, 44 children.
const COUNTS: &str = "00 00 01 00";
/// 45 attention type, 46 expression type, 47 register ID, 50 instance.
const RULE: &str = "03 01 00 00 01 00";
/// 51 keyword, 55 count, 56 attention type, 57 node ID, 59 instance.
const ROOTS: &str = "52 4F 4F 54 01 03 00 01 00";

const B1: [&str; 6] = [START, REGISTERS, NODE, COUNTS, RULE, ROOTS];
const B1_VERDICT: &str = "accepted 1 1 1 1 1 1";

/// The place of the first field that is cut short when only so many bytes of
/// B1 are there.
const B1_CUT_PLACES: [usize; 60] = [
    0, 0, 0, 0, 0, 0, 0, 0, // keyword
    8, 8, 8, 8,  // model/level
    12, // version
    13, 13, 13, 13, // keyword
    17, 17, 17, // register count
    20, 20, 20, // register ID
    23, 24, 25, // type, flags, instance count
    26, // instance number
    27, 27, 27, 27, // address
    31, 31, 31, 31, // keyword
    35, 35, // node count
    37, 37, // node ID
    39, 40, // type, instance count
    41, 42, 43, 44, // number, captures, rules, children
    45, 46, // attention type, expression type
    47, 47, 47, 50, // register ID, instance
    51, 51, 51, 51, // keyword
    55, 56, // root count, attention type
    57, 57, 59, // node ID, instance
];

// Other registers.

/// The register of B1 with type 2 and an address of 8 bytes. 27 address.
/// Everything after it stands 4 bytes later than in B1.
const REGISTERS_TYPE_2: &str = "52 45 47 53 00 00 01 00 00 01 02 80 01 00 00 00 00 10 00 00 00 01";
/// Two registers: 20 ID 1 as in B1, 31 ID 2 (34 type, 35 flags 40: write-only,
/// 36 instances, 37 number 5, 38 address). Everything after it stands 11
/// bytes later than in B1.
const REGISTERS_SECOND_WRITE_ONLY: &str = "52 45 47 53 00 00 02 \
     00 00 01 01 80 01 00 00 00 10 00 \
     00 00 02 01 40 01 05 00 00 20 00";

// Other nodes.

/// Two nodes: 35 count.
const TWO_NODES: &str = "4E 4F 44 45 00 02";
const THREE_NODES: &str = "4E 4F 44 45 00 03";
const FOUR_NODES: &str = "4E 4F 44 45 00 04";
/// B1's only node with one child: 41 number, 44 children.
const COUNTS_ONE_CHILD: &str = "00 00 01 01";
const COUNTS_TWO_CHILDREN: &str = "00 00 01 02";
const COUNTS_ONE_CAPTURE: &str = "00 01 01 00";
const COUNTS_TWO_RULES: &str = "00 00 02 00";

/// Fifteen times NOT, levels 1 to 15 of an expression: 46 to 60.
const FIFTEEN_NOTS: &str = "12 12 12 12 12 12 12 12 12 12 12 12 12 12 12";

/// The register expression of B1.
const REGISTER_1: &str = "01 00 00 01 00";

/// The isolation calls.
pub fn isolations() -> Vec<Isolation> {
    let mut calls = isolations_of_files();
    calls.extend(isolations_of_bits());
    calls
}

/// Those on files of up to four nodes.
pub fn isolations_of_files() -> Vec<Isolation> {
    isolation::all()
}

/// Those with patterns of bits.
pub fn isolations_of_bits() -> Vec<Isolation> {
    bits::all()
}

/// The board calls.
pub fn boards() -> Vec<BoardCase> {
    boards::all()
}

/// The calls that write records.
pub fn writings() -> Vec<Writing> {
    records::all().writings
}

/// The calls that read records.
pub fn readings() -> Vec<Reading> {
    records::all().readings
}

/// Files at the limits and beyond them, with the station's text too.
pub fn at_the_limits() -> Vec<AtALimit> {
    limits::all()
}

/// The checker cases, those at the limits among them.
pub fn all() -> Vec<Case> {
    let mut cases = Cases(Vec::new());
    bench_samples(&mut cases);
    cuts(&mut cases);
    keywords_and_version(&mut cases);
    zero_counts(&mut cases);
    unknown_values(&mut cases);
    duplicates(&mut cases);
    cases.at_the_limits();
    expressions(&mut cases);
    children(&mut cases);
    ends(&mut cases);
    references(&mut cases);
    unreadable_captures(&mut cases);
    cycles(&mut cases);
    byte_order(&mut cases);
    accepted_shapes(&mut cases);
    cases.0
}

struct Cases(Vec<Case>);

impl Cases {
    fn add(&mut self, name: &str, pieces: &[&str], verdict: &str) {
        let file = hex::decode(&pieces.concat()).expect("the pieces are hexadecimal");
        self.0.push(Case {
            name: name.to_string(),
            file,
            verdict: verdict.to_string(),
        });
    }

    fn at_the_limits(&mut self) {
        let cases = at_the_limits().into_iter().map(|case| Case {
            name: case.name,
            file: case.file,
            verdict: case.verdict,
        });
        self.0.extend(cases);
    }

    /// B1 with other registers.
    fn registers(&mut self, name: &str, registers: &str, verdict: &str) {
        self.add(
            name,
            &[START, registers, NODE, COUNTS, RULE, ROOTS],
            verdict,
        );
    }

    /// B1 with another node section.
    fn nodes(&mut self, name: &str, nodes: &[&str], verdict: &str) {
        self.add(name, &[START, REGISTERS, &nodes.concat(), ROOTS], verdict);
    }

    /// B1 with another expression, from offset 46 on.
    fn expression(&mut self, name: &str, expression: &[&str], verdict: &str) {
        let expression = expression.concat();
        self.nodes(name, &[NODE, COUNTS, "03", &expression], verdict);
    }

    /// B1 with another root section, from offset 51 on.
    fn roots(&mut self, name: &str, roots: &str, verdict: &str) {
        self.add(
            name,
            &[START, REGISTERS, NODE, COUNTS, RULE, roots],
            verdict,
        );
    }
}

fn bench_samples(cases: &mut Cases) {
    cases.add("bench-b1", &B1, B1_VERDICT);
    cases.add("bench-empty", &[], "refused 2 0");
    cases.roots("bench-first-59", "52 4F 4F 54 01 03 00 01", "refused 2 59");
    cases.roots(
        "bench-one-more-byte",
        "52 4F 4F 54 01 03 00 01 00 00",
        "refused 11 60",
    );
    cases.registers(
        "bench-chip-at-13",
        "43 48 49 50 00 00 01 00 00 01 01 80 01 00 00 00 10 00",
        "refused 3 13",
    );
    cases.add(
        "bench-version-2",
        &[
            "43 48 49 50 44 41 54 41 00 00 00 01 02",
            REGISTERS,
            NODE,
            COUNTS,
            RULE,
            ROOTS,
        ],
        "refused 4 12",
    );
    cases.registers(
        "bench-flags-00",
        "52 45 47 53 00 00 01 00 00 01 01 00 01 00 00 00 10 00",
        "refused 13 46",
    );
    cases.registers(
        "bench-flags-01",
        "52 45 47 53 00 00 01 00 00 01 01 01 01 00 00 00 10 00",
        "refused 6 24",
    );
    cases.roots(
        "bench-root-instance-1",
        "52 4F 4F 54 01 03 00 01 01",
        "refused 12 56",
    );
    cases.nodes(
        "bench-self-child",
        &[NODE, COUNTS_ONE_CHILD, RULE, "00 00 01 00"],
        "refused 14 41",
    );
}

fn cuts(cases: &mut Cases) {
    let b1 = hex::decode(&B1.concat()).expect("the pieces are hexadecimal");
    for (length, place) in B1_CUT_PLACES.iter().enumerate() {
        cases.0.push(Case {
            name: format!("cut-b1-{length:02}"),
            file: b1[..length].to_vec(),
            verdict: format!("refused 2 {place}"),
        });
    }

    cases.add("cut-wrong-keyword", &["00 00 00"], "refused 2 0");
    cases.add("cut-wrong-regs", &[START, "43 48 49"], "refused 2 13");
    cases.add(
        "cut-address-of-8-after-4",
        &[
            START,
            "52 45 47 53 00 00 01 00 00 01 02 80 01 00 00 00 10 00",
        ],
        "refused 2 27",
    );
    cases.add(
        "cut-address-of-8-after-7",
        &[
            START,
            "52 45 47 53 00 00 01 00 00 01 02 80 01 00 00 00 10 00 00 00 00",
        ],
        "refused 2 27",
    );
    let to_counts = [START, REGISTERS, NODE].concat();
    cases.add(
        "cut-before-capture",
        &[&to_counts, COUNTS_ONE_CAPTURE],
        "refused 2 45",
    );
    cases.add(
        "cut-capture-id",
        &[&to_counts, COUNTS_ONE_CAPTURE, "00 00"],
        "refused 2 45",
    );
    cases.add(
        "cut-capture-instance",
        &[&to_counts, COUNTS_ONE_CAPTURE, "00 00 01"],
        "refused 2 48",
    );
    let to_expression = [&to_counts, COUNTS, "03"].concat();
    cases.add(
        "cut-constant-after-0",
        &[&to_expression, "02"],
        "refused 2 47",
    );
    cases.add(
        "cut-constant-after-7",
        &[&to_expression, "02 00 00 00 00 00 00 00"],
        "refused 2 47",
    );
    cases.add("cut-and-count", &[&to_expression, "10"], "refused 2 47");
    cases.add("cut-or-count", &[&to_expression, "11"], "refused 2 47");
    cases.add("cut-and-first", &[&to_expression, "10 02"], "refused 2 48");
    cases.add(
        "cut-and-second",
        &[&to_expression, "10 02", REGISTER_1],
        "refused 2 53",
    );
    cases.add("cut-not", &[&to_expression, "12"], "refused 2 47");
    cases.add("cut-left-shift", &[&to_expression, "13"], "refused 2 47");
    cases.add(
        "cut-left-shifted",
        &[&to_expression, "13 01"],
        "refused 2 48",
    );
    cases.add("cut-right-shift", &[&to_expression, "14"], "refused 2 47");
    cases.add(
        "cut-right-shifted",
        &[&to_expression, "14 01"],
        "refused 2 48",
    );
    let to_child = [&to_counts, COUNTS_ONE_CHILD, RULE].concat();
    cases.add("cut-before-child", &[&to_child], "refused 2 51");
    cases.add("cut-child-id-after-0", &[&to_child, "00"], "refused 2 52");
    cases.add(
        "cut-child-id-after-1",
        &[&to_child, "00 00"],
        "refused 2 52",
    );
    cases.add(
        "cut-child-instance",
        &[&to_child, "00 00 01"],
        "refused 2 54",
    );
    cases.add(
        "cut-second-rule",
        &[&to_counts, COUNTS_TWO_RULES, RULE],
        "refused 2 51",
    );
    cases.add(
        "cut-second-root",
        &[
            START,
            REGISTERS,
            NODE,
            COUNTS,
            RULE,
            "52 4F 4F 54 02 03 00 01 00",
        ],
        "refused 2 60",
    );
}

fn keywords_and_version(cases: &mut Cases) {
    let rest = [REGISTERS, NODE, COUNTS, RULE, ROOTS].concat();
    cases.add(
        "keyword-zeros",
        &["00 00 00 00 00 00 00 00 00 00 00 01 01", &rest],
        "refused 3 0",
    );
    cases.add(
        "keyword-last-letter",
        &["43 48 49 50 44 41 54 42 00 00 00 01 01", &rest],
        "refused 3 0",
    );
    cases.add(
        "keyword-lower-case",
        &["63 68 69 70 64 61 74 61 00 00 00 01 01", &rest],
        "refused 3 0",
    );
    cases.add(
        "keyword-alone-wrong",
        &["43 48 49 50 44 41 54 42"],
        "refused 3 0",
    );
    cases.registers(
        "keyword-regs-last-letter",
        "52 45 47 54 00 00 01 00 00 01 01 80 01 00 00 00 10 00",
        "refused 3 13",
    );
    cases.nodes(
        "keyword-node",
        &["4E 4F 44 46 00 01 00 01 01 01", COUNTS, RULE],
        "refused 3 31",
    );
    cases.roots("keyword-root", "52 4F 4F 55 01 03 00 01 00", "refused 3 51");
    cases.roots(
        "keyword-root-is-node",
        "4E 4F 44 45 01 03 00 01 00",
        "refused 3 51",
    );
    cases.add(
        "version-0",
        &["43 48 49 50 44 41 54 41 00 00 00 01 00", &rest],
        "refused 4 12",
    );
    cases.add(
        "version-255",
        &["43 48 49 50 44 41 54 41 00 00 00 01 FF", &rest],
        "refused 4 12",
    );
    cases.add(
        "model-all-ones",
        &["43 48 49 50 44 41 54 41 FF FF FF FF 01", &rest],
        "accepted 4294967295 1 1 1 1 1",
    );
    cases.add(
        "model-big-endian",
        &["43 48 49 50 44 41 54 41 01 02 03 04 01", &rest],
        "accepted 16909060 1 1 1 1 1",
    );
    cases.add(
        "model-0",
        &["43 48 49 50 44 41 54 41 00 00 00 00 01", &rest],
        "accepted 0 1 1 1 1 1",
    );
}

fn zero_counts(cases: &mut Cases) {
    cases.registers(
        "zero-registers",
        "52 45 47 53 00 00 00 00 00 01 01 80 01 00 00 00 10 00",
        "refused 5 17",
    );
    cases.add(
        "zero-registers-then-nothing",
        &[START, "52 45 47 53 00 00 00"],
        "refused 5 17",
    );
    cases.registers(
        "zero-register-instances",
        "52 45 47 53 00 00 01 00 00 01 01 80 00 00 00 00 10 00",
        "refused 5 25",
    );
    cases.nodes(
        "zero-nodes",
        &["4E 4F 44 45 00 00 00 01 01 01", COUNTS, RULE],
        "refused 5 35",
    );
    cases.nodes(
        "zero-node-instances",
        &["4E 4F 44 45 00 01 00 01 01 00", COUNTS, RULE],
        "refused 5 40",
    );
    cases.nodes("zero-rules", &[NODE, "00 00 00 00", RULE], "refused 5 43");
    cases.nodes("zero-rules-no-rule", &[NODE, "00 00 00 00"], "refused 5 43");
    cases.add(
        "zero-rules-then-nothing",
        &[START, REGISTERS, NODE, "00 00 00"],
        "refused 5 43",
    );
    cases.roots("zero-roots", "52 4F 4F 54 00 03 00 01 00", "refused 5 55");
    cases.roots("zero-roots-then-nothing", "52 4F 4F 54 00", "refused 5 55");
}

fn unknown_values(cases: &mut Cases) {
    cases.registers(
        "unknown-register-type-0",
        "52 45 47 53 00 00 01 00 00 01 00 80 01 00 00 00 10 00",
        "refused 6 23",
    );
    cases.registers(
        "unknown-register-type-3",
        "52 45 47 53 00 00 01 00 00 01 03 80 01 00 00 00 10 00",
        "refused 6 23",
    );
    cases.registers(
        "unknown-register-type-255",
        "52 45 47 53 00 00 01 00 00 01 FF 80 01 00 00 00 10 00",
        "refused 6 23",
    );
    for flags in ["A0", "90", "88", "84", "82", "81", "20", "3F", "FF"] {
        cases.registers(
            &format!("reserved-flags-{flags}"),
            &format!("52 45 47 53 00 00 01 00 00 01 01 {flags} 01 00 00 00 10 00"),
            "refused 6 24",
        );
    }
    cases.registers(
        "flags-c0",
        "52 45 47 53 00 00 01 00 00 01 01 C0 01 00 00 00 10 00",
        B1_VERDICT,
    );
    cases.nodes(
        "unknown-node-type-0",
        &["4E 4F 44 45 00 01 00 01 00 01", COUNTS, RULE],
        "refused 6 39",
    );
    cases.nodes(
        "unknown-node-type-3",
        &["4E 4F 44 45 00 01 00 01 03 01", COUNTS, RULE],
        "refused 6 39",
    );
    for attention_type in ["00", "06", "FF"] {
        cases.nodes(
            &format!("unknown-rule-attention-{attention_type}"),
            &[NODE, COUNTS, attention_type, REGISTER_1],
            "refused 6 45",
        );
        cases.roots(
            &format!("unknown-root-attention-{attention_type}"),
            &format!("52 4F 4F 54 01 {attention_type} 00 01 00"),
            "refused 6 56",
        );
    }
    for attention_type in ["01", "02", "04", "05"] {
        cases.add(
            &format!("attention-{attention_type}"),
            &[
                START,
                REGISTERS,
                NODE,
                COUNTS,
                attention_type,
                REGISTER_1,
                "52 4F 4F 54 01",
                attention_type,
                "00 01 00",
            ],
            B1_VERDICT,
        );
    }
    for kind in ["00", "03", "0F", "15", "80", "FF"] {
        cases.expression(
            &format!("unknown-expression-{kind}"),
            &[kind, "00 00 01 00"],
            "refused 6 46",
        );
    }
    cases.expression(
        "unknown-expression-under-not",
        &["12 03 00 00 01 00"],
        "refused 6 47",
    );
    cases.expression(
        "unknown-expression-second-of-and",
        &["10 02", REGISTER_1, "20"],
        "refused 6 53",
    );
    cases.expression(
        "unknown-expression-under-shift",
        &["13 01 00"],
        "refused 6 48",
    );
}

fn duplicates(cases: &mut Cases) {
    cases.registers(
        "duplicate-register-id",
        "52 45 47 53 00 00 02 00 00 01 01 80 01 00 00 00 10 00 00 00 01 01 80 01 01 00 00 20 00",
        "refused 7 31",
    );
    cases.add(
        "duplicate-register-id-then-nothing",
        &[
            START,
            "52 45 47 53 00 00 02 00 00 01 01 80 01 00 00 00 10 00 00 00 01",
        ],
        "refused 7 31",
    );
    cases.add(
        "duplicate-register-id-cut",
        &[
            START,
            "52 45 47 53 00 00 02 00 00 01 01 80 01 00 00 00 10 00 00 00",
        ],
        "refused 2 31",
    );
    cases.registers(
        "duplicate-register-id-third",
        "52 45 47 53 00 00 03 00 00 01 01 80 01 00 00 00 10 00 \
         00 00 02 02 80 01 00 00 00 00 00 00 00 20 00 00 00 01 01 80 01 01 00 00 30 00",
        "refused 7 46",
    );
    cases.registers(
        "register-ids-differ-in-first-byte",
        "52 45 47 53 00 00 02 00 00 01 01 80 01 00 00 00 10 00 01 00 01 01 80 01 00 00 00 20 00",
        "accepted 1 2 2 1 1 1",
    );
    cases.registers(
        "duplicate-register-instance",
        "52 45 47 53 00 00 01 00 00 01 01 80 02 00 00 00 10 00 00 00 00 20 00",
        "refused 7 31",
    );
    cases.registers(
        "duplicate-register-instance-third",
        "52 45 47 53 00 00 01 00 00 01 01 80 03 00 00 00 10 00 FF 00 00 20 00 FF 00 00 30 00",
        "refused 7 36",
    );
    cases.registers(
        "same-instance-in-two-registers",
        "52 45 47 53 00 00 02 00 00 01 01 80 01 00 00 00 10 00 00 00 02 01 80 01 00 00 00 20 00",
        "accepted 1 2 2 1 1 1",
    );
    cases.registers(
        "same-address-twice",
        "52 45 47 53 00 00 01 00 00 01 01 80 02 00 00 00 10 00 01 00 00 10 00",
        "accepted 1 1 2 1 1 1",
    );
    // 37 first node, 51 second node.
    cases.nodes(
        "duplicate-node-id",
        &[
            TWO_NODES,
            "00 01 01 01",
            COUNTS,
            RULE,
            "00 01 01 01",
            COUNTS,
            RULE,
        ],
        "refused 7 51",
    );
    cases.add(
        "duplicate-node-id-then-nothing",
        &[
            START,
            REGISTERS,
            TWO_NODES,
            "00 01 01 01",
            COUNTS,
            RULE,
            "00 01",
        ],
        "refused 7 51",
    );
    cases.add(
        "duplicate-node-id-cut",
        &[
            START,
            REGISTERS,
            TWO_NODES,
            "00 01 01 01",
            COUNTS,
            RULE,
            "00",
        ],
        "refused 2 51",
    );
    cases.nodes(
        "same-instance-in-two-nodes",
        &[
            TWO_NODES,
            "00 01 01 01",
            COUNTS,
            RULE,
            "00 02 01 01",
            COUNTS,
            RULE,
        ],
        "accepted 1 1 1 2 2 1",
    );
    // 41 first instance, 51 second instance.
    cases.nodes(
        "duplicate-node-instance",
        &["4E 4F 44 45 00 01 00 01 01 02", COUNTS, RULE, COUNTS, RULE],
        "refused 7 51",
    );
    cases.nodes(
        "two-node-instances",
        &[
            "4E 4F 44 45 00 01 00 01 01 02",
            COUNTS,
            RULE,
            "07 00 01 00",
            RULE,
        ],
        "accepted 1 1 1 1 2 1",
    );
    cases.nodes(
        "duplicate-rule-attention",
        &[NODE, COUNTS_TWO_RULES, RULE, RULE],
        "refused 7 51",
    );
    cases.nodes(
        "duplicate-rule-attention-third",
        &[
            NODE,
            "00 00 03 00",
            "01",
            REGISTER_1,
            "03",
            REGISTER_1,
            "01",
            REGISTER_1,
        ],
        "refused 7 57",
    );
    cases.nodes(
        "all-five-rules",
        &[
            NODE,
            "00 00 05 00",
            "05",
            REGISTER_1,
            "04",
            REGISTER_1,
            "03",
            REGISTER_1,
            "02",
            REGISTER_1,
            "01",
            REGISTER_1,
        ],
        B1_VERDICT,
    );
    cases.nodes(
        "six-rules",
        &[
            NODE,
            "00 00 06 00",
            "01",
            REGISTER_1,
            "02",
            REGISTER_1,
            "03",
            REGISTER_1,
            "04",
            REGISTER_1,
            "05",
            REGISTER_1,
            "01",
            REGISTER_1,
        ],
        "refused 7 75",
    );
    // 51 first child, 55 second child. The node they name is absent.
    cases.nodes(
        "duplicate-child-bit",
        &[
            NODE,
            COUNTS_TWO_CHILDREN,
            RULE,
            "05 00 02 00",
            "05 00 03 00",
        ],
        "refused 7 55",
    );
    cases.add(
        "duplicate-child-bit-then-nothing",
        &[
            START,
            REGISTERS,
            NODE,
            COUNTS_TWO_CHILDREN,
            RULE,
            "05 00 02 00",
            "05",
        ],
        "refused 7 55",
    );
    cases.nodes(
        "two-bits-with-one-child",
        &[
            TWO_NODES,
            "00 01 01 01",
            COUNTS_TWO_CHILDREN,
            RULE,
            "05 00 02 00",
            "04 00 02 00",
            "00 02 01 01",
            COUNTS,
            RULE,
        ],
        "accepted 1 1 1 2 2 1",
    );
    cases.nodes(
        "same-child-bit-in-two-instances",
        &[
            THREE_NODES,
            "00 01 01 01",
            COUNTS_ONE_CHILD,
            RULE,
            "05 00 03 00",
            "00 02 01 01",
            COUNTS_ONE_CHILD,
            RULE,
            "05 00 03 00",
            "00 03 01 01",
            COUNTS,
            RULE,
        ],
        "accepted 1 1 1 3 3 1",
    );
    cases.roots(
        "duplicate-root-attention",
        "52 4F 4F 54 02 03 00 01 00 03 00 01 00",
        "refused 7 60",
    );
    cases.roots(
        "duplicate-root-attention-then-nothing",
        "52 4F 4F 54 02 03 00 01 00 03",
        "refused 7 60",
    );
    cases.roots(
        "duplicate-root-attention-before-absent-rule",
        "52 4F 4F 54 03 03 00 01 00 01 00 01 00 03 00 01 00",
        "refused 7 64",
    );
    // 45 first rule, 51 second rule; 57 root section, 62 and 66 roots.
    cases.add(
        "two-roots",
        &[
            START,
            REGISTERS,
            NODE,
            COUNTS_TWO_RULES,
            RULE,
            "01",
            REGISTER_1,
            "52 4F 4F 54 02 03 00 01 00 01 00 01 00",
        ],
        "accepted 1 1 1 1 1 2",
    );
    cases.nodes(
        "capture-twice",
        &[NODE, "00 02 01 00", "00 00 01 00", "00 00 01 00", RULE],
        B1_VERDICT,
    );
}

fn expressions(cases: &mut Cases) {
    cases.expression("constant", &["02 00 00 00 00 00 00 00 FF"], B1_VERDICT);
    for (name, kind) in [("and", "10"), ("or", "11")] {
        cases.expression(&format!("{name}-count-0"), &[kind, "00"], "refused 9 47");
        cases.expression(
            &format!("{name}-count-1"),
            &[kind, "01", REGISTER_1],
            "refused 9 47",
        );
        cases.expression(
            &format!("{name}-count-2"),
            &[kind, "02", REGISTER_1, REGISTER_1],
            B1_VERDICT,
        );
        cases.expression(
            &format!("{name}-count-3"),
            &[kind, "03", REGISTER_1, "12", REGISTER_1, REGISTER_1],
            B1_VERDICT,
        );
    }
    for (name, kind) in [("left", "13"), ("right", "14")] {
        cases.expression(
            &format!("shift-{name}-0"),
            &[kind, "00", REGISTER_1],
            "refused 9 47",
        );
        for shift in ["01", "3F", "40", "FF"] {
            cases.expression(
                &format!("shift-{name}-{shift}"),
                &[kind, shift, REGISTER_1],
                B1_VERDICT,
            );
        }
    }
    cases.expression("not", &["12", REGISTER_1], B1_VERDICT);
    cases.expression(
        "zero-count-of-expression-is-9",
        &["12 10 00"],
        "refused 9 48",
    );

    // Fifteen NOTs at 46 to 60; level 16 at 61, level 17 from 62 on.
    cases.expression("level-16", &[FIFTEEN_NOTS, REGISTER_1], B1_VERDICT);
    cases.expression(
        "level-16-constant",
        &[FIFTEEN_NOTS, "02 00 00 00 00 00 00 00 00"],
        B1_VERDICT,
    );
    cases.expression(
        "level-17",
        &[FIFTEEN_NOTS, "12", REGISTER_1],
        "refused 9 62",
    );
    cases.expression("level-17-unknown", &[FIFTEEN_NOTS, "12 00"], "refused 9 62");
    cases.add(
        "level-17-missing",
        &[START, REGISTERS, NODE, COUNTS, "03", FIFTEEN_NOTS, "12"],
        "refused 2 62",
    );
    cases.add(
        "level-17-nothing-after-its-type",
        &[START, REGISTERS, NODE, COUNTS, "03", FIFTEEN_NOTS, "12 01"],
        "refused 9 62",
    );
    cases.expression("level-16-unknown", &[FIFTEEN_NOTS, "00"], "refused 6 61");
    cases.expression(
        "level-16-and",
        &[FIFTEEN_NOTS, "10 02", REGISTER_1, REGISTER_1],
        "refused 9 63",
    );
    cases.expression(
        "level-16-and-count-1",
        &[FIFTEEN_NOTS, "10 01"],
        "refused 9 62",
    );
    cases.expression("level-16-shift-0", &[FIFTEEN_NOTS, "13 00"], "refused 9 62");
    cases.expression(
        "level-16-shift-1",
        &[FIFTEEN_NOTS, "14 01", REGISTER_1],
        "refused 9 63",
    );
    // Fourteen shifts at 46 to 73; level 15 at 74, level 16 from 75 on.
    let fourteen_shifts = "13 01".repeat(14);
    cases.expression(
        "level-16-by-shifts",
        &[&fourteen_shifts, "12", REGISTER_1],
        B1_VERDICT,
    );
    cases.expression(
        "level-17-by-shifts",
        &[&fourteen_shifts, "12 12", REGISTER_1],
        "refused 9 76",
    );
    // An AND at level 1 of two operands that both go down to level 16.
    let fourteen_nots = "12".repeat(14);
    cases.expression(
        "level-16-twice-under-and",
        &[
            "10 02",
            &fourteen_nots,
            REGISTER_1,
            &fourteen_nots,
            REGISTER_1,
        ],
        B1_VERDICT,
    );
    // 46 AND, 48 first operand, 67 second operand: NOTs at 67 to 81, level 17
    // at 82.
    cases.expression(
        "level-17-in-second-operand",
        &[
            "10 02",
            &fourteen_nots,
            REGISTER_1,
            FIFTEEN_NOTS,
            REGISTER_1,
        ],
        "refused 9 82",
    );
}

fn children(cases: &mut Cases) {
    let child_2 = ["00 02 00", "00 02 01 01", COUNTS, RULE].concat();
    let parent = [TWO_NODES, "00 01 01 01", COUNTS_ONE_CHILD, RULE].concat();
    cases.nodes(
        "child-bit-0",
        &[&parent, "00", &child_2],
        "accepted 1 1 1 2 2 1",
    );
    cases.nodes(
        "child-bit-63",
        &[&parent, "3F", &child_2],
        "accepted 1 1 1 2 2 1",
    );
    cases.nodes("child-bit-64", &[&parent, "40", &child_2], "refused 10 51");
    cases.nodes("child-bit-255", &[&parent, "FF", &child_2], "refused 10 51");
    cases.add(
        "child-bit-64-then-nothing",
        &[START, REGISTERS, NODE, COUNTS_ONE_CHILD, RULE, "40"],
        "refused 10 51",
    );
    cases.nodes(
        "child-bit-64-second",
        &[
            NODE,
            COUNTS_TWO_CHILDREN,
            RULE,
            "00 00 02 00",
            "40 00 02 00",
        ],
        "refused 10 55",
    );
    cases.nodes(
        "child-before-parent-in-file",
        &[
            TWO_NODES,
            "00 02 01 01",
            COUNTS,
            RULE,
            "00 01 01 01",
            COUNTS_ONE_CHILD,
            RULE,
            "00 00 02 00",
        ],
        "accepted 1 1 1 2 2 1",
    );
}

fn ends(cases: &mut Cases) {
    cases.roots(
        "trailing-ff",
        "52 4F 4F 54 01 03 00 01 00 FF",
        "refused 11 60",
    );
    cases.roots(
        "trailing-root",
        "52 4F 4F 54 01 03 00 01 00 03 00 01 00",
        "refused 11 60",
    );
    cases.roots(
        "trailing-bytes-before-absent-root",
        "52 4F 4F 54 01 03 00 09 00 00 00",
        "refused 11 60",
    );
}

fn references(cases: &mut Cases) {
    // 45 capture, 49 rule, 50 expression; everything after it stands 4 bytes
    // later than in B1.
    let captured = |capture: &str| [NODE, COUNTS_ONE_CAPTURE, capture, RULE].concat();
    cases.nodes("capture", &[&captured("00 00 01 00")], B1_VERDICT);
    cases.nodes(
        "capture-absent-register",
        &[&captured("00 00 02 00")],
        "refused 12 45",
    );
    cases.nodes(
        "capture-absent-instance",
        &[&captured("00 00 01 01")],
        "refused 12 45",
    );
    cases.nodes(
        "capture-absent-second",
        &[NODE, "00 02 01 00", "00 00 01 00", "01 00 01 00", RULE],
        "refused 12 49",
    );
    // Registers 1/0 and 2/5: 52 number, 56 capture, 60 rule.
    cases.add(
        "capture-write-only",
        &[
            START,
            REGISTERS_SECOND_WRITE_ONLY,
            &captured("00 00 02 05"),
            ROOTS,
        ],
        "refused 13 56",
    );
    cases.add(
        "capture-number-of-other-register",
        &[
            START,
            REGISTERS_SECOND_WRITE_ONLY,
            &captured("00 00 02 00"),
            ROOTS,
        ],
        "refused 12 56",
    );
    // 45 number, 49 capture, 53 rule with a constant.
    cases.add(
        "capture-of-other-type",
        &[
            START,
            REGISTERS_TYPE_2,
            NODE,
            COUNTS_ONE_CAPTURE,
            "00 00 01 00",
            "03 02 00 00 00 00 00 00 00 00",
            ROOTS,
        ],
        B1_VERDICT,
    );
    // The same register, write-only.
    cases.add(
        "capture-of-other-type-write-only",
        &[
            START,
            "52 45 47 53 00 00 01 00 00 01 02 40 01 00 00 00 00 10 00 00 00 01",
            NODE,
            COUNTS_ONE_CAPTURE,
            "00 00 01 00",
            "03 02 00 00 00 00 00 00 00 00",
            ROOTS,
        ],
        "refused 13 49",
    );

    cases.expression("rule-absent-register", &["01 00 00 02 00"], "refused 12 46");
    cases.expression("rule-absent-instance", &["01 00 00 01 01"], "refused 12 46");
    cases.expression("rule-absent-high-id", &["01 FF FF FF 00"], "refused 12 46");
    cases.expression(
        "rule-absent-under-not",
        &["12 01 00 00 02 00"],
        "refused 12 47",
    );
    cases.expression(
        "rule-absent-under-shift",
        &["14 08 01 00 00 02 00"],
        "refused 12 48",
    );
    cases.expression(
        "rule-absent-second-of-or",
        &["11 02", REGISTER_1, "01 00 00 02 00"],
        "refused 12 53",
    );
    cases.nodes(
        "rule-absent-without-root",
        &[NODE, COUNTS_TWO_RULES, RULE, "05 01 00 00 02 00"],
        "refused 12 52",
    );

    cases.nodes(
        "child-absent-node",
        &[NODE, COUNTS_ONE_CHILD, RULE, "00 00 02 00"],
        "refused 12 51",
    );
    cases.nodes(
        "child-absent-instance",
        &[NODE, COUNTS_ONE_CHILD, RULE, "00 00 01 01"],
        "refused 12 51",
    );
    cases.nodes(
        "child-absent-second",
        &[
            TWO_NODES,
            "00 01 01 01",
            COUNTS_TWO_CHILDREN,
            RULE,
            "00 00 02 00",
            "01 00 02 01",
            "00 02 01 01",
            COUNTS,
            RULE,
        ],
        "refused 12 55",
    );

    cases.roots(
        "root-absent-node",
        "52 4F 4F 54 01 03 00 02 00",
        "refused 12 56",
    );
    cases.roots(
        "root-without-its-rule",
        "52 4F 4F 54 01 01 00 01 00",
        "refused 12 56",
    );
    cases.roots(
        "root-second-without-its-rule",
        "52 4F 4F 54 02 03 00 01 00 01 00 01 00",
        "refused 12 60",
    );
    // Instance 0 has a rule for 3, instance 1 for 1: 41 and 51; 66 root.
    cases.add(
        "root-rule-in-other-instance",
        &[
            START,
            REGISTERS,
            "4E 4F 44 45 00 01 00 01 01 02",
            COUNTS,
            RULE,
            "01 00 01 00",
            "01",
            REGISTER_1,
            "52 4F 4F 54 01 01 00 01 00",
        ],
        "refused 12 66",
    );
    cases.nodes(
        "child-without-the-rule",
        &[
            TWO_NODES,
            "00 01 01 01",
            COUNTS_ONE_CHILD,
            RULE,
            "00 00 02 00",
            "00 02 01 01",
            COUNTS,
            "01",
            REGISTER_1,
        ],
        "accepted 1 1 1 2 2 1",
    );

    cases.registers(
        "rule-write-only-register",
        "52 45 47 53 00 00 01 00 00 01 01 40 01 00 00 00 10 00",
        "refused 13 46",
    );
    cases.add(
        "rule-register-type-2-in-node-type-1",
        &[START, REGISTERS_TYPE_2, NODE, COUNTS, RULE, ROOTS],
        "refused 13 50",
    );
    cases.nodes(
        "rule-register-type-1-in-node-type-2",
        &["4E 4F 44 45 00 01 00 01 02 01", COUNTS, RULE],
        "refused 13 46",
    );
    // 31 register 2 is write-only with instance 5; 56 rule, 57 expression.
    let with_second = |expression: &str| {
        [
            START,
            REGISTERS_SECOND_WRITE_ONLY,
            NODE,
            COUNTS,
            "03",
            expression,
            ROOTS,
        ]
        .concat()
    };
    cases.add(
        "12-before-13-at-one-byte-not-readable",
        &[&with_second("01 00 00 02 00")],
        "refused 12 57",
    );
    cases.add(
        "12-before-13-at-one-byte-other-type",
        &[
            START,
            REGISTERS_TYPE_2,
            NODE,
            COUNTS,
            "03 01 00 00 01 01",
            ROOTS,
        ],
        "refused 12 50",
    );
    cases.add(
        "13-then-12-in-one-rule",
        &[&with_second("10 02 01 00 00 02 05 01 00 00 03 00")],
        "refused 13 59",
    );
    cases.add(
        "12-then-13-in-one-rule",
        &[&with_second("10 02 01 00 00 03 00 01 00 00 02 05")],
        "refused 12 59",
    );
    cases.add(
        "13-under-not-after-good",
        &[&with_second("11 02 01 00 00 01 00 12 01 00 00 02 05")],
        "refused 13 65",
    );
    // 45 capture at fault, 50 expression at fault.
    cases.nodes(
        "12-in-capture-and-rule",
        &[NODE, COUNTS_ONE_CAPTURE, "00 00 02 00", "03 01 00 00 02 00"],
        "refused 12 45",
    );
    // 46 expression not readable, 51 child absent.
    cases.add(
        "13-in-rule-before-12-in-child",
        &[
            START,
            "52 45 47 53 00 00 01 00 00 01 01 00 01 00 00 00 10 00",
            NODE,
            COUNTS_ONE_CHILD,
            RULE,
            "00 00 02 00",
            ROOTS,
        ],
        "refused 13 46",
    );
    // 51 child absent; second node from 55, its expression at 64 not there.
    cases.nodes(
        "12-in-child-before-next-node",
        &[
            TWO_NODES,
            "00 01 01 01",
            COUNTS_ONE_CHILD,
            RULE,
            "00 00 07 00",
            "00 02 01 01",
            COUNTS,
            "03 01 00 00 02 00",
        ],
        "refused 12 51",
    );
    // Second node from 51: 55 number, 60 expression absent; root absent too.
    cases.add(
        "12-in-second-node-before-root",
        &[
            START,
            REGISTERS,
            TWO_NODES,
            "00 01 01 01",
            COUNTS,
            RULE,
            "00 02 01 01",
            COUNTS,
            "03 01 00 00 02 00",
            "52 4F 4F 54 01 03 00 09 00",
        ],
        "refused 12 60",
    );
}

/// Captures of registers that may not be readable. All files but the last have
/// the registers 1/0, readable, and 2/5, mostly write-only: 42 node section,
/// 46 count, 48 ID, 52 number, 56 what follows the counts.
fn unreadable_captures(cases: &mut Cases) {
    // 56 capture, 60 rule, 61 expression.
    for (flags, verdict) in [
        ("00", "refused 13 56"),
        ("80", "accepted 1 2 2 1 1 1"),
        ("C0", "accepted 1 2 2 1 1 1"),
    ] {
        cases.add(
            &format!("capture-flags-{flags}"),
            &[
                START,
                "52 45 47 53 00 00 02 00 00 01 01 80 01 00 00 00 10 00",
                &format!("00 00 02 01 {flags} 01 05 00 00 20 00"),
                NODE,
                COUNTS_ONE_CAPTURE,
                "00 00 02 05",
                RULE,
                ROOTS,
            ],
            verdict,
        );
    }

    let nodes = |cases: &mut Cases, name: &str, nodes: &[&str], verdict: &str| {
        let nodes = nodes.concat();
        cases.add(
            name,
            &[START, REGISTERS_SECOND_WRITE_ONLY, &nodes, ROOTS],
            verdict,
        );
    };
    nodes(
        cases,
        "unused-register-write-only",
        &[NODE, COUNTS, RULE],
        "accepted 1 2 2 1 1 1",
    );
    nodes(
        cases,
        "capture-beside-unused-write-only",
        &[NODE, COUNTS_ONE_CAPTURE, "00 00 01 00", RULE],
        "accepted 1 2 2 1 1 1",
    );
    // The register is there and the instance is not.
    nodes(
        cases,
        "12-before-13-at-one-capture",
        &[NODE, COUNTS_ONE_CAPTURE, "00 00 02 06", RULE],
        "refused 12 56",
    );

    // 56 first capture, 60 second capture.
    nodes(
        cases,
        "capture-good-then-write-only",
        &[NODE, "00 02 01 00", "00 00 01 00", "00 00 02 05", RULE],
        "refused 13 60",
    );
    nodes(
        cases,
        "capture-write-only-then-absent",
        &[NODE, "00 02 01 00", "00 00 02 05", "00 00 03 00", RULE],
        "refused 13 56",
    );
    nodes(
        cases,
        "capture-absent-then-write-only",
        &[NODE, "00 02 01 00", "00 00 03 00", "00 00 02 05", RULE],
        "refused 12 56",
    );

    // 56 capture, 60 rule, 61 expression.
    nodes(
        cases,
        "capture-write-only-before-rule-absent",
        &[NODE, COUNTS_ONE_CAPTURE, "00 00 02 05", "03 01 00 00 03 00"],
        "refused 13 56",
    );
    nodes(
        cases,
        "capture-write-only-before-rule-write-only",
        &[NODE, COUNTS_ONE_CAPTURE, "00 00 02 05", "03 01 00 00 02 05"],
        "refused 13 56",
    );
    nodes(
        cases,
        "capture-absent-before-rule-write-only",
        &[NODE, COUNTS_ONE_CAPTURE, "00 00 03 00", "03 01 00 00 02 05"],
        "refused 12 56",
    );
    nodes(
        cases,
        "capture-good-before-rule-write-only",
        &[NODE, COUNTS_ONE_CAPTURE, "00 00 01 00", "03 01 00 00 02 05"],
        "refused 13 61",
    );
    // 66 child absent, or the instance itself.
    nodes(
        cases,
        "capture-write-only-before-child-absent",
        &[NODE, "00 01 01 01", "00 00 02 05", RULE, "00 00 09 00"],
        "refused 13 56",
    );
    nodes(
        cases,
        "capture-write-only-before-cycle",
        &[NODE, "00 01 01 01", "00 00 02 05", RULE, "00 00 01 00"],
        "refused 13 56",
    );
    // 66 root section, 71 root absent.
    cases.add(
        "capture-write-only-before-root-absent",
        &[
            START,
            REGISTERS_SECOND_WRITE_ONLY,
            NODE,
            COUNTS_ONE_CAPTURE,
            "00 00 02 05",
            RULE,
            "52 4F 4F 54 01 03 00 09 00",
        ],
        "refused 13 56",
    );
    // 66 root section, 71 root, 75 a byte more.
    cases.add(
        "trailing-byte-before-write-only-capture",
        &[
            START,
            REGISTERS_SECOND_WRITE_ONLY,
            NODE,
            COUNTS_ONE_CAPTURE,
            "00 00 02 05",
            RULE,
            ROOTS,
            "00",
        ],
        "refused 11 75",
    );

    // Node 1: 52 number, 56 rule, 57 expression. Node 2, which no root
    // reaches: 62 ID, 66 number, 70 capture.
    let second_captures = ["00 02 01 01", COUNTS_ONE_CAPTURE, "00 00 02 05", RULE].concat();
    nodes(
        cases,
        "capture-write-only-not-under-a-root",
        &[TWO_NODES, "00 01 01 01", COUNTS, RULE, &second_captures],
        "refused 13 70",
    );
    nodes(
        cases,
        "rule-absent-before-next-capture-write-only",
        &[
            TWO_NODES,
            "00 01 01 01",
            COUNTS,
            "03 01 00 00 03 00",
            &second_captures,
        ],
        "refused 12 57",
    );
    nodes(
        cases,
        "rule-write-only-before-next-capture-write-only",
        &[
            TWO_NODES,
            "00 01 01 01",
            COUNTS,
            "03 01 00 00 02 05",
            &second_captures,
        ],
        "refused 13 57",
    );
    // Node 1: 62 child. Node 2: 66 ID, 70 number, 74 capture.
    nodes(
        cases,
        "capture-write-only-under-a-root",
        &[
            TWO_NODES,
            "00 01 01 01",
            COUNTS_ONE_CHILD,
            RULE,
            "00 00 02 00",
            &second_captures,
        ],
        "refused 13 74",
    );
    nodes(
        cases,
        "child-absent-before-next-capture-write-only",
        &[
            TWO_NODES,
            "00 01 01 01",
            COUNTS_ONE_CHILD,
            RULE,
            "00 00 09 00",
            &second_captures,
        ],
        "refused 12 62",
    );
    // Node 1: 56 capture, 60 rule. Node 2: 66 ID, 70 number, 74 capture, or
    // 74 rule and 80 child.
    nodes(
        cases,
        "capture-write-only-in-two-nodes",
        &[
            TWO_NODES,
            "00 01 01 01",
            COUNTS_ONE_CAPTURE,
            "00 00 02 05",
            RULE,
            &second_captures,
        ],
        "refused 13 56",
    );
    nodes(
        cases,
        "capture-write-only-before-next-child-absent",
        &[
            TWO_NODES,
            "00 01 01 01",
            COUNTS_ONE_CAPTURE,
            "00 00 02 05",
            RULE,
            "00 02 01 01",
            COUNTS_ONE_CHILD,
            RULE,
            "00 00 09 00",
        ],
        "refused 13 56",
    );
    // One node with two instances: 52 number, 56 rule; 62 number, 66 capture.
    nodes(
        cases,
        "capture-write-only-in-second-instance",
        &[
            "4E 4F 44 45 00 01 00 01 01 02",
            COUNTS,
            RULE,
            "01 01 01 00",
            "00 00 02 05",
            RULE,
        ],
        "refused 13 66",
    );
    // B1's register, write-only: 45 capture, 50 expression.
    cases.add(
        "capture-and-rule-of-one-write-only",
        &[
            START,
            "52 45 47 53 00 00 01 00 00 01 01 40 01 00 00 00 10 00",
            NODE,
            COUNTS_ONE_CAPTURE,
            "00 00 01 00",
            RULE,
            ROOTS,
        ],
        "refused 13 45",
    );
}

fn cycles(cases: &mut Cases) {
    // Nodes with one child each: first from 37 (number 41, child 51), second
    // from 55 (number 59), third from 73 (number 77).
    let node =
        |id: &str, child: &str| [id, "01 01", COUNTS_ONE_CHILD, RULE, "00", child, "00"].concat();
    let leaf = |id: &str| [id, "01 01", COUNTS, RULE].concat();

    cases.nodes(
        "cycle-of-two",
        &[TWO_NODES, &node("00 01", "00 02"), &node("00 02", "00 01")],
        "refused 14 41",
    );
    cases.nodes(
        "cycle-of-three",
        &[
            THREE_NODES,
            &node("00 01", "00 02"),
            &node("00 02", "00 03"),
            &node("00 03", "00 01"),
        ],
        "refused 14 41",
    );
    cases.nodes(
        "cycle-after-lead-in",
        &[
            THREE_NODES,
            &node("00 01", "00 02"),
            &node("00 02", "00 03"),
            &node("00 03", "00 02"),
        ],
        "refused 14 59",
    );
    cases.nodes(
        "cycle-self-after-two-lead-ins",
        &[
            THREE_NODES,
            &node("00 01", "00 02"),
            &node("00 02", "00 03"),
            &node("00 03", "00 03"),
        ],
        "refused 14 77",
    );
    cases.nodes(
        "cycle-first-in-file-is-entered-last",
        &[
            THREE_NODES,
            &node("00 03", "00 02"),
            &node("00 01", "00 02"),
            &node("00 02", "00 03"),
        ],
        "refused 14 41",
    );
    cases.nodes(
        "cycle-lead-in-stands-after-it",
        &[
            THREE_NODES,
            &node("00 02", "00 03"),
            &node("00 03", "00 02"),
            &node("00 01", "00 02"),
        ],
        "refused 14 41",
    );
    // A leaf at 37 to 50, then nodes from 51 (number 55) and 69 (number 73).
    cases.nodes(
        "cycle-behind-a-leaf-not-under-the-root",
        &[
            THREE_NODES,
            &leaf("00 01"),
            &node("00 02", "00 03"),
            &node("00 03", "00 02"),
        ],
        "refused 14 55",
    );
    // The first instance has two children: a leaf and a cycle; its children at
    // 51 and 55. Leaf from 59 to 72, then nodes from 73 (number 77) and 91.
    cases.nodes(
        "cycle-behind-the-second-child",
        &[
            FOUR_NODES,
            "00 01 01 01",
            COUNTS_TWO_CHILDREN,
            RULE,
            "00 00 02 00 01 00 03 00",
            &leaf("00 02"),
            &node("00 03", "00 04"),
            &node("00 04", "00 03"),
        ],
        "refused 14 77",
    );
    // Node 1 leads to itself and node 2 to itself; node 3 lies between.
    cases.nodes(
        "cycle-two-and-a-bridge",
        &[
            THREE_NODES,
            &node("00 03", "00 02"),
            "00 01 01 01",
            COUNTS_TWO_CHILDREN,
            RULE,
            "00 00 01 00 01 00 03 00",
            &node("00 02", "00 02"),
        ],
        "refused 14 59",
    );
    // One node with two instances, each the child of the other: 41 and 55.
    let two_instances = "4E 4F 44 45 00 01 00 01 01 02";
    cases.nodes(
        "cycle-of-two-instances-of-a-node",
        &[
            two_instances,
            COUNTS_ONE_CHILD,
            RULE,
            "00 00 01 01",
            "01 00 01 01",
            RULE,
            "00 00 01 00",
        ],
        "refused 14 41",
    );
    cases.nodes(
        "instances-of-a-node-in-a-row",
        &[
            two_instances,
            COUNTS_ONE_CHILD,
            RULE,
            "00 00 01 01",
            "01 00 01 00",
            RULE,
        ],
        "accepted 1 1 1 1 2 1",
    );
    cases.nodes(
        "cycle-in-second-instance",
        &[
            two_instances,
            COUNTS,
            RULE,
            "01 00 01 01",
            RULE,
            "00 00 01 01",
        ],
        "refused 14 51",
    );
    // Node 2 has only a rule for type 1, so no chain passes it for type 3.
    cases.nodes(
        "cycle-whatever-the-attention-type",
        &[
            TWO_NODES,
            &node("00 01", "00 02"),
            "00 02 01 01",
            COUNTS_ONE_CHILD,
            "01",
            REGISTER_1,
            "00 00 01 00",
        ],
        "refused 14 41",
    );
    // The rule's value is 0, so its bits are never active.
    cases.nodes(
        "cycle-whatever-the-readings",
        &[
            NODE,
            COUNTS_ONE_CHILD,
            "03 02 00 00 00 00 00 00 00 00",
            "00 00 01 00",
        ],
        "refused 14 41",
    );
    cases.nodes(
        "diamond",
        &[
            FOUR_NODES,
            "00 01 01 01",
            COUNTS_TWO_CHILDREN,
            RULE,
            "00 00 02 00 01 00 03 00",
            &node("00 02", "00 04"),
            &node("00 03", "00 04"),
            &leaf("00 04"),
        ],
        "accepted 1 1 1 4 4 1",
    );
    cases.nodes(
        "diamond-bottom-first",
        &[
            FOUR_NODES,
            &leaf("00 04"),
            &node("00 03", "00 04"),
            &node("00 02", "00 04"),
            "00 01 01 01",
            COUNTS_TWO_CHILDREN,
            RULE,
            "00 00 02 00 01 00 03 00",
        ],
        "accepted 1 1 1 4 4 1",
    );
    // 55 root section, 60 root.
    cases.add(
        "absent-root-before-cycle",
        &[
            START,
            REGISTERS,
            NODE,
            COUNTS_ONE_CHILD,
            RULE,
            "00 00 01 00",
            "52 4F 4F 54 01 03 00 02 00",
        ],
        "refused 12 60",
    );
}

fn byte_order(cases: &mut Cases) {
    cases.registers(
        "duplicate-id-before-unknown-type",
        "52 45 47 53 00 00 02 00 00 01 01 80 01 00 00 00 10 00 00 00 01 09 80 01 00 00 00 20 00",
        "refused 7 31",
    );
    cases.registers(
        "unknown-type-before-duplicate-instance",
        "52 45 47 53 00 00 01 00 00 01 03 80 02 00 00 00 10 00 00 00 00 20 00",
        "refused 6 23",
    );
    cases.registers(
        "reserved-flags-before-zero-count",
        "52 45 47 53 00 00 01 00 00 01 01 81 00 00 00 00 10 00",
        "refused 6 24",
    );
    cases.registers(
        "zero-count-before-duplicate-id",
        "52 45 47 53 00 00 02 00 00 01 01 80 00 00 00 01 01 80 01 00 00 00 20 00",
        "refused 5 25",
    );
    cases.add(
        "wrong-keyword-before-version",
        &["43 48 49 50 44 41 54 42 00 00 00 01 02", REGISTERS],
        "refused 3 0",
    );
    cases.add(
        "version-before-wrong-keyword",
        &["43 48 49 50 44 41 54 41 00 00 00 01 02", "43 48 49 50"],
        "refused 4 12",
    );
    cases.nodes(
        "duplicate-rule-before-bad-expression",
        &[NODE, COUNTS_TWO_RULES, RULE, "03 00"],
        "refused 7 51",
    );
    cases.nodes(
        "bad-expression-before-duplicate-rule",
        &[NODE, COUNTS_TWO_RULES, "03 13 00", REGISTER_1, RULE],
        "refused 9 47",
    );
    cases.nodes(
        "unknown-attention-twice",
        &[NODE, COUNTS_TWO_RULES, "06", REGISTER_1, "06", REGISTER_1],
        "refused 6 45",
    );
    cases.nodes(
        "high-child-bit-twice",
        &[NODE, COUNTS_TWO_CHILDREN, RULE, "40 00 02 00 40 00 02 00"],
        "refused 10 51",
    );
    cases.nodes(
        "duplicate-bit-before-high-bit",
        &[
            NODE,
            "00 00 01 03",
            RULE,
            "01 00 02 00 01 00 02 00 40 00 02 00",
        ],
        "refused 7 55",
    );
    cases.nodes(
        "duplicate-instance-before-zero-rules",
        &["4E 4F 44 45 00 01 00 01 01 02", COUNTS, RULE, "00 00 00 00"],
        "refused 7 51",
    );
    // 51 child of an absent node; 55 root section with a wrong keyword.
    cases.add(
        "layout-before-references",
        &[
            START,
            REGISTERS,
            NODE,
            COUNTS_ONE_CHILD,
            RULE,
            "00 00 02 00",
            "52 4F 4F 53 01 03 00 01 00",
        ],
        "refused 3 55",
    );
    cases.add(
        "trailing-byte-before-cycle",
        &[
            START,
            REGISTERS,
            NODE,
            COUNTS_ONE_CHILD,
            RULE,
            "00 00 01 00",
            ROOTS,
            "00",
        ],
        "refused 11 64",
    );
    // The node section reads as a register of ID 4E4F44 and type 45 hex.
    cases.registers(
        "register-count-too-high",
        "52 45 47 53 00 00 02 00 00 01 01 80 01 00 00 00 10 00",
        "refused 6 34",
    );
    // The node section reads as an instance of number 4E with an address of
    // 4F 44 45 00; then the next keyword is 01 00 01 01.
    cases.registers(
        "register-instance-count-too-high",
        "52 45 47 53 00 00 01 00 00 01 01 80 02 00 00 00 10 00",
        "refused 3 36",
    );
    // The capture count takes the rule and more for captures: 45, 49, 53; then
    // 57 reads as an attention type of 0.
    cases.nodes(
        "captures-eat-the-rule",
        &[NODE, "00 03 01 00", RULE],
        "refused 6 57",
    );
    // The root section reads as a child of bit 52 hex, which is 82.
    cases.nodes(
        "child-count-too-high",
        &[NODE, COUNTS_ONE_CHILD, RULE],
        "refused 10 51",
    );
    // The root section reads as a rule of attention type 52 hex.
    cases.nodes(
        "rule-count-too-high",
        &[NODE, COUNTS_TWO_RULES, RULE],
        "refused 6 51",
    );
    // The root section reads as a node of ID 524F, type 4F.
    cases.nodes(
        "node-count-too-high",
        &[TWO_NODES, "00 01 01 01", COUNTS, RULE],
        "refused 6 53",
    );
    // The root section reads as an instance of number 52 hex with 79 captures
    // and more rules than the file holds: 51 number, 52 captures, 53 rules,
    // 54 children, 55 first capture, 59 second capture.
    cases.nodes(
        "node-instance-count-too-high",
        &["4E 4F 44 45 00 01 00 01 01 02", COUNTS, RULE],
        "refused 2 59",
    );
    cases.roots(
        "root-count-too-high",
        "52 4F 4F 54 02 03 00 01 00",
        "refused 2 60",
    );
    cases.roots(
        "root-count-255",
        "52 4F 4F 54 FF 03 00 01 00",
        "refused 2 60",
    );
}

fn accepted_shapes(cases: &mut Cases) {
    cases.add(
        "register-type-2",
        &[
            START,
            REGISTERS_TYPE_2,
            "4E 4F 44 45 00 01 00 01 02 01",
            COUNTS,
            RULE,
            ROOTS,
        ],
        B1_VERDICT,
    );
    cases.nodes(
        "node-type-2-of-constants",
        &[
            "4E 4F 44 45 00 01 00 01 02 01",
            COUNTS,
            "03 02 00 00 00 00 00 00 00 01",
        ],
        B1_VERDICT,
    );
    cases.add(
        "register-id-0",
        &[
            START,
            "52 45 47 53 00 00 01 00 00 00 01 80 01 00 00 00 10 00",
            NODE,
            COUNTS,
            "03 01 00 00 00 00",
            ROOTS,
        ],
        B1_VERDICT,
    );
    cases.add(
        "register-id-highest",
        &[
            START,
            "52 45 47 53 00 00 01 FF FF FF 01 80 01 FF 00 00 10 00",
            NODE,
            COUNTS,
            "03 01 FF FF FF FF",
            ROOTS,
        ],
        B1_VERDICT,
    );
    cases.add(
        "node-id-0",
        &[
            START,
            REGISTERS,
            "4E 4F 44 45 00 01 00 00 01 01",
            COUNTS,
            RULE,
            "52 4F 4F 54 01 03 00 00 00",
        ],
        B1_VERDICT,
    );
    cases.add(
        "node-id-highest",
        &[
            START,
            REGISTERS,
            "4E 4F 44 45 00 01 FF FF 01 01",
            "FF 00 01 00",
            RULE,
            "52 4F 4F 54 01 03 FF FF FF",
        ],
        B1_VERDICT,
    );
    cases.registers(
        "unused-register-without-flags",
        "52 45 47 53 00 00 02 00 00 01 01 80 01 00 00 00 10 00 00 00 02 02 00 01 00 \
         00 00 00 00 00 00 00 20",
        "accepted 1 2 2 1 1 1",
    );
    cases.nodes(
        "node-not-under-a-root",
        &[
            TWO_NODES,
            "00 02 01 01",
            COUNTS,
            RULE,
            "00 01 01 01",
            COUNTS,
            RULE,
        ],
        "accepted 1 1 1 2 2 1",
    );
    cases.registers(
        "register-ids-fall",
        "52 45 47 53 00 00 03 00 00 09 01 80 01 09 00 00 10 00 \
         00 00 05 01 80 02 07 00 00 20 00 03 00 00 20 04 \
         00 00 01 01 80 01 00 00 00 30 00",
        "accepted 1 3 4 1 1 1",
    );
}

#[cfg(test)]
mod tests {
    use super::{all, at_the_limits};
    use crate::large::ATTENTION_TYPE;
    use crate::{checker, report};
    use std::collections::HashSet;

    #[test]
    fn the_checker_agrees() {
        for case in all() {
            assert_eq!(checker::verdict(&case.file), case.verdict, "{}", case.name);
        }
    }

    #[test]
    fn the_station_agrees() {
        for case in at_the_limits() {
            let text = report(&case.file, ATTENTION_TYPE, &[]);
            assert_eq!(text, case.text, "{}", case.name);
        }
    }

    #[test]
    fn names_differ() {
        let names: HashSet<String> = all().into_iter().map(|case| case.name).collect();
        assert_eq!(names.len(), all().len());
    }

    #[test]
    fn every_number_to_14_occurs() {
        for number in 1..=14 {
            let start = format!("refused {number} ");
            assert!(all().iter().any(|case| case.verdict.starts_with(&start)));
        }
    }
}
