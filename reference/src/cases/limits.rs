//! Files at the limits and beyond them, for the library and for the station,
//! whose limits are lower. The station's text is that for type 3 and a readings
//! file that is empty: where the chip data file is not refused it is number 17.

/// A file, the checker's verdict on it and the station's text.
pub struct AtALimit {
    pub name: String,
    pub file: Vec<u8>,
    pub verdict: String,
    pub text: String,
}

/// 0 keyword, 8 model/level, 12 version.
const START: &[u8] = b"CHIPDATA\x00\x00\x00\x01\x01";
/// The one register of B1: 13 to 30.
const REGISTERS: &[u8] = b"REGS\x00\x00\x01\x00\x00\x01\x01\x80\x01\x00\x00\x00\x10\x00";
/// The one node of B1, 20 bytes.
const NODES: &[u8] = b"NODE\x00\x01\x00\x01\x01\x01\x00\x00\x01\x00\x03\x01\x00\x00\x01\x00";
/// 9 bytes.
const ROOTS: &[u8] = b"ROOT\x01\x03\x00\x01\x00";
/// What a node instance has behind its number: 9 bytes.
const INSTANCE: &[u8] = b"\x00\x01\x00\x03\x01\x00\x00\x01\x00";

/// Registers of 255 instances, `full` of them, and one of `last` instances: each
/// of the full ones has 6 bytes and 255 times 5, which is 1,281.
fn registers(full: u8, last: u8) -> Vec<u8> {
    let mut file = [START, b"REGS\x00\x00", &[full + 1]].concat();
    for id in 1..=full + 1 {
        let count = if id <= full { 255 } else { last };
        file.extend([0, 0, id, 1, 0x80, count]);
        for number in 0..count {
            file.extend([number, 0, 0, 0, 0]);
        }
    }
    file
}

/// Nodes of 255 instances from 37 on, `full` of them, and one of `last`
/// instances: each of the full ones has 4 bytes and 255 times 10, which is 2,554.
fn nodes(full: u8, last: u8) -> Vec<u8> {
    let mut file = [START, REGISTERS, b"NODE\x00", &[full + 1]].concat();
    for id in 1..=full + 1 {
        let count = if id <= full { 255 } else { last };
        file.extend([0, id, 1, count]);
        for number in 0..count {
            file.push(number);
            file.extend(INSTANCE);
        }
    }
    file
}

fn joined(parts: &[&[u8]]) -> Vec<u8> {
    parts.concat()
}

struct Cases(Vec<AtALimit>);

impl Cases {
    fn add(&mut self, name: &str, file: Vec<u8>, verdict: &str, text: &str) {
        self.0.push(AtALimit {
            name: name.to_string(),
            file,
            verdict: verdict.to_string(),
            text: format!("{text}\n"),
        });
    }
}

pub(super) fn all() -> Vec<AtALimit> {
    let mut cases = Cases(Vec::new());
    register_instances(&mut cases);
    node_instances(&mut cases);
    later_faults(&mut cases);
    bytes(&mut cases);
    cases.0
}

/// The station: the fifth register begins at 20 + 4 * 1,281 = 5,144, its instances
/// at 5,150, and the fifth of these, which is 1,025, at 5,170. The library: the
/// 33rd register begins at 20 + 32 * 1,281 = 41,012, its instances at 41,018, and
/// the 33rd of these, which is 8,193, at 41,178.
fn register_instances(cases: &mut Cases) {
    let whole = |full, last| joined(&[&registers(full, last), NODES, ROOTS]);
    cases.add(
        "register-instances-1024",
        whole(4, 4),
        "accepted 1 5 1024 1 1 1",
        "refused 17 place 0",
    );
    cases.add(
        "register-instances-1025",
        whole(4, 5),
        "accepted 1 5 1025 1 1 1",
        "refused 8 place 5170",
    );
    cases.add(
        "register-instances-1029",
        whole(4, 9),
        "accepted 1 5 1029 1 1 1",
        "refused 8 place 5170",
    );
    cases.add(
        "register-instances-8192",
        whole(32, 32),
        "accepted 1 33 8192 1 1 1",
        "refused 8 place 5170",
    );
    cases.add(
        "register-instances-8193",
        whole(32, 33),
        "refused 8 41178",
        "refused 8 place 5170",
    );
    cases.add(
        "register-instances-8199",
        whole(32, 39),
        "refused 8 41178",
        "refused 8 place 5170",
    );

    // The number byte is missing, or is there and has been there before.
    let short = registers(4, 5);
    let short = &short[..5_170];
    cases.add(
        "register-instance-1025-missing",
        short.to_vec(),
        "refused 2 5170",
        "refused 2 place 5170",
    );
    cases.add(
        "register-instance-1025-duplicate",
        joined(&[short, &[0]]),
        "refused 7 5170",
        "refused 8 place 5170",
    );
    cases.add(
        "register-instance-1025-cut",
        joined(&[short, &[4]]),
        "refused 2 5171",
        "refused 8 place 5170",
    );
    let short = registers(32, 33);
    let short = &short[..41_178];
    cases.add(
        "register-instance-8193-missing",
        short.to_vec(),
        "refused 2 41178",
        "refused 8 place 5170",
    );
    cases.add(
        "register-instance-8193-duplicate",
        joined(&[short, &[0]]),
        "refused 8 41178",
        "refused 8 place 5170",
    );
}

/// The station: the second node begins at 37 + 2,554 = 2,591, its instances at
/// 2,595, and the second of these, which is 257, at 2,605. The library: the fifth
/// node begins at 37 + 4 * 2,554 = 10,253, its instances at 10,257, and the fifth
/// of these, which is 1,025, at 10,297.
fn node_instances(cases: &mut Cases) {
    let whole = |full, last| joined(&[&nodes(full, last), ROOTS]);
    cases.add(
        "node-instances-256",
        whole(1, 1),
        "accepted 1 1 1 2 256 1",
        "refused 17 place 0",
    );
    cases.add(
        "node-instances-257",
        whole(1, 2),
        "accepted 1 1 1 2 257 1",
        "refused 8 place 2605",
    );
    cases.add(
        "node-instances-700",
        whole(2, 190),
        "accepted 1 1 1 3 700 1",
        "refused 8 place 2605",
    );
    cases.add(
        "node-instances-1024",
        whole(4, 4),
        "accepted 1 1 1 5 1024 1",
        "refused 8 place 2605",
    );
    cases.add(
        "node-instances-1025",
        whole(4, 5),
        "refused 8 10297",
        "refused 8 place 2605",
    );

    let short = nodes(1, 2);
    let short = &short[..2_605];
    cases.add(
        "node-instance-257-missing",
        short.to_vec(),
        "refused 2 2605",
        "refused 2 place 2605",
    );
    cases.add(
        "node-instance-257-duplicate",
        joined(&[short, &[0]]),
        "refused 7 2605",
        "refused 8 place 2605",
    );
    cases.add(
        "node-instance-257-cut",
        joined(&[short, &[1]]),
        "refused 2 2606",
        "refused 8 place 2605",
    );
    let short = nodes(4, 5);
    let short = &short[..10_297];
    cases.add(
        "node-instance-1025-missing",
        short.to_vec(),
        "refused 2 10297",
        "refused 8 place 2605",
    );
    cases.add(
        "node-instance-1025-duplicate",
        joined(&[short, &[0]]),
        "refused 8 10297",
        "refused 8 place 2605",
    );
}

/// Faults behind an instance that is too many for the station: it says 8, and the
/// library the later fault. The 1,025 register instances end at 5,175, the
/// node behind them has 20 bytes, and the roots behind it 9. The 257 node
/// instances end at 2,615.
fn later_faults(cases: &mut Cases) {
    let registers = &registers(4, 5)[..];
    let station = "refused 8 place 5170";
    for (name, file, verdict) in [
        (
            "then-wrong-keyword",
            joined(&[registers, b"NOTE"]),
            "refused 3 5175",
        ),
        (
            "then-cut",
            joined(&[registers, &NODES[..10]]),
            "refused 2 5185",
        ),
        (
            "then-zero-count",
            joined(&[registers, b"NODE\x00\x00"]),
            "refused 5 5179",
        ),
        (
            "then-bytes-after-end",
            joined(&[registers, NODES, ROOTS, &[0]]),
            "refused 11 5204",
        ),
        (
            "then-root-twice",
            joined(&[
                registers,
                NODES,
                b"ROOT\x02\x03\x00\x01\x00\x03\x00\x01\x00",
            ]),
            "refused 7 5204",
        ),
        (
            "then-absent-root",
            joined(&[registers, NODES, b"ROOT\x01\x03\x00\x02\x00"]),
            "refused 12 5200",
        ),
    ] {
        let name = format!("register-instances-1025-{name}");
        cases.add(&name, file, verdict, station);
    }

    let nodes = &nodes(1, 2)[..];
    let station = "refused 8 place 2605";
    for (name, file, verdict) in [
        (
            "then-wrong-keyword",
            joined(&[nodes, b"ROOF"]),
            "refused 3 2615",
        ),
        ("then-cut", nodes.to_vec(), "refused 2 2615"),
        (
            "then-bytes-after-end",
            joined(&[nodes, ROOTS, b"ROOT"]),
            "refused 11 2624",
        ),
        (
            "then-unknown-root",
            joined(&[nodes, b"ROOT\x01\x06\x00\x01\x00"]),
            "refused 6 2620",
        ),
    ] {
        let name = format!("node-instances-257-{name}");
        cases.add(&name, file, verdict, station);
    }

    // The ID of a later register or node is there twice, and an earlier fault.
    let mut twice = registers.to_vec();
    twice.extend([0, 0, 1]);
    twice[19] = 6;
    cases.add(
        "register-instances-1025-then-register-twice",
        twice.clone(),
        "refused 7 5175",
        "refused 8 place 5170",
    );
    twice[5_144 + 4] = 0x81;
    cases.add(
        "register-instances-1025-after-unknown-flags",
        twice,
        "refused 6 5148",
        "refused 6 place 5148",
    );
    let mut twice = nodes.to_vec();
    twice.extend([0, 2]);
    twice[36] = 3;
    cases.add(
        "node-instances-257-then-node-twice",
        twice,
        "refused 7 2615",
        "refused 8 place 2605",
    );
}

/// B1 and zeros, and zeros alone, as long as a file may be and longer.
fn bytes(cases: &mut Cases) {
    let b1 = joined(&[START, REGISTERS, NODES, ROOTS]);
    for (length, verdict, text) in [
        (65_536, "refused 11 60", "refused 11 place 60"),
        (65_537, "refused 11 60", "refused 1 place 0"),
        (1_048_576, "refused 11 60", "refused 1 place 0"),
        (1_048_577, "refused 1 0", "refused 1 place 0"),
    ] {
        let mut file = b1.clone();
        file.resize(length, 0);
        cases.add(&format!("bytes-{length}"), file, verdict, text);
    }
    for (length, verdict, text) in [
        (65_536, "refused 3 0", "refused 3 place 0"),
        (65_537, "refused 3 0", "refused 1 place 0"),
        (1_048_576, "refused 3 0", "refused 1 place 0"),
        (1_048_577, "refused 1 0", "refused 1 place 0"),
    ] {
        let name = format!("zeros-{length}");
        cases.add(&name, vec![0; length], verdict, text);
    }
}
