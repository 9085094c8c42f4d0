//! chipdata list FILE: prints a chip data file as text, one record a line.
//! chipdata make TEXT FILE: makes the chip data file of such a text.
//!
//! docs/RECORDS.md says how the text looks. A refusal is printed as `refused N
//! place P`, and by number 40 with the line of the text behind it. FILE is written
//! only where nothing is refused. Exit status: 0 done, 1 a refusal, 2 bad usage, a
//! file that cannot be read or written, or a text that is none.
//!
//! Standard library only:
//!
//!     rustc -O examples/chipdata.rs -L native=crates/abi/out -o chipdata

use std::fmt::{self, Display, Write as _};
use std::fs::{self, File};
use std::io::{Read, Write as _};
use std::process::ExitCode;

/// The two calls for records of the proved library. include/lutemarble.h says what
/// holds of them.
mod lutemarble {
    /// The bytes of the longest chip data file.
    pub const FILE_BYTES: usize = 1_048_576;
    /// The bytes of a record.
    pub const RECORD_BYTES: usize = 16;
    /// A record that those before it do not allow.
    pub const RECORD_NOT_ALLOWED: u64 = 40;

    /// Why there is no answer: a number of the refusal table, and a place.
    #[derive(Clone, Copy, Debug, PartialEq, Eq)]
    pub struct Refusal {
        pub number: u64,
        pub place: u64,
    }

    #[link(name = "abi", kind = "static")]
    extern "C" {
        fn lutemarble_write(
            model: u32,
            records: *const u8,
            records_bytes: usize,
            file: *mut u8,
            file_bytes: usize,
            out: *mut u64,
            places: usize,
        ) -> u64;
        fn lutemarble_read(
            file: *const u8,
            file_bytes: usize,
            records: *mut u8,
            records_bytes: usize,
            out: *mut u64,
            places: usize,
        ) -> u64;
    }

    /// The first bytes of a buffer, as many as an answer says.
    fn answered([number, place, bytes]: [u64; 3], mut all: Vec<u8>) -> Result<Vec<u8>, Refusal> {
        if number != 0 {
            return Err(Refusal { number, place });
        }
        all.truncate(bytes as usize);
        Ok(all)
    }

    /// The file of a model/level and records.
    pub fn write(model: u32, records: &[u8]) -> Result<Vec<u8>, Refusal> {
        // A longer file is refused by 1.
        let mut file = vec![0; FILE_BYTES];
        let mut out = [0; 3];
        // SAFETY: the pointers and lengths are those of slices that live until the
        // call returns, and nothing else has those that are written.
        unsafe {
            lutemarble_write(
                model,
                records.as_ptr(),
                records.len(),
                file.as_mut_ptr(),
                file.len(),
                out.as_mut_ptr(),
                out.len(),
            )
        };
        answered(out, file)
    }

    /// The records of a file.
    pub fn read(file: &[u8]) -> Result<Vec<u8>, Refusal> {
        // Each record stands for a byte of the file or more.
        let mut records = vec![0; RECORD_BYTES * file.len()];
        let mut out = [0; 3];
        // SAFETY: as in `write`.
        unsafe {
            lutemarble_read(
                file.as_ptr(),
                file.len(),
                records.as_mut_ptr(),
                records.len(),
                out.as_mut_ptr(),
                out.len(),
            )
        };
        answered(out, records)
    }
}

use lutemarble::{Refusal, RECORD_BYTES, RECORD_NOT_ALLOWED};

/// A field of a record: its first byte, and how many it has.
#[derive(Clone, Copy, PartialEq, Eq)]
struct Field {
    at: usize,
    bytes: usize,
}

const TYPE: Field = Field { at: 1, bytes: 1 };
const AMOUNT: Field = Field { at: 2, bytes: 1 };
const NUMBER: Field = Field { at: 3, bytes: 1 };
const ID: Field = Field { at: 4, bytes: 4 };
const VALUE: Field = Field { at: 8, bytes: 8 };

/// How a number is listed.
#[derive(Clone, Copy)]
enum Shown {
    Decimal,
    /// With so many digits or more.
    Hexadecimal(usize),
}

/// A kind of record as a line: a word, and fields, most of them with a name before
/// the number.
struct Form {
    word: &'static str,
    kind: u8,
    /// The type of an expression.
    expression: u8,
    fields: &'static [(&'static str, Field, Shown)],
}

const fn form(
    word: &'static str,
    kind: u8,
    expression: u8,
    fields: &'static [(&'static str, Field, Shown)],
) -> Form {
    Form {
        word,
        kind,
        expression,
        fields,
    }
}

use Shown::{Decimal, Hexadecimal};

// Kinds of records.

const REGISTER: u8 = 1;
const INSTANCE: u8 = 2;
const NODE: u8 = 3;
const NODE_INSTANCE: u8 = 4;
const CAPTURE: u8 = 5;
const RULE: u8 = 6;
const EXPRESSION: u8 = 7;
const CHILD: u8 = 8;
const ROOT: u8 = 9;

const FORMS: [Form; 15] = [
    form(
        "register",
        REGISTER,
        0,
        &[
            ("id", ID, Decimal),
            ("type", TYPE, Decimal),
            ("flags", AMOUNT, Hexadecimal(2)),
        ],
    ),
    form(
        "instance",
        INSTANCE,
        0,
        &[
            ("number", NUMBER, Decimal),
            ("address", VALUE, Hexadecimal(1)),
        ],
    ),
    form(
        "node",
        NODE,
        0,
        &[("id", ID, Decimal), ("type", TYPE, Decimal)],
    ),
    form(
        "node-instance",
        NODE_INSTANCE,
        0,
        &[("number", NUMBER, Decimal)],
    ),
    form(
        "capture",
        CAPTURE,
        0,
        &[("id", ID, Decimal), ("number", NUMBER, Decimal)],
    ),
    form("rule", RULE, 0, &[("attention", TYPE, Decimal)]),
    form(
        "reading",
        EXPRESSION,
        0x01,
        &[("id", ID, Decimal), ("number", NUMBER, Decimal)],
    ),
    form("constant", EXPRESSION, 0x02, &[("", VALUE, Hexadecimal(1))]),
    form("and", EXPRESSION, 0x10, &[("", AMOUNT, Decimal)]),
    form("or", EXPRESSION, 0x11, &[("", AMOUNT, Decimal)]),
    form("not", EXPRESSION, 0x12, &[]),
    form("left", EXPRESSION, 0x13, &[("", AMOUNT, Decimal)]),
    form("right", EXPRESSION, 0x14, &[("", AMOUNT, Decimal)]),
    form(
        "child",
        CHILD,
        0,
        &[
            ("bit", AMOUNT, Decimal),
            ("id", ID, Decimal),
            ("number", NUMBER, Decimal),
        ],
    ),
    form(
        "root",
        ROOT,
        0,
        &[
            ("attention", TYPE, Decimal),
            ("id", ID, Decimal),
            ("number", NUMBER, Decimal),
        ],
    ),
];

impl Form {
    fn of_record(record: &[u8]) -> Option<&'static Form> {
        FORMS.iter().find(|form| {
            form.kind == record[0] && (form.kind != EXPRESSION || form.expression == record[1])
        })
    }

    /// How many operands follow an expression.
    fn operands(&self, record: &[u8]) -> usize {
        match self.expression {
            0x10 | 0x11 => record[AMOUNT.at].into(),
            0x12..=0x14 => 1,
            _ => 0,
        }
    }
}

// From a file to a text.

/// The lines of the records of an accepted file, indented by level.
fn listed(model: u32, records: &[u8]) -> String {
    let mut text = format!("model 0x{model:08X}\n");
    // How many operands the expressions around the next one still owe.
    let mut owed: Vec<usize> = Vec::new();
    for record in records.chunks(RECORD_BYTES) {
        let form = Form::of_record(record).expect("the library gives no other records");
        let level = match form.kind {
            REGISTER | NODE | ROOT => 0,
            INSTANCE | NODE_INSTANCE => 1,
            EXPRESSION => 3 + owed.len(),
            _ => 2,
        };
        text += &"  ".repeat(level);
        text += form.word;
        for &(name, field, shown) in form.fields {
            put_field(&mut text, name, number_of(record, field), shown);
        }
        text += "\n";
        if form.kind == EXPRESSION {
            pay(&mut owed, form.operands(record));
        }
    }
    text
}

fn put_field(text: &mut String, name: &str, number: u64, shown: Shown) {
    if !name.is_empty() {
        *text += " ";
        *text += name;
    }
    let done = match shown {
        Decimal => write!(text, " {number}"),
        Hexadecimal(digits) => write!(text, " 0x{number:0digits$X}"),
    };
    done.expect("a String takes all text");
}

/// An expression with so many operands is there: the innermost one around it owes
/// one less, and is done where it owes none.
fn pay(owed: &mut Vec<usize>, operands: usize) {
    if let Some(left) = owed.last_mut() {
        *left -= 1;
    }
    if operands > 0 {
        owed.push(operands);
    } else {
        while owed.last() == Some(&0) {
            owed.pop();
        }
    }
}

fn number_of(record: &[u8], field: Field) -> u64 {
    let bytes = &record[field.at..field.at + field.bytes];
    bytes.iter().fold(0, |n, &byte| n << 8 | u64::from(byte))
}

/// A chip data file as text.
fn list(file: &[u8]) -> Result<String, Refusal> {
    let records = lutemarble::read(file)?;
    // An accepted file has its model/level at byte 8.
    let model = u32::from_be_bytes([file[8], file[9], file[10], file[11]]);
    Ok(listed(model, &records))
}

// From a text to a file.

/// A line that is none, and why.
#[derive(Debug, PartialEq, Eq)]
struct BadLine {
    line: usize,
    why: String,
}

impl Display for BadLine {
    fn fmt(&self, f: &mut fmt::Formatter<'_>) -> fmt::Result {
        write!(f, "line {}: {}", self.line, self.why)
    }
}

/// What a text says.
#[derive(Debug, PartialEq, Eq)]
struct Parsed {
    model: u32,
    records: Vec<u8>,
    /// The line of each record.
    lines: Vec<usize>,
}

/// A decimal number, or a hexadecimal one with 0x before it.
fn parsed_number(word: &str) -> Option<u64> {
    let (digits, radix) = match word.strip_prefix("0x") {
        Some(digits) => (digits, 16),
        None => (word, 10),
    };
    // A sign is no digit.
    let is_number = !digits.is_empty() && digits.chars().all(|digit| digit.is_digit(radix));
    is_number
        .then(|| u64::from_str_radix(digits, radix).ok())
        .flatten()
}

/// The next word, which is a number of at most so many bytes.
fn next_number<'a>(words: &mut impl Iterator<Item = &'a str>, bytes: usize) -> Result<u64, String> {
    let most = u64::MAX >> (64 - 8 * bytes);
    match words.next() {
        None => Err("a number is missing".to_string()),
        Some(word) => match parsed_number(word) {
            Some(number) if number <= most => Ok(number),
            _ => Err(format!("'{word}' is no number from 0 to {most}")),
        },
    }
}

fn parsed_model(line: &str) -> Result<u32, String> {
    let mut words = line.split_whitespace();
    if words.next() != Some("model") {
        return Err("the first line has to be 'model' and a number".to_string());
    }
    let model = next_number(&mut words, 4)?;
    no_more(words)?;
    Ok(model as u32)
}

fn parsed_record(line: &str) -> Result<[u8; RECORD_BYTES], String> {
    let mut words = line.split_whitespace();
    let word = words.next().unwrap_or_default();
    let form = FORMS.iter().find(|form| form.word == word);
    let form = form.ok_or_else(|| format!("'{word}' is no record"))?;
    let mut record = [0; RECORD_BYTES];
    record[0] = form.kind;
    record[1] = form.expression;
    for &(name, field, _) in form.fields {
        if !name.is_empty() && words.next() != Some(name) {
            return Err(format!("'{name}' is missing"));
        }
        let number = next_number(&mut words, field.bytes)?.to_be_bytes();
        let place = &mut record[field.at..field.at + field.bytes];
        place.copy_from_slice(&number[number.len() - field.bytes..]);
    }
    no_more(words)?;
    Ok(record)
}

fn no_more<'a>(mut words: impl Iterator<Item = &'a str>) -> Result<(), String> {
    match words.next() {
        Some(word) => Err(format!("'{word}' is too much")),
        None => Ok(()),
    }
}

fn parse(text: &str) -> Result<Parsed, BadLine> {
    let mut model = None;
    let mut records = Vec::new();
    let mut lines = Vec::new();
    for (line, content) in (1..).zip(text.lines()) {
        let content = content.split('#').next().unwrap_or_default().trim();
        if content.is_empty() {
            continue;
        }
        let bad = |why| BadLine { line, why };
        match model {
            None => model = Some(parsed_model(content).map_err(bad)?),
            Some(_) => {
                records.extend(parsed_record(content).map_err(bad)?);
                lines.push(line);
            }
        }
    }
    let model = model.ok_or(BadLine {
        line: 1,
        why: "there is no line with a model".to_string(),
    })?;
    Ok(Parsed {
        model,
        records,
        lines,
    })
}

/// The file of a text, or the refusal as it is printed.
fn make(parsed: &Parsed) -> Result<Vec<u8>, String> {
    lutemarble::write(parsed.model, &parsed.records).map_err(|refusal| {
        let mut text = refused(refusal);
        if refusal.number == RECORD_NOT_ALLOWED {
            // The record's line; that of the last record where one more is owed.
            let record = refusal.place as usize / RECORD_BYTES;
            let lines = &parsed.lines;
            let line = lines.get(record).or(lines.last()).unwrap_or(&1);
            text += &format!(" line {line}");
        }
        text
    })
}

fn refused(refusal: Refusal) -> String {
    format!("refused {} place {}", refusal.number, refusal.place)
}

// The program.

/// What ends it before it is done: a refusal, or a fault that is not one.
enum Stop {
    Refused(String),
    Fault(String),
}

/// The first bytes of a file, one more than it may have, so that a longer file is
/// seen to be longer.
fn load(path: &str) -> Result<Vec<u8>, Stop> {
    let mut bytes = Vec::new();
    let most = lutemarble::FILE_BYTES as u64 + 1;
    File::open(path)
        .and_then(|file| file.take(most).read_to_end(&mut bytes))
        .map_err(|error| Stop::Fault(format!("{path}: {error}")))?;
    Ok(bytes)
}

fn run(arguments: &[&str]) -> Result<(), Stop> {
    let fault = |path: &str, error: &dyn Display| Stop::Fault(format!("{path}: {error}"));
    match arguments {
        ["list", file] => {
            let text = list(&load(file)?).map_err(|refusal| Stop::Refused(refused(refusal)))?;
            let mut out = std::io::stdout();
            out.write_all(text.as_bytes())
                .map_err(|error| fault("standard output", &error))
        }
        ["make", text, file] => {
            let content = fs::read_to_string(text).map_err(|error| fault(text, &error))?;
            let parsed = parse(&content).map_err(|error| fault(text, &error))?;
            let bytes = make(&parsed).map_err(Stop::Refused)?;
            fs::write(file, bytes).map_err(|error| fault(file, &error))
        }
        _ => Err(Stop::Fault(
            "usage: chipdata list FILE, or chipdata make TEXT FILE".to_string(),
        )),
    }
}

fn main() -> ExitCode {
    let arguments: Vec<String> = std::env::args().skip(1).collect();
    let arguments: Vec<&str> = arguments.iter().map(String::as_str).collect();
    match run(&arguments) {
        Ok(()) => ExitCode::SUCCESS,
        Err(Stop::Refused(text)) => match writeln!(std::io::stdout(), "{text}") {
            Ok(()) => ExitCode::from(1),
            Err(_) => ExitCode::from(2),
        },
        Err(Stop::Fault(text)) => {
            eprintln!("chipdata: {text}");
            ExitCode::from(2)
        }
    }
}

#[cfg(test)]
mod tests {
    use super::*;

    const B1: &[u8] = b"CHIPDATA\x00\x00\x00\x01\x01\
        REGS\x00\x00\x01\x00\x00\x01\x01\x80\x01\x00\x00\x00\x10\x00\
        NODE\x00\x01\x00\x01\x01\x01\x00\x00\x01\x00\x03\x01\x00\x00\x01\x00\
        ROOT\x01\x03\x00\x01\x00";

    const B1_TEXT: &str = "model 0x00000001
register id 1 type 1 flags 0x80
  instance number 0 address 0x1000
node id 1 type 1
  node-instance number 0
    rule attention 3
      reading id 1 number 0
root attention 3 id 1 number 0
";

    /// Every kind of record, numbers of both kinds, comments and blanks.
    const FULL: &str = "  # A comment.
model 0xA1B2C3D4 # another

register id 1193046 type 2 flags 0xC0
  instance number 9 address 0x123456789ABCDEF
node id 0x102 type 2
node-instance number 4
capture id 0x123456 number 9
\trule attention 5
or 2
    and 2
        reading   id 1193046 number 9
        constant 0xff
    not
        left 8
            right 0x8
                constant 1
    child bit 63 id 258 number 0x5
  node-instance number 5
  rule attention 1
    constant 0
root attention 5 id 258 number 4
root attention 1 id 258 number 5 # the last line
";

    /// The same as it is listed.
    const FULL_LISTED: &str = "model 0xA1B2C3D4
register id 1193046 type 2 flags 0xC0
  instance number 9 address 0x123456789ABCDEF
node id 258 type 2
  node-instance number 4
    capture id 1193046 number 9
    rule attention 5
      or 2
        and 2
          reading id 1193046 number 9
          constant 0xFF
        not
          left 8
            right 8
              constant 0x1
    child bit 63 id 258 number 5
  node-instance number 5
    rule attention 1
      constant 0x0
root attention 5 id 258 number 4
root attention 1 id 258 number 5
";

    fn made(text: &str) -> Result<Vec<u8>, String> {
        make(&parse(text).unwrap())
    }

    #[test]
    fn there_and_back() {
        assert_eq!(list(B1), Ok(B1_TEXT.to_string()));
        assert_eq!(made(B1_TEXT), Ok(B1.to_vec()));
        let file = made(FULL).unwrap();
        assert_eq!(list(&file), Ok(FULL_LISTED.to_string()));
        assert_eq!(made(FULL_LISTED), Ok(file));
    }

    #[test]
    fn refusals() {
        let refused = |text: &str| made(text).unwrap_err();
        assert_eq!(refused("model 1"), "refused 5 place 17");
        let unknown = B1_TEXT.replace("flags 0x80", "flags 0x81");
        assert_eq!(refused(&unknown), "refused 6 place 24");
        // The root is the eighth line, and the seventh record.
        let owed = B1_TEXT.replace("reading id 1 number 0", "not");
        assert_eq!(refused(&owed), "refused 40 place 96 line 8");
        // Only the rule is there; and a comment before it.
        let cut = format!(
            "# a comment\n{}",
            &B1_TEXT[..B1_TEXT.find("  reading").unwrap()]
        );
        assert_eq!(refused(&cut), "refused 40 place 80 line 7");
        let wide = B1_TEXT.replace("register id 1", "register id 0x1000000");
        assert_eq!(refused(&wide), "refused 40 place 0 line 2");
        let long = B1_TEXT.replace("0x1000", "0x100001000");
        assert_eq!(refused(&long), "refused 40 place 16 line 3");
        let refusal = |number, place| Err(Refusal { number, place });
        assert_eq!(list(&B1[..59]), refusal(2, 59));
        assert_eq!(list(&[]), refusal(2, 0));
    }

    #[test]
    fn texts_that_are_none() {
        for (text, line) in [
            ("", 1),
            ("# nothing", 1),
            ("register id 1 type 1 flags 0x80", 1),
            ("model", 1),
            ("\nmodel 0x100000000", 2),
            ("model 1 2", 1),
            ("model 1\nmodel 1", 2),
            ("model 1\nRegister id 1 type 1 flags 0x80", 2),
            ("model 1\nregister 1 type 1 flags 0x80", 2),
            ("model 1\nregister id 1 flags 0x80 type 1", 2),
            ("model 1\nregister id 1 type 256 flags 0x80", 2),
            ("model 1\nregister id -1 type 1 flags 0x80", 2),
            ("model 1\nregister id +1 type 1 flags 0x80", 2),
            ("model 1\nregister id 0x type 1 flags 0x80", 2),
            ("model 1\nregister id 1 type 1 flags", 2),
            ("model 1\n\n  not 1", 3),
            ("model 1\nconstant 0x10000000000000000", 2),
            ("model 1\nand", 2),
        ] {
            assert_eq!(parse(text).unwrap_err().line, line, "{text}");
        }
        assert!(parse("model 1").is_ok());
    }
}
