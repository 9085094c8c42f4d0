//! What the station prints for a chip data file, an attention type and a
//! readings file. The station has limits of its own, lower than the library's.

use crate::isolation::{isolate_with_readings_file, listed_bit, Found, Record, RECORD_BYTES};
use crate::layout::Limits;
use crate::refusal::Refusal;

/// The records that the station's list holds.
pub const LIST_RECORDS: usize = 4_096;

/// The whole text: a line for each record and one for the steps, or one line
/// for the refusal. All numbers are decimal, and each line has its end.
pub fn report(file: &[u8], attention_type: u8, readings_file: &[u8]) -> String {
    text(&find(file, attention_type, readings_file))
}

/// The answer that the text is of.
pub fn find(file: &[u8], attention_type: u8, readings_file: &[u8]) -> Result<Found, Refusal> {
    let mut list = vec![[0; RECORD_BYTES]; LIST_RECORDS];
    let (records, steps) = isolate_with_readings_file(
        file,
        Limits::PROGRAM,
        attention_type,
        readings_file,
        list.as_flattened_mut(),
    )?;
    list.truncate(records);
    Ok(Found {
        records: list,
        steps,
    })
}

pub fn text(answer: &Result<Found, Refusal>) -> String {
    match answer {
        Ok(found) => {
            let lines: String = found.records.iter().map(line).collect();
            format!("{lines}steps {}\n", found.steps)
        }
        Err(refusal) => format!("refused {} place {}\n", refusal.number, refusal.place),
    }
}

fn line(record: &Record) -> String {
    let (node, bit) = listed_bit(record);
    let attention_type = record[4];
    format!(
        "type {attention_type} node {} inst {} bit {bit}\n",
        node.id, node.instance
    )
}
