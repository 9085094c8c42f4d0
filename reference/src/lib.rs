//! A plain reference for chip data files: the checker, the address query,
//! readings, error isolation of a chip and of a board, files as records, and the
//! station's text.

pub mod board;
pub mod cases;
pub mod checker;
pub mod cycles;
pub mod expression;
pub mod fast;
pub mod generate;
pub mod hex;
pub mod index;
pub mod isolation;
pub mod large;
pub mod layout;
pub mod readings;
pub mod records;
pub mod references;
pub mod refusal;
pub mod report;
pub mod tree;
pub mod vectors;

pub use board::{isolate_board, BoardRefusal};
pub use checker::{address, check, Accepted, Summary};
pub use isolation::{bits_above_silent, isolate, isolate_with_readings_file, reached_words};
pub use layout::Limits;
pub use records::{read_records, write_records};
pub use refusal::Refusal;
pub use report::report;
