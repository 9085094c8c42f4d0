//! Compares the proved library with the reference: answers by `fuzz`, times by
//! `bench`.

pub mod case;
pub mod difference;
pub mod proved;
