//! Reading one record.

use crate::format::decode_record;
use crate::refusal::{Refusal, Refused};
use crate::shape::{Basis, Record};

/// The record and the bytes past it; with a refusal all that was lent.
/// Tried 2, 3, 5 for no byte, 4, 5, then 7, 8, 9, 10, 33, 11, 31, 34 and 35 as the kind has them.
pub fn read_record(bytes: &[u8], basis: Basis) -> (Result<Record, Refused>, &[u8]) {
    match try_record(bytes, basis) {
        Ok((record, length)) => (Ok(record), &bytes[length..]),
        Err(refusal) => (Err(refusal.at(0)), bytes),
    }
}

fn try_record(bytes: &[u8], basis: Basis) -> Result<(Record, usize), Refusal> {
    match basis.first_refusal() {
        Some(refusal) => Err(refusal),
        None => lawful_record(bytes, basis),
    }
}

/// The record at the front of the bytes and its length, if it is whole and not refused.
pub fn lawful_record(bytes: &[u8], basis: Basis) -> Result<(Record, usize), Refusal> {
    let (record, length) = decode_record(bytes, basis.version)?;
    match record.first_refusal(basis.width, basis.height) {
        Some(refusal) => Err(refusal),
        None => Ok((record, length)),
    }
}
