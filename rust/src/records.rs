//! The record program.

use crate::constants::MAX_OUTPUT;
use crate::proved::ratmanoep_answer_records;

/// The lines that the gateway's record program writes for these records.
///
/// Any bytes may be handed in: more than 16,384 are answered by `too long`, a wrong record by `bad record` and its offset, a refusal by
/// `refused` and its number.
///
/// ```
/// assert_eq!(ratmanoep::answer_records(b"no record"), b"bad record 0\n");
/// ```
pub fn answer_records(input: &[u8]) -> Vec<u8> {
    let mut out = vec![0; MAX_OUTPUT];
    let length = ratmanoep_answer_records(input, &mut out);
    out.truncate(length);
    out
}
