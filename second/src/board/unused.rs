//! Request 3: the unused amount, kept in the settings record. "It always equals
//! the memory length less, for each file, its record and its counted size."

use super::record::Record;

/// The bytes of memory that files of these records leave; none where the files
/// take more than there are.
pub fn unused(memory_length: usize, records: &[Record]) -> Option<u16> {
    let taken: usize = records.iter().map(|record| record.whole_length()).sum();
    let left = memory_length.checked_sub(taken)?;
    u16::try_from(left).ok()
}
