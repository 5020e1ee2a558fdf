//! What the benches share: rows of tables, memory, and requests that each forget one. Nothing of it is timed.

pub mod forgetting;
pub mod memory;
pub mod table;

/// A body of so many bytes.
pub fn body(len: usize) -> Vec<u8> {
    (0..len).map(|i| (i * 7) as u8).collect()
}
