//! What both ends are asked for, and what it took.

/// What a work gave, to compare it, and how long it took.
#[derive(Clone, Copy, Debug)]
pub struct Timed {
    pub sum: u64,
    pub nanoseconds: u64,
}

/// Where a proved server holds what it has.
#[derive(Clone, Copy)]
pub enum Store {
    List,
    Map,
}

/// A GET of `temperature`.
pub const GET_ONE: [u8; 16] = *b"\x40\x01\0\0\xbbtemperature";

/// A GET of the last of many paths: `temperature`, and a byte.
pub const GET_LAST: [u8; 18] = *b"\x40\x01\0\0\xbbtemperature\x01\xff";

/// The datagram with a Message ID of its own.
pub fn numbered<const N: usize>(mut datagram: [u8; N], number: u32) -> [u8; N] {
    let [_, _, high, low] = number.to_be_bytes();
    datagram[2] = high;
    datagram[3] = low;
    datagram
}
