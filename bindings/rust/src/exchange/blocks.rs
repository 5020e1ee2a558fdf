//! Bodies in blocks (RFC 7959), over messages that the program sends and takes: [`Fetch`] and [`Upload`] of a client,
//! [`Assembly`] and [`slice()`] of a server.

mod assembly;
mod fetch;
mod upload;

pub use assembly::{Assembled, Assembly, AssemblyError};
pub use fetch::{Fetch, FetchError, Fetched};
pub use upload::Upload;

use super::{Message, OptionNumber};
use crate::{raw, raw_exchange};

/// The size of a block is 2 to the power of 4 and a number from 0 to 6 (RFC 7959, section 2.2).
const LEAST_EXPONENT: u32 = 4;
const MOST_SZX: u8 = 6;
const LARGEST_BLOCK: usize = 1_024;
/// Numbers of blocks have 20 bits.
const MOST_NUMBER: u32 = 0xf_ffff;
const NUMBER_SHIFT: u32 = 4;
const MORE_BIT: u32 = 8;
const SZX_BITS: u32 = 7;
/// The bytes of a header, a token and a payload marker; and those of an option before its value (RFC 7252, section 3).
const MOST_HEAD: usize = 13;
const MOST_OPTION_HEAD: usize = 5;

/// What a Block1 or a Block2 says: a part of a body (RFC 7959, section 2.2).
///
/// ```
/// # use knifesilver::exchange::blocks::Block;
/// let block = Block::new(2, true, 64).expect("a block");
/// assert_eq!((block.number(), block.more(), block.size(), block.value()), (2, true, 64, 0x2a));
/// assert_eq!((Block::of(0x2a), Block::of(0x2f), Block::new(0, false, 100)), (Some(block), None, None));
/// ```
#[derive(Clone, Copy, Debug, PartialEq, Eq, Hash)]
pub struct Block {
    number: u32,
    more: bool,
    szx: u8,
}

impl Block {
    /// The block of that number, counted from 0, whether others follow, and its size: 16, 32, .. 1,024 bytes. None
    /// where there is no such block.
    pub fn new(number: u32, more: bool, size: usize) -> Option<Block> {
        let szx = (0..=MOST_SZX).find(|szx| size == 1 << (u32::from(*szx) + LEAST_EXPONENT))?;
        (number <= MOST_NUMBER).then_some(Block { number, more, szx })
    }

    /// What the value of a Block1 or a Block2 says. None where it is none.
    pub fn of(value: u32) -> Option<Block> {
        let (number, szx) = (value >> NUMBER_SHIFT, (value & SZX_BITS) as u8);
        let is_one = number <= MOST_NUMBER && szx <= MOST_SZX;
        is_one.then_some(Block { number, more: value & MORE_BIT != 0, szx })
    }

    /// The value of a Block1 or a Block2 that says so.
    pub fn value(self) -> u32 {
        (self.number << NUMBER_SHIFT) | (u32::from(self.more) * MORE_BIT) | u32::from(self.szx)
    }

    /// Which one it is.
    pub fn number(self) -> u32 {
        self.number
    }

    /// Whether others follow.
    pub fn more(self) -> bool {
        self.more
    }

    /// How many bytes it has; the last one may have fewer.
    pub fn size(self) -> usize {
        1 << (u32::from(self.szx) + LEAST_EXPONENT)
    }

    fn raw(self) -> raw_exchange::ks_block {
        raw_exchange::ks_block { num: self.number, more: self.more, szx: self.szx }
    }

    fn told(block: raw_exchange::ks_block) -> Block {
        Block { number: block.num, more: block.more, szx: block.szx }
    }
}

impl Message {
    /// The same with a Block1: of a request's body (RFC 7959, section 2.1).
    #[must_use]
    pub fn with_block1(self, block: Block) -> Message {
        self.with_number(OptionNumber::BLOCK1, block.value())
    }

    /// The same with a Block2: of a response's body (RFC 7959, section 2.1).
    #[must_use]
    pub fn with_block2(self, block: Block) -> Message {
        self.with_number(OptionNumber::BLOCK2, block.value())
    }

    /// What its Block1 says. None where it has none, or one that says no block.
    pub fn block1(&self) -> Option<Block> {
        self.options().number(OptionNumber::BLOCK1).and_then(Block::of)
    }

    /// What its Block2 says. None where it has none, or one that says no block.
    pub fn block2(&self) -> Option<Block> {
        self.options().number(OptionNumber::BLOCK2).and_then(Block::of)
    }
}

/// The bytes of a body that a block asks for, and the Block2 of the response that has them. None where the block
/// begins at or past the end of the body: to that 4.00 is answered, where it is not the first.
///
/// ```
/// # use knifesilver::exchange::blocks::{slice, Block};
/// let body = [7; 40];
/// let (first, second) = (Block::new(0, true, 32), Block::new(1, false, 32));
/// assert_eq!(slice(&body, Block::new(0, false, 32).expect("a block")), first.map(|block| (block, vec![7; 32])));
/// assert_eq!(slice(&body, Block::new(1, false, 32).expect("a block")), second.map(|block| (block, vec![7; 8])));
/// assert_eq!(slice(&body, Block::new(2, false, 32).expect("a block")), None);
/// ```
pub fn slice(body: &[u8], asked: Block) -> Option<(Block, Vec<u8>)> {
    let (mut given, mut room, mut len) = (raw_exchange::ks_block::default(), [0; LARGEST_BLOCK], 0);
    let answer = raw_exchange::slice(body, &asked.raw(), &mut given, &mut room, &mut len);
    (answer == raw::KS_DONE).then(|| (Block::told(given), room[..len].to_vec()))
}

/// The message as the library is handed it.
fn spelled(message: &Message) -> Option<Vec<u8>> {
    let options: usize = message.options().iter().map(|(_, value)| MOST_OPTION_HEAD + value.len()).sum();
    let mut room = vec![0; MOST_HEAD + options + message.payload().len()];
    let len = message.spell(&super::Token::default(), &mut room).ok()?;
    room.truncate(len);
    Some(room)
}

#[cfg(test)]
mod tests {
    use super::*;
    use crate::Code;

    /// Of each value up to 3 bytes, and some above, the library says the same.
    #[test]
    fn blocks_are_read_as_the_library_reads_them() {
        for value in (0..0x2_0000).chain(0xff_0000..=0x100_0010) {
            let message = Message::new(Code::CONTENT).with_number(OptionNumber::BLOCK2, value);
            let mut told = raw_exchange::ks_block::default();
            let answer = raw_exchange::block_in(&spelled(&message).unwrap(), OptionNumber::BLOCK2.0, &mut told);
            let library = (answer == raw::KS_DONE).then(|| Block::told(told));
            assert_eq!(message.block2(), library, "{value:#x}");
            assert_eq!(library.map_or(value, Block::value), value);
        }
    }
}
