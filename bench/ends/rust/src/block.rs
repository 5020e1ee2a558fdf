//! Block options in plain Rust (RFC 7959, section 2.2).

/// Which block of a body: its number, whether more follow, and the size exponent.
#[derive(Clone, Copy, Debug, PartialEq, Eq)]
pub struct Block {
    pub num: u32,
    pub more: bool,
    pub szx: u8,
}

/// A number in the fewest bytes, most significant first.
pub fn uint_bytes(number: u32, out: &mut [u8; 4]) -> &[u8] {
    *out = number.to_be_bytes();
    let zeros = out.iter().take_while(|byte| **byte == 0).count();
    &out[zeros..]
}

/// The number of at most 4 bytes.
pub fn uint_of(bytes: &[u8]) -> u32 {
    bytes
        .iter()
        .fold(0, |number, byte| number << 8 | u32::from(*byte))
}

impl Block {
    /// The block that an option's value of at most 3 bytes says; None at size exponent 7.
    pub fn read(value: &[u8]) -> Option<Block> {
        let number = uint_of(value);
        let szx = (number & 7) as u8;
        (szx < 7).then_some(Block {
            num: number >> 4,
            more: number & 8 != 0,
            szx,
        })
    }

    pub fn write(self, out: &mut [u8; 4]) -> &[u8] {
        let number = self.num << 4 | u32::from(self.more) << 3 | u32::from(self.szx);
        uint_bytes(number, out)
    }

    pub fn size(self) -> usize {
        16 << self.szx
    }

    /// Where it begins in its body.
    pub fn offset(self) -> usize {
        self.num as usize * self.size()
    }

    /// The block of this size that begins there, and what of the body it carries.
    pub fn of(body: &[u8], offset: usize, szx: u8) -> (Block, &[u8]) {
        let size = 16 << szx;
        let end = body.len().min(offset + size);
        let block = Block {
            num: (offset / size) as u32,
            more: end < body.len(),
            szx,
        };
        (block, &body[offset..end])
    }
}
