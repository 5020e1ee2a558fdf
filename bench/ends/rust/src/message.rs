//! Requests and responses in plain Rust: what their options say, and how they are spelled.

use crate::block::{Block, uint_bytes, uint_of};
use crate::codec::{Head, Opt, View, encode};

/// An address and a port.
pub type Endpoint = ([u8; 4], u16);

/// The longest message that an end sends.
const MAX_LEN: usize = 1_152;

pub const GET: u8 = 1;
pub const POST: u8 = 2;
pub const PUT: u8 = 3;
pub const DELETE: u8 = 4;
pub const CREATED: u8 = 65;
pub const DELETED: u8 = 66;
pub const VALID: u8 = 67;
pub const CHANGED: u8 = 68;
pub const CONTENT: u8 = 69;
pub const CONTINUE: u8 = 95;
pub const BAD_REQUEST: u8 = 128;
pub const BAD_OPTION: u8 = 130;
pub const NOT_FOUND: u8 = 132;
pub const METHOD_NOT_ALLOWED: u8 = 133;
pub const NOT_ACCEPTABLE: u8 = 134;
pub const INCOMPLETE: u8 = 136;
pub const PRECONDITION_FAILED: u8 = 140;
pub const TOO_LARGE: u8 = 141;
pub const PROXYING_NOT_SUPPORTED: u8 = 165;

const IF_MATCH: u16 = 1;
const URI_HOST: u16 = 3;
const ETAG: u16 = 4;
const IF_NONE_MATCH: u16 = 5;
const OBSERVE: u16 = 6;
const URI_PORT: u16 = 7;
const URI_PATH: u16 = 11;
const CONTENT_FORMAT: u16 = 12;
const ACCEPT: u16 = 17;
const BLOCK2: u16 = 23;
const BLOCK1: u16 = 27;
const SIZE2: u16 = 28;
const PROXY_URI: u16 = 35;
const PROXY_SCHEME: u16 = 39;
const SIZE1: u16 = 60;

/// A Block option: what it says, or that it says no block.
pub type BlockValue = Result<Block, ()>;

/// What the options of a message say.
#[derive(Default)]
pub struct Options<'a> {
    pub path: Vec<&'a [u8]>,
    pub tags: Vec<&'a [u8]>,
    pub if_match: Vec<&'a [u8]>,
    pub if_none_match: bool,
    pub format: Option<u16>,
    pub accept: Option<u16>,
    pub block1: Option<BlockValue>,
    pub block2: Option<BlockValue>,
    pub is_proxied: bool,
    /// Whether a critical option is not recognised.
    pub is_bad: bool,
}

/// The greatest length of an option's value, where its number is known.
fn lengths(number: u16) -> Option<(usize, usize)> {
    match number {
        IF_MATCH => Some((0, 8)),
        URI_HOST | PROXY_SCHEME => Some((1, 255)),
        ETAG => Some((1, 8)),
        IF_NONE_MATCH => Some((0, 0)),
        OBSERVE | BLOCK1 | BLOCK2 => Some((0, 3)),
        URI_PORT | CONTENT_FORMAT | ACCEPT => Some((0, 2)),
        URI_PATH => Some((0, 255)),
        SIZE1 | SIZE2 => Some((0, 4)),
        PROXY_URI => Some((1, 1_034)),
        _ => None,
    }
}

fn block_of(value: &[u8]) -> BlockValue {
    Block::read(value).ok_or(())
}

impl<'a> Options<'a> {
    pub fn of(message: &View<'a>) -> Options<'a> {
        let mut options = Options::default();
        let mut last = 0;
        for Opt { number, value } in message.options() {
            let is_repeatable = matches!(number, IF_MATCH | ETAG | URI_PATH);
            let is_known =
                lengths(number).is_some_and(|(least, most)| (least..=most).contains(&value.len()));
            if is_known && (number != last || is_repeatable) {
                options.take(number, value);
            } else if number % 2 == 1 {
                options.is_bad = true;
            }
            last = number;
        }
        options
    }

    fn take(&mut self, number: u16, value: &'a [u8]) {
        match number {
            IF_MATCH => self.if_match.push(value),
            ETAG => self.tags.push(value),
            IF_NONE_MATCH => self.if_none_match = true,
            URI_PATH => self.path.push(value),
            CONTENT_FORMAT => self.format = Some(uint_of(value) as u16),
            ACCEPT => self.accept = Some(uint_of(value) as u16),
            BLOCK2 => self.block2 = Some(block_of(value)),
            BLOCK1 => self.block1 = Some(block_of(value)),
            PROXY_URI | PROXY_SCHEME => self.is_proxied = true,
            _ => {}
        }
    }
}

/// What a message that an end sends says.
#[derive(Default)]
pub struct Content<'a> {
    pub tag: Option<[u8; 8]>,
    pub path: &'a [Vec<u8>],
    pub format: Option<u16>,
    pub block2: Option<Block>,
    pub block1: Option<Block>,
    pub payload: &'a [u8],
}

/// The datagram that spells a message.
pub fn spell(head: &Head, content: &Content<'_>) -> Vec<u8> {
    let [mut format, mut block2, mut block1] = [[0; 4]; 3];
    let mut options = Vec::with_capacity(content.path.len() + 4);
    if let Some(tag) = &content.tag {
        options.push(Opt {
            number: ETAG,
            value: tag,
        });
    }
    for segment in content.path {
        options.push(Opt {
            number: URI_PATH,
            value: segment,
        });
    }
    if let Some(number) = content.format {
        let value = uint_bytes(u32::from(number), &mut format);
        options.push(Opt {
            number: CONTENT_FORMAT,
            value,
        });
    }
    if let Some(block) = content.block2 {
        options.push(Opt {
            number: BLOCK2,
            value: block.write(&mut block2),
        });
    }
    if let Some(block) = content.block1 {
        options.push(Opt {
            number: BLOCK1,
            value: block.write(&mut block1),
        });
    }
    let mut out = [0; MAX_LEN];
    let len = encode(head, &options, content.payload, &mut out).expect("it fits");
    out[..len].to_vec()
}
