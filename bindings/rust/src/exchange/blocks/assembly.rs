//! Bodies that clients send to a server.

use super::{spelled, Block};
use crate::errors::{made, NewError};
use crate::exchange::Message;
use crate::message::Code;
use crate::setting::{address, Config, Surroundings};
use crate::{raw, raw_exchange};
use std::error::Error;
use std::fmt;
use std::net::SocketAddrV4;
use std::time::Instant;

/// Bodies that come in blocks by Block1 (RFC 7959, section 2.5): at most 16 at a time, told apart by sender, path and
/// method.
pub struct Assembly {
    raw: raw_exchange::Assembly,
    around: Surroundings,
}

/// What a block comes to.
#[derive(Clone, Debug, PartialEq, Eq)]
#[non_exhaustive]
pub enum Assembled {
    /// It is joined: answer 2.31 with this Block1.
    Joined(Block),
    /// The body is whole: answer the request with this Block1.
    Whole(Block, Vec<u8>),
}

errors! {
    /// Why a block is not joined. [`AssemblyError::code`] is what to answer.
    AssemblyError {
        /// An allocation was refused.
        Memory = "out of memory",
        /// The request has no Block1, or one that is not of its size; it is no GET, POST, PUT or DELETE; or its path
        /// is too long.
        BadRequest = "it is no block of a body",
        /// It is not the next block of a body.
        Incomplete = "it is not the next block of a body",
        /// The body is longer than the limit.
        TooLarge = "the body is longer than the limit",
        /// 16 other bodies are being joined.
        Full = "16 other bodies are being joined",
    }
}

impl AssemblyError {
    /// 5.03, 4.00, 4.08 or 4.13.
    pub fn code(self) -> Code {
        match self {
            AssemblyError::Memory | AssemblyError::Full => Code::SERVICE_UNAVAILABLE,
            AssemblyError::BadRequest => Code::BAD_REQUEST,
            AssemblyError::Incomplete => Code::REQUEST_ENTITY_INCOMPLETE,
            AssemblyError::TooLarge => Code::REQUEST_ENTITY_TOO_LARGE,
        }
    }
}

impl Assembly {
    /// One that has nothing yet. Of the configuration `block_size` and `body_limit` count.
    pub fn new(config: &Config, now: Instant) -> Result<Assembly, NewError> {
        let mut raw = raw_exchange::Assembly::empty();
        made(raw.make(config.block_size, config.body_limit))?;
        Ok(Assembly { raw, around: Surroundings::new(config, now) })
    }

    /// Takes the block of a request that was handed up.
    pub fn take(&mut self, now: Instant, from: SocketAddrV4, request: &Message) -> Result<Assembled, AssemblyError> {
        let bytes = spelled(request).ok_or(AssemblyError::BadRequest)?;
        let (mut answer, mut len) = (raw_exchange::ks_block::default(), 0);
        match self.raw.take(self.around.moment(now), &address(from), &bytes, &mut answer, &mut len) {
            raw::KS_OK => Ok(Assembled::Joined(Block::told(answer))),
            raw::KS_DONE => Ok(Assembled::Whole(Block::told(answer), self.body(len))),
            raw_exchange::KS_ASSEMBLY_INCOMPLETE => Err(AssemblyError::Incomplete),
            raw_exchange::KS_ASSEMBLY_TOO_LARGE => Err(AssemblyError::TooLarge),
            raw_exchange::KS_ASSEMBLY_FULL => Err(AssemblyError::Full),
            raw::KS_NO_MEMORY => Err(AssemblyError::Memory),
            _ => Err(AssemblyError::BadRequest),
        }
    }

    fn body(&mut self, len: usize) -> Vec<u8> {
        let (mut body, mut told) = (vec![0; len], 0);
        self.raw.body(&mut body, &mut told);
        body
    }
}

impl fmt::Debug for Assembly {
    fn fmt(&self, f: &mut fmt::Formatter<'_>) -> fmt::Result {
        f.debug_struct("Assembly").finish_non_exhaustive()
    }
}
