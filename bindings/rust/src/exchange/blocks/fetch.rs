//! A body that a client fetches.

use super::{spelled, Block};
use crate::errors::{made, NewError};
use crate::exchange::Message;
use crate::setting::Config;
use crate::{raw, raw_exchange};
use std::error::Error;
use std::fmt;

/// A body that is fetched in blocks by Block2 (RFC 7959, section 2.4). Ask as for any resource; hand each 2.05 in, and
/// ask for what it says.
pub struct Fetch(raw_exchange::Fetch);

/// How far a body is fetched.
#[derive(Clone, Debug, PartialEq, Eq)]
#[non_exhaustive]
pub enum Fetched {
    /// Ask for this block ([`Message::with_block2`]).
    Ask(Block),
    /// All of it: its parts had one entity-tag, or it is one part.
    Whole(Vec<u8>),
    /// All of it, joined of parts with no entity-tag. So it is not promised to be of one version.
    Joined(Vec<u8>),
    /// It changed meanwhile: ask as at first, with no Block2.
    Again,
}

errors! {
    /// Why a body is not fetched.
    FetchError {
        /// An allocation was refused.
        Memory = "out of memory",
        /// It is not the block that was asked for, or not of its size; or others came, and this has no Block2.
        BadBlock = "it is not the block that was asked for",
        /// One of several parts has no entity-tag.
        NoTag = "a part has no entity-tag",
        /// The body is longer than the limit.
        TooLarge = "the body is longer than the limit",
        /// It changed again and again.
        Changed = "the body changed again and again",
    }
}

impl Fetch {
    /// A fetch that has nothing yet. Of the configuration `block_size` and `body_limit` count.
    pub fn new(config: &Config) -> Result<Fetch, NewError> {
        Fetch::make(config, false)
    }

    /// The same, which allows that no part has an entity-tag: then the body is [`Fetched::Joined`].
    pub fn untagged(config: &Config) -> Result<Fetch, NewError> {
        Fetch::make(config, true)
    }

    fn make(config: &Config, untagged: bool) -> Result<Fetch, NewError> {
        let mut raw = raw_exchange::Fetch::empty();
        made(raw.make(config.block_size, config.body_limit, untagged))?;
        Ok(Fetch(raw))
    }

    /// Takes the part that came in a 2.05.
    pub fn accept(&mut self, response: &Message) -> Result<Fetched, FetchError> {
        let bytes = spelled(response).ok_or(FetchError::BadBlock)?;
        let (mut next, mut len) = (raw_exchange::ks_block::default(), 0);
        match self.0.accept(&bytes, &mut next, &mut len) {
            raw::KS_OK => Ok(Fetched::Ask(Block::told(next))),
            raw::KS_DONE => Ok(Fetched::Whole(self.body(len))),
            raw_exchange::KS_JOINED => Ok(Fetched::Joined(self.body(len))),
            raw_exchange::KS_AGAIN => Ok(Fetched::Again),
            raw_exchange::KS_FETCH_NO_TAG => Err(FetchError::NoTag),
            raw_exchange::KS_FETCH_TOO_LARGE => Err(FetchError::TooLarge),
            raw_exchange::KS_FETCH_CHANGED => Err(FetchError::Changed),
            raw::KS_NO_MEMORY => Err(FetchError::Memory),
            _ => Err(FetchError::BadBlock),
        }
    }

    fn body(&mut self, len: usize) -> Vec<u8> {
        let (mut body, mut told) = (vec![0; len], 0);
        self.0.body(&mut body, &mut told);
        body
    }
}

impl fmt::Debug for Fetch {
    fn fmt(&self, f: &mut fmt::Formatter<'_>) -> fmt::Result {
        f.debug_struct("Fetch").finish_non_exhaustive()
    }
}
