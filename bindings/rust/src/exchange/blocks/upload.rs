//! A body that a client sends.

use super::{spelled, Block, LARGEST_BLOCK};
use crate::errors::{made, NewError};
use crate::exchange::Message;
use crate::setting::Config;
use crate::{raw, raw_exchange};
use std::fmt;

/// A body that is sent in blocks by Block1 (RFC 7959, section 2.5). Send [`Upload::block`] with each request, and hand
/// in each response that is a 2.31; the response to the last block is that to the request.
pub struct Upload(raw_exchange::Upload);

impl Upload {
    /// An upload of that body. Of the configuration `block_size` counts.
    pub fn new(config: &Config, body: &[u8]) -> Result<Upload, NewError> {
        let mut raw = raw_exchange::Upload::empty();
        made(raw.make(body, config.block_size))?;
        Ok(Upload(raw))
    }

    /// The block to send now, and its bytes: the same until it is accepted.
    pub fn block(&mut self) -> (Block, Vec<u8>) {
        let (mut block, mut room, mut len) = (raw_exchange::ks_block::default(), [0; LARGEST_BLOCK], 0);
        self.0.next(&mut block, &mut room, &mut len);
        (Block::told(block), room[..len].to_vec())
    }

    /// Takes the response to that block. Whether it is a 2.31 that fits, so that there is another block to send.
    #[must_use = "where it is false, the upload is where it was"]
    pub fn accepted(&mut self, response: &Message) -> bool {
        spelled(response).is_some_and(|bytes| self.0.accepted(&bytes) == raw::KS_DONE)
    }
}

impl fmt::Debug for Upload {
    fn fmt(&self, f: &mut fmt::Formatter<'_>) -> fmt::Result {
        f.debug_struct("Upload").finish_non_exhaustive()
    }
}
