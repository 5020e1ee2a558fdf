//! OSCORE (RFC 8613) between a socket and an end: AES-CCM-16-64-128 and HKDF SHA-256, by OpenSSL.
//!
//! ```no_run
//! # fn main() -> Result<(), knifesilver_oscore::Refusal> {
//! # let (now, plain, datagram) = (0, [0; 4], [0; 4]);
//! use knifesilver_oscore::{Context, Keys};
//! let keys = Keys { secret: vec![7; 16], sender: vec![1], recipient: vec![2], ..Keys::default() };
//! let mut context = Context::new(&keys, Some("numbers".as_ref()), false)?;
//! let sent = context.seal(now, &plain)?; // what an end has out: send sent.bytes
//! let came = context.open(now, &datagram)?; // what came: feed came.bytes
//! # Ok(())
//! # }
//! ```
//!
//! `now` is in milliseconds, as the ends have it. `bindings/oscore/ks_oscore.h` says what holds, and which rules there
//! are; nothing of it is proved. The refusals and the file of numbers are those of the C.
#![forbid(unsafe_code)]
#![warn(missing_docs)]

mod cipher;
mod context;
mod exchanges;
mod message;
mod numbers;

pub use context::{Context, Datagram, Keys, Kind};

/// Why a datagram is not sealed or not opened, or there is no context. Each has the number of the C.
#[derive(Debug, Clone, Copy, PartialEq, Eq)]
pub enum Refusal {
    /// OpenSSL had no memory: the datagram counts as lost.
    NoMemory = -2,
    /// A length, no secret, or equal IDs.
    BadArgument = -5,
    /// A request without OSCORE, which is answered with 4.01.
    UnprotectedRequest = 163,
    /// A response without OSCORE, which is fed to nobody.
    UnprotectedResponse = 164,
    /// No message of CoAP, or of OSCORE, or one that cannot be sealed.
    Malformed = 165,
    /// It names another context.
    OtherContext = 166,
    /// It does not open.
    Forged = 167,
    /// It came before, under another type, Message ID or token, or too long ago.
    Replayed = 168,
    /// A response to no request that is known.
    Unasked = 169,
    /// A request with the token of one that may still be answered.
    TokenUsed = 170,
    /// As many requests may still be answered as there are places.
    Full = 171,
    /// Each sequence number was used: the context needs new keys.
    Spent = 172,
    /// The file of numbers failed; after a write that failed, for good.
    FileFailed = 173,
    /// The file is none of numbers, or of other keys.
    FileForeign = 174,
    /// The file has no whole record.
    FileDamaged = 175,
    /// The file is another program's now.
    FileTaken = 176,
}

impl std::fmt::Display for Refusal {
    fn fmt(&self, f: &mut std::fmt::Formatter<'_>) -> std::fmt::Result {
        f.write_str(match self {
            Refusal::NoMemory => "no memory",
            Refusal::BadArgument => "no keys of a context",
            Refusal::UnprotectedRequest => "an unprotected request",
            Refusal::UnprotectedResponse => "an unprotected response",
            Refusal::Malformed => "no message that can be sealed or opened",
            Refusal::OtherContext => "it names another context",
            Refusal::Forged => "it does not open",
            Refusal::Replayed => "a replay",
            Refusal::Unasked => "a response to no request that is known",
            Refusal::TokenUsed => "the token of a request that may still be answered",
            Refusal::Full => "too many requests may still be answered",
            Refusal::Spent => "each sequence number was used",
            Refusal::FileFailed => "the file of numbers failed",
            Refusal::FileForeign => "no file of numbers of these keys",
            Refusal::FileDamaged => "the file of numbers has no whole record",
            Refusal::FileTaken => "another program has the file of numbers",
        })
    }
}

impl std::error::Error for Refusal {}

impl From<openssl::error::ErrorStack> for Refusal {
    fn from(_: openssl::error::ErrorStack) -> Self {
        Refusal::NoMemory
    }
}
