//! Why an end does not do what it is asked for. After each of these the end is as if it had not been asked, but that the
//! moment may have counted.

use crate::raw;
use std::error::Error;
use std::fmt;

macro_rules! errors {
    ($($(#[$doc:meta])* $name:ident { $($(#[$variant_doc:meta])* $variant:ident = $text:literal,)* })*) => {$(
        $(#[$doc])*
        #[derive(Clone, Copy, Debug, PartialEq, Eq, Hash)]
        #[non_exhaustive]
        pub enum $name {
            $($(#[$variant_doc])* $variant,)*
        }

        impl fmt::Display for $name {
            fn fmt(&self, f: &mut fmt::Formatter<'_>) -> fmt::Result {
                f.write_str(match self {
                    $($name::$variant => $text,)*
                })
            }
        }

        impl Error for $name {}
    )*};
}

errors! {
    /// Why no end is made.
    NewError {
        /// An allocation was refused.
        Memory = "out of memory",
        /// No block has so many bytes.
        BlockSize = "the block size is none of 16, 32, .. 1,024",
        /// No body is limited so.
        BodyLimit = "the limit of bodies is not 1 to 1,048,576",
        /// So many messages cannot be remembered.
        Remembered = "the number of remembered messages is not 1 to 1,048,576",
        /// No window takes so many changes.
        Changes = "the number of changes is not 1 to 4,194,303",
        /// No versions begin after this one.
        Base = "the base of versions is no multiple of 2^24 below 2^63",
        /// So many peers can't have names at once.
        Peers = "the number of peers is not 1 to 1,048,576",
    }

    /// Why a datagram is not refused by a code.
    RefuseError {
        /// An allocation was refused: the datagram counts as lost.
        Memory = "out of memory",
        /// The code is of another class.
        Code = "the code is not of class 4 or 5",
    }

    /// Why a peer gets no name: what came from it is dropped, and counts as lost.
    NamesError {
        /// An allocation was refused.
        Memory = "out of memory",
        /// Each place is taken: by a name that is held, or that had a datagram in the last 247 s.
        Full = "each place is taken",
        /// All names are used up.
        Spent = "all names are used up",
    }

    /// Why a server's resource is not changed.
    SetError {
        /// An allocation was refused.
        Memory = "out of memory",
        /// The text has over 16 segments, one of over 255 bytes, or a `%` without two hexadecimal digits.
        BadPath = "the text is no path",
        /// The body is longer than the server's limit.
        TooLarge = "the body is longer than the limit",
        /// 256 other paths hold something.
        TooManyPaths = "256 other paths hold something",
        /// The window of 256 s has no change left.
        RateExceeded = "the window of 256 s has no change left",
        /// The last change had the greatest version.
        VersionsSpent = "the versions are spent",
    }

    /// Why a path is given no delay.
    DelayError {
        /// An allocation was refused.
        Memory = "out of memory",
        /// The text has over 16 segments, one of over 255 bytes, or a `%` without two hexadecimal digits.
        BadPath = "the text is no path",
        /// 16 other paths have a delay.
        Full = "16 other paths have a delay",
    }

    /// Why a path is not made plain.
    PlainError {
        /// An allocation was refused.
        Memory = "out of memory",
        /// The text has over 16 segments, one of over 255 bytes, or a `%` without two hexadecimal digits.
        BadPath = "the text is no path",
        /// 16 other paths are plain.
        Full = "16 other paths are plain",
    }

    /// Why a call or an observation is not taken.
    CallError {
        /// An allocation was refused.
        Memory = "out of memory",
        /// 8 calls wait.
        QueueFull = "8 calls wait",
        /// The body is longer than the client's limit.
        BodyTooLarge = "the body is longer than the limit",
        /// The text is no path, or the path is too long for a message.
        BadPath = "the text is no path, or it is too long for a message",
        /// 16 observations wait, run or are live.
        WatchesFull = "16 observations wait, run or are live",
        /// Each number was given once.
        CallsSpent = "the numbers of calls are spent",
        /// There are over 4 entity-tags.
        TooManyTags = "over 4 entity-tags",
    }

    /// Why an observation is not cancelled.
    CancelError {
        /// No live observation has the number, or it is being cancelled.
        Unknown = "no live observation has the number",
        /// 8 calls wait.
        QueueFull = "8 calls wait",
    }

    /// Why a datagram is no message of CoAP: its first fault (RFC 7252, section 3).
    PeekError {
        /// Fewer than the 4 bytes of a header.
        Short = "fewer than 4 bytes",
        /// A version other than 1.
        Version = "a version other than 1",
        /// A token length of 9 to 15.
        TokenLength = "a token length of 9 to 15",
        /// Fewer bytes than the token length says.
        TokenCut = "the bytes end inside the token",
        /// Code 0.00 with a token length, or with bytes behind the Message ID.
        EmptyNotBare = "an Empty message that is not bare",
        /// A delta nibble 15 in a byte that is no payload marker.
        DeltaReserved = "a reserved option delta",
        /// A length nibble 15.
        LengthReserved = "a reserved option length",
        /// The bytes end inside an option.
        OptionCut = "the bytes end inside an option",
        /// The deltas sum up to an option number above 65,535.
        NumberTooLarge = "an option number above 65,535",
        /// The payload marker is the last byte.
        NoPayload = "a payload marker with no payload",
    }
}

/// An allocation was refused: a datagram that was handed in counts as lost, and what was due is still due.
#[derive(Clone, Copy, Debug, PartialEq, Eq, Hash)]
pub struct OutOfMemory;

impl fmt::Display for OutOfMemory {
    fn fmt(&self, f: &mut fmt::Formatter<'_>) -> fmt::Result {
        f.write_str("out of memory")
    }
}

impl Error for OutOfMemory {}

impl From<OutOfMemory> for RefuseError {
    fn from(_: OutOfMemory) -> RefuseError {
        RefuseError::Memory
    }
}

pub(crate) fn made(answer: i32) -> Result<(), NewError> {
    match answer {
        raw::KS_OK => Ok(()),
        raw::KS_BAD_BLOCK_SIZE => Err(NewError::BlockSize),
        raw::KS_BAD_BODY_LIMIT => Err(NewError::BodyLimit),
        raw::KS_BAD_REMEMBERED => Err(NewError::Remembered),
        raw::KS_BAD_CHANGES => Err(NewError::Changes),
        raw::KS_BAD_BASE => Err(NewError::Base),
        _ => Err(NewError::Memory),
    }
}

/// Whether there was something.
pub(crate) fn changed(answer: i32) -> Result<bool, SetError> {
    match answer {
        raw::KS_OK => Ok(false),
        raw::KS_DONE => Ok(true),
        raw::KS_SET_TOO_LARGE => Err(SetError::TooLarge),
        raw::KS_SET_TOO_MANY_PATHS => Err(SetError::TooManyPaths),
        raw::KS_SET_RATE_EXCEEDED => Err(SetError::RateExceeded),
        raw::KS_SET_VERSIONS_SPENT => Err(SetError::VersionsSpent),
        raw::KS_BAD_PATH => Err(SetError::BadPath),
        _ => Err(SetError::Memory),
    }
}

pub(crate) fn delayed(answer: i32) -> Result<(), DelayError> {
    match answer {
        raw::KS_OK => Ok(()),
        raw::KS_DELAY_FULL => Err(DelayError::Full),
        raw::KS_BAD_PATH => Err(DelayError::BadPath),
        _ => Err(DelayError::Memory),
    }
}

pub(crate) fn made_plain(answer: i32) -> Result<(), PlainError> {
    match answer {
        raw::KS_OK => Ok(()),
        raw::KS_PLAIN_FULL => Err(PlainError::Full),
        raw::KS_BAD_PATH => Err(PlainError::BadPath),
        _ => Err(PlainError::Memory),
    }
}

pub(crate) fn called(answer: i32) -> Result<(), CallError> {
    match answer {
        raw::KS_OK => Ok(()),
        raw::KS_CALL_QUEUE_FULL => Err(CallError::QueueFull),
        raw::KS_CALL_BODY_TOO_LARGE => Err(CallError::BodyTooLarge),
        raw::KS_CALL_BAD_PATH | raw::KS_BAD_PATH => Err(CallError::BadPath),
        raw::KS_CALL_WATCHES_FULL => Err(CallError::WatchesFull),
        raw::KS_CALL_CALLS_SPENT => Err(CallError::CallsSpent),
        raw::KS_NO_MEMORY => Err(CallError::Memory),
        // What else the library calls an argument at fault cannot be said in these types.
        _ => Err(CallError::TooManyTags),
    }
}

pub(crate) fn cancelled(answer: i32) -> Result<(), CancelError> {
    match answer {
        raw::KS_OK => Ok(()),
        raw::KS_CANCEL_QUEUE_FULL => Err(CancelError::QueueFull),
        _ => Err(CancelError::Unknown),
    }
}

pub(crate) fn ticked(answer: i32) -> Result<bool, OutOfMemory> {
    match answer {
        raw::KS_OK => Ok(false),
        raw::KS_DONE => Ok(true),
        _ => Err(OutOfMemory),
    }
}

pub(crate) fn fault(answer: i32) -> PeekError {
    match answer {
        raw::KS_FAULT_SHORT => PeekError::Short,
        raw::KS_FAULT_VERSION => PeekError::Version,
        raw::KS_FAULT_TOKEN_LENGTH => PeekError::TokenLength,
        raw::KS_FAULT_TOKEN_CUT => PeekError::TokenCut,
        raw::KS_FAULT_EMPTY_NOT_BARE => PeekError::EmptyNotBare,
        raw::KS_FAULT_DELTA_RESERVED => PeekError::DeltaReserved,
        raw::KS_FAULT_LENGTH_RESERVED => PeekError::LengthReserved,
        raw::KS_FAULT_OPTION_CUT => PeekError::OptionCut,
        raw::KS_FAULT_NUMBER_TOO_LARGE => PeekError::NumberTooLarge,
        _ => PeekError::NoPayload,
    }
}
