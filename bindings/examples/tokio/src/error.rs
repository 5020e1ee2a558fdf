//! What goes wrong.

use knifesilver::{CallError, Code, NewError, Report};
use std::fmt;

/// Why a call has no answer.
#[derive(Clone, Debug, PartialEq, Eq)]
#[non_exhaustive]
pub enum Error {
    /// The call was not taken.
    Refused(CallError),
    /// The server answered by an error code: the request was not applied, and never will be.
    Failed(Code),
    /// The request was perhaps applied, or still may be: ask what the path holds before you ask again.
    PerhapsApplied(Report),
    /// The task of the client has ended.
    Closed,
}

impl fmt::Display for Error {
    fn fmt(&self, f: &mut fmt::Formatter<'_>) -> fmt::Result {
        match self {
            Error::Refused(why) => write!(f, "refused: {why}"),
            Error::Failed(code) => write!(f, "failed: {code}"),
            Error::PerhapsApplied(report) => write!(f, "perhaps applied: {report:?}"),
            Error::Closed => f.write_str("the client has ended"),
        }
    }
}

impl std::error::Error for Error {}

/// Why no end is opened.
#[derive(Debug)]
#[non_exhaustive]
pub enum OpenError {
    /// The end can't be made so.
    New(NewError),
    /// There is no such socket.
    Socket(std::io::Error),
}

impl From<NewError> for OpenError {
    fn from(why: NewError) -> OpenError {
        OpenError::New(why)
    }
}

impl From<std::io::Error> for OpenError {
    fn from(why: std::io::Error) -> OpenError {
        OpenError::Socket(why)
    }
}

impl fmt::Display for OpenError {
    fn fmt(&self, f: &mut fmt::Formatter<'_>) -> fmt::Result {
        match self {
            OpenError::New(why) => why.fmt(f),
            OpenError::Socket(why) => why.fmt(f),
        }
    }
}

impl std::error::Error for OpenError {}
