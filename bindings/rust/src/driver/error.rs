//! What goes wrong.

use crate::exchange::blocks::FetchError;
use crate::exchange::{AskError, Message};
use crate::{CallError, Code, NewError, Report};
use std::fmt;

/// Why a call or an observation has no answer.
#[derive(Clone, Debug, PartialEq, Eq)]
#[non_exhaustive]
pub enum Error {
    /// The call was not taken: nothing was sent.
    Refused(CallError),
    /// The server answered by an error code: the request was not applied, and never will be.
    Failed(Code),
    /// The request was perhaps applied, or still may be: ask what the path holds before you ask again.
    PerhapsApplied(Report),
    /// The server ended the observation, or did not begin it.
    Ended(Code),
    /// No value came in the time that was given. The observation goes on.
    Silent,
}

impl fmt::Display for Error {
    fn fmt(&self, f: &mut fmt::Formatter<'_>) -> fmt::Result {
        match self {
            Error::Refused(why) => write!(f, "refused: {why}"),
            Error::Failed(code) => write!(f, "failed: {code}"),
            Error::PerhapsApplied(report) => write!(f, "perhaps applied: {report:?}"),
            Error::Ended(code) => write!(f, "the observation ended: {code}"),
            Error::Silent => f.write_str("no value came"),
        }
    }
}

impl std::error::Error for Error {
    fn source(&self) -> Option<&(dyn std::error::Error + 'static)> {
        match self {
            Error::Refused(why) => Some(why),
            _ => None,
        }
    }
}

impl From<CallError> for Error {
    fn from(why: CallError) -> Error {
        Error::Refused(why)
    }
}

/// A last report that is no success.
impl From<Report> for Error {
    fn from(report: Report) -> Error {
        match report {
            Report::Failed(code) => Error::Failed(code),
            Report::Ended(code) => Error::Ended(code),
            other => Error::PerhapsApplied(other),
        }
    }
}

/// Why a request of the exchange door has no response.
#[derive(Clone, Debug, PartialEq, Eq)]
#[non_exhaustive]
pub enum NoAnswer {
    /// It was not sent.
    Refused(AskError),
    /// No acknowledgement came. The server may have handled it.
    Timeout,
    /// The server rejected it by a Reset.
    Reset,
    /// It was acknowledged, but no response came. The server may have handled it.
    NoResponse,
}

impl fmt::Display for NoAnswer {
    fn fmt(&self, f: &mut fmt::Formatter<'_>) -> fmt::Result {
        match self {
            NoAnswer::Refused(why) => write!(f, "refused: {why}"),
            NoAnswer::Timeout => f.write_str("no acknowledgement came"),
            NoAnswer::Reset => f.write_str("the server rejected it"),
            NoAnswer::NoResponse => f.write_str("it was acknowledged, but no response came"),
        }
    }
}

impl std::error::Error for NoAnswer {
    fn source(&self) -> Option<&(dyn std::error::Error + 'static)> {
        match self {
            NoAnswer::Refused(why) => Some(why),
            _ => None,
        }
    }
}

impl From<AskError> for NoAnswer {
    fn from(why: AskError) -> NoAnswer {
        NoAnswer::Refused(why)
    }
}

/// Why a body is not fetched.
#[derive(Clone, Debug, PartialEq, Eq)]
#[non_exhaustive]
pub enum NoBody {
    /// A block has no response.
    NoAnswer(NoAnswer),
    /// The response is no 2.05.
    Response(Message),
    /// The blocks make no body.
    Blocks(FetchError),
}

impl fmt::Display for NoBody {
    fn fmt(&self, f: &mut fmt::Formatter<'_>) -> fmt::Result {
        match self {
            NoBody::NoAnswer(why) => why.fmt(f),
            NoBody::Response(response) => write!(f, "the response is {}", response.code()),
            NoBody::Blocks(why) => why.fmt(f),
        }
    }
}

impl std::error::Error for NoBody {
    fn source(&self) -> Option<&(dyn std::error::Error + 'static)> {
        match self {
            NoBody::NoAnswer(why) => Some(why),
            NoBody::Blocks(why) => Some(why),
            NoBody::Response(_) => None,
        }
    }
}

impl From<NoAnswer> for NoBody {
    fn from(why: NoAnswer) -> NoBody {
        NoBody::NoAnswer(why)
    }
}

impl From<FetchError> for NoBody {
    fn from(why: FetchError) -> NoBody {
        NoBody::Blocks(why)
    }
}

/// Why no end is opened.
#[derive(Debug)]
#[non_exhaustive]
pub enum OpenError {
    /// The library that is linked is not the one that this crate was written for.
    OtherLibrary,
    /// The end can't be made so.
    New(NewError),
    /// There is no such socket.
    Socket(std::io::Error),
}

impl From<NewError> for OpenError {
    fn from(why: NewError) -> OpenError {
        OpenError::New(why)
    }
}

impl From<std::io::Error> for OpenError {
    fn from(why: std::io::Error) -> OpenError {
        OpenError::Socket(why)
    }
}

impl fmt::Display for OpenError {
    fn fmt(&self, f: &mut fmt::Formatter<'_>) -> fmt::Result {
        match self {
            OpenError::OtherLibrary => f.write_str("the library is not that of the crate"),
            OpenError::New(why) => why.fmt(f),
            OpenError::Socket(why) => why.fmt(f),
        }
    }
}

impl std::error::Error for OpenError {
    fn source(&self) -> Option<&(dyn std::error::Error + 'static)> {
        match self {
            OpenError::OtherLibrary => None,
            OpenError::New(why) => Some(why),
            OpenError::Socket(why) => Some(why),
        }
    }
}
