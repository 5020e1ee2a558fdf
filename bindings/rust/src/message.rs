//! Words of the protocol: codes, methods, entity-tags, and what a datagram says.

use crate::errors::{fault, PeekError};
use crate::raw;
use std::fmt;

/// The code of a message: a class and a detail, as 2.05 (RFC 7252, section 3).
///
/// ```
/// # use knifesilver::Code;
/// assert_eq!(Code::CONTENT.to_string(), "2.05");
/// assert_eq!((Code::NOT_FOUND.class(), Code::NOT_FOUND.detail()), (4, 4));
/// ```
#[derive(Clone, Copy, PartialEq, Eq, PartialOrd, Ord, Hash)]
pub struct Code(pub u8);

impl Code {
    /// 0.01 GET.
    pub const GET: Code = Code(0x01);
    /// 0.02 POST.
    pub const POST: Code = Code(0x02);
    /// 0.03 PUT.
    pub const PUT: Code = Code(0x03);
    /// 0.04 DELETE.
    pub const DELETE: Code = Code(0x04);
    /// 0.05 FETCH (RFC 8132, section 2).
    pub const FETCH: Code = Code(0x05);
    /// 0.06 PATCH (RFC 8132, section 3).
    pub const PATCH: Code = Code(0x06);
    /// 0.07 iPATCH (RFC 8132, section 3).
    pub const IPATCH: Code = Code(0x07);
    /// 2.01 Created.
    pub const CREATED: Code = Code(0x41);
    /// 2.02 Deleted.
    pub const DELETED: Code = Code(0x42);
    /// 2.03 Valid.
    pub const VALID: Code = Code(0x43);
    /// 2.04 Changed.
    pub const CHANGED: Code = Code(0x44);
    /// 2.05 Content.
    pub const CONTENT: Code = Code(0x45);
    /// 2.31 Continue (RFC 7959, section 2.9.1).
    pub const CONTINUE: Code = Code(0x5f);
    /// 4.00 Bad Request.
    pub const BAD_REQUEST: Code = Code(0x80);
    /// 4.01 Unauthorized.
    pub const UNAUTHORIZED: Code = Code(0x81);
    /// 4.02 Bad Option.
    pub const BAD_OPTION: Code = Code(0x82);
    /// 4.03 Forbidden.
    pub const FORBIDDEN: Code = Code(0x83);
    /// 4.04 Not Found.
    pub const NOT_FOUND: Code = Code(0x84);
    /// 4.05 Method Not Allowed.
    pub const METHOD_NOT_ALLOWED: Code = Code(0x85);
    /// 4.06 Not Acceptable.
    pub const NOT_ACCEPTABLE: Code = Code(0x86);
    /// 4.08 Request Entity Incomplete (RFC 7959, section 2.9.2).
    pub const REQUEST_ENTITY_INCOMPLETE: Code = Code(0x88);
    /// 4.09 Conflict (RFC 8132, section 3.4).
    pub const CONFLICT: Code = Code(0x89);
    /// 4.12 Precondition Failed.
    pub const PRECONDITION_FAILED: Code = Code(0x8c);
    /// 4.13 Request Entity Too Large.
    pub const REQUEST_ENTITY_TOO_LARGE: Code = Code(0x8d);
    /// 4.15 Unsupported Content-Format.
    pub const UNSUPPORTED_CONTENT_FORMAT: Code = Code(0x8f);
    /// 4.22 Unprocessable Entity (RFC 8132, section 3.4).
    pub const UNPROCESSABLE_ENTITY: Code = Code(0x96);
    /// 5.00 Internal Server Error.
    pub const INTERNAL_SERVER_ERROR: Code = Code(0xa0);
    /// 5.01 Not Implemented.
    pub const NOT_IMPLEMENTED: Code = Code(0xa1);
    /// 5.02 Bad Gateway.
    pub const BAD_GATEWAY: Code = Code(0xa2);
    /// 5.03 Service Unavailable.
    pub const SERVICE_UNAVAILABLE: Code = Code(0xa3);
    /// 5.04 Gateway Timeout.
    pub const GATEWAY_TIMEOUT: Code = Code(0xa4);

    /// 0 of a request, 2 to 5 of a response.
    pub fn class(self) -> u8 {
        self.0 >> 5
    }

    /// Which one of its class.
    pub fn detail(self) -> u8 {
        self.0 & 31
    }
}

impl fmt::Display for Code {
    fn fmt(&self, f: &mut fmt::Formatter<'_>) -> fmt::Result {
        write!(f, "{}.{:02}", self.class(), self.detail())
    }
}

impl fmt::Debug for Code {
    fn fmt(&self, f: &mut fmt::Formatter<'_>) -> fmt::Result {
        write!(f, "Code({self})")
    }
}

/// What a request asks for (RFC 7252, section 5.8).
#[derive(Clone, Copy, Debug, PartialEq, Eq, Hash)]
pub enum Method {
    /// The representation.
    Get = raw::KS_GET as isize,
    /// That the resource process the body.
    Post = raw::KS_POST as isize,
    /// That the resource be made or replaced by the body.
    Put = raw::KS_PUT as isize,
    /// That the resource be deleted.
    Delete = raw::KS_DELETE as isize,
}

impl Method {
    /// The method of a request's code.
    pub fn of(code: Code) -> Option<Method> {
        match code.0 {
            raw::KS_GET => Some(Method::Get),
            raw::KS_POST => Some(Method::Post),
            raw::KS_PUT => Some(Method::Put),
            raw::KS_DELETE => Some(Method::Delete),
            _ => None,
        }
    }
}

/// An entity-tag of 1 to 8 bytes (RFC 7252, section 5.10.6).
#[derive(Clone, Copy, PartialEq, Eq, Hash)]
pub struct Tag {
    len: u8,
    bytes: [u8; 8],
}

impl Tag {
    /// The tag of these bytes, where there are 1 to 8.
    pub fn new(bytes: &[u8]) -> Option<Tag> {
        let len = u8::try_from(bytes.len()).ok().filter(|len| *len > 0)?;
        let mut tag = Tag { len, bytes: [0; 8] };
        tag.bytes.get_mut(..bytes.len())?.copy_from_slice(bytes);
        Some(tag)
    }

    /// Its bytes.
    pub fn as_slice(&self) -> &[u8] {
        &self.bytes[..usize::from(self.len)]
    }

    pub(crate) fn raw(&self) -> raw::ks_tag {
        raw::ks_tag { len: self.len, bytes: self.bytes }
    }
}

impl fmt::Debug for Tag {
    fn fmt(&self, f: &mut fmt::Formatter<'_>) -> fmt::Result {
        f.write_str("Tag(")?;
        self.as_slice().iter().try_for_each(|byte| write!(f, "{byte:02x}"))?;
        f.write_str(")")
    }
}

/// The type of a message (RFC 7252, section 3).
#[derive(Clone, Copy, Debug, PartialEq, Eq, Hash)]
pub enum Kind {
    /// It is to be acknowledged.
    Confirmable,
    /// It is not.
    NonConfirmable,
    /// It acknowledges another.
    Acknowledgement,
    /// It rejects another.
    Reset,
}

/// What a datagram says.
#[derive(Clone, Debug, PartialEq, Eq)]
#[non_exhaustive]
pub struct Message {
    /// Its type.
    pub kind: Kind,
    /// Its code.
    pub code: Code,
    /// Its Message ID.
    pub id: u16,
    /// Its token, of 0 to 8 bytes.
    pub token: Vec<u8>,
    /// The values of Uri-Path, each behind a `/`; in a value `%2F` stands for a slash, and `%25` for a percent sign.
    pub path: Vec<u8>,
    /// How many bytes its payload has.
    pub payload_len: usize,
}

/// What a datagram says, or its first fault and where that is. A program may drop one before [`crate::Server::handle`], by
/// its path or its sender: it looks lost.
///
/// ```
/// # use knifesilver::{peek, Kind, PeekError};
/// let message = peek(b"\x40\x01\x7d\x34\xbbtemperature").unwrap();
/// assert_eq!((message.kind, message.path.as_slice()), (Kind::Confirmable, &b"/temperature"[..]));
/// assert_eq!(peek(b"\x40"), Err((PeekError::Short, 1)));
/// ```
pub fn peek(datagram: &[u8]) -> Result<Message, (PeekError, usize)> {
    let mut shown = raw::ks_message::default();
    // Each option takes a byte before its value, and so does its `/`; a byte of the value takes at most three.
    let mut path = vec![0; 3 * datagram.len()];
    let answer = raw::peek(datagram, &mut shown, &mut path);
    if answer != raw::KS_OK {
        return Err((fault(answer), shown.fault_at));
    }
    path.truncate(shown.path_len);
    let kind = match shown.kind {
        raw::KS_CON => Kind::Confirmable,
        raw::KS_NON => Kind::NonConfirmable,
        raw::KS_ACK => Kind::Acknowledgement,
        _ => Kind::Reset,
    };
    let token = shown.token[..usize::from(shown.token_len.min(8))].to_vec();
    Ok(Message { kind, code: Code(shown.code), id: shown.id, token, path, payload_len: shown.payload_len })
}

/// The answer of a Confirmable request that is not handed to a server: an acknowledgement with this code, of class 4 or
/// 5. None where the datagram gets none, or the code is another. A client takes it to say that the request is never
/// applied: so hand no copy of the request to the server either. [`crate::Server::refuse`] asks nothing of the kind.
///
/// ```
/// # use knifesilver::{refusal, Code};
/// assert_eq!(refusal(b"\x41\x03\x7d\x34\xab", Code(0x83)), Some(b"\x61\x83\x7d\x34\xab".to_vec()));
/// assert_eq!(refusal(b"\x51\x03\x7d\x34\xab", Code(0x83)), None);
/// ```
pub fn refusal(datagram: &[u8], code: Code) -> Option<Vec<u8>> {
    let (mut room, mut len) = ([0; raw::KS_REFUSAL_ROOM], 0);
    let answer = raw::refuse(datagram, code.0, &mut room, &mut len);
    (answer == raw::KS_DONE).then(|| room[..len].to_vec())
}
