//! What is asked and what is answered: a code, options, a payload.

use super::errors::MessageError;
use super::options::{OptionNumber, Options, PAYLOAD_MARKER};
use super::token::Token;
use crate::message::Code;
use crate::{raw, raw_exchange};
use std::fmt;
use std::str;

/// The bytes before the token (RFC 7252, section 3).
const HEADER_LEN: usize = 4;
/// Version 1, Confirmable, no token. (The library takes code, options and payload of what it is handed, and no more.)
const FIRST_BYTE: u8 = 0x40;

/// A request or a response, but for its type, Message ID and token, which the exchange gives it.
///
/// ```
/// use knifesilver::exchange::Message;
/// use knifesilver::{Code, TEXT_PLAIN};
///
/// let request = Message::new(Code::FETCH).with_path("sensors/1").with_query("unit=f").with_payload("mean");
/// assert_eq!(request.path(), Some(vec!["sensors", "1"]));
/// assert_eq!(request.query("unit"), Some("f"));
///
/// let response = Message::new(Code::CONTENT).with_format(TEXT_PLAIN).with_max_age(5).with_payload("68");
/// assert_eq!((response.code(), response.payload()), (Code::CONTENT, &b"68"[..]));
/// ```
#[derive(Clone, PartialEq, Eq, Hash)]
pub struct Message {
    code: Code,
    options: Options,
    payload: Vec<u8>,
}

impl Message {
    /// A message with no options and no payload.
    pub fn new(code: Code) -> Message {
        Message { code, options: Options::new(), payload: Vec::new() }
    }

    /// A GET of that path.
    pub fn get(path: &str) -> Message {
        Message::new(Code::GET).with_path(path)
    }

    /// A POST to that path.
    pub fn post(path: &str) -> Message {
        Message::new(Code::POST).with_path(path)
    }

    /// A PUT to that path.
    pub fn put(path: &str) -> Message {
        Message::new(Code::PUT).with_path(path)
    }

    /// A DELETE of that path.
    pub fn delete(path: &str) -> Message {
        Message::new(Code::DELETE).with_path(path)
    }

    /// A FETCH of that path (RFC 8132, section 2).
    pub fn fetch(path: &str) -> Message {
        Message::new(Code::FETCH).with_path(path)
    }

    /// The same with another code.
    #[must_use]
    pub fn with_code(self, code: Code) -> Message {
        Message { code, ..self }
    }

    /// The same with an option more, after those of its number.
    #[must_use]
    pub fn with_option(mut self, number: OptionNumber, value: impl Into<Vec<u8>>) -> Message {
        self.options.add(number, value);
        self
    }

    /// The same with an option more whose value is a number (RFC 7252, section 3.2).
    #[must_use]
    pub fn with_number(mut self, number: OptionNumber, value: u32) -> Message {
        self.options.add_number(number, value);
        self
    }

    /// The same with the segments of a path, which have `/` between them: a Uri-Path for each (RFC 7252, section
    /// 5.10.1). No segment that is added so has a `/` in it, or is empty.
    #[must_use]
    pub fn with_path(self, path: &str) -> Message {
        self.with_segments(OptionNumber::URI_PATH, path)
    }

    /// The same with an argument, as `unit=f`: a Uri-Query (RFC 7252, section 5.10.1).
    #[must_use]
    pub fn with_query(self, argument: &str) -> Message {
        self.with_option(OptionNumber::URI_QUERY, argument)
    }

    /// The same with the path of what was made: a Location-Path for each segment (RFC 7252, section 5.10.7).
    #[must_use]
    pub fn with_location(self, path: &str) -> Message {
        self.with_segments(OptionNumber::LOCATION_PATH, path)
    }

    /// The same with the Content-Format of its payload (RFC 7252, section 12.3).
    #[must_use]
    pub fn with_format(self, format: u16) -> Message {
        self.with_number(OptionNumber::CONTENT_FORMAT, format.into())
    }

    /// The same with the Content-Format that is wanted (RFC 7252, section 5.10.4).
    #[must_use]
    pub fn with_accept(self, format: u16) -> Message {
        self.with_number(OptionNumber::ACCEPT, format.into())
    }

    /// The same, fresh for so many seconds (RFC 7252, section 5.10.5): without it, for 60.
    #[must_use]
    pub fn with_max_age(self, seconds: u32) -> Message {
        self.with_number(OptionNumber::MAX_AGE, seconds)
    }

    /// The same with Observe: 0 registers and 1 deregisters; of a notification, a number that rises modulo 2^24 (RFC
    /// 7641, section 2). The bits above these 24 are left out.
    #[must_use]
    pub fn with_observe(self, value: u32) -> Message {
        self.with_number(OptionNumber::OBSERVE, value & 0xff_ffff)
    }

    /// The same with that payload.
    #[must_use]
    pub fn with_payload(self, payload: impl Into<Vec<u8>>) -> Message {
        Message { payload: payload.into(), ..self }
    }

    fn with_segments(mut self, number: OptionNumber, path: &str) -> Message {
        for segment in path.split('/').filter(|segment| !segment.is_empty()) {
            self.options.add(number, segment);
        }
        self
    }

    /// Its code: of a request, its method.
    pub fn code(&self) -> Code {
        self.code
    }

    /// Its options.
    pub fn options(&self) -> &Options {
        &self.options
    }

    /// Its payload: empty where it has none.
    pub fn payload(&self) -> &[u8] {
        &self.payload
    }

    /// Its payload as text. None where it is none.
    pub fn text(&self) -> Option<&str> {
        str::from_utf8(&self.payload).ok()
    }

    /// The segments of its path. None where one is no text.
    pub fn path(&self) -> Option<Vec<&str>> {
        self.options.all(OptionNumber::URI_PATH).map(|segment| str::from_utf8(segment).ok()).collect()
    }

    /// The segments of the path of what was made. None where one is no text.
    pub fn location(&self) -> Option<Vec<&str>> {
        self.options.all(OptionNumber::LOCATION_PATH).map(|segment| str::from_utf8(segment).ok()).collect()
    }

    /// The arguments of its URI that are text, in order: what stands before the first `=` of each, and after it.
    pub fn queries(&self) -> impl Iterator<Item = (&str, &str)> {
        let texts = self.options.all(OptionNumber::URI_QUERY).filter_map(|argument| str::from_utf8(argument).ok());
        texts.map(|argument| argument.split_once('=').unwrap_or((argument, "")))
    }

    /// What the first argument of that name is.
    pub fn query(&self, name: &str) -> Option<&str> {
        self.queries().find(|(of, _)| *of == name).map(|(_, is)| is)
    }

    /// The Content-Format of its payload, where it is told.
    pub fn format(&self) -> Option<u16> {
        self.options.number(OptionNumber::CONTENT_FORMAT).and_then(|format| u16::try_from(format).ok())
    }

    /// The Content-Format that is wanted, where it is told.
    pub fn accept(&self) -> Option<u16> {
        self.options.number(OptionNumber::ACCEPT).and_then(|format| u16::try_from(format).ok())
    }

    /// What its Observe says, where it has one.
    pub fn observe(&self) -> Option<u32> {
        self.options.number(OptionNumber::OBSERVE)
    }

    /// For how many seconds it is fresh, where it says so.
    pub fn max_age(&self) -> Option<u32> {
        self.options.number(OptionNumber::MAX_AGE)
    }

    /// What a datagram says. None where it is no message (see [`crate::peek`] for why).
    pub fn read(datagram: &[u8]) -> Option<Message> {
        let (options, payload) = Options::read(datagram)?;
        let code = Code(*datagram.get(1)?);
        Some(Message { code, options, payload: payload.to_vec() })
    }

    /// The message as the library is handed it, in a room of at least 12 bytes: its length in bytes.
    pub(super) fn spell(&self, token: &Token, room: &mut [u8]) -> Result<usize, MessageError> {
        let (bytes, token_len) = token.parts();
        room[..HEADER_LEN].copy_from_slice(&[FIRST_BYTE | token_len, self.code.0, 0, 0]);
        room[HEADER_LEN..][..bytes.len()].copy_from_slice(&bytes);
        let (mut len, mut last) = (HEADER_LEN + usize::from(token_len), 0);
        for (number, value) in self.options.iter() {
            if raw_exchange::options_add(room, &mut len, &mut last, number.0, value) != raw::KS_OK {
                return Err(MessageError::TooLong);
            }
        }
        if self.payload.is_empty() {
            return Ok(len);
        }
        let end = len + 1 + self.payload.len();
        room.get_mut(len + 1..end).ok_or(MessageError::TooLong)?.copy_from_slice(&self.payload);
        room[len] = PAYLOAD_MARKER;
        Ok(end)
    }
}

impl fmt::Debug for Message {
    fn fmt(&self, f: &mut fmt::Formatter<'_>) -> fmt::Result {
        write!(f, "Message {{ {}, {:?}, \"{}\" }}", self.code, self.options, self.payload.escape_ascii())
    }
}
