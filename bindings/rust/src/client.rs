//! A client of one server.

use crate::errors::{called, cancelled, made, ticked, CallError, CancelError, NamesError, NewError, OutOfMemory};
use crate::load::{self, Load, Would};
use crate::message::{Code, Method, Tag};
use crate::peers::{is_name, Peer, Table};
use crate::raw;
use crate::setting::{format_number, format_of, Config, Surroundings, Transmit};
use crate::MAX_DATAGRAM;
use std::fmt;
use std::net::SocketAddr;
use std::time::Instant;

/// A client of one server, which is a peer of any kind (see [`Peer`]), as a rule the address of a socket. One call runs at
/// a time, 8 wait; 16 observations may be live.
///
/// A call starts in [`Client::handle_timeout`]: call that after each `call`, `observe`, `cancel` and `handle`.
pub struct Client<P = SocketAddr> {
    raw: raw::Client,
    around: Surroundings,
    names: Table<P>,
    // The last moment at which something was handed in.
    latest: u64,
    room: Vec<u8>,
}

// So many peers have names at once, strangers among them.
const PLACES: u32 = 64;

/// The number of a call or of an observation.
#[derive(Clone, Copy, Debug, PartialEq, Eq, Hash)]
pub struct CallId(pub u64);

/// What a call asks for.
#[derive(Clone, Debug)]
#[non_exhaustive]
pub struct Request<'a> {
    /// What is asked for.
    pub method: Method,
    /// Of which resource: segments with `/` between them; in a segment `%2F` is a slash, and `%25` a percent sign.
    pub path: &'a str,
    /// The body, of a PUT or a POST.
    pub body: &'a [u8],
    /// The Content-Format of the body, if it is told.
    pub format: Option<u16>,
    /// The Content-Format that is wanted.
    pub accept: Option<u16>,
    /// Representations that are known, at most 4 (RFC 7252, section 5.10.6.2).
    pub etags: &'a [Tag],
    /// Representations of which one has to be there, at most 4 (RFC 7252, section 5.10.8.1).
    pub if_match: &'a [Tag],
    /// Whether nothing may be there yet (RFC 7252, section 5.10.8.2).
    pub if_none_match: bool,
}

impl<'a> Request<'a> {
    /// A request with no body and no conditions; change its fields for more.
    pub fn new(method: Method, path: &'a str) -> Request<'a> {
        Request { method, path, body: &[], format: None, accept: None, etags: &[], if_match: &[], if_none_match: false }
    }

    /// A GET.
    pub fn get(path: &'a str) -> Request<'a> {
        Request::new(Method::Get, path)
    }

    /// A PUT of that body.
    pub fn put(path: &'a str, format: Option<u16>, body: &'a [u8]) -> Request<'a> {
        Request { body, format, ..Request::new(Method::Put, path) }
    }

    /// A POST of that body.
    pub fn post(path: &'a str, format: Option<u16>, body: &'a [u8]) -> Request<'a> {
        Request { body, format, ..Request::new(Method::Post, path) }
    }

    /// A DELETE.
    pub fn delete(path: &'a str) -> Request<'a> {
        Request::new(Method::Delete, path)
    }
}

/// A representation that was fetched.
#[derive(Clone, Debug, PartialEq, Eq)]
#[non_exhaustive]
pub struct Fetched {
    /// Its entity-tag, where it has one.
    pub tag: Option<Tag>,
    /// Its Content-Format, where it is told.
    pub format: Option<u16>,
    /// Its bytes.
    pub body: Vec<u8>,
}

/// What became of a call or an observation. Each but `Value` is the last one of its number.
#[derive(Clone, Debug, PartialEq, Eq)]
#[non_exhaustive]
pub enum Report {
    /// What a GET asked for.
    Body(Fetched),
    /// One that was named by an entity-tag is valid.
    Valid(Option<Tag>),
    /// A POST, PUT or DELETE succeeded: it was applied once.
    Done(Code),
    /// What an observed path holds, with a sequence number that rises (modulo 2^24).
    Value(u32, Fetched),
    /// The server ended the observation, or did not begin it.
    Ended(Code),
    /// The observation is cancelled.
    Cancelled,
    /// Another response: the request was not applied.
    Failed(Code),
    /// No acknowledgement came.
    Timeout,
    /// The server rejected the request by a Reset.
    Reset,
    /// It was acknowledged, but no separate response came.
    NoResponse,
    /// The representation changed again and again while its blocks were fetched.
    Changed,
    /// A block is not the one that was asked for.
    BadBlock,
    /// One of several blocks has no entity-tag.
    NoTag,
    /// The body is longer than the client's limit.
    TooLarge,
    /// No Message ID or no token was free.
    NoIds,
}

impl Client {
    /// A client of the server at that address of a socket, to which nothing has happened.
    pub fn new(config: &Config, server: impl Into<SocketAddr>, now: Instant) -> Result<Client, NewError> {
        Client::of_peer(config, server.into(), now)
    }
}

impl<P: Peer> Client<P> {
    /// A client of a server that is a peer of another kind.
    pub fn of_peer(config: &Config, server: P, now: Instant) -> Result<Client<P>, NewError> {
        let mut around = Surroundings::new(config, now);
        let mut raw = raw::Client::empty();
        let seed = around.seed();
        let mut names = Table::new(PLACES, &around.seed())?;
        let server = names.fed(0, &server).map_err(|_| NewError::Memory)?;
        if is_name(&server) {
            names.hold(&server).map_err(|_| NewError::Memory)?;
        }
        made(raw.make(&server, &config.raw(), &seed))?;
        Ok(Client { raw, around, names, latest: 0, room: Vec::new() })
    }

    // The milliseconds of a moment at which something is handed in.
    fn pass(&mut self, now: Instant) -> u64 {
        self.latest = self.latest.max(self.around.moment(now));
        self.latest
    }

    /// Takes a request, which starts in `handle_timeout`. Its number.
    pub fn call(&mut self, now: Instant, request: &Request<'_>) -> Result<CallId, CallError> {
        let now = self.around.moment(now);
        let what = raw::ks_request {
            format: format_number(request.format),
            accept: format_number(request.accept),
            method: request.method as u8,
            if_none_match: request.if_none_match,
        };
        let etags: Vec<_> = request.etags.iter().map(Tag::raw).collect();
        let if_match: Vec<_> = request.if_match.iter().map(Tag::raw).collect();
        let mut id = 0;
        called(self.raw.call(now, &what, request.path, request.body, &etags, &if_match, &mut id)).map(|()| CallId(id))
    }

    /// Takes an observation, whose registration starts in `handle_timeout`. Its number.
    pub fn observe(&mut self, now: Instant, path: &str) -> Result<CallId, CallError> {
        let (now, mut id) = (self.around.moment(now), 0);
        called(self.raw.observe(now, path, &mut id)).map(|()| CallId(id))
    }

    /// Takes the cancel of an observation, which is asked of the server; `Report::Cancelled` is its last report.
    pub fn cancel(&mut self, now: Instant, id: CallId) -> Result<(), CancelError> {
        cancelled(self.raw.cancel(self.around.moment(now), id.0))
    }

    /// Forgets an observation, with no message and no further report. False where none is live with that number.
    pub fn forget(&mut self, id: CallId) -> bool {
        self.raw.forget(id.0) == raw::KS_DONE
    }

    /// Takes a datagram that arrived. One from a stranger for whom no place is left is dropped, and counts as lost.
    pub fn handle(&mut self, now: Instant, from: impl Into<P>, datagram: &[u8]) -> Result<(), OutOfMemory> {
        let (now, word) = (self.pass(now), self.around.word());
        match self.names.fed(now, &from.into()) {
            Ok(from) => ticked(self.raw.feed(now, &from, datagram, word)).map(|_| ()),
            Err(NamesError::Memory) => Err(OutOfMemory),
            Err(_) => Ok(()),
        }
    }

    /// When to call `handle_timeout`, unless something is handed in before. None: never.
    #[must_use = "nothing else tells when to call `handle_timeout`"]
    pub fn poll_timeout(&self) -> Option<Instant> {
        let mut at = 0;
        match self.raw.due(&mut at) {
            raw::KS_DONE => self.around.instant(at),
            _ => None,
        }
    }

    /// Does all that is due: starts what waits, sends again, ends waits.
    pub fn handle_timeout(&mut self, now: Instant) -> Result<(), OutOfMemory> {
        let now = self.pass(now);
        loop {
            let word = self.around.word();
            if !ticked(self.raw.tick(now, word))? {
                return Ok(());
            }
        }
    }

    /// The datagram that is to be sent next, in the buffer.
    #[must_use = "a datagram that is not sent is lost"]
    pub fn poll_transmit(&mut self, buffer: &mut [u8; MAX_DATAGRAM]) -> Option<Transmit<P>> {
        let (mut to, mut size) = (raw::ks_address::default(), 0);
        while self.raw.next_out(&mut to, buffer, &mut size) == raw::KS_DONE {
            // (what goes to a stranger that was forgotten goes nowhere)
            if let Some(destination) = self.names.sent(self.latest, &to) {
                return Some(Transmit { destination, size });
            }
        }
        None
    }

    /// How much the client has at this moment.
    pub fn load(&self, now: Instant) -> Load {
        let mut told = load::empty();
        self.raw.load(self.around.moment(now), &mut told);
        Load::of(&told)
    }

    /// What `handle` would make of the datagram at this moment.
    pub fn would(&self, now: Instant, from: impl Into<P>, datagram: &[u8]) -> Would {
        // (nobody has the name that stands for a peer that is not known)
        let from = self.names.find(&from.into()).unwrap_or_default();
        Would::of(self.raw.would(self.around.moment(now), &from, datagram))
    }

    /// What became of a call or an observation, in order.
    #[must_use = "each report is told once"]
    pub fn poll_report(&mut self) -> Option<(CallId, Report)> {
        let mut told = raw::ks_report::default();
        loop {
            match self.raw.next_report(&mut told, &mut self.room) {
                raw::KS_SMALL_ROOM => self.room.resize(told.body_len, 0),
                raw::KS_DONE => break,
                _ => return None,
            }
        }
        let tag = Tag::new(told.tag.get(..usize::from(told.tag_len)).unwrap_or_default());
        let code = Code(told.code);
        let body = || self.room.get(..told.body_len).unwrap_or_default().to_vec();
        let fetched = || Fetched { tag, format: format_of(told.format), body: body() };
        let report = match told.kind {
            raw::KS_BODY => Report::Body(fetched()),
            raw::KS_VALID => Report::Valid(tag),
            raw::KS_SUCCESS => Report::Done(code),
            raw::KS_VALUE => Report::Value(told.sequence, fetched()),
            raw::KS_ENDED => Report::Ended(code),
            raw::KS_CANCELLED => Report::Cancelled,
            raw::KS_FAILED => Report::Failed(code),
            raw::KS_TIMEOUT => Report::Timeout,
            raw::KS_RESET => Report::Reset,
            raw::KS_NO_RESPONSE => Report::NoResponse,
            raw::KS_CHANGED => Report::Changed,
            raw::KS_BAD_BLOCK => Report::BadBlock,
            raw::KS_NO_TAG => Report::NoTag,
            raw::KS_TOO_LARGE => Report::TooLarge,
            _ => Report::NoIds,
        };
        Some((CallId(told.id), report))
    }
}

impl<P: Peer> fmt::Debug for Client<P> {
    fn fmt(&self, f: &mut fmt::Formatter<'_>) -> fmt::Result {
        f.debug_struct("Client").field("due", &self.poll_timeout()).finish_non_exhaustive()
    }
}
