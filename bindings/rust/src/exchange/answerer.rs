//! A server whose answers the program computes.

use super::errors::{answered, deferred, notified, responded};
use super::errors::{AnswerError, DeferError, NotifyError, RespondError};
use super::{Message, OptionNumber, Token};
use crate::errors::{made, NewError, OutOfMemory};
use crate::message::{Code, Kind};
use crate::setting::{address, socket_address, Config, Surroundings, Transmit};
use crate::{raw, raw_exchange, MAX_DATAGRAM};
use std::collections::VecDeque;
use std::fmt;
use std::net::SocketAddrV4;
use std::time::{Duration, Instant};

/// How many of those that ended an answerer keeps.
const MOST_ENDED: usize = 256;

/// A server of CoAP whose answers the program computes (RFC 7252, section 5.2).
///
/// [`Answerer::handle`] hands up each request once, as long as it is remembered. Answer it, or defer it, before the
/// next call of `handle`, `handle_timeout` or `notify`: after that it can have no answer, and its copies get none. A
/// copy of a Confirmable request gets the same answer again, byte for byte, and is not handed up.
///
/// After each call take [`Answerer::poll_transmit`] until `None`, and send what it gives at once or never.
pub struct Answerer {
    raw: raw_exchange::Answerer,
    around: Surroundings,
    room: [u8; MAX_DATAGRAM],
    ended: VecDeque<Ended>,
    /// How many ended.
    ends: u64,
}

/// What a Reset or a failure ended: a notification, or the answer to a deferred request (RFC 7252, section 5.2.2; RFC
/// 7641, sections 3.6 and 4.5).
#[derive(Clone, Copy, Debug, PartialEq, Eq)]
pub struct Ended {
    number: u64,
    to: SocketAddrV4,
    token: Token,
    observe: bool,
}

/// A request that was handed up, as its answer needs it. It may be kept and copied.
#[derive(Clone, Copy, PartialEq, Eq, Hash)]
pub struct Asked {
    from: SocketAddrV4,
    kind: Kind,
    id: u16,
    token: Token,
}

/// A request that is handed up.
#[derive(Clone, Copy)]
#[must_use = "a request that is not answered before the next call of `handle` never is"]
pub struct Request<'d> {
    asked: Asked,
    code: Code,
    datagram: &'d [u8],
    payload: &'d [u8],
}

impl Answerer {
    /// A server to which nothing has happened. Of the configuration only `remembered` and `rng_seed` count.
    pub fn new(config: &Config, now: Instant) -> Result<Answerer, NewError> {
        let mut around = Surroundings::new(config, now);
        let mut raw = raw_exchange::Answerer::empty();
        made(raw.make(config.remembered, &around.seed()))?;
        Ok(Answerer { raw, around, room: [0; MAX_DATAGRAM], ended: VecDeque::new(), ends: 0 })
    }

    /// Takes a datagram that arrived. The request that it is, where it is one that was not handed up before.
    pub fn handle<'d>(
        &mut self,
        now: Instant,
        from: SocketAddrV4,
        datagram: &'d [u8],
    ) -> Result<Option<Request<'d>>, OutOfMemory> {
        let mut told = raw_exchange::ks_request_told::default();
        match self.raw.feed(self.around.moment(now), &address(from), datagram, &mut told) {
            raw::KS_OK => {
                self.take_ended();
                Ok(None)
            }
            raw::KS_DONE => {
                let payload = &datagram[datagram.len().saturating_sub(told.payload_len)..];
                let asked = Asked::told(&told.asked);
                // (it may register anew, with the token of an observation that ended)
                self.ended.retain(|ended| ended.to != asked.from || ended.token != asked.token);
                Ok(Some(Request { asked, code: Code(told.code), datagram, payload }))
            }
            _ => Err(OutOfMemory),
        }
    }

    /// Sends the answer to the request that the last `handle` told: in the acknowledgement of a Confirmable one, and to
    /// another in a Non-confirmable message (RFC 7252, sections 5.2.1 and 5.2.3).
    pub fn answer(&mut self, asked: &Asked, message: &Message) -> Result<(), AnswerError> {
        let len = message.spell(&Token::default(), &mut self.room)?;
        answered(self.raw.answer(&asked.raw(), &self.room[..len]))
    }

    /// Acknowledges the Confirmable request that the last `handle` told. [`Answerer::handle_timeout`] calls it ready
    /// after that delay (in whole milliseconds), and after those that were deferred before and are ready.
    ///
    /// So a handler has to know its delay. One that does not defers by [`Duration::ZERO`]: each `handle_timeout` calls
    /// the request ready again until it is answered, `poll_timeout` says now, and the ready ones that were deferred
    /// after it wait.
    pub fn defer(&mut self, now: Instant, asked: &Asked, delay: Duration) -> Result<(), DeferError> {
        let ms = u64::try_from(delay.as_millis()).unwrap_or(u64::MAX);
        deferred(self.raw.defer(self.around.moment(now), &asked.raw(), ms))
    }

    /// Does all that is due: retransmissions, and the calls of deferred requests. The first of these that is ready,
    /// until the next call of `handle`, `handle_timeout` or `notify`: answer it by [`Answerer::respond`], and call
    /// this again.
    #[must_use = "a deferred request is answered now, or called again"]
    pub fn handle_timeout(&mut self, now: Instant) -> Result<Option<Asked>, OutOfMemory> {
        let (now, mut ready) = (self.around.moment(now), raw_exchange::ks_asked::default());
        loop {
            match self.raw.tick(now, &mut ready) {
                raw::KS_OK => return Ok(None),
                raw::KS_DONE => self.take_ended(),
                raw_exchange::KS_READY => return Ok(Some(Asked::told(&ready))),
                _ => return Err(OutOfMemory),
            }
        }
    }

    /// Sends the answer to the deferred request that the last `handle_timeout` called ready, in a Confirmable message
    /// of its own (RFC 7252, section 5.2.2).
    pub fn respond(&mut self, asked: &Asked, message: &Message) -> Result<(), RespondError> {
        let len = message.spell(&Token::default(), &mut self.room)?;
        responded(self.raw.respond(&asked.raw(), &self.room[..len], self.around.word()))
    }

    /// When to call `handle_timeout`, unless something is handed in before: from that moment on. None: never.
    #[must_use = "nothing else tells when to call `handle_timeout`"]
    pub fn poll_timeout(&self, now: Instant) -> Option<Instant> {
        let mut at = 0;
        match self.raw.due(self.around.moment(now), &mut at) {
            raw::KS_DONE => self.around.instant(at),
            _ => None,
        }
    }

    /// The datagram that is to be sent next, in the buffer.
    #[must_use = "a datagram that is not sent is lost"]
    pub fn poll_transmit(&mut self, buffer: &mut [u8; MAX_DATAGRAM]) -> Option<Transmit<SocketAddrV4>> {
        let (mut to, mut size) = (raw::ks_address::default(), 0);
        let answer = self.raw.next_out(&mut to, buffer, &mut size);
        (answer == raw::KS_DONE).then(|| Transmit { destination: socket_address(to), size })
    }

    /// Whether a notification could be sent there now: no Confirmable message to there is outstanding (NSTART is 1: RFC
    /// 7252, section 4.7), and a Message ID is free.
    pub fn may_notify(&self, now: Instant, to: SocketAddrV4) -> bool {
        self.raw.ready(self.around.moment(now), &address(to)) == raw::KS_DONE
    }

    /// Sends a notification in a Confirmable message (RFC 7641, section 4.2), with the token of the registration and an
    /// Observe of yours: its Message ID. Who observes, the program keeps.
    pub fn notify(
        &mut self,
        now: Instant,
        to: SocketAddrV4,
        token: &Token,
        message: &Message,
    ) -> Result<u16, NotifyError> {
        let len = message.spell(&Token::default(), &mut self.room)?;
        let (now, word, mut id) = (self.around.moment(now), self.around.word(), 0);
        let answer = self.raw.notify(now, &address(to), token.as_slice(), &self.room[..len], word, &mut id);
        notified(answer).map(|()| id)
    }

    /// The same in a Non-confirmable message (RFC 7641, section 4.5): nothing waits for an acknowledgement, and a Reset
    /// of it is what [`Answerer::unmatched`] tells, with this Message ID.
    pub fn notify_plain(
        &mut self,
        now: Instant,
        to: SocketAddrV4,
        token: &Token,
        message: &Message,
    ) -> Result<u16, NotifyError> {
        let len = message.spell(&Token::default(), &mut self.room)?;
        let (now, mut id) = (self.around.moment(now), 0);
        let answer = self.raw.notify_plain(now, &address(to), token.as_slice(), &self.room[..len], &mut id);
        notified(answer).map(|()| id)
    }

    /// How many places of its tables are taken, as far as it tells, and how many there are.
    pub fn load(&self) -> Load {
        let mut load = raw_exchange::ks_load::default();
        let answer = self.raw.load(&mut load);
        debug_assert_eq!(answer, raw::KS_OK);
        Load {
            deferred: load.deferred,
            most_deferred: load.most_deferred,
            most_remembered: load.most_remembered,
        }
    }
}

/// How many places of a server's tables are taken, as far as it tells, and how many there are. How many messages it
/// remembers now, and how many of its messages are outstanding, it does not tell; [`Answerer::may_notify`] says of one
/// address whether one is.
#[derive(Clone, Copy, Debug, PartialEq, Eq)]
#[non_exhaustive]
pub struct Load {
    /// So many requests are deferred.
    pub deferred: usize,
    /// So many can be deferred.
    pub most_deferred: usize,
    /// So many messages can be remembered (RFC 7252, section 4.5).
    pub most_remembered: usize,
}

impl Answerer {
    /// What ended since the one of that number (0: since the first), the oldest first: who observes by that token does
    /// so no more. [`super::Observers::tell`] looks itself. The last 256 are kept, each until a request comes from there
    /// with that token.
    pub fn ended_since(&self, number: u64) -> impl Iterator<Item = &Ended> {
        self.ended.iter().filter(move |ended| ended.number > number)
    }

    /// The Reset that the last `handle` took of no Confirmable message that is outstanding, as of an answer in a
    /// Non-confirmable one: where it came from, and its Message ID (RFC 7641, section 3.6).
    pub fn unmatched(&self) -> Option<(SocketAddrV4, u16)> {
        let (mut from, mut id) = (raw::ks_address::default(), 0);
        (self.raw.unmatched(&mut from, &mut id) == raw::KS_DONE).then(|| (socket_address(from), id))
    }

    /// Keeps what the last feed or tick ended.
    fn take_ended(&mut self) {
        let (mut to, mut token) = (raw::ks_address::default(), raw_exchange::ks_token::default());
        let mut observe = false;
        if self.raw.ended(&mut to, &mut token, &mut observe) != raw::KS_DONE {
            return;
        }
        if self.ended.len() == MOST_ENDED {
            self.ended.pop_front();
        }
        self.ends += 1;
        let (to, token) = (socket_address(to), Token::told(&token.bytes, token.len));
        self.ended.push_back(Ended { number: self.ends, to, token, observe });
    }
}

impl Ended {
    /// Its number: that of the first is 1.
    pub fn number(&self) -> u64 {
        self.number
    }

    /// Where it went.
    pub fn to(&self) -> SocketAddrV4 {
        self.to
    }

    /// Its token.
    pub fn token(&self) -> &Token {
        &self.token
    }

    /// Whether it carried Observe, as a notification does (RFC 7641, section 3.2).
    pub fn observe(&self) -> bool {
        self.observe
    }
}

impl Asked {
    /// Where it came from.
    pub fn from(&self) -> SocketAddrV4 {
        self.from
    }

    /// Confirmable or Non-confirmable.
    pub fn kind(&self) -> Kind {
        self.kind
    }

    /// Its Message ID.
    pub fn id(&self) -> u16 {
        self.id
    }

    /// Its token, which a registration has in common with its notifications.
    pub fn token(&self) -> &Token {
        &self.token
    }

    fn told(asked: &raw_exchange::ks_asked) -> Asked {
        Asked {
            from: socket_address(asked.from),
            kind: if asked.kind == raw::KS_CON { Kind::Confirmable } else { Kind::NonConfirmable },
            id: asked.id,
            token: Token::told(&asked.token, asked.token_len),
        }
    }

    fn raw(&self) -> raw_exchange::ks_asked {
        let (token, token_len) = self.token.parts();
        let kind = if self.kind == Kind::Confirmable { raw::KS_CON } else { raw::KS_NON };
        raw_exchange::ks_asked { from: address(self.from), id: self.id, kind, token_len, token }
    }
}

impl Request<'_> {
    /// What its answer needs of it.
    pub fn asked(&self) -> Asked {
        self.asked
    }

    /// Its method: of class 0.
    pub fn code(&self) -> Code {
        self.code
    }

    /// Its payload: empty where it has none.
    pub fn payload(&self) -> &[u8] {
        self.payload
    }

    /// All that it asks, to be kept.
    pub fn message(&self) -> Message {
        Message::read(self.datagram).unwrap_or_else(|| Message::new(self.code))
    }

    /// Its first critical option that is none of these. Then 4.02 is to be answered to a Confirmable request, and
    /// nothing to another (RFC 7252, section 5.4.1).
    pub fn unknown_critical(&self, known: &[OptionNumber]) -> Option<OptionNumber> {
        let known: Vec<u16> = known.iter().map(|number| number.0).collect();
        let mut number = 0;
        let answer = raw_exchange::unknown_critical(self.datagram, &known, &mut number);
        (answer == raw::KS_DONE).then_some(OptionNumber(number))
    }
}

impl fmt::Debug for Answerer {
    fn fmt(&self, f: &mut fmt::Formatter<'_>) -> fmt::Result {
        f.debug_struct("Answerer").finish_non_exhaustive()
    }
}

impl fmt::Debug for Asked {
    fn fmt(&self, f: &mut fmt::Formatter<'_>) -> fmt::Result {
        write!(f, "Asked({}, {:?}, {:#06x}, {:?})", self.from, self.kind, self.id, self.token)
    }
}

impl fmt::Debug for Request<'_> {
    fn fmt(&self, f: &mut fmt::Formatter<'_>) -> fmt::Result {
        f.debug_struct("Request").field("asked", &self.asked).field("message", &self.message()).finish()
    }
}
