//! A client of one server, for any request of one datagram.

use super::errors::{asked, AskError};
use super::{Message, Token};
use crate::errors::{made, ticked, NewError, OutOfMemory};
use crate::setting::{address, socket_address, Config, Surroundings, Transmit};
use crate::{raw, raw_exchange, MAX_DATAGRAM};
use std::fmt;
use std::net::SocketAddrV4;
use std::time::Instant;

/// A client of one server, for any request of one datagram (RFC 7252, section 5). It runs one exchange at a time
/// (NSTART is 1: section 4.7).
///
/// A request goes out in a Confirmable message with a fresh token, and has one answer: [`Answer`]. After each call take
/// [`Asker::poll_transmit`] until `None`, and send what it gives at once or never.
pub struct Asker {
    raw: raw_exchange::Asker,
    around: Surroundings,
    room: [u8; MAX_DATAGRAM],
}

/// What became of a request, or what came beside it.
#[derive(Clone, Debug, PartialEq, Eq)]
#[non_exhaustive]
pub enum Answer {
    /// Its response.
    Response(Message),
    /// A notification, which has a token that is kept (RFC 7641, section 3.2). It ends no exchange.
    Notification(Token, Message),
    /// No acknowledgement came, for up to 93 s (RFC 7252, section 4.2).
    Timeout,
    /// The server rejected the request by a Reset.
    Reset,
    /// It was acknowledged, but no response came within 247 s (RFC 7252, section 5.2.2).
    NoResponse,
}

impl Asker {
    /// A client of that server, to which nothing has happened. Of the configuration only `remembered` and `rng_seed`
    /// count.
    pub fn new(config: &Config, server: SocketAddrV4, now: Instant) -> Result<Asker, NewError> {
        let mut around = Surroundings::new(config, now);
        let mut raw = raw_exchange::Asker::empty();
        made(raw.make(&address(server), config.remembered, &around.seed()))?;
        Ok(Asker { raw, around, room: [0; MAX_DATAGRAM] })
    }

    /// Sends a request: a GET, POST, PUT or DELETE; FETCH is for servers alone. The token that it got.
    pub fn ask(&mut self, now: Instant, request: &Message) -> Result<Token, AskError> {
        self.send(now, &Token::default(), request)
    }

    /// Sends the request that cancels the observation with that token: it goes out with that token (RFC 7641, section
    /// 3.6), and says so itself, by an Observe of 1.
    pub fn cancel(&mut self, now: Instant, observation: &Token, request: &Message) -> Result<(), AskError> {
        self.send(now, observation, request).map(|_| ())
    }

    fn send(&mut self, now: Instant, token: &Token, request: &Message) -> Result<Token, AskError> {
        let len = request.spell(token, &mut self.room)?;
        let mut given = raw_exchange::ks_token::default();
        let (now, word) = (self.around.moment(now), self.around.word());
        asked(self.raw.ask(now, &self.room[..len], word, &mut given)).map(|()| Token::told(&given.bytes, given.len))
    }

    /// Takes a datagram that arrived. What it brought, where it brought something.
    #[must_use = "what came of a request is told once"]
    pub fn handle(&mut self, now: Instant, from: SocketAddrV4, datagram: &[u8]) -> Result<Option<Answer>, OutOfMemory> {
        ticked(self.raw.feed(self.around.moment(now), &address(from), datagram))?;
        Ok(self.answer(datagram))
    }

    /// Does all that is due: sends a request again, ends an exchange. What came of the request, where it ended: then
    /// there may be more to do.
    #[must_use = "what came of a request is told once"]
    pub fn handle_timeout(&mut self, now: Instant) -> Result<Option<Answer>, OutOfMemory> {
        let now = self.around.moment(now);
        while ticked(self.raw.tick(now))? {
            if let Some(answer) = self.answer(&[]) {
                return Ok(Some(answer));
            }
        }
        Ok(None)
    }

    /// When to call `handle_timeout`, unless something is handed in before: from that moment on. None: never.
    #[must_use = "nothing else tells when to call `handle_timeout`"]
    pub fn poll_timeout(&self, now: Instant) -> Option<Instant> {
        let mut at = 0;
        match self.raw.due(self.around.moment(now), &mut at) {
            raw::KS_DONE => self.around.instant(at),
            _ => None,
        }
    }

    /// The datagram that is to be sent next, in the buffer.
    #[must_use = "a datagram that is not sent is lost"]
    pub fn poll_transmit(&mut self, buffer: &mut [u8; MAX_DATAGRAM]) -> Option<Transmit<SocketAddrV4>> {
        let (mut to, mut size) = (raw::ks_address::default(), 0);
        let answer = self.raw.next_out(&mut to, buffer, &mut size);
        (answer == raw::KS_DONE).then(|| Transmit { destination: socket_address(to), size })
    }

    /// Keeps the token of an observation, so that its notifications are told: call it when the registration is asked
    /// for, before its answer is handed in. False where 16 others are kept.
    #[must_use = "a notification whose token isn't kept is rejected"]
    pub fn keep(&mut self, token: &Token) -> bool {
        self.raw.keep(token.as_slice()) == raw::KS_DONE
    }

    /// Keeps it no more, so that its notifications are rejected. Whether it was kept.
    pub fn release(&mut self, token: &Token) -> bool {
        self.raw.release(token.as_slice()) == raw::KS_DONE
    }

    // What the last feed or tick brought; of a feed, in this datagram.
    fn answer(&mut self, datagram: &[u8]) -> Option<Answer> {
        let mut told = raw_exchange::ks_answer::default();
        if self.raw.next_answer(&mut told) != raw::KS_DONE {
            return None;
        }
        match told.kind {
            raw_exchange::KS_RESPONSE => Message::read(datagram).map(Answer::Response),
            raw_exchange::KS_NOTIFICATION => {
                let token = Token::told(&told.token, told.token_len);
                Message::read(datagram).map(|message| Answer::Notification(token, message))
            }
            raw::KS_TIMEOUT => Some(Answer::Timeout),
            raw::KS_RESET => Some(Answer::Reset),
            _ => Some(Answer::NoResponse),
        }
    }
}

impl fmt::Debug for Asker {
    fn fmt(&self, f: &mut fmt::Formatter<'_>) -> fmt::Result {
        f.debug_struct("Asker").finish_non_exhaustive()
    }
}
