//! A client for any request of one datagram, whose calls block.

use super::socket::Socket;
use super::{NoAnswer, NoBody, OpenError};
use crate::exchange::blocks::{Fetch, Fetched, Upload};
use crate::exchange::{self, Answer, Message, Token};
use crate::{Code, Config};
use std::collections::VecDeque;
use std::net::{Ipv4Addr, SocketAddrV4};
use std::time::{Duration, Instant};

/// A client of one server, at a free port of its own, for any request of one datagram. A call returns once its answer
/// is there: up to 93 s later, and where the request was acknowledged, up to 247 s.
#[derive(Debug)]
pub struct Asker {
    end: exchange::Asker,
    socket: Socket,
    /// What came while another request ran.
    notifications: VecDeque<(Token, Message)>,
}

impl Asker {
    /// A client of the server at that address.
    pub fn open(server: SocketAddrV4) -> Result<Asker, OpenError> {
        Asker::open_with(server, &Config::default())
    }

    /// The same, made with that configuration.
    pub fn open_with(server: SocketAddrV4, config: &Config) -> Result<Asker, OpenError> {
        let socket = Socket::open(SocketAddrV4::new(Ipv4Addr::UNSPECIFIED, 0))?;
        let end = exchange::Asker::new(config, server, Instant::now())?;
        Ok(Asker { end, socket, notifications: VecDeque::new() })
    }

    /// Asks: the response, of whatever code.
    pub fn ask(&mut self, request: &Message) -> Result<Message, NoAnswer> {
        self.end.ask(Instant::now(), request)?;
        self.response()
    }

    /// Registers by a GET with an Observe of 0: the token of the observation, where the response has an Observe, too,
    /// and the response (RFC 7641, section 3.1). At most 16 observations are live.
    pub fn observe(&mut self, request: &Message) -> Result<(Option<Token>, Message), NoAnswer> {
        let token = self.end.ask(Instant::now(), request)?;
        let is_kept = self.end.keep(&token);
        match self.response() {
            Ok(response) if is_kept && response.observe().is_some() => Ok((Some(token), response)),
            other => {
                self.end.release(&token);
                other.map(|response| (None, response))
            }
        }
    }

    /// The next notification in the order of their arrival, and the token of its observation, if one comes in that
    /// time.
    pub fn notification(&mut self, patience: Duration) -> Option<(Token, Message)> {
        let until = Instant::now().checked_add(patience);
        loop {
            if let Some(first) = self.notifications.pop_front() {
                return Some(first);
            }
            if until.is_some_and(|until| until <= Instant::now()) {
                return None;
            }
            self.turn(until);
        }
    }

    /// Cancels the observation with that token, by a GET with an Observe of 1: the response (RFC 7641, section 3.6).
    pub fn cancel(&mut self, observation: &Token, request: &Message) -> Result<Message, NoAnswer> {
        self.end.cancel(Instant::now(), observation, request)?;
        self.end.release(observation);
        self.response()
    }

    /// Fetches a body in blocks, by a request that is asked again for each (RFC 7959, section 2.4):
    /// [`Fetched::Whole`], or, of a [`Fetch::untagged`], [`Fetched::Joined`].
    pub fn load(&mut self, request: &Message, mut fetch: Fetch) -> Result<Fetched, NoBody> {
        let mut asked = None;
        loop {
            let response = self.ask(&asked.map_or(request.clone(), |block| request.clone().with_block2(block)))?;
            if response.code() != Code::CONTENT {
                return Err(NoBody::Response(response));
            }
            match fetch.accept(&response)? {
                Fetched::Ask(block) => asked = Some(block),
                Fetched::Again => asked = None,
                done => return Ok(done),
            }
        }
    }

    /// Sends a body in blocks, by a request that is sent again with each (RFC 7959, section 2.5): the response to the
    /// last one, or to one that the server did not take.
    pub fn store(&mut self, request: &Message, mut upload: Upload) -> Result<Message, NoAnswer> {
        loop {
            let (block, bytes) = upload.block();
            let response = self.ask(&request.clone().with_block1(block).with_payload(bytes))?;
            if !upload.accepted(&response) {
                return Ok(response);
            }
        }
    }

    fn response(&mut self) -> Result<Message, NoAnswer> {
        loop {
            match self.turn(None) {
                Some(Answer::Response(response)) => return Ok(response),
                Some(Answer::Timeout) => return Err(NoAnswer::Timeout),
                Some(Answer::Reset) => return Err(NoAnswer::Reset),
                Some(Answer::NoResponse) => return Err(NoAnswer::NoResponse),
                Some(Answer::Notification(..)) | None => {}
            }
        }
    }

    /// Does what is due, and waits for one datagram. What ended an exchange.
    fn turn(&mut self, until: Option<Instant>) -> Option<Answer> {
        // (where there is no memory, what is due is done later)
        let ended = self.end.handle_timeout(Instant::now()).unwrap_or(None);
        self.send();
        if ended.is_some() {
            return ended;
        }
        let due = [self.end.poll_timeout(Instant::now()), until].into_iter().flatten().min();
        let (from, datagram) = self.socket.receive(due)?;
        // (one that finds no memory is lost)
        let brought = self.end.handle(Instant::now(), from, datagram).unwrap_or(None);
        self.send();
        if let Some(Answer::Notification(token, message)) = brought {
            self.notifications.push_back((token, message));
            return None;
        }
        brought
    }

    fn send(&mut self) {
        let end = &mut self.end;
        self.socket.send_all(|buffer| end.poll_transmit(buffer));
    }
}
