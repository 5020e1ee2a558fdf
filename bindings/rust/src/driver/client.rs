//! A client whose calls block.

use super::socket::Socket;
use super::{Error, OpenError};
use crate::{CallError, CallId, Code, Config, Fetched, Report, Request};
use std::iter::FusedIterator;
use std::net::{Ipv4Addr, SocketAddrV4};
use std::ops::ControlFlow;
use std::time::{Duration, Instant};

/// A client of one server, at a free port of its own. A call returns once its last report is there. Keep it for all
/// calls: who opens a client for each meets by and by a port that an earlier one had, and then a call may be answered as a
/// copy of an old one, and end in a Timeout (`docs/EMBEDDING.md`, "What a restart breaks").
///
/// An acknowledgement that does not come is awaited for up to 93 s; a response that was acknowledged, for longer.
#[derive(Debug)]
pub struct Client {
    end: crate::Client,
    socket: Socket,
}

/// The values of an observation, in order: [`Iterator::next`] waits for the next one. After an error there is none.
///
/// It reads the socket only while it waits. A server forgets an observer that does not acknowledge what it sends: so come
/// back within some seconds, or give the client a thread. When it is dropped, the observation is forgotten.
#[derive(Debug)]
pub struct Observation<'a> {
    client: &'a mut Client,
    id: CallId,
    live: bool,
}

impl Client {
    /// A client of the server at that address.
    pub fn open(server: SocketAddrV4) -> Result<Client, OpenError> {
        Client::open_with(server, &Config::default())
    }

    /// The same, made with that configuration.
    pub fn open_with(server: SocketAddrV4, config: &Config) -> Result<Client, OpenError> {
        let socket = Socket::open(SocketAddrV4::new(Ipv4Addr::UNSPECIFIED, 0))?;
        Ok(Client { end: crate::Client::new(config, server, Instant::now())?, socket })
    }

    /// What the path holds.
    pub fn get(&mut self, path: &str) -> Result<Fetched, Error> {
        match self.call(&Request::get(path))? {
            Report::Body(fetched) => Ok(fetched),
            other => Err(other.into()),
        }
    }

    /// Has the path hold that body: 2.01 or 2.04. It was applied once where this is `Ok`.
    pub fn put(&mut self, path: &str, format: Option<u16>, body: &[u8]) -> Result<Code, Error> {
        self.change(&Request::put(path, format, body))
    }

    /// Has the server process that body.
    pub fn post(&mut self, path: &str, format: Option<u16>, body: &[u8]) -> Result<Code, Error> {
        self.change(&Request::post(path, format, body))
    }

    /// Has the path hold nothing: 2.02.
    pub fn delete(&mut self, path: &str) -> Result<Code, Error> {
        self.change(&Request::delete(path))
    }

    /// Makes a call with conditions and formats of its own: its last report.
    pub fn call(&mut self, request: &Request<'_>) -> Result<Report, CallError> {
        let id = self.end.call(Instant::now(), request)?;
        loop {
            if let Some(report) = self.report(id, None) {
                return Ok(report);
            }
        }
    }

    /// Observes what the path holds.
    pub fn observe(&mut self, path: &str) -> Result<Observation<'_>, Error> {
        let id = self.end.observe(Instant::now(), path)?;
        Ok(Observation { client: self, id, live: true })
    }

    /// Observes what the path holds, hands over each value, and returns once the observation has ended: after a `Break`
    /// it is cancelled.
    pub fn observe_each(&mut self, path: &str, mut each: impl FnMut(Fetched) -> ControlFlow<()>) -> Result<(), Error> {
        let mut values = self.observe(path)?;
        for value in values.by_ref() {
            if each(value?).is_break() {
                break;
            }
        }
        values.cancel()
    }

    fn change(&mut self, request: &Request<'_>) -> Result<Code, Error> {
        match self.call(request)? {
            Report::Done(code) => Ok(code),
            other => Err(other.into()),
        }
    }

    /// The next report of that number. None where none comes until that moment.
    fn report(&mut self, id: CallId, until: Option<Instant>) -> Option<Report> {
        loop {
            self.send();
            // (others are those of an observation that was leaked)
            while let Some((of, report)) = self.end.poll_report() {
                if of == id {
                    return Some(report);
                }
            }
            if until.is_some_and(|until| until <= Instant::now()) {
                return None;
            }
            let due = [self.end.poll_timeout(), until].into_iter().flatten().min();
            if let Some((from, datagram)) = self.socket.receive(due) {
                // (one that finds no memory is lost)
                let _ = self.end.handle(Instant::now(), from, datagram);
            }
        }
    }

    /// Does what is due, and sends what is out.
    fn send(&mut self) {
        // (where there is no memory, what is due is done later)
        let _ = self.end.handle_timeout(Instant::now());
        let end = &mut self.end;
        self.socket.send_all(|buffer| end.poll_transmit(buffer));
    }
}

impl Observation<'_> {
    /// The next value, if one comes in that time; else [`Error::Silent`], after which the observation goes on. A server that
    /// began anew is silent for ever, since it forgot its observers: drop the observation then, and observe anew.
    pub fn next_within(&mut self, patience: Duration) -> Option<Result<Fetched, Error>> {
        self.value(Instant::now().checked_add(patience))
    }

    /// Cancels the observation at the server, and returns once that is done.
    pub fn cancel(mut self) -> Result<(), Error> {
        // (it has ended already where this is refused)
        if !self.live || self.client.end.cancel(Instant::now(), self.id).is_err() {
            return Ok(());
        }
        loop {
            match self.value(None) {
                Some(Ok(_)) => {}
                Some(Err(why)) => return Err(why),
                None => return Ok(()),
            }
        }
    }

    fn value(&mut self, until: Option<Instant>) -> Option<Result<Fetched, Error>> {
        if !self.live {
            return None;
        }
        match self.client.report(self.id, until) {
            Some(Report::Value(_, fetched)) => Some(Ok(fetched)),
            Some(last) => {
                self.live = false;
                (last != Report::Cancelled).then(|| Err(last.into()))
            }
            None => Some(Err(Error::Silent)),
        }
    }
}

impl Iterator for Observation<'_> {
    type Item = Result<Fetched, Error>;

    fn next(&mut self) -> Option<Result<Fetched, Error>> {
        self.value(None)
    }
}

impl FusedIterator for Observation<'_> {}

impl Drop for Observation<'_> {
    fn drop(&mut self) {
        if self.live {
            self.client.end.forget(self.id);
        }
    }
}
