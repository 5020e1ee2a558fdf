//! A server's loop.

use super::socket::Socket;
use super::OpenError;
use crate::{peek, Applied, Config, Message, Representation, SetError};
use std::fmt;
use std::net::SocketAddrV4;
use std::ops::ControlFlow;
use std::time::{Duration, Instant};

/// The class of a request's code (RFC 7252, section 5.2); that of an Empty message, too.
const CLASS_OF_REQUESTS: u8 = 0;

/// A server and its socket. Whoever reaches its port may write, make and delete every path of it, unless a rule of yours
/// says otherwise ([`Server::judge_by`]).
///
/// It serves in [`Server::run`] and [`Server::turn`] alone. What arrives between two turns waits in the socket's buffer.
pub struct Server {
    end: crate::Server,
    socket: Socket,
    rule: Option<Box<Rule>>,
}

type Rule = dyn FnMut(SocketAddrV4, &Message) -> Verdict + Send;

/// What becomes of a request.
#[derive(Clone, Copy, Debug, PartialEq, Eq, Hash)]
pub enum Verdict {
    /// It is served.
    Serve,
    /// It is answered with 4.05, and is not served ([`crate::Server::refuse`]).
    Refuse,
    /// It looks lost: its client sends it again, for up to 93 s.
    Drop,
}

impl Server {
    /// A server at that address of the own host, which holds nothing. Port 0 stands for one that is free.
    pub fn open(at: SocketAddrV4, config: &Config) -> Result<Server, OpenError> {
        let socket = Socket::open(at)?;
        Ok(Server { end: crate::Server::new(config, Instant::now())?, socket, rule: None })
    }

    /// The address of its socket.
    pub fn address(&self) -> SocketAddrV4 {
        self.socket.address()
    }

    /// The end itself: choose delays and plain paths here, before the first turn. Take nothing out of it.
    pub fn end(&mut self) -> &mut crate::Server {
        &mut self.end
    }

    /// Has that rule judge each request, by its sender and what it says. A copy that was dropped is judged again.
    pub fn judge_by(&mut self, rule: impl FnMut(SocketAddrV4, &Message) -> Verdict + Send + 'static) {
        self.rule = Some(Box::new(rule));
    }

    /// Has the path hold the body, unless it does: its version, and whether it was set. The next turn tells its observers.
    pub fn update(&mut self, path: &str, format: Option<u16>, body: &[u8]) -> Result<(u64, bool), SetError> {
        self.end.update(Instant::now(), path, format, body)
    }

    /// Takes away what the path holds, and whether it held something.
    pub fn remove(&mut self, path: &str) -> Result<bool, SetError> {
        self.end.remove(Instant::now(), path)
    }

    /// What the path holds.
    pub fn get(&self, path: &str) -> Option<Representation> {
        self.end.get(path)
    }

    /// Takes a turn without end, and after each calls `step` with what clients had the server do, until that gives a
    /// `Break`. A turn is over when a datagram came or something was due, and after that time at the latest.
    ///
    /// While `step` works, nobody is served: let it return soon.
    pub fn run<B>(&mut self, at_most: Duration, mut step: impl FnMut(&mut Self, Vec<Applied>) -> ControlFlow<B>) -> B {
        loop {
            let applied = self.turn(at_most);
            if let ControlFlow::Break(with) = step(self, applied) {
                // (what `step` set is told)
                self.send();
                return with;
            }
        }
    }

    /// Does what is due, waits for one datagram, for that time at most, and answers it. What clients had it do, in order.
    pub fn turn(&mut self, at_most: Duration) -> Vec<Applied> {
        self.send();
        let applied = self.applied();
        if !applied.is_empty() {
            return applied;
        }
        let due = [self.end.poll_timeout(), Instant::now().checked_add(at_most)].into_iter().flatten().min();
        if let Some((from, datagram)) = self.socket.receive(due) {
            // (one that finds no memory is lost)
            let _ = match verdict(&mut self.rule, from, datagram) {
                Verdict::Serve => self.end.handle(Instant::now(), from, datagram),
                Verdict::Refuse => self.end.refuse(Instant::now(), from, datagram),
                Verdict::Drop => Ok(()),
            };
        }
        self.send();
        self.applied()
    }

    /// Does what is due, and sends what is out.
    fn send(&mut self) {
        // (where there is no memory, what is due is done later)
        let _ = self.end.handle_timeout(Instant::now());
        let end = &mut self.end;
        self.socket.send_all(|buffer| end.poll_transmit(buffer));
    }

    fn applied(&mut self) -> Vec<Applied> {
        std::iter::from_fn(|| self.end.poll_applied()).collect()
    }
}

/// What the rule says of a request. All else is for the end, which knows what is a fault.
fn verdict(rule: &mut Option<Box<Rule>>, from: SocketAddrV4, datagram: &[u8]) -> Verdict {
    match (rule, peek(datagram)) {
        (Some(rule), Ok(message)) if message.code.class() == CLASS_OF_REQUESTS && message.code.detail() != 0 => {
            rule(from, &message)
        }
        _ => Verdict::Serve,
    }
}

impl fmt::Debug for Server {
    fn fmt(&self, f: &mut fmt::Formatter<'_>) -> fmt::Result {
        let mut shown = f.debug_struct("Server");
        shown.field("end", &self.end).field("socket", &self.socket).finish_non_exhaustive()
    }
}
