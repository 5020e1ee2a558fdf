//! The loop of a server whose answers are computed.

use super::socket::Socket;
use super::OpenError;
use crate::exchange::{self, Asked, Request};
use crate::Config;
use std::net::SocketAddrV4;
use std::time::{Duration, Instant};

/// A server whose answers the program computes, and its socket. Whoever reaches its port may ask anything of it.
///
/// ```
/// use knifesilver::driver::{Answerer, Told};
/// use knifesilver::exchange::Message;
/// use knifesilver::{Code, Config};
/// use std::net::{Ipv4Addr, SocketAddrV4};
/// use std::time::Duration;
///
/// let mut server = Answerer::open(SocketAddrV4::new(Ipv4Addr::LOCALHOST, 0), &Config::default())?;
/// # let mut turns = 2..4;
/// # let mut goes_on = || turns.next().is_some();
/// while goes_on() {
///     server.turn(Duration::from_millis(10), |end, told| {
///         if let Told::Request(request) = told {
///             let length = request.payload().len().to_string();
///             // (an answer that is refused is one that is too long, or a second one)
///             let _ = end.answer(&request.asked(), &Message::new(Code::CONTENT).with_payload(length));
///         }
///     });
/// }
/// # Ok::<(), Box<dyn std::error::Error>>(())
/// ```
#[derive(Debug)]
pub struct Answerer {
    end: exchange::Answerer,
    socket: Socket,
}

/// What is to be answered now, if ever.
#[derive(Debug)]
pub enum Told<'d> {
    /// This request, or it is deferred ([`exchange::Answerer::answer`], [`exchange::Answerer::defer`]).
    Request(Request<'d>),
    /// This request, which was deferred ([`exchange::Answerer::respond`]); else it is told again.
    Ready(Asked),
}

impl Answerer {
    /// A server at that address of the own host. Port 0 stands for one that is free.
    pub fn open(at: SocketAddrV4, config: &Config) -> Result<Answerer, OpenError> {
        let socket = Socket::open(at)?;
        Ok(Answerer { end: exchange::Answerer::new(config, Instant::now())?, socket })
    }

    /// The address of its socket.
    pub fn address(&self) -> SocketAddrV4 {
        self.socket.address()
    }

    /// The end itself, to notify observers between two turns: the next turn sends that. Take nothing out of it.
    pub fn end(&mut self) -> &mut exchange::Answerer {
        &mut self.end
    }

    /// Does what is due, waits for one datagram, for that time at most, and tells what is to be answered: in `each`.
    ///
    /// While `each` works, nobody is served: let it return soon, or defer.
    pub fn turn(&mut self, at_most: Duration, mut each: impl FnMut(&mut exchange::Answerer, Told<'_>)) {
        self.send(&mut each);
        let until = Instant::now().checked_add(at_most);
        let due = [self.end.poll_timeout(Instant::now()), until].into_iter().flatten().min();
        if let Some((from, datagram)) = self.socket.receive(due) {
            // (one that finds no memory is lost)
            if let Ok(Some(request)) = self.end.handle(Instant::now(), from, datagram) {
                each(&mut self.end, Told::Request(request));
            }
        }
        self.send(&mut each);
    }

    /// Does what is due, and sends what is out.
    fn send(&mut self, each: &mut impl FnMut(&mut exchange::Answerer, Told<'_>)) {
        let mut last = None;
        // (where there is no memory, what is due is done later)
        while let Ok(Some(ready)) = self.end.handle_timeout(Instant::now()) {
            // (it was not answered)
            if last.replace(ready) == Some(ready) {
                break;
            }
            each(&mut self.end, Told::Ready(ready));
        }
        let end = &mut self.end;
        self.socket.send_all(|buffer| end.poll_transmit(buffer));
    }
}
