//! The socket of an end. It hands over what is fresh alone, and sends at once or never.

use super::OpenError;
use crate::{fits_library, MAX_DATAGRAM};
use std::fmt;
use std::io::{self, ErrorKind};
use std::net::{SocketAddr, SocketAddrV4, ToSocketAddrs, UdpSocket};
use std::time::{Duration, Instant};

/// No datagram that arrives is longer, in bytes.
const MAX_ARRIVED: usize = 65_536;
/// What may have waited so long in the socket's buffer is dropped: nothing may reach an end over 100 s after it was sent.
const LONGEST_WAIT: Duration = Duration::from_secs(50);
/// No rest is longer. So a longer one tells that the program stood still, and that what arrived meanwhile is old.
const LONGEST_REST: Duration = Duration::from_secs(20);
/// A timeout of no length would be one without end; and so often an error of the socket is met.
const LEAST_REST: Duration = Duration::from_millis(1);

/// A socket, which does not block but while it rests.
pub(super) struct Socket {
    udp: UdpSocket,
    at: SocketAddrV4,
    arrived: Vec<u8>,
    /// When nothing was in its buffer the last time. What is there has come since.
    emptied: Instant,
}

/// What the socket had.
enum Taken {
    /// A datagram of so many bytes.
    Datagram(SocketAddrV4, usize),
    /// A datagram that is not for an end, or an error.
    Dropped,
    /// Nothing.
    Nothing,
}

impl Socket {
    pub(super) fn open(at: SocketAddrV4) -> Result<Socket, OpenError> {
        if !fits_library() {
            return Err(OpenError::OtherLibrary);
        }
        let emptied = Instant::now();
        let udp = UdpSocket::bind(at)?;
        udp.set_nonblocking(true)?;
        match udp.local_addr()? {
            SocketAddr::V4(at) => Ok(Socket { udp, at, arrived: vec![0; MAX_ARRIVED], emptied }),
            SocketAddr::V6(_) => Err(io::Error::from(ErrorKind::AddrNotAvailable).into()),
        }
    }

    /// The address to which it is bound.
    pub(super) fn address(&self) -> SocketAddrV4 {
        self.at
    }

    /// Sends what the end has to be sent. What the socket does not take is lost; the end sends it again if it is to be.
    pub(super) fn send_all<P: ToSocketAddrs>(
        &self,
        mut next: impl FnMut(&mut [u8; MAX_DATAGRAM]) -> Option<crate::Transmit<P>>,
    ) {
        let mut buffer = [0; MAX_DATAGRAM];
        while let Some(transmit) = next(&mut buffer) {
            let _ = self.udp.send_to(&buffer[..transmit.size], transmit.destination);
        }
    }

    /// The next datagram for the end, if one comes until that moment. It may return early, with none.
    pub(super) fn receive(&mut self, until: Option<Instant>) -> Option<(SocketAddrV4, &[u8])> {
        let taken = match self.take() {
            Taken::Nothing => self.rest(until),
            taken => taken,
        };
        match taken {
            Taken::Datagram(from, len) => Some((from, &self.arrived[..len])),
            Taken::Dropped | Taken::Nothing => None,
        }
    }

    /// Waits for a datagram, for a while.
    fn rest(&mut self, until: Option<Instant>) -> Taken {
        let wait = until.map_or(LONGEST_REST, |at| at.saturating_duration_since(Instant::now()));
        let blocks = self.udp.set_read_timeout(Some(wait.clamp(LEAST_REST, LONGEST_REST)));
        if blocks.and_then(|()| self.udp.set_nonblocking(false)).is_err() {
            std::thread::sleep(LEAST_REST);
            return Taken::Nothing;
        }
        let taken = self.take();
        // (where this fails, each take waits as long as this one did at most, and the end stays as it is)
        let _ = self.udp.set_nonblocking(true);
        taken
    }

    fn take(&mut self) -> Taken {
        let asked = Instant::now();
        match self.udp.recv_from(&mut self.arrived) {
            Ok((len, from)) => match for_an_end(from, self.emptied.elapsed()) {
                Some(from) => Taken::Datagram(from, len),
                None => Taken::Dropped,
            },
            Err(why) if matches!(why.kind(), ErrorKind::WouldBlock | ErrorKind::TimedOut) => {
                self.emptied = asked;
                Taken::Nothing
            }
            // An error tells of a datagram that was sent and that nobody took; one that stays must not take the processor.
            Err(_) => {
                std::thread::sleep(LEAST_REST);
                Taken::Dropped
            }
        }
    }
}

impl fmt::Debug for Socket {
    fn fmt(&self, f: &mut fmt::Formatter<'_>) -> fmt::Result {
        self.udp.fmt(f)
    }
}

/// The sender, where an end may have a datagram from there that waited so long at most. No answer can go to port 0.
fn for_an_end(from: SocketAddr, waited: Duration) -> Option<SocketAddrV4> {
    match from {
        SocketAddr::V4(from) if from.port() != 0 && waited < LONGEST_WAIT => Some(from),
        _ => None,
    }
}

#[cfg(test)]
mod tests {
    use super::*;
    use std::net::Ipv4Addr;

    fn local(port: u16) -> SocketAddrV4 {
        SocketAddrV4::new(Ipv4Addr::LOCALHOST, port)
    }

    /// Waits until something is there.
    fn await_one(udp: &UdpSocket) {
        udp.set_read_timeout(Some(Duration::from_secs(10))).unwrap();
        udp.set_nonblocking(false).unwrap();
        udp.peek_from(&mut [0; 9]).unwrap();
        udp.set_nonblocking(true).unwrap();
    }

    #[test]
    fn what_an_end_may_not_have() {
        let (fresh, old) = (Duration::from_millis(49_999), Duration::from_secs(50));
        assert_eq!(for_an_end(local(9).into(), fresh), Some(local(9)));
        assert_eq!(for_an_end(local(9).into(), old), None);
        assert_eq!(for_an_end(local(0).into(), fresh), None);
        assert_eq!(for_an_end("[::1]:9".parse().unwrap(), fresh), None);
    }

    #[test]
    fn what_waited_while_the_program_stood_still_is_dropped() {
        let mut socket = Socket::open(local(0)).unwrap();
        let other = UdpSocket::bind(local(0)).unwrap();
        let SocketAddr::V4(from) = other.local_addr().unwrap() else { panic!("an IPv4 address") };
        let soon = || Some(Instant::now() + Duration::from_secs(10));
        other.send_to(b"fresh", socket.address()).unwrap();
        assert_eq!(socket.receive(soon()), Some((from, &b"fresh"[..])));
        assert_eq!(socket.receive(Some(Instant::now())), None);
        for text in [b"one", b"two"] {
            other.send_to(text, socket.address()).unwrap();
        }
        // (a machine that has run for less than a minute can't tell)
        let Some(long_ago) = Instant::now().checked_sub(Duration::from_secs(60)) else { return };
        for _ in 0..2 {
            await_one(&socket.udp);
            socket.emptied = long_ago;
            assert_eq!(socket.receive(soon()), None);
        }
        assert_eq!(socket.receive(Some(Instant::now())), None);
        other.send_to(b"later", socket.address()).unwrap();
        assert_eq!(socket.receive(soon()), Some((from, &b"later"[..])));
    }
}
