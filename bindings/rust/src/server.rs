//! A server.

use crate::errors::{changed, delayed, made, made_plain, ticked};
use crate::errors::{DelayError, NamesError, NewError, OutOfMemory, PlainError, RefuseError, SetError};
use crate::load::{self, Load, Would};
use crate::message::{Code, Method};
use crate::peers::{is_name, Peer, Table};
use crate::raw;
use crate::setting::{format_number, format_of, Config, Surroundings, Transmit};
use crate::MAX_DATAGRAM;
use std::collections::VecDeque;
use std::fmt;
use std::net::SocketAddr;
use std::time::{Duration, Instant};

/// A server of CoAP: paths that hold representations, which whoever reaches its port may get, put, post to and delete.
/// Datagrams come from peers of any kind (see [`Peer`]), as a rule from the addresses of sockets.
///
/// ```
/// use knifesilver::{Config, Server, MAX_DATAGRAM};
/// use std::net::UdpSocket;
/// use std::time::Instant;
///
/// # fn once(socket: &UdpSocket, server: &mut Server) -> Result<(), Box<dyn std::error::Error>> {
/// let mut arrived = [0; 65_536];
/// let mut buffer = [0; MAX_DATAGRAM];
/// let wait = server.poll_timeout().map(|at| at.saturating_duration_since(Instant::now()));
/// socket.set_read_timeout(wait.map(|wait| wait.max(std::time::Duration::from_millis(1))))?;
/// if let Ok((len, from)) = socket.recv_from(&mut arrived) {
///     server.handle(Instant::now(), from, &arrived[..len])?;
/// }
/// server.handle_timeout(Instant::now())?;
/// while let Some(applied) = server.poll_applied() {
///     println!("{:?} of {:?}", applied.method, String::from_utf8_lossy(&applied.path));
/// }
/// while let Some(transmit) = server.poll_transmit(&mut buffer) {
///     socket.send_to(&buffer[..transmit.size], transmit.destination)?;
/// }
/// # Ok(())
/// # }
/// ```
pub struct Server<P = SocketAddr> {
    raw: raw::Server,
    around: Surroundings,
    names: Table<P>,
    // The names that are held, as the server may have something of their peers; and how many of them are new.
    held: VecDeque<raw::ks_address>,
    fresh: usize,
    // The last moment at which something was handed in.
    latest: u64,
    dropped: u64,
    applied: VecDeque<Applied<P>>,
    ended: Vec<Ended<P>>,
    room: Vec<u8>,
}

/// What a path holds, or held.
#[derive(Clone, Debug, PartialEq, Eq)]
#[non_exhaustive]
pub struct Representation {
    /// The number of the change that made it.
    pub version: u64,
    /// Its Content-Format, where it is told.
    pub format: Option<u16>,
    /// Its bytes.
    pub body: Vec<u8>,
}

/// A request of a client that was applied: one that was answered with 2.01, 2.02 or 2.04.
#[derive(Clone, Debug, PartialEq, Eq)]
#[non_exhaustive]
pub struct Applied<P = SocketAddr> {
    /// The version that it made, 0 where it changed nothing.
    pub version: u64,
    /// Whose request it was.
    pub from: P,
    /// What it asked for.
    pub method: Method,
    /// Its token.
    pub token: Vec<u8>,
    /// The path, with a `/` before each segment; in a segment `%2F` stands for a slash, and `%25` for a percent sign.
    pub path: Vec<u8>,
    /// What the path held as soon as the request was applied. None where it held nothing, as after a DELETE; and of the
    /// path of one empty segment, which no text names.
    pub held: Option<Representation>,
}

/// A separate response or a notification that was rejected by a Reset, or was not acknowledged.
#[derive(Clone, Debug, PartialEq, Eq)]
#[non_exhaustive]
pub struct Ended<P = SocketAddr> {
    /// Where it went.
    pub to: P,
    /// Its token.
    pub token: Vec<u8>,
    /// It was a notification: whom it went to is no longer notified.
    pub observe: bool,
}

// The text by which the path of one empty segment is told; read, it is the root.
const ONE_EMPTY_SEGMENT: &[u8] = b"/";

// So many of the names that are held are looked at in one `handle_timeout`, beside as many as are new.
const LOOKS: usize = 8;

impl Server {
    /// A server that holds nothing, whose peers are the addresses of sockets.
    pub fn new(config: &Config, now: Instant) -> Result<Server, NewError> {
        Server::of_peers(config, now)
    }
}

impl<P: Peer> Server<P> {
    /// A server that holds nothing, and whose peers are of another kind.
    pub fn of_peers(config: &Config, now: Instant) -> Result<Server<P>, NewError> {
        let mut around = Surroundings::new(config, now);
        let mut raw = raw::Server::empty();
        made(raw.make(&config.raw(), &around.seed()))?;
        let names = Table::new(config.peers, &around.seed())?;
        Ok(Server::around(raw, around, names, 0))
    }

    // A server that was replayed, and whose milliseconds at this moment are so many. The names of its former lives are in
    // no file. So none is given: else a peer could have the name of one that is remembered.
    pub(crate) fn replayed(raw: raw::Server, config: &Config, now: Instant, moment: u64) -> Server<P> {
        Server::around(raw, Surroundings::from(config, now, moment), Table::closed(), moment)
    }

    fn around(raw: raw::Server, around: Surroundings, names: Table<P>, latest: u64) -> Server<P> {
        let (held, applied, ended) = (VecDeque::new(), VecDeque::new(), Vec::new());
        let room = vec![0; raw::KS_PATH_ROOM];
        Server { raw, around, names, held, fresh: 0, latest, dropped: 0, applied, ended, room }
    }

    // What it took since this was asked last, in the room, which grows to hold it.
    pub(crate) fn noted<'a>(&mut self, room: &'a mut Vec<u8>) -> Result<Option<&'a [u8]>, OutOfMemory> {
        let mut len = 0;
        loop {
            match self.raw.noted(room, &mut len) {
                raw::KS_SMALL_ROOM => room.resize(len, 0),
                raw::KS_DONE => return Ok(Some(&room[..len])),
                raw::KS_OK => return Ok(None),
                _ => return Err(OutOfMemory),
            }
        }
    }

    /// Has the path hold the body, and marks its observers, also where the body is the same. Its version.
    pub fn set(&mut self, now: Instant, path: &str, format: Option<u16>, body: &[u8]) -> Result<u64, SetError> {
        let mut version = 0;
        let now = self.around.moment(now);
        changed(self.raw.set(now, path, format_number(format), body, &mut version)).map(|_| version)
    }

    /// The same, but nothing changes where the path holds this very body in this format: its version, and whether it was
    /// set. So that a value that is computed is up to date, call this when it has changed, and not at each `handle`.
    pub fn update(&mut self, now: Instant, path: &str, format: Option<u16>, body: &[u8]) -> Result<(u64, bool), SetError> {
        let mut version = 0;
        let now = self.around.moment(now);
        changed(self.raw.update(now, path, format_number(format), body, &mut version)).map(|done| (version, done))
    }

    /// Takes away what the path holds, and whether it held something.
    pub fn remove(&mut self, now: Instant, path: &str) -> Result<bool, SetError> {
        changed(self.raw.remove(self.around.moment(now), path))
    }

    /// What the path holds. None too where the text is no path.
    pub fn get(&self, path: &str) -> Option<Representation> {
        self.held(path.as_bytes())
    }

    // What the path of that text holds.
    fn held(&self, path: &[u8]) -> Option<Representation> {
        let mut shown = raw::ks_representation::default();
        let mut body = Vec::new();
        loop {
            match self.raw.get(path, &mut shown, &mut body) {
                raw::KS_SMALL_ROOM => body.resize(shown.body_len, 0),
                raw::KS_DONE => break,
                _ => return None,
            }
        }
        body.truncate(shown.body_len);
        Some(Representation { version: shown.version, format: format_of(shown.format), body })
    }

    /// The paths that hold something, as texts in bytes, in an order of the server's own.
    pub fn paths(&self) -> Vec<Vec<u8>> {
        let mut room = vec![0; raw::KS_PATH_ROOM];
        let (mut shown, mut len) = (raw::ks_representation::default(), 0);
        let mut paths = Vec::new();
        while self.raw.path_at(paths.len(), &mut shown, &mut room, &mut len) == raw::KS_DONE {
            paths.push(room[..len].to_vec());
        }
        paths
    }

    /// Has each Confirmable request of the path wait so long, be carried out then, and be answered by a response of its own.
    pub fn set_delay(&mut self, path: &str, delay: Duration) -> Result<(), DelayError> {
        let ms = u64::try_from(delay.as_millis()).unwrap_or(u64::MAX);
        delayed(self.raw.set_delay(path, ms))
    }

    /// Has the notifications of the path go in Non-confirmable messages, but for one a day, a state that is older than 100 s, and
    /// the end (RFC 7641, section 4.5).
    pub fn set_plain(&mut self, path: &str) -> Result<(), PlainError> {
        made_plain(self.raw.set_plain(path))
    }

    /// Takes a datagram that arrived. One from a peer for which no place is left is dropped, and counts as lost.
    pub fn handle(&mut self, now: Instant, from: impl Into<P>, datagram: &[u8]) -> Result<(), OutOfMemory> {
        self.take(now, &from.into(), |raw, now, from, word| raw.feed(now, from, datagram, word))
    }

    /// Takes a datagram that arrived from somebody who may not have what it asks for. A request is answered with 4.05 and
    /// not served; what is none is taken as it is. A copy gets the same answer, and a copy of what was served gets that
    /// reply: so your rules may change at any moment.
    pub fn refuse(&mut self, now: Instant, from: impl Into<P>, datagram: &[u8]) -> Result<(), OutOfMemory> {
        self.take(now, &from.into(), |raw, now, from, word| raw.refuse(now, from, datagram, word))
    }

    /// The same with another code, of class 4 or 5.
    ///
    /// ```
    /// # use knifesilver::{Code, Config, RefuseError, Server, MAX_DATAGRAM};
    /// # use std::net::SocketAddr;
    /// # use std::time::Instant;
    /// # let now = Instant::now();
    /// # let mut server: Server = Server::new(&Config::default(), now).unwrap();
    /// # let there: SocketAddr = "127.0.0.1:40001".parse().unwrap();
    /// let (put, mut buffer) = (b"\x41\x03\x7d\x34\xab", [0; MAX_DATAGRAM]);
    /// assert_eq!(server.refuse_by(now, there, put, Code::CONTENT), Err(RefuseError::Code));
    /// assert_eq!(server.refuse_by(now, there, put, Code(0x83)), Ok(()));
    /// let size = server.poll_transmit(&mut buffer).unwrap().size;
    /// assert_eq!(buffer[..size], *b"\x61\x83\x7d\x34\xab");
    /// ```
    pub fn refuse_by(
        &mut self,
        now: Instant,
        from: impl Into<P>,
        datagram: &[u8],
        code: Code,
    ) -> Result<(), RefuseError> {
        if !matches!(code.class(), 4 | 5) {
            return Err(RefuseError::Code);
        }
        Ok(self.take(now, &from.into(), |raw, now, from, word| raw.refuse_by(now, from, datagram, word, code.0))?)
    }

    fn take(
        &mut self,
        now: Instant,
        from: &P,
        feed: impl FnOnce(&mut raw::Server, u64, &raw::ks_address, u64) -> i32,
    ) -> Result<(), OutOfMemory> {
        let (now, word) = (self.pass(now), self.around.word());
        self.ended.clear();
        let from = match self.names.fed(now, from) {
            Ok(from) => from,
            Err(NamesError::Memory) => return Err(OutOfMemory),
            Err(_) => {
                self.dropped += 1;
                return Ok(());
            }
        };
        // (what is served of a peer has a name that stays, so that who it was can be told)
        if is_name(&from) && !self.held.contains(&from) && self.names.hold(&from)? {
            self.held.push_back(from);
            self.fresh += 1;
        }
        ticked(feed(&mut self.raw, now, &from, word))?;
        self.keep_applied();
        self.keep_ended();
        Ok(())
    }

    // The milliseconds of a moment at which something is handed in.
    fn pass(&mut self, now: Instant) -> u64 {
        self.latest = self.latest.max(self.around.moment(now));
        self.latest
    }

    // Holds no more what the server has nothing of.
    fn let_go(&mut self) {
        for _ in 0..(LOOKS + std::mem::take(&mut self.fresh)).min(self.held.len()) {
            let Some(name) = self.held.pop_front() else { return };
            // (a release that finds no memory is tried again)
            if self.raw.knows(self.latest, &name) == raw::KS_DONE || self.names.release(self.latest, &name).is_err() {
                self.held.push_back(name);
            }
        }
    }

    /// How many datagrams were dropped since no place was left for their peers.
    pub fn dropped(&self) -> u64 {
        self.dropped
    }

    /// How many peers that are no IPv4 addresses are known.
    pub fn peers(&self) -> u64 {
        self.names.len()
    }

    /// Forgets what the server has of a peer from which nothing comes any more: its observations, its uploads that are not
    /// whole, its requests that wait, and what it did not acknowledge. Whether there was anything. Take `poll_transmit`
    /// first: what is out stays. What tells repeats stays, too, so that a copy of a request is not served again. It takes
    /// memory where the server has a journal, and nowhere else.
    ///
    /// ```
    /// # use knifesilver::{Config, Server, MAX_DATAGRAM};
    /// # use std::net::SocketAddr;
    /// # use std::time::Instant;
    /// # let now = Instant::now();
    /// # let mut server: Server = Server::new(&Config::default(), now).unwrap();
    /// # let there: SocketAddr = "127.0.0.1:40001".parse().unwrap();
    /// # let mut buffer = [0; MAX_DATAGRAM];
    /// // A GET of `t` with Observe (RFC 7641, section 2).
    /// server.set(now, "t", None, b"1").unwrap();
    /// server.handle(now, there, b"\x41\x01\x00\x01\x09\x60\x51t").unwrap();
    /// while server.poll_transmit(&mut buffer).is_some() {}
    /// assert!(server.knows(now, there));
    /// assert_eq!((server.forget(there), server.forget(there)), (Ok(true), Ok(false)));
    /// assert!(!server.knows(now, there));
    /// ```
    pub fn forget(&mut self, peer: impl Into<P>) -> Result<bool, OutOfMemory> {
        let Some(name) = self.names.find(&peer.into()) else { return Ok(false) };
        self.ended.clear();
        let was = ticked(self.raw.forget(&name))?;
        self.keep_ended();
        Ok(was)
    }

    /// Forgets the name of a peer at once, from which nothing can come any more, as a DTLS session that is closed. Whether
    /// it was known. [`forget`](Server::forget) comes first: else a request of it that still waits for its delay is carried
    /// out, and not told. An IPv4 address is never forgotten so.
    pub fn retire(&mut self, peer: &P) -> bool {
        let Some(name) = self.names.find(peer).filter(is_name) else { return false };
        self.held.retain(|held| *held != name);
        self.names.retire(&name)
    }

    /// When to call `handle_timeout`, unless something is handed in before. None: never.
    #[must_use = "nothing else tells when to call `handle_timeout`"]
    pub fn poll_timeout(&self) -> Option<Instant> {
        let mut at = 0;
        match self.raw.due(&mut at) {
            raw::KS_DONE => self.around.instant(at),
            _ => None,
        }
    }

    /// Does all that is due: retransmissions, notifications, responses that were delayed.
    pub fn handle_timeout(&mut self, now: Instant) -> Result<(), OutOfMemory> {
        let now = self.pass(now);
        self.ended.clear();
        loop {
            let word = self.around.word();
            if !ticked(self.raw.tick(now, word))? {
                self.let_go();
                return Ok(());
            }
            self.keep_applied();
            self.keep_ended();
        }
    }

    /// The datagram that is to be sent next, in the buffer. None, too, where a server with a journal took something that
    /// [`Journal::keep`](crate::Journal::keep) hasn't kept yet.
    #[must_use = "a datagram that is not sent is lost"]
    pub fn poll_transmit(&mut self, buffer: &mut [u8; MAX_DATAGRAM]) -> Option<Transmit<P>> {
        let (mut to, mut size) = (raw::ks_address::default(), 0);
        while self.raw.next_out(&mut to, buffer, &mut size) == raw::KS_DONE {
            // (what goes to a peer that was forgotten goes nowhere)
            if let Some(destination) = self.names.sent(self.latest, &to) {
                return Some(Transmit { destination, size });
            }
        }
        None
    }

    /// What a client had this server do, each once, in order. It waits here until it is taken.
    #[must_use = "each request that was applied is told once"]
    pub fn poll_applied(&mut self) -> Option<Applied<P>> {
        self.applied.pop_front()
    }

    /// How much the server has at this moment.
    pub fn load(&self, now: Instant) -> Load {
        let mut told = load::empty();
        self.raw.load(self.around.moment(now), &mut told);
        Load::of(&told)
    }

    /// What `handle` would make of the datagram at this moment. So new messages can be charged to whom they come from
    /// before they are handed in.
    pub fn would(&self, now: Instant, from: impl Into<P>, datagram: &[u8]) -> Would {
        // (nobody has the name that stands for a peer that is not known)
        let from = self.names.find(&from.into()).unwrap_or_default();
        Would::of(self.raw.would(self.around.moment(now), &from, datagram))
    }

    /// Whether the server has something of this peer that it may send, or may still need: an observation, an upload that is
    /// not whole, a request that waits, a message that is not acknowledged. What tells repeats is not counted.
    pub fn knows(&self, now: Instant, peer: impl Into<P>) -> bool {
        let name = self.names.find(&peer.into());
        name.is_some_and(|name| self.raw.knows(self.around.moment(now), &name) == raw::KS_DONE)
    }

    /// What the last `handle`, `refuse`, `forget` or `handle_timeout` ended, in order.
    pub fn ended(&self) -> &[Ended<P>] {
        &self.ended
    }

    // What the last feed or tick ended, which the next one empties.
    fn keep_ended(&mut self) {
        let mut told = raw::ks_ended::default();
        if self.raw.ended(&mut told) == raw::KS_DONE {
            let token = told.token[..usize::from(told.token_len.min(8))].to_vec();
            // (one that was retired is told of no more)
            self.ended.extend(self.names.peer(&told.to).map(|to| Ended { to, token, observe: told.observe }));
        }
    }

    // What the last feed or tick applied, which the next one empties, and what its path holds, which that may change.
    fn keep_applied(&mut self) {
        let mut done = raw::ks_applied::default();
        if self.raw.applied(&mut done, &mut self.room) == raw::KS_DONE {
            let path = self.room[..done.path_len].to_vec();
            let held = if path == ONE_EMPTY_SEGMENT { None } else { self.held(&path) };
            self.applied.extend(self.names.peer(&done.from).map(|from| Applied {
                version: done.version,
                from,
                method: Method::of(Code(done.method)).unwrap_or(Method::Post),
                token: done.token[..usize::from(done.token_len.min(8))].to_vec(),
                path,
                held,
            }));
        }
    }
}

impl<P: Peer> fmt::Debug for Server<P> {
    fn fmt(&self, f: &mut fmt::Formatter<'_>) -> fmt::Result {
        let mut shown = f.debug_struct("Server");
        shown.field("due", &self.poll_timeout()).field("applied", &self.applied.len()).finish_non_exhaustive()
    }
}
