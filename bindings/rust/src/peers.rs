//! Whom datagrams come from and go to, and their names. An end compares addresses and reads nothing in them. So the
//! address of a peer that has no IPv4 address is a name, which a table of the library gives.

use crate::errors::{NamesError, NewError, OutOfMemory};
use crate::raw;
use crate::setting::{address, socket_address};
use std::marker::PhantomData;
use std::net::{Ipv6Addr, SocketAddr, SocketAddrV4, SocketAddrV6};

/// The bytes that tell a peer apart: 1 to 60.
#[derive(Clone, Copy, Debug, PartialEq, Eq, Hash)]
pub struct Key {
    len: usize,
    bytes: [u8; raw::KS_KEY_ROOM],
}

impl Key {
    /// The key of these bytes. None where they are none, or over 60.
    pub fn new(bytes: &[u8]) -> Option<Key> {
        let mut key = Key { len: bytes.len(), bytes: [0; raw::KS_KEY_ROOM] };
        key.bytes.get_mut(..bytes.len())?.copy_from_slice(bytes);
        (key.len > 0).then_some(key)
    }

    /// The key of bytes that are written one behind the other.
    fn joined(parts: &[&[u8]]) -> Key {
        let mut key = Key { len: 0, bytes: [0; raw::KS_KEY_ROOM] };
        for (room, byte) in key.bytes.iter_mut().zip(parts.iter().copied().flatten()) {
            *room = *byte;
            key.len += 1;
        }
        key
    }

    /// The bytes.
    pub fn as_bytes(&self) -> &[u8] {
        &self.bytes[..self.len]
    }
}

/// Whom datagrams come from and go to: a socket's address, a DTLS session, a radio. Peers with one key are one.
///
/// ```
/// use knifesilver::{Key, Peer};
///
/// /// A DTLS session, by the number that it got when its handshake was over.
/// #[derive(Clone, Debug, PartialEq)]
/// struct Session(u64);
///
/// impl Peer for Session {
///     fn key(&self) -> Key {
///         Key::new(&self.0.to_be_bytes()).expect("8 bytes")
///     }
///
///     fn of_key(key: &Key) -> Option<Session> {
///         Some(Session(u64::from_be_bytes(key.as_bytes().try_into().ok()?)))
///     }
/// }
/// assert_eq!(Session::of_key(&Session(7).key()), Some(Session(7)));
/// ```
pub trait Peer: Sized {
    /// The IPv4 address that it is. Such a peer goes by it and takes no name.
    fn address(&self) -> Option<SocketAddrV4> {
        None
    }

    /// The peer that is that IPv4 address, where `address` gave it.
    fn of_address(_: SocketAddrV4) -> Option<Self> {
        None
    }

    /// Its key, where it is no IPv4 address, or one of 0.0.0.0/8, from which no datagram comes.
    fn key(&self) -> Key;

    /// The peer of a key that `key` gave.
    fn of_key(key: &Key) -> Option<Self>;
}

impl Peer for SocketAddrV4 {
    fn address(&self) -> Option<SocketAddrV4> {
        Some(*self)
    }

    fn of_address(address: SocketAddrV4) -> Option<SocketAddrV4> {
        Some(address)
    }

    fn key(&self) -> Key {
        Key::joined(&[&self.ip().octets(), &self.port().to_be_bytes()])
    }

    fn of_key(key: &Key) -> Option<SocketAddrV4> {
        let [a, b, c, d, high, low]: [u8; 6] = key.as_bytes().try_into().ok()?;
        Some(SocketAddrV4::new([a, b, c, d].into(), u16::from_be_bytes([high, low])))
    }
}

/// Two of one address and port on two links are two peers; the flow counts for nothing.
impl Peer for SocketAddrV6 {
    fn key(&self) -> Key {
        Key::joined(&[&self.ip().octets(), &self.port().to_be_bytes(), &self.scope_id().to_be_bytes()])
    }

    fn of_key(key: &Key) -> Option<SocketAddrV6> {
        let bytes: [u8; 22] = key.as_bytes().try_into().ok()?;
        let ip: [u8; 16] = bytes[..16].try_into().ok()?;
        let (port, scope) = (bytes[16..18].try_into().ok()?, bytes[18..].try_into().ok()?);
        Some(SocketAddrV6::new(Ipv6Addr::from(ip), u16::from_be_bytes(port), 0, u32::from_be_bytes(scope)))
    }
}

impl Peer for SocketAddr {
    fn address(&self) -> Option<SocketAddrV4> {
        match self {
            SocketAddr::V4(address) => Some(*address),
            SocketAddr::V6(_) => None,
        }
    }

    fn of_address(address: SocketAddrV4) -> Option<SocketAddr> {
        Some(SocketAddr::V4(address))
    }

    fn key(&self) -> Key {
        match self {
            SocketAddr::V4(address) => address.key(),
            SocketAddr::V6(address) => address.key(),
        }
    }

    fn of_key(key: &Key) -> Option<SocketAddr> {
        SocketAddrV4::of_key(key).map(SocketAddr::V4).or_else(|| SocketAddrV6::of_key(key).map(SocketAddr::V6))
    }
}

/// Whether an address is in 0.0.0.0/8, where all names are, and from which no IPv4 datagram comes (RFC 1122, section
/// 3.2.1.3).
pub(crate) fn is_name(address: &raw::ks_address) -> bool {
    address.ip[0] == 0
}

/// The names of an end's peers.
pub(crate) struct Table<P> {
    // None: nobody gets a name.
    raw: Option<raw::Names>,
    of: PhantomData<fn() -> P>,
}

impl<P: Peer> Table<P> {
    /// No peer has a name; so many can have one at once.
    pub(crate) fn new(places: u32, seed: &raw::ks_seed) -> Result<Table<P>, NewError> {
        let mut raw = raw::Names::empty();
        match raw.make(places, true, seed) {
            raw::KS_OK => Ok(Table { raw: Some(raw), of: PhantomData }),
            raw::KS_NO_MEMORY => Err(NewError::Memory),
            _ => Err(NewError::Peers),
        }
    }

    /// No peer has a name, and none gets one.
    pub(crate) fn closed() -> Table<P> {
        Table { raw: None, of: PhantomData }
    }

    // The address that stands for itself, and is no name.
    fn address(peer: &P) -> Option<raw::ks_address> {
        peer.address().map(address).filter(|address| !is_name(address))
    }

    /// The name of a peer from which a datagram came.
    pub(crate) fn fed(&mut self, now: u64, peer: &P) -> Result<raw::ks_address, NamesError> {
        if let Some(address) = Self::address(peer) {
            return Ok(address);
        }
        let Some(raw) = &mut self.raw else { return Err(NamesError::Full) };
        let mut name = raw::ks_address::default();
        match raw.fed(now, peer.key().as_bytes(), &mut name) {
            raw::KS_OK => Ok(name),
            raw::KS_NAMES_FULL => Err(NamesError::Full),
            raw::KS_NAMES_SPENT => Err(NamesError::Spent),
            _ => Err(NamesError::Memory),
        }
    }

    /// The name of a peer, where it has one.
    pub(crate) fn find(&self, peer: &P) -> Option<raw::ks_address> {
        let mut name = raw::ks_address::default();
        Self::address(peer).or_else(|| {
            let answer = self.raw.as_ref()?.of(peer.key().as_bytes(), &mut name);
            (answer == raw::KS_DONE).then_some(name)
        })
    }

    /// The peer to which a datagram goes. None where the name is nobody's.
    pub(crate) fn sent(&mut self, now: u64, name: &raw::ks_address) -> Option<P> {
        match &mut self.raw {
            Some(raw) if is_name(name) => told(|room, len| raw.sent(now, name, room, len)),
            _ => P::of_address(socket_address(*name)),
        }
    }

    /// The peer of a name.
    pub(crate) fn peer(&self, name: &raw::ks_address) -> Option<P> {
        match &self.raw {
            Some(raw) if is_name(name) => told(|room, len| raw.key(name, room, len)),
            _ => P::of_address(socket_address(*name)),
        }
    }

    /// Has a name kept until it is released. Whether it is somebody's.
    pub(crate) fn hold(&mut self, name: &raw::ks_address) -> Result<bool, OutOfMemory> {
        self.raw.as_mut().map_or(Ok(false), |raw| done(raw.hold(name)))
    }

    /// Holds a name no more. Whether it was held.
    pub(crate) fn release(&mut self, now: u64, name: &raw::ks_address) -> Result<bool, OutOfMemory> {
        self.raw.as_mut().map_or(Ok(false), |raw| done(raw.release(now, name)))
    }

    /// Forgets a name at once. Whether it was somebody's.
    pub(crate) fn retire(&mut self, name: &raw::ks_address) -> bool {
        self.raw.as_mut().is_some_and(|raw| raw.retire(name) == raw::KS_DONE)
    }

    /// How many peers have a name.
    pub(crate) fn len(&self) -> u64 {
        let mut taken = 0;
        self.raw.as_ref().map(|raw| raw.load(&mut taken));
        taken
    }
}

// The peer whose key is told.
fn told<P: Peer>(tell: impl FnOnce(&mut [u8], &mut usize) -> i32) -> Option<P> {
    let (mut room, mut len) = ([0; raw::KS_KEY_ROOM], 0);
    if tell(&mut room, &mut len) != raw::KS_DONE {
        return None;
    }
    P::of_key(&Key::new(room.get(..len)?)?)
}

fn done(answer: i32) -> Result<bool, OutOfMemory> {
    match answer {
        raw::KS_NO_MEMORY => Err(OutOfMemory),
        answer => Ok(answer == raw::KS_DONE),
    }
}
