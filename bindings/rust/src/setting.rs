//! What an end is made with, and what it has of time and chance.

use crate::raw;
use std::collections::hash_map::RandomState;
use std::hash::{BuildHasher, Hasher};
use std::net::{Ipv4Addr, SocketAddr, SocketAddrV4};
use std::time::{Duration, Instant};

/// What an end is made with. `Config::default()` is the usual; change its fields for another. What an end can't be made
/// with is told when it is made.
///
/// ```
/// # use knifesilver::Config;
/// let config = Config::default().with_body_limit(1_048_576).with_remembered(65_536);
/// assert_eq!((config.body_limit, config.remembered, config.block_size), (1_048_576, 65_536, 1024));
/// ```
#[derive(Clone, Debug, PartialEq, Eq)]
#[non_exhaustive]
pub struct Config {
    /// Bytes of a block at most: 16, 32, .. 1,024 (RFC 7959, section 2.2).
    pub block_size: u32,
    /// Bytes of a body at most, that is sent, joined from blocks or held: 1 to 1,048,576.
    pub body_limit: u32,
    /// How many messages are remembered at once, each for 247 s: 1 to 1,048,576 (RFC 7252, section 4.5).
    pub remembered: u32,
    /// How many changes a server's store takes in 256 s: 1 to 4,194,303.
    pub changes: u32,
    /// The version after which a server's versions begin: a multiple of 2^24 below 2^63. With 0 the first is 1.
    pub base: u64,
    /// How many peers that are no IPv4 addresses a server knows at once: 1 to 1,048,576. One is known for 247 s after its
    /// last datagram, and as long as the server may send to it. What comes from others meanwhile is dropped.
    pub peers: u32,
    /// Where the end's random numbers come from: the operating system, or for tests this seed.
    pub rng_seed: Option<u64>,
}

impl Default for Config {
    fn default() -> Config {
        Config {
            block_size: 1024,
            body_limit: 65_536,
            remembered: 4_096,
            changes: 4_194_303,
            base: 0,
            peers: 4_096,
            rng_seed: None,
        }
    }
}

impl Config {
    /// The same with blocks of so many bytes at most.
    #[must_use]
    pub fn with_block_size(self, block_size: u32) -> Config {
        Config { block_size, ..self }
    }

    /// The same with bodies of so many bytes at most.
    #[must_use]
    pub fn with_body_limit(self, body_limit: u32) -> Config {
        Config { body_limit, ..self }
    }

    /// The same with so many messages remembered at once.
    #[must_use]
    pub fn with_remembered(self, remembered: u32) -> Config {
        Config { remembered, ..self }
    }

    /// The same with so many changes of a server's store in 256 s.
    #[must_use]
    pub fn with_changes(self, changes: u32) -> Config {
        Config { changes, ..self }
    }

    /// The same with versions of a server that begin after this one.
    #[must_use]
    pub fn with_base(self, base: u64) -> Config {
        Config { base, ..self }
    }

    /// The same with versions that begin after a base that is drawn now. A server that begins anew at its address should
    /// have one for each of its lives: else an entity-tag of a life before names another body (RFC 7252, section 5.10.6).
    /// Two lives share a version with a chance of some 2^-38. No order between two lives is promised.
    #[must_use]
    pub fn with_drawn_base(self) -> Config {
        let word = RandomState::new().build_hasher().finish();
        self.with_base(raw::base(word))
    }

    /// The same with so many peers known at once that are no IPv4 addresses.
    #[must_use]
    pub fn with_peers(self, peers: u32) -> Config {
        Config { peers, ..self }
    }

    /// The same with random numbers from this seed, for tests: whoever knows it can guess Message IDs and tokens.
    #[must_use]
    pub fn with_rng_seed(self, seed: u64) -> Config {
        Config { rng_seed: Some(seed), ..self }
    }

    pub(crate) fn raw(&self) -> raw::ks_config {
        raw::ks_config {
            size: std::mem::size_of::<raw::ks_config>() as u32,
            block_size: self.block_size,
            body_limit: self.body_limit,
            remembered: self.remembered,
            changes: self.changes,
            base: self.base,
        }
    }
}

/// A datagram to be sent: its bytes are the first `size` of the buffer that was lent.
#[derive(Clone, Copy, Debug, PartialEq, Eq)]
#[non_exhaustive]
pub struct Transmit<P = SocketAddr> {
    /// Where it is to go.
    pub destination: P,
    /// How many bytes it has.
    pub size: usize,
}

/// The moment from which an end counts its milliseconds, and its random numbers.
pub(crate) struct Surroundings {
    since: Instant,
    first: u64,
    system: Option<RandomState>,
    count: u64,
}

impl Surroundings {
    pub(crate) fn new(config: &Config, now: Instant) -> Surroundings {
        let system = config.rng_seed.is_none().then(RandomState::new);
        Surroundings { since: now, first: 0, system, count: config.rng_seed.unwrap_or(0) }
    }

    /// The same, where the milliseconds at that moment are so many already.
    pub(crate) fn from(config: &Config, now: Instant, first: u64) -> Surroundings {
        Surroundings { first, ..Surroundings::new(config, now) }
    }

    /// Milliseconds since the first moment; one before it counts as it.
    pub(crate) fn moment(&self, now: Instant) -> u64 {
        let passed = u64::try_from(now.saturating_duration_since(self.since).as_millis()).unwrap_or(u64::MAX);
        self.first.saturating_add(passed)
    }

    /// The instant of such a moment; None where no instant is so late.
    pub(crate) fn instant(&self, at: u64) -> Option<Instant> {
        self.since.checked_add(Duration::from_millis(at.saturating_sub(self.first)))
    }

    /// 64 random bits: a hash with random keys of a number that no other word had; or a mix of such a number.
    pub(crate) fn word(&mut self) -> u64 {
        self.count = self.count.wrapping_add(0x9e37_79b9_7f4a_7c15);
        if let Some(system) = &self.system {
            let mut hasher = system.build_hasher();
            hasher.write_u64(self.count);
            return hasher.finish();
        }
        let mut word = self.count;
        word = (word ^ (word >> 30)).wrapping_mul(0xbf58_476d_1ce4_e5b9);
        word = (word ^ (word >> 27)).wrapping_mul(0x94d0_49bb_1331_11eb);
        word ^ (word >> 31)
    }

    pub(crate) fn seed(&mut self) -> raw::ks_seed {
        raw::ks_seed { word: self.word(), key0: self.word(), key1: self.word() }
    }
}

pub(crate) fn address(of: SocketAddrV4) -> raw::ks_address {
    raw::ks_address { ip: of.ip().octets(), port: of.port() }
}

pub(crate) fn socket_address(of: raw::ks_address) -> SocketAddrV4 {
    SocketAddrV4::new(Ipv4Addr::from(of.ip), of.port)
}

pub(crate) fn format_number(format: Option<u16>) -> i32 {
    format.map_or(raw::KS_NO_FORMAT, i32::from)
}

pub(crate) fn format_of(number: i32) -> Option<u16> {
    u16::try_from(number).ok()
}
