//! A CoAP client and server (RFC 7252, with Observe, RFC 7641, and blocks, RFC 7959) as state machines with no input or
//! output, in the manner of `quinn-proto`: you own the socket, the clock and the loop.
//!
//! After each call that is handed something take [`Server::poll_transmit`] until `None` and send what it gives; then
//! wait for a datagram, at most until [`Server::poll_timeout`]; hand it to [`Server::handle`], and call
//! [`Server::handle_timeout`] when that moment has come. A server tells by [`Server::poll_applied`] what clients had
//! it do, a client by [`Client::poll_report`] what became of its calls.
//!
//! ```
//! use knifesilver::{Client, Config, Report, Request, Server, MAX_DATAGRAM, TEXT_PLAIN};
//! use std::net::{Ipv6Addr, SocketAddr};
//! use std::time::Instant;
//!
//! let now = Instant::now();
//! let here = SocketAddr::from((Ipv6Addr::LOCALHOST, 40_001));
//! let there = SocketAddr::from((Ipv6Addr::LOCALHOST, 5683));
//! let mut server = Server::new(&Config::default(), now)?;
//! let mut client = Client::new(&Config::default(), there, now)?;
//! server.set(now, "temperature", Some(TEXT_PLAIN), b"22.3 C")?;
//! let id = client.call(now, &Request::get("temperature"))?;
//!
//! // Two turns of a loop, with memory in place of a network.
//! let mut buffer = [0; MAX_DATAGRAM];
//! client.handle_timeout(now)?;
//! while let Some(transmit) = client.poll_transmit(&mut buffer) {
//!     assert_eq!(transmit.destination, there);
//!     server.handle(now, here, &buffer[..transmit.size])?;
//! }
//! while let Some(transmit) = server.poll_transmit(&mut buffer) {
//!     client.handle(now, there, &buffer[..transmit.size])?;
//! }
//! let (of, report) = client.poll_report().expect("it came");
//! assert_eq!(of, id);
//! let Report::Body(fetched) = report else { panic!("{report:?}") };
//! assert_eq!(fetched.body, b"22.3 C");
//! # Ok::<(), Box<dyn std::error::Error>>(())
//! ```
//!
//! The library below is proved to meet its contracts; `docs/EMBEDDING.md` says what they promise, of which calls, and
//! what this crate promises without proof. An end is [`Send`] and not [`Sync`].
//!
//! Datagrams come from the addresses of sockets, IPv4 and IPv6, or from peers of a type of yours, as DTLS sessions are:
//! see [`Peer`].
//!
//! A server stores values, and calls no function of yours. In [`exchange`] your code computes the answers, and a
//! client asks for anything that one datagram can ask.
//!
//! With the feature `std-driver` the module `driver` has clients that block and servers' loops, each with a socket of
//! its own. With the feature `stub` the crate can be checked and documented where its archive is not there.

#![deny(unsafe_code, missing_docs)]

mod client;
#[cfg(feature = "std-driver")]
pub mod driver;
#[macro_use]
mod errors;
pub mod exchange;
mod journal;
mod load;
mod message;
mod peers;
mod raw;
mod raw_exchange;
mod server;
mod setting;

pub use client::{CallId, Client, Fetched, Report, Request};
pub use errors::{CallError, CancelError, DelayError, NewError, OutOfMemory};
pub use errors::{PeekError, PlainError, RefuseError, SetError};
pub use journal::{Boot, Journal, JournalError, Replayed};
pub use load::{Load, Would};
pub use message::{peek, refusal, Code, Kind, Message, Method, Tag};
pub use peers::{Key, Peer};
pub use server::{Applied, Ended, Representation, Server};
pub use setting::{Config, Transmit};

/// No datagram that goes out is longer, in bytes.
pub const MAX_DATAGRAM: usize = raw::KS_DATAGRAM_ROOM;
/// The Content-Format `text/plain; charset=utf-8` (RFC 7252, section 12.3).
pub const TEXT_PLAIN: u16 = 0;

/// Whether the library that is linked is the one that this crate was written for.
pub fn fits_library() -> bool {
    raw::version() == raw::KS_VERSION
}
