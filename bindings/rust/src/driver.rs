//! Clients that block and servers' loops, each over a [`std::net::UdpSocket`] of its own. Nothing here is proved.
//!
//! They keep what the ends below ask of a program: they read a monotonic clock, draw fresh random words, send each
//! datagram at once or never, and drop what came from UDP port 0 and what waited in the socket's buffer for over 50 s.
//! Two premises stay with the program. An end that begins anew at its old address may break promises to those who knew
//! the old one: see `docs/EMBEDDING.md`. And [`std::time::Instant`] stands still on Linux while the machine sleeps:
//! open new ends after that.
//!
//! ```
//! use knifesilver::driver::{Client, Server};
//! use knifesilver::{Config, TEXT_PLAIN};
//! use std::net::{Ipv4Addr, SocketAddrV4};
//! use std::ops::ControlFlow;
//! use std::time::Duration;
//!
//! // Port 0 stands for one that is free.
//! let mut server = Server::open(SocketAddrV4::new(Ipv4Addr::LOCALHOST, 0), &Config::default())?;
//! server.update("temperature", Some(TEXT_PLAIN), b"22.3 C")?;
//! let at = server.address();
//! let serving = std::thread::spawn(move || {
//!     server.run(Duration::from_secs(1), |_, applied| match applied.iter().any(|it| it.path == b"/lamp") {
//!         true => ControlFlow::Break(applied),
//!         false => ControlFlow::Continue(()),
//!     })
//! });
//!
//! let mut client = Client::open(at)?;
//! assert_eq!(client.get("temperature")?.body, b"22.3 C");
//! client.put("lamp", None, b"on")?;
//! let applied = serving.join().expect("no panic");
//! assert_eq!(applied[0].held.as_ref().map(|it| it.body.as_slice()), Some(&b"on"[..]));
//! # Ok::<(), Box<dyn std::error::Error>>(())
//! ```

mod answerer;
mod asker;
mod client;
mod error;
mod server;
mod socket;

pub use answerer::{Answerer, Told};
pub use asker::Asker;
pub use client::{Client, Observation};
pub use error::{Error, NoAnswer, NoBody, OpenError};
pub use server::{Server, Verdict};
