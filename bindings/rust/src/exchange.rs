//! The exchange door: a server whose answers the program computes, and a client for any request of one datagram (RFC
//! 7252, section 5; RFC 7641).
//!
//! [`crate::Server`] stores values, and calls no function of yours. Here each request is handed to the program, once
//! as long as it is remembered, with its method, its options and its payload; the program says what is answered. What
//! it answers is its own: entity-tags, observers, blocks and paths are kept by nobody. `docs/EMBEDDING.md` compares
//! the two doors.
//!
//! ```
//! use knifesilver::exchange::{Answerer, Message};
//! use knifesilver::{Code, Config, MAX_DATAGRAM};
//! use std::net::{Ipv4Addr, SocketAddrV4};
//! use std::time::Instant;
//!
//! let (now, mut buffer) = (Instant::now(), [0; MAX_DATAGRAM]);
//! let client = SocketAddrV4::new(Ipv4Addr::LOCALHOST, 40_001);
//! let mut server = Answerer::new(&Config::default(), now)?;
//!
//! // GET /sum?a=2&b=3, Confirmable, with the token 07.
//! let datagram = b"\x41\x01\x7d\x34\x07\xb3sum\x43a=2\x03b=3";
//! let request = server.handle(now, client, datagram)?.expect("a request");
//! let asked = request.asked();
//! let message = request.message();
//! assert_eq!((message.code(), message.path()), (Code::GET, Some(vec!["sum"])));
//! let sum: u32 = message.queries().filter_map(|(_, number)| number.parse::<u32>().ok()).sum();
//! server.answer(&asked, &Message::new(Code::CONTENT).with_payload(sum.to_string()))?;
//!
//! let sent = server.poll_transmit(&mut buffer).expect("its answer");
//! assert_eq!((sent.destination, &buffer[..sent.size]), (client, &b"\x61\x45\x7d\x34\x07\xff5"[..]));
//! // A copy is not handed up, and gets the same bytes.
//! assert!(server.handle(now, client, datagram)?.is_none());
//! let again = server.poll_transmit(&mut buffer).expect("the same answer");
//! assert_eq!(&buffer[..again.size], b"\x61\x45\x7d\x34\x07\xff5");
//! # Ok::<(), Box<dyn std::error::Error>>(())
//! ```
//!
//! The calls below are proved to meet their contracts. Nothing is proved of this module, which hands over to them.

mod answerer;
mod asker;
pub mod blocks;
mod errors;
mod message;
mod observers;
mod options;
mod token;

pub use answerer::{Answerer, Asked, Ended, Load, Request};
pub use asker::{Answer, Asker};
pub use errors::{AnswerError, AskError, DeferError, NotifyError, RespondError};
pub use message::Message;
pub use observers::{is_fresher, Observers};
pub use options::{OptionNumber, Options};
pub use token::Token;
