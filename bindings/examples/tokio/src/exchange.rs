//! The exchange door: a server whose answers an async function computes, and a client for any request of one datagram.
//!
//! ```no_run
//! use knifesilver::exchange::{Message, OptionNumber};
//! use knifesilver::{Code, Config};
//! use knifesilver_tokio::exchange::{Answerer, Asker};
//!
//! # async fn both() -> Result<(), Box<dyn std::error::Error>> {
//! let (at, known) = ("127.0.0.1:5683".parse()?, [OptionNumber::URI_PATH, OptionNumber::URI_QUERY]);
//! let handler = |_, request: Message| async move {
//!     match request.path().as_deref() {
//!         Some(["length"]) => Message::new(Code::CONTENT).with_payload(request.payload().len().to_string()),
//!         _ => Message::new(Code::NOT_FOUND),
//!     }
//! };
//! let _server = Answerer::open(at, &Config::default(), &known, handler).await?;
//! let client = Asker::open(at).await?;
//! println!("{:?}", client.ask(Message::post("length").with_payload("four")).await?.text());
//! # Ok(())
//! # }
//! ```

mod answerer;
mod asker;

pub use answerer::Answerer;
pub use asker::{Asker, NoAnswer, Observation};
