//! A client and a server of CoAP for tokio: each an end of the crate `knifesilver`, a UDP socket and a task for both.
//!
//! ```no_run
//! # async fn get() -> Result<(), Box<dyn std::error::Error>> {
//! let client = knifesilver_tokio::Client::open("127.0.0.1:5683".parse()?).await?;
//! println!("{}", String::from_utf8_lossy(&client.get("temperature").await?.body));
//! # Ok(())
//! # }
//! ```

#![deny(unsafe_code, missing_docs)]

mod client;
mod error;
pub mod exchange;
mod server;

pub use client::{Client, Observation};
pub use error::{Error, OpenError};
pub use server::Server;

/// No datagram that arrives is longer.
const MAX_ARRIVED: usize = 65_536;

/// Waits until that moment; without end, if there is none.
async fn until(moment: Option<std::time::Instant>) {
    match moment {
        Some(at) => tokio::time::sleep_until(at.into()).await,
        None => std::future::pending().await,
    }
}
