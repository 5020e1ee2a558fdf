//! The gateway's server, and the file of its journal.

use knifesilver::{Boot, Config, Journal, Replayed, Server};
use std::error::Error;
use std::fs::OpenOptions;
use std::net::UdpSocket;
use std::os::unix::fs::OpenOptionsExt;
use std::time::Instant;

/// Who may read the file: its owner alone, since each body stands in it.
const OWNER_ALONE: u32 = 0o600;

/// A server that goes on from the file of this name, or begins one there; without a name one that keeps no journal. The
/// socket is bound already: no other gateway has its port, and so none writes to the file.
pub fn start(config: &Config, own: &UdpSocket, file: Option<&str>) -> Result<(Server, Option<Journal>), Box<dyn Error>> {
    let Some(name) = file else { return Ok((Server::new(config, Instant::now())?, None)) };
    let mut how = OpenOptions::new();
    let file = how.read(true).write(true).create(true).truncate(false).mode(OWNER_ALONE).open(name)?;
    let replayed = Replayed::open(file, config, Boot::current()?)?;
    println!("{name}: {} torn bytes dropped, silent for {} ms", replayed.torn(), replayed.silence().as_millis());
    let (server, journal) = replayed.begin()?;
    // What came in the silence is dropped.
    own.set_nonblocking(true)?;
    while own.recv_from(&mut [0]).is_ok() {}
    own.set_nonblocking(false)?;
    Ok((server, Some(journal)))
}
