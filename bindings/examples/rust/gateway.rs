//! gateway PORT A B C [FILE]: observes the temperature of three servers, at 127.0.0.1:A, B and C, and serves what they say
//! at coap://127.0.0.1:PORT/sensors/0, 1 and 2. One server and three clients have a socket each: behind one port they kill
//! each other's exchanges. The last value of a server that is gone stays; c/mirror.c has it go. With a FILE the server
//! keeps a journal: it may be killed at any moment, and goes on, with its observers and what its clients wrote.

#[path = "gateway/kept.rs"]
mod kept;
#[path = "gateway/source.rs"]
mod source;

use kept::start;
use knifesilver::{fits_library, Client, Config, MAX_DATAGRAM};
use source::{read, Arrived, Source};
use std::error::Error;
use std::net::{Ipv4Addr, SocketAddrV4, UdpSocket};
use std::sync::mpsc::channel;
use std::time::{Duration, Instant};

fn main() -> Result<(), Box<dyn Error>> {
    assert!(fits_library(), "the library is not that of the crate");
    let words: Vec<String> = std::env::args().skip(1).collect();
    let (numbers, file) = match words.split_last() {
        Some((last, before)) if last.parse::<u16>().is_err() => (before, Some(last.as_str())),
        _ => (words.as_slice(), None),
    };
    let ports = numbers.iter().map(|word| word.parse()).collect::<Result<Vec<u16>, _>>()?;
    let [port, sources @ ..] = ports.as_slice() else { return Err("gateway PORT A B C [FILE]".into()) };
    let (to, arrived) = channel();
    let mut clients = Vec::new();
    for (end, at) in sources.iter().enumerate() {
        let client = Client::new(&Config::default(), SocketAddrV4::new(Ipv4Addr::LOCALHOST, *at), Instant::now())?;
        let socket = UdpSocket::bind((Ipv4Addr::LOCALHOST, 0))?;
        read(end, &socket, &to)?;
        clients.push(Source { client, socket, watched: None, again: Instant::now() });
    }
    let mut config = Config::default().with_drawn_base();
    // It takes 265 new messages a second for good, and not the usual 16.
    config.remembered = 65_536;
    let own = UdpSocket::bind((Ipv4Addr::LOCALHOST, *port))?;
    let (mut server, mut journal) = start(&config, &own, file)?;
    read(clients.len(), &own, &to)?;
    let mut buffer = [0; MAX_DATAGRAM];
    loop {
        let now = Instant::now();
        for (end, source) in clients.iter_mut().enumerate() {
            for value in source.turn(now, &mut buffer)? {
                let (version, is_new) = server.update(now, &format!("sensors/{end}"), None, &value)?;
                if is_new {
                    println!("sensor {end}, version {version}: {}", String::from_utf8_lossy(&value));
                }
            }
        }
        server.handle_timeout(now)?;
        // Nothing goes out before what it comes of is in the file.
        if let Some(journal) = &mut journal {
            journal.keep(&mut server)?;
        }
        while let Some(applied) = server.poll_applied() {
            println!("{} {:?} {}", applied.from, applied.method, String::from_utf8_lossy(&applied.path));
        }
        while let Some(transmit) = server.poll_transmit(&mut buffer) {
            let _ = own.send_to(&buffer[..transmit.size], transmit.destination);
        }
        // The least moment at which something is due, at any end.
        let dues = clients.iter().flat_map(|source| [source.client.poll_timeout(), Some(source.again)]);
        let due = dues.chain([server.poll_timeout()]).flatten().min();
        let wait = due.map_or(Duration::from_secs(3600), |at| at.saturating_duration_since(Instant::now()));
        if let Ok(Arrived { end, from, bytes }) = arrived.recv_timeout(wait) {
            match clients.get_mut(end) {
                Some(source) => source.client.handle(Instant::now(), from, &bytes)?,
                None => server.handle(Instant::now(), from, &bytes)?,
            }
        }
    }
}
