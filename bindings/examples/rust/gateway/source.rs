//! The servers that are observed, and the threads that read sockets.

use knifesilver::{CallId, Client, OutOfMemory, Report, MAX_DATAGRAM};
use std::net::{SocketAddr, SocketAddrV4, UdpSocket};
use std::sync::mpsc::Sender;
use std::time::{Duration, Instant};

/// How long to wait before an observation that ended is begun again.
const AGAIN: Duration = Duration::from_secs(5);
/// After how long without a value it is begun again: the server may have forgotten its observers, as it began anew.
const SILENCE: Duration = Duration::from_secs(60);

/// A datagram, and which end it is for: that of the server is the last.
pub struct Arrived {
    pub end: usize,
    pub from: SocketAddrV4,
    pub bytes: Vec<u8>,
}

/// Has a thread read a socket.
pub fn read(end: usize, socket: &UdpSocket, to: &Sender<Arrived>) -> std::io::Result<()> {
    let (reader, to) = (socket.try_clone()?, to.clone());
    std::thread::spawn(move || {
        let mut buffer = [0; 65_536];
        loop {
            // An error tells of a datagram that was sent and that nobody took.
            if let Ok((len, SocketAddr::V4(from))) = reader.recv_from(&mut buffer) {
                let bytes = buffer[..len].to_vec();
                if to.send(Arrived { end, from, bytes }).is_err() {
                    return;
                }
            }
        }
    });
    Ok(())
}

/// One of the servers that are observed.
pub struct Source {
    pub client: Client,
    pub socket: UdpSocket,
    pub watched: Option<CallId>,
    pub again: Instant,
}

impl Source {
    /// Does what is due, sends what is out, and gives what the server said.
    pub fn turn(&mut self, now: Instant, buffer: &mut [u8; MAX_DATAGRAM]) -> Result<Vec<Vec<u8>>, OutOfMemory> {
        if self.again <= now {
            self.watched.take().map(|silent| self.client.forget(silent));
            self.watched = self.client.observe(now, "temperature").ok();
            self.again = now + if self.watched.is_some() { SILENCE } else { AGAIN };
        }
        self.client.handle_timeout(now)?;
        while let Some(transmit) = self.client.poll_transmit(buffer) {
            let _ = self.socket.send_to(&buffer[..transmit.size], transmit.destination);
        }
        let mut values = Vec::new();
        while let Some((_, report)) = self.client.poll_report() {
            match report {
                Report::Value(_, fetched) => {
                    self.again = now + SILENCE;
                    values.push(fetched.body);
                }
                _ => (self.watched, self.again) = (None, now + AGAIN),
            }
        }
        Ok(values)
    }
}
