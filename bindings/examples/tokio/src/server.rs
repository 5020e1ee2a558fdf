//! A server, and the task that drives it.

use crate::{until, OpenError, MAX_ARRIVED};
use knifesilver::{Applied, Config, Representation, SetError, MAX_DATAGRAM};
use std::collections::VecDeque;
use std::net::{SocketAddr, SocketAddrV4};
use std::time::Instant;
use tokio::net::UdpSocket;
use tokio::sync::{mpsc, oneshot};

/// How much of what clients had it do may wait to be taken. Then the server drops what arrives, and clients send again.
const MOST_APPLIED: usize = 1_024;

/// A server. Whoever reaches its port may write, make and delete every path of it. When it is dropped, its task ends.
#[derive(Debug)]
pub struct Server {
    to: mpsc::UnboundedSender<Wish>,
    applied: mpsc::Receiver<Applied>,
    at: SocketAddr,
}

#[derive(Debug)]
enum Wish {
    Update(String, Option<u16>, Vec<u8>, oneshot::Sender<Result<(u64, bool), SetError>>),
    Remove(String, oneshot::Sender<Result<bool, SetError>>),
    Get(String, oneshot::Sender<Option<Representation>>),
}

impl Server {
    /// A server at that address of the own host, which holds nothing.
    pub async fn open(at: SocketAddrV4, config: &Config) -> Result<Server, OpenError> {
        let socket = UdpSocket::bind(at).await?;
        let at = socket.local_addr()?;
        let end = knifesilver::Server::new(config, Instant::now())?;
        let (to, wishes) = mpsc::unbounded_channel();
        let (told, applied) = mpsc::channel(MOST_APPLIED);
        tokio::spawn(Task { end, socket, told, left: VecDeque::new() }.run(wishes));
        Ok(Server { to, applied, at })
    }

    /// The address of its socket.
    pub fn address(&self) -> SocketAddr {
        self.at
    }

    /// Has the path hold the body, and tells its observers where it is another: its version, and whether it was set.
    /// None after the end of the task.
    pub async fn update(&self, path: &str, format: Option<u16>, body: &[u8]) -> Option<Result<(u64, bool), SetError>> {
        let (told, answer) = oneshot::channel();
        self.to.send(Wish::Update(path.to_owned(), format, body.to_vec(), told)).ok()?;
        answer.await.ok()
    }

    /// Takes away what the path holds, and whether it held something. None after the end of the task.
    pub async fn remove(&self, path: &str) -> Option<Result<bool, SetError>> {
        let (told, answer) = oneshot::channel();
        self.to.send(Wish::Remove(path.to_owned(), told)).ok()?;
        answer.await.ok()
    }

    /// What the path holds.
    pub async fn get(&self, path: &str) -> Option<Representation> {
        let (told, answer) = oneshot::channel();
        self.to.send(Wish::Get(path.to_owned(), told)).ok()?;
        answer.await.ok()?
    }

    /// What a client had it do, each once, in order. Take all of it: else the server drops what arrives.
    pub async fn applied(&mut self) -> Option<Applied> {
        self.applied.recv().await
    }
}

struct Task {
    end: knifesilver::Server,
    socket: UdpSocket,
    told: mpsc::Sender<Applied>,
    /// What found no place in that channel.
    left: VecDeque<Applied>,
}

impl Task {
    async fn run(mut self, mut wishes: mpsc::UnboundedReceiver<Wish>) {
        let (mut arrived, told) = (vec![0; MAX_ARRIVED], self.told.clone());
        loop {
            self.turn().await;
            tokio::select! {
                wish = wishes.recv() => match wish {
                    Some(wish) => self.grant(wish),
                    None => return,
                },
                got = self.socket.recv_from(&mut arrived) => {
                    // (an error tells of a datagram that nobody took; one that finds no memory is lost)
                    if let (Ok((len, from)), true) = (got, self.left.is_empty()) {
                        let _ = self.end.handle(Instant::now(), from, &arrived[..len]);
                    }
                }
                Ok(place) = told.reserve(), if !self.left.is_empty() => {
                    if let Some(applied) = self.left.pop_front() {
                        place.send(applied);
                    }
                }
                () = until(self.end.poll_timeout()) => {}
            }
        }
    }

    fn grant(&mut self, wish: Wish) {
        let now = Instant::now();
        // (whoever does not wait any more isn't told)
        match wish {
            Wish::Update(path, format, body, told) => drop(told.send(self.end.update(now, &path, format, &body))),
            Wish::Remove(path, told) => drop(told.send(self.end.remove(now, &path))),
            Wish::Get(path, told) => drop(told.send(self.end.get(&path))),
        }
    }

    /// Does what is due, tells what clients had it do, and sends what is out.
    async fn turn(&mut self) {
        let mut buffer = [0; MAX_DATAGRAM];
        // (where there is no memory, what is due is done later)
        let _ = self.end.handle_timeout(Instant::now());
        while let Some(applied) = self.end.poll_applied() {
            self.left.push_back(applied);
        }
        while let (false, Ok(place)) = (self.left.is_empty(), self.told.try_reserve()) {
            if let Some(applied) = self.left.pop_front() {
                place.send(applied);
            }
        }
        while let Some(transmit) = self.end.poll_transmit(&mut buffer) {
            // What the socket does not take is lost, and sent again if it is to be.
            let _ = self.socket.send_to(&buffer[..transmit.size], transmit.destination).await;
        }
    }
}
