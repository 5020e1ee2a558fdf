//! A client, and the task that drives it.

use crate::{until, Error, OpenError, MAX_ARRIVED};
use knifesilver::{CallError, CallId, Code, Config, Fetched, Method, Report, Request, MAX_DATAGRAM};
use std::collections::{HashMap, VecDeque};
use std::net::{Ipv4Addr, SocketAddrV4};
use std::time::Instant;
use tokio::net::UdpSocket;
use tokio::sync::{mpsc, oneshot, watch};

/// A client of one server. Its calls run one at a time, in the order in which they were made; any number may wait.
///
/// A call whose future is dropped goes on, and may still be applied. When the last clone is dropped, the task ends.
#[derive(Clone, Debug)]
pub struct Client {
    to: mpsc::UnboundedSender<Wish>,
}

/// What an observed path holds. When it is dropped, the observation is forgotten.
#[derive(Debug)]
pub struct Observation {
    newest: watch::Receiver<Option<Result<Fetched, Error>>>,
}

impl Observation {
    /// The newest value, once there is one after the last that was taken; values between may be missed. None after the
    /// end of the observation.
    pub async fn next(&mut self) -> Option<Result<Fetched, Error>> {
        self.newest.changed().await.ok()?;
        self.newest.borrow_and_update().clone()
    }
}

#[derive(Debug)]
struct Call {
    method: Method,
    path: String,
    format: Option<u16>,
    body: Vec<u8>,
}

/// What waits for a place in the end.
#[derive(Debug)]
enum Wish {
    Call(Call, oneshot::Sender<Result<Report, Error>>),
    Observe(String, watch::Sender<Option<Result<Fetched, Error>>>),
}

impl Client {
    /// A client of the server at that address, at a free port of its own.
    pub async fn open(server: SocketAddrV4) -> Result<Client, OpenError> {
        Client::open_with(server, &Config::default()).await
    }

    /// The same, made with that configuration.
    pub async fn open_with(server: SocketAddrV4, config: &Config) -> Result<Client, OpenError> {
        let socket = UdpSocket::bind((Ipv4Addr::UNSPECIFIED, 0)).await?;
        let end = knifesilver::Client::new(config, server, Instant::now())?;
        let (to, wishes) = mpsc::unbounded_channel();
        let task = Task { end, socket, waiting: VecDeque::new(), calls: HashMap::new(), observations: HashMap::new() };
        tokio::spawn(task.run(wishes));
        Ok(Client { to })
    }

    /// What the path holds.
    pub async fn get(&self, path: &str) -> Result<Fetched, Error> {
        match self.ask(Method::Get, path, None, &[]).await? {
            Report::Body(fetched) => Ok(fetched),
            other => Err(error_of(other)),
        }
    }

    /// Has the path hold that body: 2.01 or 2.04. It was applied once where this is `Ok`.
    pub async fn put(&self, path: &str, format: Option<u16>, body: &[u8]) -> Result<Code, Error> {
        self.change(Method::Put, path, format, body).await
    }

    /// Has the server process that body.
    pub async fn post(&self, path: &str, format: Option<u16>, body: &[u8]) -> Result<Code, Error> {
        self.change(Method::Post, path, format, body).await
    }

    /// Has the path hold nothing: 2.02.
    pub async fn delete(&self, path: &str) -> Result<Code, Error> {
        self.change(Method::Delete, path, None, &[]).await
    }

    /// Observes what the path holds.
    pub fn observe(&self, path: &str) -> Observation {
        let (to, newest) = watch::channel(None);
        // (where the task has ended, the observation has, too)
        let _ = self.to.send(Wish::Observe(path.to_owned(), to));
        Observation { newest }
    }

    async fn change(&self, method: Method, path: &str, format: Option<u16>, body: &[u8]) -> Result<Code, Error> {
        match self.ask(method, path, format, body).await? {
            Report::Done(code) => Ok(code),
            other => Err(error_of(other)),
        }
    }

    async fn ask(&self, method: Method, path: &str, format: Option<u16>, body: &[u8]) -> Result<Report, Error> {
        let (told, answer) = oneshot::channel();
        let call = Call { method, path: path.to_owned(), format, body: body.to_vec() };
        self.to.send(Wish::Call(call, told)).map_err(|_| Error::Closed)?;
        answer.await.map_err(|_| Error::Closed)?
    }
}

fn error_of(report: Report) -> Error {
    match report {
        Report::Failed(code) | Report::Ended(code) => Error::Failed(code),
        other => Error::PerhapsApplied(other),
    }
}

struct Task {
    end: knifesilver::Client,
    socket: UdpSocket,
    waiting: VecDeque<Wish>,
    calls: HashMap<CallId, oneshot::Sender<Result<Report, Error>>>,
    observations: HashMap<CallId, watch::Sender<Option<Result<Fetched, Error>>>>,
}

impl Task {
    async fn run(mut self, mut wishes: mpsc::UnboundedReceiver<Wish>) {
        let mut arrived = vec![0; MAX_ARRIVED];
        loop {
            self.turn().await;
            tokio::select! {
                wish = wishes.recv() => match wish {
                    Some(wish) => self.waiting.push_back(wish),
                    None => return,
                },
                got = self.socket.recv_from(&mut arrived) => {
                    // (an error tells of a datagram that nobody took; one that finds no memory is lost)
                    if let Ok((len, from)) = got {
                        let _ = self.end.handle(Instant::now(), from, &arrived[..len]);
                    }
                }
                () = until(self.end.poll_timeout()) => {}
            }
        }
    }

    /// Starts what waits, does what is due, sends what is out, and tells what became of the calls.
    async fn turn(&mut self) {
        let mut buffer = [0; MAX_DATAGRAM];
        self.forget();
        loop {
            let started = self.start();
            // (where there is no memory, what is due is done later)
            let _ = self.end.handle_timeout(Instant::now());
            while let Some(transmit) = self.end.poll_transmit(&mut buffer) {
                // What the socket does not take is lost, and sent again if it is to be.
                let _ = self.socket.send_to(&buffer[..transmit.size], transmit.destination).await;
            }
            let mut told = false;
            while let Some((id, report)) = self.end.poll_report() {
                told = true;
                self.tell(id, report);
            }
            if !started && !told {
                return;
            }
        }
    }

    /// Forgets the observations that nobody reads any more.
    fn forget(&mut self) {
        let end = &mut self.end;
        self.observations.retain(|id, to| {
            if to.is_closed() {
                end.forget(*id);
            }
            !to.is_closed()
        });
    }

    /// Hands the end what waits, as far as it has a place; whether it took something.
    fn start(&mut self) -> bool {
        let (now, mut started) = (Instant::now(), false);
        while let Some(wish) = self.waiting.pop_front() {
            let taken = match &wish {
                Wish::Call(call, _) => {
                    let mut request = Request::new(call.method, &call.path);
                    request.format = call.format;
                    request.body = &call.body;
                    self.end.call(now, &request)
                }
                Wish::Observe(path, _) => self.end.observe(now, path),
            };
            match (taken, wish) {
                (Err(CallError::QueueFull), wish) => {
                    self.waiting.push_front(wish);
                    return started;
                }
                (Ok(id), Wish::Call(_, told)) => drop(self.calls.insert(id, told)),
                (Ok(id), Wish::Observe(_, to)) => drop(self.observations.insert(id, to)),
                // (whoever does not wait any more isn't told)
                (Err(why), Wish::Call(_, told)) => drop(told.send(Err(Error::Refused(why)))),
                (Err(why), Wish::Observe(_, to)) => drop(to.send(Some(Err(Error::Refused(why))))),
            }
            started = true;
        }
        started
    }

    fn tell(&mut self, id: CallId, report: Report) {
        if let Some(told) = self.calls.remove(&id) {
            let _ = told.send(Ok(report));
        } else if let Report::Value(_, fetched) = report {
            if let Some(to) = self.observations.get(&id) {
                let _ = to.send(Some(Ok(fetched)));
            }
        } else if let Some(to) = self.observations.remove(&id) {
            let _ = to.send(Some(Err(error_of(report))));
        }
    }
}
