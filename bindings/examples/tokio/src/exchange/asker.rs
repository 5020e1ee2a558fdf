//! A client for any request of one datagram, and the task that drives it.

use crate::{until, OpenError, MAX_ARRIVED};
use knifesilver::exchange::{self, is_fresher, Answer, AskError, Message, Token};
use knifesilver::{Config, MAX_DATAGRAM};
use std::collections::{HashMap, VecDeque};
use std::fmt;
use std::net::{Ipv4Addr, SocketAddr, SocketAddrV4};
use std::time::Instant;
use tokio::net::UdpSocket;
use tokio::sync::{mpsc, oneshot, watch};

/// An Observe that registers (RFC 7641, section 2).
const REGISTER: u32 = 0;
const CLASS_OF_SUCCESS: u8 = 2;

/// A client of one server, for any request of one datagram. Its requests run one at a time, in the order in which they
/// were made; any number may wait. When the last clone is dropped, the task ends.
///
/// A request whose future is dropped goes on, and may still be handled.
#[derive(Clone, Debug)]
pub struct Asker {
    to: mpsc::UnboundedSender<Wish>,
}

/// Why a request has no response.
#[derive(Clone, Debug, PartialEq, Eq)]
#[non_exhaustive]
pub enum NoAnswer {
    /// It was not sent.
    Refused(AskError),
    /// No acknowledgement came. The server may have handled it.
    Timeout,
    /// The server rejected it by a Reset.
    Reset,
    /// It was acknowledged, but no response came. The server may have handled it.
    NoResponse,
    /// The task of the client has ended.
    Closed,
}

impl fmt::Display for NoAnswer {
    fn fmt(&self, f: &mut fmt::Formatter<'_>) -> fmt::Result {
        match self {
            NoAnswer::Refused(why) => write!(f, "refused: {why}"),
            NoAnswer::Timeout => f.write_str("no acknowledgement came"),
            NoAnswer::Reset => f.write_str("the server rejected it"),
            NoAnswer::NoResponse => f.write_str("it was acknowledged, but no response came"),
            NoAnswer::Closed => f.write_str("the client has ended"),
        }
    }
}

impl std::error::Error for NoAnswer {}

type Newest = Option<Result<Message, NoAnswer>>;

/// What a server tells of a resource. When it is dropped, the observation is forgotten: the server's next notification
/// is rejected.
#[derive(Debug)]
pub struct Observation {
    newest: watch::Receiver<Newest>,
}

impl Observation {
    /// The newest response or notification, once there is one after the last that was taken; some between may be
    /// missed. None after the end of the observation, or where the server began none.
    pub async fn next(&mut self) -> Newest {
        self.newest.changed().await.ok()?;
        self.newest.borrow_and_update().clone()
    }
}

/// What waits until the request before it has its answer.
#[derive(Debug)]
enum Wish {
    Ask(Message, oneshot::Sender<Result<Message, NoAnswer>>),
    Observe(Message, watch::Sender<Newest>),
}

impl Asker {
    /// A client of the server at that address, at a free port of its own.
    pub async fn open(server: SocketAddrV4) -> Result<Asker, OpenError> {
        Asker::open_with(server, &Config::default()).await
    }

    /// The same, made with that configuration.
    pub async fn open_with(server: SocketAddrV4, config: &Config) -> Result<Asker, OpenError> {
        let socket = UdpSocket::bind((Ipv4Addr::UNSPECIFIED, 0)).await?;
        let end = exchange::Asker::new(config, server, Instant::now())?;
        let (to, wishes) = mpsc::unbounded_channel();
        let task = Task { end, socket, waiting: VecDeque::new(), running: None, observations: HashMap::new() };
        tokio::spawn(task.run(wishes));
        Ok(Asker { to })
    }

    /// Asks: the response, of whatever code.
    pub async fn ask(&self, request: Message) -> Result<Message, NoAnswer> {
        let (told, answer) = oneshot::channel();
        self.to.send(Wish::Ask(request, told)).map_err(|_| NoAnswer::Closed)?;
        answer.await.map_err(|_| NoAnswer::Closed)?
    }

    /// Observes a resource: the request is a GET, to which an Observe is added (RFC 7641). 16 at most are observed.
    pub fn observe(&self, request: Message) -> Observation {
        let (to, newest) = watch::channel(None);
        // (where the task has ended, the observation has, too)
        let _ = self.to.send(Wish::Observe(request.with_observe(REGISTER), to));
        Observation { newest }
    }
}

/// An observation, and the Observe of the newest notification, with the moment at which it came.
struct Watched {
    to: watch::Sender<Newest>,
    last: (u32, Instant),
}

struct Task {
    end: exchange::Asker,
    socket: UdpSocket,
    waiting: VecDeque<Wish>,
    running: Option<(Token, Wish)>,
    observations: HashMap<Token, Watched>,
}

impl Task {
    async fn run(mut self, mut wishes: mpsc::UnboundedReceiver<Wish>) {
        let mut arrived = vec![0; MAX_ARRIVED];
        loop {
            self.turn().await;
            tokio::select! {
                wish = wishes.recv() => match wish {
                    Some(wish) => self.waiting.push_back(wish),
                    None => return,
                },
                got = self.socket.recv_from(&mut arrived) => {
                    // (an error tells of a datagram that nobody took; one that finds no memory is lost)
                    if let Ok((len, SocketAddr::V4(from))) = got {
                        if let Ok(Some(answer)) = self.end.handle(Instant::now(), from, &arrived[..len]) {
                            self.tell(answer);
                        }
                    }
                }
                () = until(self.end.poll_timeout(Instant::now())) => {}
            }
        }
    }

    /// Does what is due, starts what waits, and sends what is out.
    async fn turn(&mut self) {
        let mut buffer = [0; MAX_DATAGRAM];
        self.forget();
        // (where there is no memory, what is due is done later)
        while let Ok(Some(answer)) = self.end.handle_timeout(Instant::now()) {
            self.tell(answer);
        }
        while self.running.is_none() && !self.waiting.is_empty() {
            self.start();
        }
        while let Some(transmit) = self.end.poll_transmit(&mut buffer) {
            // What the socket does not take is lost, and sent again if it is to be.
            let _ = self.socket.send_to(&buffer[..transmit.size], SocketAddr::V4(transmit.destination)).await;
        }
    }

    /// Forgets the observations that nobody reads any more.
    fn forget(&mut self) {
        let end = &mut self.end;
        self.observations.retain(|token, watched| {
            let is_read = !watched.to.is_closed();
            if !is_read {
                end.release(token);
            }
            is_read
        });
    }

    fn start(&mut self) {
        let Some(wish) = self.waiting.pop_front() else { return };
        let (Wish::Ask(request, _) | Wish::Observe(request, _)) = &wish;
        match self.end.ask(Instant::now(), request) {
            Ok(token) => {
                // (where 16 others are kept, the response is the only one that is told)
                let _ = matches!(wish, Wish::Observe(..)) && self.end.keep(&token);
                self.running = Some((token, wish));
            }
            Err(why) => tell_end(wish, Err(NoAnswer::Refused(why))),
        }
    }

    fn tell(&mut self, answer: Answer) {
        let ended = match answer {
            Answer::Notification(token, message) => return self.notice(token, message),
            Answer::Response(message) => Ok(message),
            Answer::Timeout => Err(NoAnswer::Timeout),
            Answer::Reset => Err(NoAnswer::Reset),
            _ => Err(NoAnswer::NoResponse),
        };
        match (self.running.take(), ended) {
            (Some((token, Wish::Observe(_, to))), Ok(message)) if is_observed(&message) => {
                let last = (message.observe().unwrap_or_default(), Instant::now());
                let _ = to.send(Some(Ok(message)));
                self.observations.insert(token, Watched { to, last });
            }
            (Some((token, wish)), ended) => {
                self.end.release(&token);
                tell_end(wish, ended);
            }
            (None, _) => {}
        }
    }

    /// Tells a notification, where it is fresher than the last one. One that has no Observe, or an error code, ends the
    /// observation (RFC 7641, sections 3.2 and 4.2).
    fn notice(&mut self, token: Token, message: Message) {
        let Some(watched) = self.observations.get_mut(&token) else { return };
        let now = Instant::now();
        if !is_observed(&message) {
            self.end.release(&token);
            let _ = watched.to.send(Some(Ok(message)));
            self.observations.remove(&token);
        } else if let Some(observe) = message.observe().filter(|observe| is_fresher(watched.last, *observe, now)) {
            watched.last = (observe, now);
            let _ = watched.to.send(Some(Ok(message)));
        }
    }
}

fn is_observed(message: &Message) -> bool {
    message.observe().is_some() && message.code().class() == CLASS_OF_SUCCESS
}

/// Tells the last that came of a request (whoever does not wait any more isn't told).
fn tell_end(wish: Wish, ended: Result<Message, NoAnswer>) {
    match wish {
        Wish::Ask(_, told) => drop(told.send(ended)),
        Wish::Observe(_, to) => drop(to.send(Some(ended))),
    }
}
