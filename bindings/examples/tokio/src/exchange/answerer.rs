//! A server whose answers an async function computes, and the task that drives it.

use crate::{until, OpenError, MAX_ARRIVED};
use knifesilver::exchange::{self, AnswerError, Asked, Message, OptionNumber, RespondError};
use knifesilver::{Code, Config, Kind, MAX_DATAGRAM};
use std::collections::HashMap;
use std::fmt;
use std::future::{poll_fn, Future};
use std::net::{SocketAddr, SocketAddrV4};
use std::panic::{catch_unwind, AssertUnwindSafe};
use std::pin::Pin;
use std::task::Poll;
use std::time::{Duration, Instant};
use tokio::net::UdpSocket;
use tokio::sync::{mpsc, oneshot};

/// How soon to look again, where the first of the deferred requests has no answer yet: no retransmission is later by
/// more.
const AGAIN: Duration = Duration::from_millis(20);

/// A server whose answers an async function computes. When it is dropped, its task ends.
///
/// What that function knows at once goes out in the acknowledgement. Else the request is acknowledged, and its answer
/// goes out when it is known, and when the requests that were acknowledged before are answered: 16 at most wait so. A
/// further one, and a Non-confirmable one whose answer isn't known at once, is answered with 5.03. A function that
/// panics has answered with 5.00.
pub struct Answerer {
    to: mpsc::UnboundedSender<Wish>,
    at: SocketAddr,
}

type Wish = Box<dyn FnOnce(&mut exchange::Answerer) + Send>;

impl Answerer {
    /// A server at that address of the own host. A request with a critical option that is none of the known ones is
    /// answered with 4.02, and ignored where it is not Confirmable (RFC 7252, section 5.4.1); the function answers all
    /// others.
    pub async fn open<H, A>(
        at: SocketAddrV4,
        config: &Config,
        known: &[OptionNumber],
        handler: H,
    ) -> Result<Answerer, OpenError>
    where
        H: FnMut(Asked, Message) -> A + Send + 'static,
        A: Future<Output = Message> + Send + 'static,
    {
        let socket = UdpSocket::bind(at).await?;
        let at = socket.local_addr()?;
        let end = exchange::Answerer::new(config, Instant::now())?;
        let ((to, wishes), (told, finished)) = (mpsc::unbounded_channel(), mpsc::unbounded_channel());
        let task = Task { end, socket, known: known.to_vec(), handler, told, answers: HashMap::new() };
        tokio::spawn(task.run(wishes, finished));
        Ok(Answerer { to, at })
    }

    /// The address of its socket.
    pub fn address(&self) -> SocketAddr {
        self.at
    }

    /// Has the task do that with the end, as [`exchange::Observers::tell`]; what is to be sent then is. None after the
    /// end of the task.
    pub async fn with_end<T: Send + 'static>(
        &self,
        work: impl FnOnce(&mut exchange::Answerer) -> T + Send + 'static,
    ) -> Option<T> {
        let (told, answer) = oneshot::channel();
        // (whoever does not wait any more isn't told)
        self.to.send(Box::new(move |end| drop(told.send(work(end))))).ok()?;
        answer.await.ok()
    }
}

impl fmt::Debug for Answerer {
    fn fmt(&self, f: &mut fmt::Formatter<'_>) -> fmt::Result {
        f.debug_struct("Answerer").field("at", &self.at).finish_non_exhaustive()
    }
}

struct Task<H> {
    end: exchange::Answerer,
    socket: UdpSocket,
    known: Vec<OptionNumber>,
    handler: H,
    told: mpsc::UnboundedSender<(Asked, Message)>,
    /// Those of deferred requests that are known, and not sent yet.
    answers: HashMap<Asked, Message>,
}

impl<H, A> Task<H>
where
    H: FnMut(Asked, Message) -> A + Send + 'static,
    A: Future<Output = Message> + Send + 'static,
{
    async fn run(
        mut self,
        mut wishes: mpsc::UnboundedReceiver<Wish>,
        mut finished: mpsc::UnboundedReceiver<(Asked, Message)>,
    ) {
        let mut arrived = vec![0; MAX_ARRIVED];
        loop {
            let now = Instant::now();
            let due = if self.respond(now) { Some(now + AGAIN) } else { self.end.poll_timeout(now) };
            self.send().await;
            tokio::select! {
                wish = wishes.recv() => match wish {
                    Some(wish) => wish(&mut self.end),
                    None => return,
                },
                Some((asked, answer)) = finished.recv() => drop(self.answers.insert(asked, answer)),
                got = self.socket.recv_from(&mut arrived) => {
                    // (an error tells of a datagram that nobody took; no answer can go to port 0)
                    if let Some((len, SocketAddr::V4(from))) = got.ok().filter(|(_, from)| from.port() != 0) {
                        self.take(from, &arrived[..len]).await;
                    }
                }
                () = until(due) => {}
            }
        }
    }

    /// Takes a datagram, and answers the request that it is, if it is one.
    async fn take(&mut self, from: SocketAddrV4, datagram: &[u8]) {
        let now = Instant::now();
        // (one that finds no memory is lost)
        let Ok(Some(request)) = self.end.handle(now, from, datagram) else { return };
        let asked = request.asked();
        let answer = match request.unknown_critical(&self.known) {
            Some(_) if asked.kind() != Kind::Confirmable => return,
            Some(number) => Message::new(Code::BAD_OPTION).with_payload(format!("{number} is not known")),
            None => match begin(&mut self.handler, asked, request.message()).await {
                Ok(answer) => answer,
                Err(future) if self.end.defer(now, &asked, Duration::ZERO).is_ok() => {
                    self.finish(asked, future);
                    return;
                }
                Err(_) => Message::new(Code::SERVICE_UNAVAILABLE),
            },
        };
        if self.end.answer(&asked, &answer) == Err(AnswerError::BadResponse) {
            // (without memory it is lost)
            let _ = self.end.answer(&asked, &Message::new(Code::INTERNAL_SERVER_ERROR));
        }
    }

    fn finish(&self, asked: Asked, future: Pin<Box<A>>) {
        let told = self.told.clone();
        tokio::spawn(async move {
            let answer = tokio::spawn(future).await;
            let _ = told.send((asked, answer.unwrap_or_else(|_| Message::new(Code::INTERNAL_SERVER_ERROR))));
        });
    }

    /// Does what is due, and answers the deferred requests whose turn it is. Whether the first has no answer yet.
    fn respond(&mut self, now: Instant) -> bool {
        // (where there is no memory, what is due is done later)
        while let Ok(Some(ready)) = self.end.handle_timeout(now) {
            let Some(answer) = self.answers.get(&ready) else { return true };
            match self.end.respond(&ready, answer) {
                Ok(()) | Err(RespondError::Given) => drop(self.answers.remove(&ready)),
                Err(RespondError::BadResponse) => {
                    self.answers.insert(ready, Message::new(Code::INTERNAL_SERVER_ERROR));
                }
                Err(_) => return true,
            }
        }
        false
    }

    async fn send(&mut self) {
        let mut buffer = [0; MAX_DATAGRAM];
        while let Some(transmit) = self.end.poll_transmit(&mut buffer) {
            // What the socket does not take is lost, and sent again if it is to be.
            let _ = self.socket.send_to(&buffer[..transmit.size], SocketAddr::V4(transmit.destination)).await;
        }
    }
}

/// The answer, where it is known at once; else its future.
async fn begin<H, A>(handler: &mut H, asked: Asked, request: Message) -> Result<Message, Pin<Box<A>>>
where
    H: FnMut(Asked, Message) -> A,
    A: Future<Output = Message>,
{
    let failed = |_| Message::new(Code::INTERNAL_SERVER_ERROR);
    let mut future = match catch_unwind(AssertUnwindSafe(|| Box::pin(handler(asked, request)))) {
        Ok(future) => future,
        Err(panic) => return Ok(failed(panic)),
    };
    let polled = poll_fn(|context| Poll::Ready(catch_unwind(AssertUnwindSafe(|| future.as_mut().poll(context))))).await;
    match polled {
        Ok(Poll::Pending) => Err(future),
        Ok(Poll::Ready(answer)) => Ok(answer),
        Err(panic) => Ok(failed(panic)),
    }
}
