//! Who observes a resource.

use super::{Answerer, Asked, Ended, Message, NotifyError, Token};
use std::net::SocketAddrV4;
use std::time::{Duration, Instant};

/// An Observe of a request that registers; and one that deregisters (RFC 7641, section 2).
const REGISTER: u32 = 0;
const DEREGISTER: u32 = 1;

/// Who observes one resource of a server, and which of its states each was told last (RFC 7641, section 4).
///
/// Each time the resource changes, call [`Observers::changed`], and [`Observers::tell`] then and after each
/// [`Answerer::handle`]. An observer whose last notification is not acknowledged yet is told later, by the state of
/// then (section 4.5.2). One that answers a notification by a Reset, or acknowledges none, is dropped (sections 3.6 and
/// 4.5); and where there are too many, the one that registered first.
///
/// ```
/// use knifesilver::exchange::{Answerer, Message, Observers};
/// use knifesilver::{Code, Config, MAX_DATAGRAM};
/// use std::time::Instant;
///
/// let (now, client, mut buffer) = (Instant::now(), "127.0.0.1:40001".parse()?, [0; MAX_DATAGRAM]);
/// let mut server = Answerer::new(&Config::default(), now)?;
/// let mut observers = Observers::new(64);
/// let shown = |lamp: &str| Message::new(Code::CONTENT).with_payload(lamp);
///
/// // GET /lamp with an Observe of 0 and the token 07.
/// let request = server.handle(now, client, b"\x41\x01\x00\x01\x07\x60\x54lamp")?.expect("a request");
/// let (asked, message) = (request.asked(), request.message());
/// server.answer(&asked, &observers.answer(&asked, &message, shown("off")))?;
/// let sent = server.poll_transmit(&mut buffer).expect("its answer");
/// assert_eq!(&buffer[..sent.size], b"\x61\x45\x00\x01\x07\x60\xffoff");
///
/// observers.changed();
/// observers.tell(&mut server, now, &shown("on"));
/// let sent = server.poll_transmit(&mut buffer).expect("a notification");
/// assert_eq!(&buffer[4..sent.size], b"\x07\x61\x01\xffon");
/// # Ok::<(), Box<dyn std::error::Error>>(())
/// ```
#[derive(Clone, Debug)]
pub struct Observers {
    most: usize,
    /// How often the resource changed: the number of its state.
    state: u32,
    observers: Vec<Observer>,
    /// The number of the last one that ended.
    ended: u64,
}

#[derive(Clone, Debug)]
struct Observer {
    at: SocketAddrV4,
    token: Token,
    told: u32,
}

impl Observer {
    /// A registration from the same endpoint with the same token is the same one (RFC 7641, section 4.1).
    fn is_of(&self, asked: &Asked) -> bool {
        self.at == asked.from() && self.token == *asked.token()
    }

    fn ends_by(&self, ended: &Ended) -> bool {
        ended.observe() && self.at == ended.to() && self.token == *ended.token()
    }
}

/// No observers, and 64 at most.
impl Default for Observers {
    fn default() -> Observers {
        Observers::new(64)
    }
}

impl Observers {
    /// No observers, and so many at most.
    pub fn new(most: usize) -> Observers {
        Observers { most, state: 0, observers: Vec::new(), ended: 0 }
    }

    /// Registers or deregisters the sender of a GET or a FETCH, as its Observe says, where the answer to it is of
    /// class 2: the answer, with the Observe of a notification where its sender observes the resource now (RFC 7641,
    /// section 4.1).
    #[must_use = "this is the answer that is to be sent"]
    pub fn answer(&mut self, asked: &Asked, request: &Message, answer: Message) -> Message {
        let observe = request.observe().filter(|_| answer.code().class() == 2);
        if observe == Some(REGISTER) || observe == Some(DEREGISTER) {
            self.observers.retain(|observer| !observer.is_of(asked));
        }
        if observe != Some(REGISTER) || self.most == 0 {
            return answer;
        }
        if self.observers.len() == self.most {
            self.observers.remove(0);
        }
        self.observers.push(Observer { at: asked.from(), token: *asked.token(), told: self.state });
        answer.with_observe(self.state)
    }

    /// The resource has another state, of which the observers are to be told.
    pub fn changed(&mut self) {
        self.state = self.state.wrapping_add(1);
    }

    /// Drops the observers whose notifications ended, and tells those that were not told of it yet the state that the
    /// resource has, as a GET would be answered. How many are still to be told: call it again.
    pub fn tell(&mut self, server: &mut Answerer, now: Instant, shown: &Message) -> usize {
        for ended in server.ended_since(self.ended) {
            self.ended = ended.number();
            self.observers.retain(|observer| !observer.ends_by(ended));
        }
        let (state, shown) = (self.state, shown.clone().with_observe(self.state));
        let mut waiting = 0;
        for observer in self.observers.iter_mut().filter(|observer| observer.told != state) {
            match server.notify(now, observer.at, &observer.token, &shown) {
                // (what can't be a notification never will be)
                Ok(_) | Err(NotifyError::BadResponse) => observer.told = state,
                Err(_) => waiting += 1,
            }
        }
        waiting
    }

    /// How many there are.
    pub fn len(&self) -> usize {
        self.observers.len()
    }

    /// Whether there is none.
    pub fn is_empty(&self) -> bool {
        self.observers.is_empty()
    }
}

/// Half of the range of Observe, and after how long any notification is fresher (RFC 7641, section 3.4).
const HALF_RANGE: u32 = 1 << 23;
const REORDERING: Duration = Duration::from_secs(128);

/// Whether a notification with this Observe, which came now, is fresher than the last one, whose Observe and moment
/// these are: an older one may come later (RFC 7641, section 3.4).
///
/// ```
/// # use knifesilver::exchange::is_fresher;
/// # use std::time::{Duration, Instant};
/// let (then, soon) = (Instant::now(), Instant::now() + Duration::from_secs(1));
/// assert!(is_fresher((7, then), 8, soon) && !is_fresher((7, then), 7, soon) && !is_fresher((8, then), 7, soon));
/// assert!(is_fresher((0xff_ffff, then), 0, soon) && is_fresher((8, then), 7, then + Duration::from_secs(129)));
/// ```
pub fn is_fresher(last: (u32, Instant), observe: u32, now: Instant) -> bool {
    let (before, then) = last;
    (before < observe && observe - before < HALF_RANGE)
        || (before > observe && before - observe > HALF_RANGE)
        || now.saturating_duration_since(then) > REORDERING
}
