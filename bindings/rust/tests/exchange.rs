//! The exchange door, in made-up time: its refusals by name, 1,000 requests over a network that loses 30 % and repeats
//! 30 %, and datagrams that are no messages.

use knifesilver::exchange::*;
use knifesilver::{Code, Config, Kind, NewError, MAX_DATAGRAM};
use std::collections::{BTreeMap, HashMap};
use std::net::{Ipv4Addr, SocketAddrV4};
use std::time::{Duration, Instant};

const HERE: SocketAddrV4 = SocketAddrV4::new(Ipv4Addr::new(192, 0, 2, 1), 40_001);
const THERE: SocketAddrV4 = SocketAddrV4::new(Ipv4Addr::new(192, 0, 2, 2), 5683);
/// Of a hundred datagrams so many are lost, and so many repeated.
const LOST: u64 = 30;
const REPEATED: u64 = 30;
/// A datagram is so long on its way, at most.
const SLOWEST_MS: u64 = 1_000;

/// Numbers from a seed (SplitMix64).
struct Chance(u64);

impl Chance {
    fn next(&mut self) -> u64 {
        self.0 = self.0.wrapping_add(0x9e37_79b9_7f4a_7c15);
        let mut x = self.0;
        x = (x ^ (x >> 30)).wrapping_mul(0xbf58_476d_1ce4_e5b9);
        x = (x ^ (x >> 27)).wrapping_mul(0x94d0_49bb_1331_11eb);
        x ^ (x >> 31)
    }

    fn below(&mut self, n: u64) -> u64 {
        self.next() % n
    }
}

fn config(seed: u64) -> Config {
    Config::default().with_rng_seed(seed)
}

fn server() -> (Answerer, Instant) {
    let now = Instant::now();
    (Answerer::new(&config(1), now).unwrap(), now)
}

fn sent(server: &mut Answerer) -> Option<Vec<u8>> {
    let mut buffer = [0; MAX_DATAGRAM];
    server.poll_transmit(&mut buffer).map(|it| buffer[..it.size].to_vec())
}

fn content(payload: &str) -> Message {
    Message::new(Code::CONTENT).with_payload(payload)
}

#[test]
fn an_answer_goes_out_once_and_to_a_copy_again() {
    let (mut server, now) = server();
    let (get, reply) = (b"\x40\x01\x00\x01", b"\x60\x45\x00\x01\xffhi".to_vec());
    let asked = server.handle(now, HERE, get).unwrap().unwrap().asked();
    assert_eq!((asked.from(), asked.kind(), asked.id()), (HERE, Kind::Confirmable, 1));
    assert_eq!(server.respond(&asked, &content("hi")), Err(RespondError::NotReady));
    assert_eq!(server.answer(&asked, &Message::new(Code::GET)), Err(AnswerError::BadResponse));
    assert_eq!(server.answer(&asked, &content(&"x".repeat(1_148))), Err(AnswerError::BadResponse));
    assert_eq!(server.answer(&asked, &content("hi")), Ok(()));
    assert_eq!(server.answer(&asked, &content("ho")), Err(AnswerError::Given));
    assert_eq!(server.defer(now, &asked, Duration::ZERO), Err(DeferError::Given));
    assert_eq!((sent(&mut server), sent(&mut server)), (Some(reply.clone()), None));
    assert!(server.handle(now, HERE, get).unwrap().is_none());
    assert_eq!((sent(&mut server), sent(&mut server)), (Some(reply), None));
    assert_eq!(server.answer(&asked, &content("hi")), Err(AnswerError::NotAsked));
    let other = server.handle(now, HERE, b"\x40\x01\x00\x02").unwrap().unwrap().asked();
    assert_eq!(server.answer(&asked, &content("hi")), Err(AnswerError::NotAsked));
    assert_eq!(server.answer(&other, &content(&"x".repeat(1_147))), Ok(()));
    assert_eq!(sent(&mut server).map(|it| it.len()), Some(1_152));
}

#[test]
fn a_deferred_request_is_answered_when_it_is_ready() {
    let (mut server, now) = server();
    let ms = Duration::from_millis;
    let non = server.handle(now, HERE, b"\x50\x01\x00\x08").unwrap().unwrap().asked();
    assert_eq!(server.defer(now, &non, ms(0)), Err(DeferError::NotConfirmable));
    let asked = server.handle(now, HERE, b"\x41\x05\x00\x07\x09").unwrap().unwrap().asked();
    assert_eq!(server.defer(now, &non, ms(0)), Err(DeferError::NotAsked));
    assert_eq!(server.defer(now, &asked, ms(1_000)), Ok(()));
    assert_eq!(sent(&mut server).unwrap(), b"\x60\x00\x00\x07");
    assert_eq!(server.poll_timeout(now), Some(now + ms(1_000)));
    assert_eq!(server.handle_timeout(now + ms(999)), Ok(None));
    assert_eq!(server.handle_timeout(now + ms(1_000)), Ok(Some(asked)));
    assert_eq!(server.respond(&asked, &Message::new(Code(0))), Err(RespondError::BadResponse));
    assert_eq!(server.respond(&asked, &content("hi")), Ok(()));
    assert_eq!(server.respond(&asked, &content("hi")), Err(RespondError::Given));
    let response = sent(&mut server).unwrap();
    assert_eq!((&response[..2], &response[4..]), (&b"\x41\x45"[..], &b"\x09\xffhi"[..]));
    assert_eq!(server.handle_timeout(now + ms(1_000)), Ok(None));
    // Another one has to wait for the acknowledgement of that.
    assert!(!server.may_notify(now + ms(1_000), HERE) && server.may_notify(now + ms(1_000), THERE));
    let token = *asked.token();
    assert_eq!(server.notify(now + ms(1_000), HERE, &token, &content("")), Err(NotifyError::NotReady));
    assert_eq!(server.notify(now + ms(1_000), THERE, &token, &Message::new(Code::PUT)), Err(NotifyError::BadResponse));
}

#[test]
fn a_plain_notification_waits_for_no_acknowledgement() {
    let (mut server, now) = server();
    let token = Token::new(b"\x07").unwrap();
    let id = server.notify_plain(now, HERE, &token, &content("on")).unwrap();
    let [high, low] = id.to_be_bytes();
    assert_eq!(sent(&mut server).unwrap(), [&[0x51, 0x45, high, low, 7, 0xff][..], b"on"].concat());
    assert_eq!((server.poll_timeout(now), server.may_notify(now, HERE)), (None, true));
    assert!(server.handle(now, HERE, &[0x70, 0, high, low]).unwrap().is_none());
    assert_eq!(server.unmatched(), Some((HERE, id)));
    assert_eq!(server.notify_plain(now, HERE, &token, &Message::new(Code::PUT)), Err(NotifyError::BadResponse));
    server.notify(now, HERE, &token, &content("on")).unwrap();
    assert_eq!(server.notify_plain(now, HERE, &token, &content("off")), Err(NotifyError::NotReady));
}

#[test]
fn it_says_how_many_are_deferred() {
    let (mut server, now) = server();
    let load = server.load();
    assert_eq!((load.deferred, load.most_deferred, load.most_remembered), (0, 16, 4_096));
    let asked = server.handle(now, HERE, b"\x40\x01\x00\x01").unwrap().unwrap().asked();
    assert_eq!(server.defer(now, &asked, Duration::ZERO), Ok(()));
    assert_eq!(server.load().deferred, 1);
    assert_eq!(server.handle_timeout(now), Ok(Some(asked)));
    assert_eq!(server.respond(&asked, &content("hi")), Ok(()));
    assert_eq!(server.load(), load);
}

#[test]
fn too_many_are_to_be_remembered() {
    let made = |remembered| Answerer::new(&config(1).with_remembered(remembered), Instant::now()).err();
    assert_eq!((made(1_048_576), made(1_048_577)), (None, Some(NewError::Remembered)));
    assert_eq!((Token::new(&[0; 8]).is_some(), Token::new(&[0; 9])), (true, None));
}

#[test]
fn sixteen_requests_are_deferred() {
    let (mut server, now) = server();
    for number in 0..=16 {
        let get = [0x40, 1, 0, number];
        let request = server.handle(now, HERE, &get).unwrap().unwrap();
        let wanted = if number < 16 { Ok(()) } else { Err(DeferError::Full) };
        assert_eq!(server.defer(now, &request.asked(), Duration::from_secs(9)), wanted);
        let unavailable = Message::new(Code::SERVICE_UNAVAILABLE);
        assert_eq!(server.answer(&request.asked(), &unavailable).is_ok(), number == 16);
    }
}

/// Requests from one endpoint, all at once, that are sent again as RFC 7252, section 4.2, says; a server, and a
/// network.
struct Run {
    now: Instant,
    chance: Chance,
    server: Answerer,
    on_its_way: BTreeMap<(Instant, u64), (bool, Vec<u8>)>,
    /// Those that have no answer: when each is sent again, how long to wait then, and how often it was sent.
    open: BTreeMap<u16, (Instant, Duration, u32)>,
    answers: HashMap<u16, Vec<u8>>,
    /// How often each was handed up.
    calls: HashMap<u16, u32>,
    deferred: HashMap<Asked, Message>,
}

/// ACK_TIMEOUT and MAX_RETRANSMIT (RFC 7252, section 4.8).
const TIMEOUT: Duration = Duration::from_secs(2);
const COPIES: u32 = 4;

impl Run {
    fn new(seed: u64, requests: u16) -> Run {
        let now = Instant::now();
        let server = Answerer::new(&config(seed), now).unwrap();
        let open = |number: u16| (number, (now + Duration::from_millis(20) * u32::from(number), TIMEOUT, 0));
        Run {
            now,
            chance: Chance(seed),
            server,
            on_its_way: BTreeMap::new(),
            open: (0..requests).map(open).collect(),
            answers: HashMap::new(),
            calls: HashMap::new(),
            deferred: HashMap::new(),
        }
    }

    fn send(&mut self, to_server: bool, bytes: &[u8]) {
        if self.chance.below(100) < LOST {
            return;
        }
        for _ in 0..=u64::from(self.chance.below(100) < REPEATED) {
            let at = self.now + Duration::from_millis(self.chance.below(SLOWEST_MS));
            self.on_its_way.insert((at, self.chance.next()), (to_server, bytes.to_vec()));
        }
    }

    /// Sends the requests that are due (their Message ID is their token), and what the server has to be sent.
    fn turn(&mut self) {
        let due = self.open.iter().filter(|(_, (at, ..))| *at <= self.now);
        let due: Vec<u16> = due.map(|(number, _)| *number).collect();
        for number in due {
            let (_, wait, sent) = self.open[&number];
            if sent > COPIES {
                self.open.remove(&number);
                continue;
            }
            self.open.insert(number, (self.now + wait, 2 * wait, sent + 1));
            let id = number.to_be_bytes();
            self.send(true, &[&[0x42, 0x02], &id[..], &id[..], b"\xb1t"].concat());
        }
        while let Some(ready) = self.server.handle_timeout(self.now).unwrap() {
            let answer = self.deferred.remove(&ready).expect("it was deferred, and not answered");
            self.server.respond(&ready, &answer).unwrap();
        }
        while let Some(bytes) = sent(&mut self.server) {
            self.send(false, &bytes);
        }
    }

    /// The handler: it says which request this is. Each third one is answered later.
    fn handle(&mut self, bytes: &[u8]) {
        let Some(request) = self.server.handle(self.now, HERE, bytes).unwrap() else { return };
        let asked = request.asked();
        *self.calls.entry(asked.id()).or_default() += 1;
        let answer = Message::new(Code::CHANGED).with_payload(asked.id().to_string());
        let delay = Duration::from_millis(self.chance.below(3_000));
        if asked.id() % 3 == 0 && self.server.defer(self.now, &asked, delay).is_ok() {
            self.deferred.insert(asked, answer);
        } else {
            self.server.answer(&asked, &answer).unwrap();
        }
    }

    /// What comes back: an Empty acknowledgement, or a response, which is acknowledged where it is Confirmable.
    fn hear(&mut self, bytes: &[u8]) {
        if bytes[1] == 0 {
            return;
        }
        if bytes[0] & 0x30 == 0 {
            self.send(true, &[0x60, 0, bytes[2], bytes[3]]);
        }
        let number = u16::from_be_bytes([bytes[4], bytes[5]]);
        let told = self.answers.entry(number).or_insert(bytes[1..].to_vec());
        assert_eq!(told, &bytes[1..], "a copy has the same bytes");
        assert_eq!(&bytes[6..], [b"\xff", number.to_string().as_bytes()].concat(), "it is the answer to this request");
        self.open.remove(&number);
    }

    /// Goes on to the next moment at which something comes or is due.
    fn step(&mut self) {
        self.turn();
        let arrival = self.on_its_way.keys().next().map(|(at, _)| *at);
        let again = self.open.values().map(|(at, ..)| *at).min();
        let dues = [arrival, again, self.server.poll_timeout(self.now)];
        self.now = dues.into_iter().flatten().min().expect("something is due");
        while let Some(first) = self.on_its_way.first_entry().filter(|first| first.key().0 <= self.now) {
            match first.remove() {
                (true, bytes) => self.handle(&bytes),
                (false, bytes) => self.hear(&bytes),
            }
            self.turn();
        }
    }
}

/// Of 1,000 requests at least 930 are answered, each by its own answer; no handler is called twice for one.
#[test]
fn of_a_thousand_requests_at_once_each_is_handled_once() {
    let mut run = Run::new(7, 1_000);
    while !run.open.is_empty() {
        run.step();
    }
    assert!(run.answers.len() >= 930, "{}", run.answers.len());
    assert!(run.answers.keys().all(|number| run.calls[number] == 1) && run.calls.values().all(|calls| *calls == 1));
    println!("{} of 1000 requests answered, {} handled", run.answers.len(), run.calls.len());
}

/// 100,000 random datagrams, and 100,000 that are a byte or two off; then the server does what it did before.
#[test]
fn what_is_no_message_breaks_nothing() {
    let ((mut server, now), mut chance) = (server(), Chance(9));
    let request = b"\x44\x01\x12\x34\x01\x02\x03\x04\x37example\x85lamps\x0312\x3c\x45u=f\xffbody";
    let (mut handed, mut buffer) = (0, [0; MAX_DATAGRAM]);
    for number in 0..200_000_u32 {
        let mut bytes = request.to_vec();
        if number % 2 == 0 {
            bytes = (0..chance.below(40)).map(|_| chance.next() as u8).collect();
        } else {
            bytes[2..4].copy_from_slice(&(number as u16).to_be_bytes());
            for _ in 0..=chance.below(2) {
                let place = chance.below(bytes.len() as u64) as usize;
                bytes[place] = chance.next() as u8;
            }
            bytes.truncate(bytes.len() - chance.below(4) as usize);
        }
        let now = now + Duration::from_millis(20 * u64::from(number));
        let read = Message::read(&bytes);
        if let Some(request) = server.handle(now, HERE, &bytes).unwrap() {
            assert_eq!(Some(request.message()), read);
            assert_eq!(request.payload(), request.message().payload());
            server.answer(&request.asked(), &content("here")).unwrap();
            handed += 1;
        }
        while server.poll_transmit(&mut buffer).is_some() {}
    }
    assert!(handed > 10_000, "{handed}");
    let later = now + Duration::from_secs(10_000);
    let asked = server.handle(later, HERE, b"\x40\x01\x00\x01").unwrap().unwrap().asked();
    server.answer(&asked, &content("here")).unwrap();
    assert_eq!(sent(&mut server).unwrap(), b"\x60\x45\x00\x01\xffhere");
}

#[test]
fn each_type_can_be_shown() {
    let (mut server, now) = server();
    let get = b"\x41\x01\x7d\x34\x07\xb3sum\x43a=2";
    let request = server.handle(now, HERE, get).unwrap().unwrap();
    let message = "Message { 0.01, [Uri-Path: \"sum\", Uri-Query: \"a=2\"], \"\" }";
    let asked = "Asked(192.0.2.1:40001, Confirmable, 0x7d34, Token(07))";
    assert_eq!(format!("{request:?}"), format!("Request {{ asked: {asked}, message: {message} }}"));
    assert_eq!(format!("{server:?}"), "Answerer { .. }");
    assert_eq!(format!("{:?}", OptionNumber(2_049)), "OptionNumber(2049)");
}
