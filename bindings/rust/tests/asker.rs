//! The client of the exchange door, in made-up time: its refusals by name, what comes of a request, and 1,000 requests
//! to a server of that door over a network that loses 30 % and repeats 30 %.

use knifesilver::exchange::*;
use knifesilver::{Code, Config, NewError, MAX_DATAGRAM};
use std::collections::{BTreeMap, HashMap};
use std::net::{Ipv4Addr, SocketAddrV4};
use std::time::{Duration, Instant};

const HERE: SocketAddrV4 = SocketAddrV4::new(Ipv4Addr::new(192, 0, 2, 1), 40_001);
const THERE: SocketAddrV4 = SocketAddrV4::new(Ipv4Addr::new(192, 0, 2, 2), 5683);
/// Of a hundred datagrams so many are lost, and so many repeated.
const LOST: u64 = 30;
const REPEATED: u64 = 30;
/// A datagram is so long on its way, at most.
const SLOWEST_MS: u64 = 1_000;

/// Numbers from a seed (SplitMix64).
struct Chance(u64);

impl Chance {
    fn next(&mut self) -> u64 {
        self.0 = self.0.wrapping_add(0x9e37_79b9_7f4a_7c15);
        let mut x = self.0;
        x = (x ^ (x >> 30)).wrapping_mul(0xbf58_476d_1ce4_e5b9);
        x = (x ^ (x >> 27)).wrapping_mul(0x94d0_49bb_1331_11eb);
        x ^ (x >> 31)
    }

    fn below(&mut self, n: u64) -> u64 {
        self.next() % n
    }
}

fn config(seed: u64) -> Config {
    Config::default().with_rng_seed(seed)
}

#[test]
fn requests_are_refused() {
    let now = Instant::now();
    let mut client = Asker::new(&config(1), THERE, now).unwrap();
    assert_eq!(client.ask(now, &Message::new(Code::CONTENT)), Err(AskError::BadRequest));
    assert_eq!(client.ask(now, &Message::post("t").with_payload([0; 1_152])), Err(AskError::BadRequest));
    let token = client.ask(now, &Message::get("t")).unwrap();
    assert_eq!(client.ask(now, &Message::get("t")), Err(AskError::Running));
    let mut kept: Vec<Token> = (0..17).map(|number| Token::new(&[number]).unwrap()).collect();
    assert_eq!(kept.iter().filter(|token| client.keep(token)).count(), 16);
    assert!(!client.release(&token) && client.release(&kept.swap_remove(0)) && client.keep(&token));
    let too_many = Config::default().with_remembered(1_048_577);
    assert_eq!(Asker::new(&too_many, THERE, now).err(), Some(NewError::Remembered));
}

/// What came of a request is told once, and a datagram that is not for it is none.
#[test]
fn what_comes_of_a_request() {
    let now = Instant::now();
    let mut client = Asker::new(&config(1), THERE, now).unwrap();
    let mut buffer = [0; MAX_DATAGRAM];
    let mut ask = |client: &mut Asker| {
        client.ask(now, &Message::get("t").with_query("u")).unwrap();
        let size = client.poll_transmit(&mut buffer).unwrap().size;
        buffer[..size].to_vec()
    };
    let get = ask(&mut client);
    assert_eq!((get[0] & 0xf0, get[1], get.ends_with(b"\xb1t\x41u")), (0x40, 1, true));
    let (head, token) = ([0x60 | (get[0] & 15), 0x45, get[2], get[3]], &get[4..get.len() - 4]);
    let response = [&head, token, b"\xc0\xffhi"].concat();
    assert_eq!(client.handle(now, HERE, &response), Ok(None));
    let answer = Message::new(Code::CONTENT).with_format(0).with_payload("hi");
    assert_eq!(client.handle(now, THERE, &response), Ok(Some(Answer::Response(answer))));
    assert_eq!(client.handle(now, THERE, &response), Ok(None));
    let get = ask(&mut client);
    assert_eq!(client.handle(now, THERE, &[0x70, 0, get[2], get[3]]), Ok(Some(Answer::Reset)));
    ask(&mut client);
    let mut at = now;
    let ended = loop {
        at = client.poll_timeout(at).expect("it ends");
        match client.handle_timeout(at).unwrap() {
            None => while client.poll_transmit(&mut buffer).is_some() {},
            ended => break ended,
        }
    };
    assert_eq!(ended, Some(Answer::Timeout));
    assert!(at - now <= Duration::from_secs(93), "{:?}", at - now);
    assert_eq!(client.handle_timeout(at + Duration::from_secs(500)), Ok(None));
}

/// Both ends, and a network in memory.
struct Run {
    now: Instant,
    chance: Chance,
    server: Answerer,
    client: Asker,
    on_its_way: BTreeMap<(Instant, u64), (bool, Vec<u8>)>,
    /// How often each request was handed up, by its payload.
    calls: HashMap<Vec<u8>, u32>,
    deferred: HashMap<Asked, Message>,
    answers: Vec<Answer>,
    /// What is observed.
    value: u32,
    observers: Observers,
}

impl Run {
    fn new(seed: u64) -> Run {
        let now = Instant::now();
        Run {
            now,
            chance: Chance(seed),
            server: Answerer::new(&config(seed), now).unwrap(),
            client: Asker::new(&config(seed + 1), THERE, now).unwrap(),
            on_its_way: BTreeMap::new(),
            calls: HashMap::new(),
            deferred: HashMap::new(),
            answers: Vec::new(),
            value: 0,
            observers: Observers::default(),
        }
    }

    fn send(&mut self, to_server: bool, bytes: &[u8]) {
        if self.chance.below(100) < LOST {
            return;
        }
        for _ in 0..=u64::from(self.chance.below(100) < REPEATED) {
            let at = self.now + Duration::from_millis(self.chance.below(SLOWEST_MS));
            self.on_its_way.insert((at, self.chance.next()), (to_server, bytes.to_vec()));
        }
    }

    /// The handler: it says how often this request was handed up. Each third request is answered later.
    fn handle(&mut self, asked: Asked, message: &Message) {
        if message.observe().is_some() {
            let answer = self.observers.answer(&asked, message, self.shown());
            self.server.answer(&asked, &answer).unwrap();
            return;
        }
        let calls = self.calls.entry(message.payload().to_vec()).or_default();
        *calls += 1;
        let payload = [message.payload(), format!(" {calls}").as_bytes()].concat();
        let answer = Message::new(Code::CHANGED).with_payload(payload);
        let delay = Duration::from_millis(self.chance.below(6_000));
        if self.chance.below(3) == 0 && self.server.defer(self.now, &asked, delay).is_ok() {
            self.deferred.insert(asked, answer);
        } else {
            self.server.answer(&asked, &answer).unwrap();
        }
    }

    fn shown(&self) -> Message {
        Message::new(Code::CONTENT).with_payload(self.value.to_string())
    }

    fn turn(&mut self) {
        let shown = self.shown();
        self.observers.tell(&mut self.server, self.now, &shown);
        let mut buffer = [0; MAX_DATAGRAM];
        while let Some(answer) = self.client.handle_timeout(self.now).unwrap() {
            self.answers.push(answer);
        }
        while let Some(ready) = self.server.handle_timeout(self.now).unwrap() {
            let answer = self.deferred.remove(&ready).expect("it was deferred");
            self.server.respond(&ready, &answer).unwrap();
        }
        while let Some(transmit) = self.client.poll_transmit(&mut buffer) {
            self.send(true, &buffer[..transmit.size]);
        }
        while let Some(transmit) = self.server.poll_transmit(&mut buffer) {
            self.send(false, &buffer[..transmit.size]);
        }
    }

    /// Goes on to the next moment at which something comes or is due.
    fn step(&mut self) {
        self.step_until(self.now + Duration::from_secs(1_000));
    }

    /// The same, but not beyond that moment.
    fn step_until(&mut self, until: Instant) {
        self.turn();
        let arrival = self.on_its_way.keys().next().map(|(at, _)| *at);
        let dues = [arrival, self.client.poll_timeout(self.now), self.server.poll_timeout(self.now), Some(until)];
        let at = dues.into_iter().flatten().min().expect("that moment");
        self.now = self.now.max(at);
        while let Some(first) = self.on_its_way.first_entry().filter(|first| first.key().0 <= self.now) {
            let (to_server, bytes) = first.remove();
            if to_server {
                let told = self.server.handle(self.now, HERE, &bytes).unwrap();
                if let Some((asked, message)) = told.map(|request| (request.asked(), request.message())) {
                    self.handle(asked, &message);
                }
            } else if let Some(answer) = self.client.handle(self.now, THERE, &bytes).unwrap() {
                self.answers.push(answer);
            }
            self.turn();
        }
    }
}

#[test]
fn of_a_thousand_requests_each_is_handled_once() {
    let (mut run, mut answered) = (Run::new(7), 0);
    for number in 0..1_000 {
        let body = number.to_string();
        run.client.ask(run.now, &Message::post("t").with_payload(body.as_str())).unwrap();
        while run.answers.is_empty() {
            run.step();
        }
        let calls = run.calls.get(body.as_bytes()).copied().unwrap_or(0);
        match run.answers.remove(0) {
            Answer::Response(answer) => {
                assert_eq!((answer.code(), answer.text()), (Code::CHANGED, Some(format!("{number} 1").as_str())));
                assert_eq!(calls, 1, "{number}");
                answered += 1;
            }
            Answer::Timeout | Answer::NoResponse => assert!(calls <= 1, "{number}"),
            other => panic!("{other:?}"),
        }
        assert!(run.answers.is_empty(), "one answer a request");
    }
    assert!(run.calls.values().all(|calls| *calls == 1));
    assert!(answered >= 930, "{answered}");
    println!("{answered} of 1000 requests answered, {} handled", run.calls.len());
}

/// 100,000 random datagrams, and 100,000 that are a byte or two off a response: nothing is told, and the request goes
/// on.
#[test]
fn what_is_no_answer_breaks_nothing() {
    let (now, mut chance, mut buffer) = (Instant::now(), Chance(9), [0; MAX_DATAGRAM]);
    let mut client = Asker::new(&config(2), THERE, now).unwrap();
    let token = client.ask(now, &Message::get("t")).unwrap();
    let request = buffer_of(&mut client, &mut buffer).unwrap();
    let other = Token::new(&token.as_slice().iter().map(|byte| !byte).collect::<Vec<_>>()).unwrap();
    let head = [0x40 | other.as_slice().len() as u8, 0x45, 1, 2];
    let response = [&head, other.as_slice(), b"\xc0\x81x\xffbody"].concat();
    for number in 0..200_000_u32 {
        let mut bytes = response.clone();
        if number % 2 == 0 {
            bytes = (0..chance.below(40)).map(|_| chance.next() as u8).collect();
        } else {
            bytes[2..4].copy_from_slice(&(number as u16).to_be_bytes());
            for _ in 0..=chance.below(2) {
                let place = chance.below(bytes.len() as u64) as usize;
                bytes[place] = chance.next() as u8;
            }
            bytes.truncate(bytes.len() - chance.below(4) as usize);
        }
        // (what rejects or acknowledges the very request is left out)
        if bytes.get(2..4) == Some(&request[2..4]) {
            continue;
        }
        let told = client.handle(now + Duration::from_micros(u64::from(number)), THERE, &bytes).unwrap();
        assert_eq!(told, None, "{bytes:02x?}");
        while client.poll_transmit(&mut buffer).is_some() {}
    }
    let piggybacked = [&[0x60 | request[0] & 15, 0x45, request[2], request[3]], token.as_slice(), b"\xffbody"].concat();
    let answer = Message::new(Code::CONTENT).with_payload("body");
    assert_eq!(client.handle(now + Duration::from_secs(1), THERE, &piggybacked), Ok(Some(Answer::Response(answer))));
}

fn buffer_of(client: &mut Asker, buffer: &mut [u8; MAX_DATAGRAM]) -> Option<Vec<u8>> {
    let size = client.poll_transmit(buffer)?.size;
    Some(buffer[..size].to_vec())
}

/// An observation over that network: what is shown rises, and the last value is seen.
#[test]
fn an_observation() {
    let mut run = Run::new(5);
    let token = run.client.ask(run.now, &Message::get("t").with_observe(0)).unwrap();
    assert!(run.client.keep(&token));
    while run.answers.is_empty() {
        run.step();
    }
    let Answer::Response(first) = run.answers.remove(0) else { panic!("no response") };
    assert_eq!((first.observe(), first.text()), (Some(0), Some("0")));
    let (mut last, mut seen) = ((0, run.now), vec![0]);
    for value in 1..=30 {
        run.value = value;
        run.observers.changed();
        let until = run.now + Duration::from_secs(if value < 30 { 7 } else { 200 });
        while run.now < until {
            run.step_until(until);
            for answer in std::mem::take(&mut run.answers) {
                let Answer::Notification(of, message) = answer else { panic!("{answer:?}") };
                let observe = message.observe().expect("a notification");
                assert_eq!((of, message.text()), (token, Some(observe.to_string().as_str())));
                if is_fresher(last, observe, run.now) {
                    last = (observe, run.now);
                    seen.push(observe);
                }
            }
        }
    }
    assert!(seen.windows(2).all(|pair| pair[0] < pair[1]) && seen.len() > 10, "{seen:?}");
    assert_eq!(seen.last(), Some(&30));
    // Once its token is not kept, a notification is rejected by a Reset, and it observes no more.
    assert_eq!(run.observers.len(), 1);
    assert!(run.client.release(&token));
    run.value = 31;
    run.observers.changed();
    let until = run.now + Duration::from_secs(100);
    while run.now < until {
        run.step_until(until);
    }
    run.turn();
    assert_eq!(run.answers, []);
    assert!(run.observers.is_empty());
}

/// A server that shows a number, and the client's datagrams by hand.
struct Shown {
    server: Answerer,
    observers: Observers,
    buffer: [u8; MAX_DATAGRAM],
}

impl Shown {
    /// GET /n with an Observe of 0 and that token: the answer's first bytes.
    fn observe(&mut self, now: Instant, first: u8, id: u8, token: u8) -> [u8; 4] {
        let get = [first, 1, 0, id, token, 0x60, 0x51, b'n'];
        let request = self.server.handle(now, HERE, &get).unwrap().expect("a request");
        let (asked, message) = (request.asked(), request.message());
        let answer = self.observers.answer(&asked, &message, Message::new(Code::CONTENT));
        self.server.answer(&asked, &answer).unwrap();
        self.sent()
    }

    /// The first bytes of the next datagram, of which there is one.
    fn sent(&mut self) -> [u8; 4] {
        let sent = self.server.poll_transmit(&mut self.buffer).expect("a datagram");
        assert!(sent.size >= 4 && self.server.poll_transmit(&mut [0; MAX_DATAGRAM]).is_none());
        self.buffer[..4].try_into().unwrap()
    }

    /// A change is told: the notification's first bytes.
    fn notified(&mut self, now: Instant) -> [u8; 4] {
        self.observers.changed();
        assert_eq!(self.tell(now), 0);
        self.sent()
    }

    fn tell(&mut self, now: Instant) -> usize {
        self.observers.tell(&mut self.server, now, &Message::new(Code::CONTENT))
    }

    fn reset(&mut self, now: Instant, of: [u8; 4]) {
        assert!(self.server.handle(now, HERE, &[0x70, 0, of[2], of[3]]).unwrap().is_none());
    }
}

/// Who rejects a notification, or acknowledges none, is told nothing more (RFC 7641, sections 3.6 and 4.5).
#[test]
fn an_observer_that_is_gone_is_dropped() {
    let now = Instant::now();
    let at = |ms: u64| now + Duration::from_millis(ms);
    let server = Answerer::new(&config(3), now).unwrap();
    let mut shown = Shown { server, observers: Observers::default(), buffer: [0; MAX_DATAGRAM] };
    // A Reset of a Confirmable notification.
    assert_eq!(shown.observe(now, 0x41, 1, 7), [0x61, 0x45, 0, 1]);
    let notification = shown.notified(now);
    assert_eq!(notification[..2], [0x41, 0x45]);
    shown.reset(at(1), notification);
    let ended: Vec<_> = shown.server.ended_since(0).map(|it| (it.number(), it.to(), it.observe())).collect();
    assert_eq!((ended, shown.server.unmatched()), (vec![(1, HERE, true)], None));
    shown.tell(at(1));
    assert!(shown.observers.is_empty());
    // One that registers anew, with the same token, before that was looked at, goes on.
    shown.observe(at(2), 0x41, 2, 7);
    let notification = shown.notified(at(2));
    shown.reset(at(3), notification);
    shown.observe(at(4), 0x41, 3, 7);
    shown.tell(at(4));
    assert_eq!(shown.observers.len(), 1);
    // No acknowledgement, for 93 s at most (RFC 7252, section 4.8.2).
    let notification = shown.notified(at(5));
    for second in 1..=93 {
        shown.tell(at(5));
        assert_eq!(shown.observers.is_empty(), shown.server.ended_since(2).next().is_some(), "{second}");
        assert_eq!(shown.server.handle_timeout(at(5 + second * 1_000)), Ok(None));
        while let Some(again) = shown.server.poll_transmit(&mut shown.buffer) {
            assert_eq!(shown.buffer[..4], notification, "{again:?}");
        }
    }
    shown.tell(at(93_005));
    assert!(shown.observers.is_empty());
    // A Reset of an answer in a Non-confirmable message.
    let answer = shown.observe(at(94_000), 0x51, 9, 8);
    assert_eq!(answer[..2], [0x51, 0x45]);
    shown.reset(at(94_001), answer);
    assert_eq!(shown.server.unmatched(), Some((HERE, u16::from_be_bytes([answer[2], answer[3]]))));
}
