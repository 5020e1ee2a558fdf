//! The client that blocks and the server's loop, over sockets of 127.0.0.1.
#![cfg(feature = "std-driver")]

use knifesilver::driver::{Answerer, Asker, Client, Error, NoAnswer, NoBody, OpenError, Server, Told, Verdict};
use knifesilver::exchange::blocks::{slice, Assembled, Assembly, Block, Fetch, FetchError, Fetched, Upload};
use knifesilver::exchange::{AskError, Message, Observers};
use knifesilver::{Applied, CallError, Code, Config, Method, NewError, Report, Request, Tag, TEXT_PLAIN};
use std::net::{Ipv4Addr, SocketAddr, SocketAddrV4, UdpSocket};
use std::ops::ControlFlow;
use std::sync::mpsc::{channel, Receiver, Sender};
use std::thread::JoinHandle;
use std::time::{Duration, Instant};

const FREE: SocketAddrV4 = SocketAddrV4::new(Ipv4Addr::LOCALHOST, 0);
const PATIENCE: Duration = Duration::from_secs(60);
/// How often the server's thread looks for a wish.
const OFTEN: Duration = Duration::from_millis(5);
const METHOD_NOT_ALLOWED: Code = Code(0x85);

type Wish = Box<dyn FnOnce(&mut Server) + Send>;

/// A server in a thread of its own, which ends when this is dropped.
struct Running {
    at: SocketAddrV4,
    wishes: Option<Sender<Wish>>,
    applied: Receiver<Applied>,
    thread: Option<JoinHandle<()>>,
}

impl Running {
    fn start(mut server: Server) -> Running {
        let ((wishes, wished), (told, applied)) = (channel::<Wish>(), channel());
        let at = server.address();
        let thread = std::thread::spawn(move || {
            server.run(OFTEN, |server, applied| {
                applied.into_iter().for_each(|it| drop(told.send(it)));
                match wished.try_recv() {
                    Ok(wish) => wish(server),
                    Err(std::sync::mpsc::TryRecvError::Empty) => {}
                    Err(_) => return ControlFlow::Break(()),
                }
                ControlFlow::Continue(())
            });
        });
        Running { at, wishes: Some(wishes), applied, thread: Some(thread) }
    }

    fn wish(&self, wish: impl FnOnce(&mut Server) + Send + 'static) {
        self.wishes.as_ref().unwrap().send(Box::new(wish)).unwrap();
    }

    fn set(&self, path: &'static str, body: &'static [u8]) {
        self.wish(move |server| assert_eq!(server.update(path, None, body).map(|(_, is_new)| is_new), Ok(true)));
    }
}

impl Drop for Running {
    fn drop(&mut self) {
        self.wishes = None;
        let ended = self.thread.take().map(JoinHandle::join);
        assert!(std::thread::panicking() || matches!(ended, Some(Ok(()))));
    }
}

fn server() -> Server {
    Server::open(FREE, &Config::default()).unwrap()
}

fn both() -> (Running, Client) {
    let running = Running::start(server());
    let client = Client::open(running.at).unwrap();
    (running, client)
}

#[test]
fn each_method() {
    let (running, mut client) = both();
    assert_eq!(client.put("lamp", Some(TEXT_PLAIN), b"on"), Ok(Code::CREATED));
    assert_eq!(client.post("lamp", None, b"ce"), Ok(Code::CHANGED));
    let got = client.get("lamp").unwrap();
    assert_eq!((got.body.as_slice(), got.format), (&b"once"[..], Some(TEXT_PLAIN)));
    assert_eq!(client.delete("lamp"), Ok(Code::DELETED));
    assert_eq!(client.get("lamp"), Err(Error::Failed(Code::NOT_FOUND)));
    for (method, held) in [(Method::Put, Some(&b"on"[..])), (Method::Post, Some(b"once")), (Method::Delete, None)] {
        let applied = running.applied.recv_timeout(PATIENCE).unwrap();
        assert_eq!((applied.method, applied.path.as_slice()), (method, &b"/lamp"[..]));
        assert_eq!(applied.held.as_ref().map(|it| it.body.as_slice()), held);
        assert_eq!(applied.from.ip(), Ipv4Addr::LOCALHOST);
    }
    assert!(running.applied.try_recv().is_err());
}

#[test]
fn conditions_and_refusals() {
    let (_running, mut client) = both();
    assert_eq!(client.put("t", None, b"1"), Ok(Code::CREATED));
    let mut new = Request::put("t", None, b"2");
    new.if_none_match = true;
    assert_eq!(client.call(&new), Ok(Report::Failed(Code::PRECONDITION_FAILED)));
    let tags = [client.get("t").unwrap().tag.unwrap()];
    let mut known = Request::get("t");
    known.etags = &tags;
    assert_eq!(client.call(&known), Ok(Report::Valid(Some(tags[0]))));
    let old = [Tag::new(b"old").unwrap()];
    let mut delete = Request::delete("t");
    delete.if_match = &old;
    assert_eq!(client.call(&delete), Ok(Report::Failed(Code::PRECONDITION_FAILED)));
    assert_eq!(client.get(&"/".repeat(40)), Err(Error::Refused(CallError::BadPath)));
    assert_eq!(client.get("t").unwrap().body, b"1");
    let config = Config::default().with_block_size(7);
    assert!(matches!(Server::open(FREE, &config), Err(OpenError::New(NewError::BlockSize))));
    assert!(matches!(Client::open_with(FREE, &config), Err(OpenError::New(NewError::BlockSize))));
    let taken = UdpSocket::bind(FREE).unwrap();
    let SocketAddr::V4(at) = taken.local_addr().unwrap() else { panic!("an IPv4 address") };
    assert!(matches!(Server::open(at, &Config::default()), Err(OpenError::Socket(_))));
}

#[test]
fn bodies_in_blocks() {
    let (_running, mut client) = both();
    let body: Vec<u8> = (0..30_000u32).map(|i| (i * 7 % 251) as u8).collect();
    assert_eq!(client.put("a/big", Some(42), &body), Ok(Code::CREATED));
    assert_eq!(client.get("a/big").unwrap().body, body);
}

#[test]
fn the_values_of_an_observation() {
    let (running, mut client) = both();
    assert_eq!(client.put("t", None, b"1"), Ok(Code::CREATED));
    let mut values = client.observe("t").unwrap();
    for (value, next) in [(&b"1"[..], &b"2"[..]), (b"2", b"3")] {
        assert_eq!(values.next().unwrap().unwrap().body, value);
        running.set("t", next);
    }
    assert_eq!(values.next_within(PATIENCE).unwrap().unwrap().body, b"3");
    assert_eq!(values.next_within(OFTEN), Some(Err(Error::Silent)));
    running.wish(|server| assert_eq!(server.remove("t"), Ok(true)));
    assert_eq!(values.next(), Some(Err(Error::Ended(Code::NOT_FOUND))));
    assert_eq!(values.next(), None);
    assert_eq!(values.cancel(), Ok(()));
    assert_eq!(client.observe("t").unwrap().next(), Some(Err(Error::Ended(Code::NOT_FOUND))));
}

#[test]
fn an_observation_by_a_callback_and_one_that_is_dropped() {
    let (running, mut client) = both();
    assert_eq!(client.put("t", None, b"0"), Ok(Code::CREATED));
    let mut seen = vec![];
    let ended = client.observe_each("t", |value| {
        let next = [&b"1"[..], b"2", b"3"].get(seen.len()).copied();
        seen.push(value.body);
        next.map_or(ControlFlow::Break(()), |next| {
            running.set("t", next);
            ControlFlow::Continue(())
        })
    });
    assert_eq!((ended, seen.join(&b' ')), (Ok(()), b"0 1 2 3".to_vec()));
    // Over and over: the places of the 16 observations are given back.
    for _ in 0..40 {
        assert_eq!(client.observe("t").unwrap().next().unwrap().unwrap().body, b"3");
    }
    assert_eq!(client.get("t").unwrap().body, b"3");
    assert_eq!(client.observe_each("nothing", |_| panic!("a value")), Err(Error::Ended(Code::NOT_FOUND)));
}

#[test]
fn a_response_of_its_own() {
    const DELAY: Duration = Duration::from_millis(100);
    let mut server = server();
    server.end().set_delay("slow", DELAY).unwrap();
    server.update("slow", None, b"at last").unwrap();
    let running = Running::start(server);
    let mut client = Client::open(running.at).unwrap();
    let asked = Instant::now();
    assert_eq!(client.get("slow").unwrap().body, b"at last");
    assert!(asked.elapsed() >= DELAY);
    assert_eq!(client.put("slow", None, b"later"), Ok(Code::CHANGED));
    assert_eq!(running.applied.recv_timeout(PATIENCE).unwrap().method, Method::Put);
}

#[test]
fn a_turn_ends_when_something_is_due() {
    let mut server = server();
    server.end().set_delay("slow", Duration::from_millis(100)).unwrap();
    let at = server.address();
    let serving = std::thread::spawn(move || {
        server.run(Duration::MAX, |_, applied| match applied.len() {
            0 => ControlFlow::Continue(()),
            some => ControlFlow::Break(some),
        })
    });
    let asked = Instant::now();
    assert_eq!(Client::open(at).unwrap().put("slow", None, b"x"), Ok(Code::CREATED));
    assert!(asked.elapsed() < Duration::from_secs(10));
    assert_eq!(serving.join().unwrap(), 1);
}

#[test]
fn a_rule() {
    let mut server = server();
    let mut lost = 0;
    server.judge_by(move |_, message| match (message.path.as_slice(), message.code) {
        // (what is no request is not asked about)
        (_, code) if code.class() != 0 || code.detail() == 0 => Verdict::Drop,
        (b"/secret", _) => Verdict::Refuse,
        (b"/later", _) if lost == 0 => {
            lost += 1;
            Verdict::Drop
        }
        _ => Verdict::Serve,
    });
    server.update("secret", None, b"42").unwrap();
    let running = Running::start(server);
    let mut client = Client::open(running.at).unwrap();
    assert_eq!(client.get("secret"), Err(Error::Failed(METHOD_NOT_ALLOWED)));
    assert_eq!(client.put("secret", None, b"43"), Err(Error::Failed(METHOD_NOT_ALLOWED)));
    // (the client sends it again after 2 to 3 s)
    let asked = Instant::now();
    assert_eq!(client.put("later", None, b"x"), Ok(Code::CREATED));
    assert!((2..10).contains(&asked.elapsed().as_secs()));
    // An Empty message and a response, both Confirmable, get their Reset (RFC 7252, sections 4.2 and 4.3).
    let stranger = UdpSocket::bind(FREE).unwrap();
    stranger.set_read_timeout(Some(PATIENCE)).unwrap();
    for datagram in [[0x40, 0, 0x12, 0x34], [0x40, 0x45, 0x56, 0x78]] {
        stranger.send_to(&datagram, running.at).unwrap();
        let mut answer = [0; 9];
        let (len, _) = stranger.recv_from(&mut answer).unwrap();
        assert_eq!(answer[..len], [0x70, 0, datagram[2], datagram[3]]);
    }
}

#[test]
fn what_the_last_step_sets_is_told() {
    let mut server = server();
    server.update("t", None, b"first").unwrap();
    let (at, (stop, stopped)) = (server.address(), channel());
    let serving = std::thread::spawn(move || {
        server.run(OFTEN, |server, _| match stopped.try_recv() {
            Ok(()) => ControlFlow::Break(server.update("t", None, b"last")),
            Err(_) => ControlFlow::Continue(()),
        })
    });
    let mut client = Client::open(at).unwrap();
    let mut values = client.observe("t").unwrap();
    assert_eq!(values.next().unwrap().unwrap().body, b"first");
    stop.send(()).unwrap();
    assert_eq!(serving.join().unwrap(), Ok((2, true)));
    assert_eq!(values.next_within(PATIENCE).unwrap().unwrap().body, b"last");
}

#[test]
fn an_observation_that_is_enough_is_cancelled_at_the_server() {
    let (told, asked) = channel();
    let mut server = server();
    server.update("t", None, b"1").unwrap();
    server.judge_by(move |_, message| {
        told.send((message.code.0, message.token.clone())).unwrap();
        Verdict::Serve
    });
    let running = Running::start(server);
    let mut client = Client::open(running.at).unwrap();
    assert_eq!(client.observe_each("t", |_| ControlFlow::Break(())), Ok(()));
    // The registration and the cancel, which has its token (RFC 7641, section 3.6).
    let mut first_two = asked.try_iter();
    let (registration, cancel) = (first_two.next().unwrap(), first_two.next().unwrap());
    assert_eq!((registration.0, &registration), (Method::Get as u8, &cancel));
}

#[test]
fn a_server_that_rejects_and_one_that_is_silent() {
    let other = UdpSocket::bind(FREE).unwrap();
    let SocketAddr::V4(at) = other.local_addr().unwrap() else { panic!("an IPv4 address") };
    let mut client = Client::open(at).unwrap();
    let mut values = client.observe("t").unwrap();
    assert_eq!(values.next_within(OFTEN), Some(Err(Error::Silent)));
    drop(values);
    let rejecting = std::thread::spawn(move || {
        let mut buffer = [0; 99];
        for _ in 0..2 {
            let (_, from) = other.recv_from(&mut buffer).unwrap();
            other.send_to(&[0x70, 0, buffer[2], buffer[3]], from).unwrap();
        }
    });
    assert_eq!(client.put("t", None, b"1"), Err(Error::PerhapsApplied(Report::Reset)));
    rejecting.join().unwrap();
}

#[test]
fn a_turn_with_nothing_to_do_ends_in_time() {
    let mut server = server();
    let began = Instant::now();
    assert!(server.turn(OFTEN).is_empty());
    assert!(began.elapsed() >= OFTEN && began.elapsed() < PATIENCE);
    assert_eq!(server.update("t", None, b"1"), Ok((1, true)));
    assert_eq!(server.update("t", None, b"1"), Ok((1, false)));
    assert_eq!(server.get("t").map(|it| it.body), Some(b"1".to_vec()));
    assert_eq!((server.remove("t"), server.get("t")), (Ok(true), None));
}

/// A request that is deferred is told again in each turn until it is answered.
#[test]
fn answers_that_are_computed_later() {
    let mut server = Answerer::open(FREE, &Config::default()).unwrap();
    let client = UdpSocket::bind(FREE).unwrap();
    client.set_read_timeout(Some(PATIENCE)).unwrap();
    client.send_to(b"\x41\x05\x00\x07\x09\xff2", server.address()).unwrap();
    let (mut told, mut body) = (Vec::new(), Vec::new());
    while !told.ends_with(&["answered"]) {
        server.turn(OFTEN, |end, what| match what {
            Told::Request(request) => {
                body = request.payload().to_vec();
                end.defer(Instant::now(), &request.asked(), Duration::ZERO).unwrap();
                told.push("deferred");
            }
            Told::Ready(_) if told.len() < 4 => told.push("ready"),
            Told::Ready(asked) => {
                end.respond(&asked, &Message::new(Code::CONTENT).with_payload(body.as_slice())).unwrap();
                told.push("answered");
            }
        });
    }
    assert_eq!(told, ["deferred", "ready", "ready", "ready", "answered"]);
    let mut bytes = [0; 64];
    assert_eq!(client.recv(&mut bytes).unwrap(), 4);
    assert_eq!(&bytes[..4], b"\x60\x00\x00\x07");
    let len = client.recv(&mut bytes).unwrap();
    assert_eq!((&bytes[..2], &bytes[4..len]), (&b"\x41\x45"[..], &b"\x09\xff2"[..]));
    server.turn(OFTEN, |_, what| panic!("{what:?}"));
}

/// A server with one body, which is fetched and sent in blocks of 64 bytes, without entity-tag, and is observed.
fn keep_a_body(mut server: Answerer, ended: &Receiver<()>) {
    let mut assembly = Assembly::new(&Config::default().with_block_size(64), Instant::now()).unwrap();
    let (mut body, mut observers) = (b"first".to_vec(), Observers::default());
    while ended.try_recv().is_err() {
        server.turn(OFTEN, |end, told| {
            let Told::Request(request) = told else { panic!("{told:?}") };
            let (asked, message) = (request.asked(), request.message());
            let answer = match (message.code(), message.path().unwrap().as_slice()) {
                (Code::PUT, ["body"]) => match assembly.take(Instant::now(), asked.from(), &message) {
                    Ok(Assembled::Whole(block, whole)) => {
                        body = whole;
                        observers.changed();
                        Message::new(Code::CHANGED).with_block1(block)
                    }
                    Ok(Assembled::Joined(block)) => Message::new(Code::CONTINUE).with_block1(block),
                    other => Message::new(other.unwrap_err().code()),
                },
                (Code::GET, ["body"]) => {
                    let first = message.block2().or(Block::new(0, false, 64)).unwrap();
                    let (given, bytes) = slice(&body, first).expect("it is in the body");
                    let content = Message::new(Code::CONTENT).with_block2(given).with_payload(bytes);
                    observers.answer(&asked, &message, content)
                }
                _ => Message::new(Code::NOT_FOUND).with_location("else/where"),
            };
            end.answer(&asked, &answer).unwrap();
        });
        let (given, bytes) = slice(&body, Block::new(0, false, 64).unwrap()).unwrap();
        let shown = Message::new(Code::CONTENT).with_block2(given).with_payload(bytes);
        observers.tell(server.end(), Instant::now(), &shown);
    }
}

#[test]
fn a_client_for_any_request() {
    let server = Answerer::open(FREE, &Config::default()).unwrap();
    let (at, (end, ended)) = (server.address(), channel());
    let serving = std::thread::spawn(move || keep_a_body(server, &ended));
    let mut client = Asker::open(at).unwrap();
    let (get, put) = (Message::get("body"), Message::put("body"));
    let config = Config::default().with_block_size(64);
    let nothing = client.ask(&Message::get("nothing")).unwrap();
    assert_eq!((nothing.code(), nothing.location()), (Code::NOT_FOUND, Some(vec!["else", "where"])));
    assert_eq!(client.ask(&Message::fetch("body")), Err(NoAnswer::Refused(AskError::BadRequest)));
    let (observed, first) = client.observe(&get.clone().with_observe(0)).unwrap();
    assert_eq!((first.observe(), first.payload()), (Some(0), &b"first"[..]));
    let body: Vec<u8> = (0..1_000).map(|place| (place % 251) as u8).collect();
    let stored = client.store(&put, Upload::new(&config, &body).unwrap()).unwrap();
    assert_eq!((stored.code(), stored.block1()), (Code::CHANGED, Block::new(15, false, 64)));
    let (token, notification) = client.notification(PATIENCE).expect("a notification");
    assert_eq!((Some(token), notification.payload()), (observed, &body[..64]));
    assert_eq!(client.notification(OFTEN), None);
    // The parts have no entity-tag.
    assert_eq!(client.load(&get, Fetch::untagged(&config).unwrap()), Ok(Fetched::Joined(body)));
    assert_eq!(client.load(&get, Fetch::new(&config).unwrap()), Err(NoBody::Blocks(FetchError::NoTag)));
    let lost = client.load(&Message::get("nothing"), Fetch::new(&config).unwrap());
    assert!(matches!(lost, Err(NoBody::Response(response)) if response.code() == Code::NOT_FOUND));
    let cancelled = client.cancel(&token, &get.clone().with_observe(1)).unwrap();
    assert_eq!((cancelled.code(), cancelled.observe()), (Code::CONTENT, None));
    client.store(&put, Upload::new(&config, b"last").unwrap()).unwrap();
    assert_eq!(client.notification(OFTEN), None);
    // What can't be observed.
    let (none, answer) = client.observe(&Message::get("nothing").with_observe(0)).unwrap();
    assert_eq!((none, answer.code()), (None, Code::NOT_FOUND));
    end.send(()).unwrap();
    serving.join().unwrap();
}
