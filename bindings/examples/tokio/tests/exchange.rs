//! A server whose answers an async function computes, over sockets of 127.0.0.1.

use knifesilver::exchange::{Message, Observers, OptionNumber};
use knifesilver::{Code, Config};
use knifesilver_tokio::exchange::Answerer;
use std::future::Future;
use std::net::{Ipv4Addr, SocketAddrV4};
use std::sync::{Arc, Mutex};
use std::time::{Duration, Instant};
use tokio::net::UdpSocket;
use tokio::sync::Notify;
use tokio::time::{sleep, timeout};

const PATIENCE: Duration = Duration::from_secs(60);
const FREE: SocketAddrV4 = SocketAddrV4::new(Ipv4Addr::LOCALHOST, 0);
const KNOWN: [OptionNumber; 2] = [OptionNumber::URI_PATH, OptionNumber::URI_QUERY];
const CON: u8 = 0x41;
const NON: u8 = 0x51;

async fn soon<T>(it: impl Future<Output = T>) -> T {
    timeout(PATIENCE, it).await.expect("in time")
}

fn content(payload: impl Into<Vec<u8>>) -> Message {
    Message::new(Code::CONTENT).with_payload(payload)
}

async fn open<H, A>(handler: H) -> Answerer
where
    H: FnMut(knifesilver::exchange::Asked, Message) -> A + Send + 'static,
    A: Future<Output = Message> + Send + 'static,
{
    Answerer::open(FREE, &Config::default(), &KNOWN, handler).await.expect("a server")
}

/// A server that answers as the path says.
async fn by_path() -> Answerer {
    let handler = |_, request: Message| async move {
        match request.path().as_deref() {
            Some(["now"]) => content(request.payload()),
            Some(["later"]) => {
                let ms = request.query("ms").and_then(|ms| ms.parse().ok()).unwrap_or(0);
                sleep(Duration::from_millis(ms)).await;
                content(request.payload())
            }
            Some(["panics"]) => panic!("on purpose"),
            Some(["panics", "later"]) => {
                sleep(Duration::from_millis(1)).await;
                panic!("on purpose")
            }
            Some(["long"]) => content([0; 1_152]),
            _ => Message::new(Code::NOT_FOUND),
        }
    };
    open(handler).await
}

/// A client with a socket, whose token is 07.
struct Client {
    socket: UdpSocket,
    id: u8,
}

impl Client {
    async fn of(server: &Answerer) -> Client {
        let socket = UdpSocket::bind(FREE).await.expect("a socket");
        socket.connect(server.address()).await.expect("an address");
        Client { socket, id: 0 }
    }

    async fn send(&mut self, kind: u8, code: Code, rest: &[u8]) {
        self.id += 1;
        self.socket.send(&[&[kind, code.0, 0, self.id, 7], rest].concat()).await.expect("it is sent");
    }

    /// The next response, which is acknowledged where it is Confirmable: whether it is, its code, and what is behind
    /// the token.
    async fn hear(&mut self) -> (bool, Code, Vec<u8>) {
        let mut bytes = [0; 2_048];
        loop {
            let len = soon(self.socket.recv(&mut bytes)).await.expect("a datagram");
            // (an Empty acknowledgement says nothing else)
            if bytes[1] == 0 {
                continue;
            }
            if bytes[0] == CON {
                self.socket.send(&[0x60, 0, bytes[2], bytes[3]]).await.expect("it is sent");
            }
            return (bytes[0] == CON, Code(bytes[1]), bytes[5..len].to_vec());
        }
    }

    async fn ask(&mut self, rest: &[u8]) -> (bool, Code, Vec<u8>) {
        self.send(CON, Code::POST, rest).await;
        self.hear().await
    }
}

#[tokio::test]
async fn answers_at_once_and_later() {
    let server = by_path().await;
    let mut client = Client::of(&server).await;
    assert_eq!(client.ask(b"\xb3now\xff1").await, (false, Code::CONTENT, b"\xff1".to_vec()));
    assert_eq!(client.ask(b"\xb5later\x46ms=300\xff2").await, (true, Code::CONTENT, b"\xff2".to_vec()));
    assert_eq!(client.ask(b"\xb7nothing").await, (false, Code::NOT_FOUND, vec![]));
    for (path, is_later) in [("\u{6}panics", false), ("\u{6}panics\u{5}later", true), ("\u{4}long", false)] {
        let mut options = path.as_bytes().to_vec();
        options[0] |= 0xb0;
        assert_eq!(client.ask(&options).await, (is_later, Code::INTERNAL_SERVER_ERROR, vec![]), "{path}");
    }
    // Option 2049: 11 and 2038, which is 14 and 269 + 1769 (RFC 7252, section 3.1).
    let unknown = b"\xb3now\xe1\x06\xe9x";
    assert_eq!(client.ask(unknown).await, (false, Code::BAD_OPTION, b"\xff2049 is not known".to_vec()));
    // A NON with that option is ignored; one whose answer isn't known at once has no place to wait.
    client.send(NON, Code::POST, unknown).await;
    client.send(NON, Code::POST, b"\xb5later\x46ms=300").await;
    assert_eq!(client.hear().await, (false, Code::SERVICE_UNAVAILABLE, vec![]));
    client.send(NON, Code::POST, b"\xb3now\xff3").await;
    assert_eq!(client.hear().await, (false, Code::CONTENT, b"\xff3".to_vec()));
}

/// Their answers go out in the order of the requests.
#[tokio::test]
async fn many_that_wait() {
    let server = by_path().await;
    let mut clients = Vec::new();
    for number in 0..16_u8 {
        let mut client = Client::of(&server).await;
        let ms = (460 - 20 * u32::from(number)).to_string();
        client.send(CON, Code::FETCH, &[b"\xb5later\x46ms=", ms.as_bytes(), b"\xff", &[number]].concat()).await;
        clients.push(client);
    }
    for (number, client) in clients.iter_mut().enumerate() {
        assert_eq!(client.hear().await, (true, Code::CONTENT, vec![0xff, number as u8]));
    }
}

#[tokio::test]
async fn one_that_finds_no_place() {
    let (started, go_on) = (Arc::new(Mutex::new(0)), Arc::new(Notify::new()));
    let (counted, waits) = (started.clone(), go_on.clone());
    let handler = move |_, _| {
        *counted.lock().expect("no panic") += 1;
        let waits = waits.clone();
        async move {
            waits.notified().await;
            content("x")
        }
    };
    let server = open(handler).await;
    let mut client = Client::of(&server).await;
    for number in 1..=16 {
        client.send(CON, Code::GET, b"").await;
        soon(async {
            while *started.lock().expect("no panic") < number {
                sleep(Duration::from_millis(1)).await;
            }
        })
        .await;
    }
    assert_eq!(client.ask(b"").await, (false, Code::SERVICE_UNAVAILABLE, vec![]));
    go_on.notify_waiters();
    for _ in 0..16 {
        assert_eq!(client.hear().await, (true, Code::CONTENT, b"\xffx".to_vec()));
    }
}

#[tokio::test]
async fn an_observation() {
    let observers = Arc::new(Mutex::new(Observers::default()));
    let seen = observers.clone();
    let handler = move |asked, request: Message| {
        let answer = seen.lock().expect("no panic").answer(&asked, &request, content("0"));
        async move { answer }
    };
    let known = [OptionNumber::URI_PATH];
    let server = Answerer::open(FREE, &Config::default(), &known, handler).await.expect("a server");
    let mut client = Client::of(&server).await;
    client.send(CON, Code::GET, b"\x60").await;
    assert_eq!(client.hear().await, (false, Code::CONTENT, b"\x60\xff0".to_vec()));
    for number in 1..=3_u8 {
        observers.lock().expect("no panic").changed();
        let told = async {
            loop {
                let (them, shown) = (observers.clone(), content([number]));
                let tell = move |end: &mut _| them.lock().expect("no panic").tell(end, Instant::now(), &shown);
                if server.with_end(tell).await.expect("the task") == 0 {
                    return;
                }
                sleep(Duration::from_millis(5)).await;
            }
        };
        soon(told).await;
        assert_eq!(client.hear().await, (true, Code::CONTENT, vec![0x61, number, 0xff, number]));
    }
}
