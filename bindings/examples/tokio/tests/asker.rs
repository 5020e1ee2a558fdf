//! A client for any request, and a server whose answers an async function computes, over sockets of 127.0.0.1.

use knifesilver::exchange::{AskError, Message, Observers, OptionNumber};
use knifesilver::{Code, Config};
use knifesilver_tokio::exchange::{Answerer, Asker, NoAnswer};
use std::future::Future;
use std::net::{Ipv4Addr, SocketAddr, SocketAddrV4};
use std::sync::{Arc, Mutex};
use std::time::{Duration, Instant};
use tokio::time::{sleep, timeout};

const PATIENCE: Duration = Duration::from_secs(60);
const FREE: SocketAddrV4 = SocketAddrV4::new(Ipv4Addr::LOCALHOST, 0);
const KNOWN: [OptionNumber; 2] = [OptionNumber::URI_PATH, OptionNumber::URI_QUERY];

async fn soon<T>(it: impl Future<Output = T>) -> T {
    timeout(PATIENCE, it).await.expect("in time")
}

async fn client_of(server: &Answerer) -> Asker {
    let SocketAddr::V4(at) = server.address() else { panic!("an IPv4 address") };
    Asker::open(at).await.expect("a client")
}

fn content(payload: impl Into<Vec<u8>>) -> Message {
    Message::new(Code::CONTENT).with_payload(payload)
}

/// A server that answers with the payload, after the milliseconds that the query says.
async fn echo() -> Answerer {
    let handler = |_, request: Message| async move {
        match request.query("ms").map(str::parse) {
            None => {}
            Some(Ok(ms)) => sleep(Duration::from_millis(ms)).await,
            Some(Err(_)) => return Message::new(Code::BAD_REQUEST),
        }
        content(request.payload())
    };
    Answerer::open(FREE, &Config::default(), &KNOWN, handler).await.expect("a server")
}

#[tokio::test]
async fn responses() {
    let server = echo().await;
    let client = client_of(&server).await;
    let ask = |request: Message| soon(client.ask(request));
    assert_eq!(ask(Message::post("t").with_payload("1")).await, Ok(content("1")));
    assert_eq!(ask(Message::put("t").with_query("ms=300").with_payload("2")).await, Ok(content("2")));
    let failed = ask(Message::get("t").with_query("ms=soon")).await.expect("a response");
    assert_eq!(failed.code(), Code::BAD_REQUEST);
    assert_eq!(ask(Message::fetch("t")).await, Err(NoAnswer::Refused(AskError::BadRequest)));
    assert_eq!(ask(Message::get(&"long".repeat(300))).await, Err(NoAnswer::Refused(AskError::BadRequest)));
}

/// They wait for each other, and each has its own answer.
#[tokio::test]
async fn many_requests_at_once() {
    let server = echo().await;
    let client = client_of(&server).await;
    let asked: Vec<_> = (0..200_u8)
        .map(|number| {
            let client = client.clone();
            tokio::spawn(async move { client.ask(Message::post("t").with_payload([number])).await })
        })
        .collect();
    for (number, answer) in asked.into_iter().enumerate() {
        assert_eq!(soon(answer).await.expect("no panic"), Ok(content([number as u8])));
    }
}

#[tokio::test]
async fn an_observation() {
    let observers = Arc::new(Mutex::new(Observers::default()));
    let seen = observers.clone();
    let handler = move |asked, request: Message| {
        let answer = seen.lock().expect("no panic").answer(&asked, &request, content("0"));
        async move { answer }
    };
    let server = Answerer::open(FREE, &Config::default(), &KNOWN, handler).await.expect("a server");
    let client = client_of(&server).await;
    let mut values = client.observe(Message::get("t"));
    assert_eq!(soon(values.next()).await.expect("a value").expect("a response").payload(), b"0");
    for number in ["1", "2", "3"] {
        observers.lock().expect("no panic").changed();
        let told = async {
            loop {
                let (them, shown) = (observers.clone(), content(number));
                let tell = move |end: &mut _| them.lock().expect("no panic").tell(end, Instant::now(), &shown);
                if server.with_end(tell).await.expect("the task") == 0 {
                    return;
                }
                sleep(Duration::from_millis(5)).await;
            }
        };
        soon(told).await;
        assert_eq!(soon(values.next()).await.expect("a value").expect("a notification").text(), Some(number));
    }
    // One that has no observers.
    let other = echo().await;
    let client = client_of(&other).await;
    let mut value = client.observe(Message::get("t"));
    assert_eq!(soon(value.next()).await.expect("a value").expect("a response").code(), Code::CONTENT);
    assert_eq!(soon(value.next()).await, None);
}

#[tokio::test]
async fn nobody_is_there() {
    let server = echo().await;
    let client = client_of(&server).await;
    drop(server);
    sleep(Duration::from_millis(20)).await;
    // (a datagram that nobody took may be told by the socket, and is no answer)
    assert!(timeout(Duration::from_millis(300), client.ask(Message::get("t"))).await.is_err());
}
