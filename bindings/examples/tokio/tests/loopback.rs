//! The client and the server over sockets of 127.0.0.1.

use knifesilver::{Config, Method};
use knifesilver_tokio::{Client, Error, Server};
use std::net::{Ipv4Addr, SocketAddr, SocketAddrV4};
use std::time::Duration;
use tokio::time::timeout;

const PATIENCE: Duration = Duration::from_secs(60);

async fn both() -> (Server, Client) {
    let server = Server::open(SocketAddrV4::new(Ipv4Addr::LOCALHOST, 0), &Config::default()).await.expect("a server");
    let SocketAddr::V4(at) = server.address() else { panic!("an IPv4 address") };
    (server, Client::open(at).await.expect("a client"))
}

async fn soon<T>(it: impl std::future::Future<Output = T>) -> T {
    timeout(PATIENCE, it).await.expect("in time")
}

#[tokio::test]
async fn requests() {
    let (mut server, client) = both().await;
    assert_eq!(soon(server.update("temperature", Some(0), b"22.3 C")).await, Some(Ok((1, true))));
    let got = soon(client.get("temperature")).await.expect("2.05");
    assert_eq!((got.body.as_slice(), got.format), (b"22.3 C".as_slice(), Some(0)));
    assert_eq!(soon(client.put("lamp", None, b"on")).await.expect("2.01").0, 0x41);
    assert_eq!(soon(client.post("lamp", None, b"ce")).await.expect("2.04").0, 0x44);
    assert_eq!(soon(server.get("lamp")).await.expect("it holds").body, b"once");
    assert_eq!(soon(client.delete("lamp")).await.expect("2.02").0, 0x42);
    let failed = soon(client.get("lamp")).await.expect_err("4.04");
    assert!(matches!(failed, Error::Failed(code) if code.0 == 0x84), "{failed}");
    for method in [Method::Put, Method::Post, Method::Delete] {
        let applied = soon(server.applied()).await.expect("it was applied");
        assert_eq!((applied.method, applied.path.as_slice()), (method, b"/lamp".as_slice()));
    }
    assert!(matches!(soon(client.get(&"/".repeat(40))).await, Err(Error::Refused(_))));
}

#[tokio::test]
async fn more_calls_than_the_end_holds() {
    let (_server, client) = both().await;
    let calls: Vec<_> = (0..200)
        .map(|i| {
            let client = client.clone();
            tokio::spawn(async move { client.put(&format!("{}", i % 50), None, b"x").await })
        })
        .collect();
    for call in calls {
        soon(call).await.expect("no panic").expect("it was applied");
    }
}

#[tokio::test]
async fn an_observation() {
    let (server, client) = both().await;
    assert!(soon(server.update("t", None, b"1")).await.is_some());
    let mut values = client.observe("t");
    assert_eq!(soon(values.next()).await.expect("a value").expect("a value").body, b"1");
    assert!(soon(server.update("t", None, b"2")).await.is_some());
    assert_eq!(soon(values.next()).await.expect("a value").expect("a value").body, b"2");
    assert_eq!(soon(server.remove("t")).await, Some(Ok(true)));
    assert!(matches!(soon(values.next()).await, Some(Err(Error::Failed(code))) if code.0 == 0x84));
    assert!(soon(values.next()).await.is_none());
    let mut nothing = client.observe("nothing");
    assert!(matches!(soon(nothing.next()).await, Some(Err(Error::Failed(_)))));
}
