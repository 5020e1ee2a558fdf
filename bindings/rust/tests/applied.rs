//! What a server tells of the requests that it applied: each with the body that its path held then.

use knifesilver::{Applied, Config, Method, Server};
use std::net::{Ipv4Addr, SocketAddrV4};
use std::time::{Duration, Instant};

const HERE: SocketAddrV4 = SocketAddrV4::new(Ipv4Addr::LOCALHOST, 40_001);
const ELSEWHERE: SocketAddrV4 = SocketAddrV4::new(Ipv4Addr::LOCALHOST, 40_002);
const DELAY: Duration = Duration::from_millis(500);

/// A Confirmable request for the path `t`, whose Message ID and token are this number (RFC 7252, section 3).
fn request(method: Method, number: u8, format: u8, body: &[u8]) -> Vec<u8> {
    let mut datagram = vec![0x41, method as u8, 0, number, number, 0xb1, b't'];
    if !body.is_empty() {
        datagram.extend([0x11, format, 0xff]);
        datagram.extend(body);
    }
    datagram
}

/// The token, the version, and what the path held: its version, format and body.
type Told = (Vec<u8>, u64, Option<(u64, Option<u16>, Vec<u8>)>);

fn told(applied: Applied) -> Told {
    (applied.token, applied.version, applied.held.map(|held| (held.version, held.format, held.body)))
}

#[test]
fn two_puts_that_become_ready_at_once_have_each_its_own_body() {
    let now = Instant::now();
    let mut server = Server::new(&Config::default(), now).unwrap();
    server.set_delay("t", DELAY).unwrap();
    server.handle(now, HERE, &request(Method::Put, 1, 0, b"one")).unwrap();
    // (one client has one separate response on its way at a time)
    server.handle(now, ELSEWHERE, &request(Method::Put, 2, 42, b"another")).unwrap();
    assert_eq!(server.poll_applied(), None);
    server.handle_timeout(now + DELAY).unwrap();
    let first = server.poll_applied().map(told);
    assert_eq!(first, Some((vec![1], 1, Some((1, Some(0), b"one".to_vec())))));
    let second = server.poll_applied().map(told);
    assert_eq!(second, Some((vec![2], 2, Some((2, Some(42), b"another".to_vec())))));
    assert_eq!(server.poll_applied(), None);
}

#[test]
fn what_is_deleted_is_not_held() {
    let now = Instant::now();
    let mut server = Server::new(&Config::default(), now).unwrap();
    server.handle(now, HERE, &request(Method::Put, 1, 0, b"one")).unwrap();
    server.handle(now, HERE, &request(Method::Delete, 2, 0, b"")).unwrap();
    // The program's own change is no client's: it is not told.
    server.set(now, "t", None, b"of the program").unwrap();
    let told: Vec<Told> = std::iter::from_fn(|| server.poll_applied()).map(told).collect();
    assert_eq!(told.len(), 2);
    assert_eq!(told[0], (vec![1], 1, Some((1, Some(0), b"one".to_vec()))));
    assert_eq!((&told[1].0, &told[1].2), (&vec![2], &None));
}

#[test]
fn the_path_of_one_empty_segment_is_not_taken_for_the_root() {
    let now = Instant::now();
    let mut server = Server::new(&Config::default(), now).unwrap();
    server.set(now, "", Some(0), b"of the root").unwrap();
    // (a Uri-Path option of no byte)
    server.handle(now, HERE, &[0x41, 3, 0, 1, 1, 0xb0, 0xff, b'x']).unwrap();
    let applied = server.poll_applied().unwrap();
    assert_eq!((applied.path.as_slice(), applied.held), (&b"/"[..], None));
    assert_eq!(server.get("/").unwrap().body, b"of the root");
    assert_eq!(server.paths(), [&b""[..], b"/"]);
}
