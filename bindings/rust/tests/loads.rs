//! What ends tell of themselves: how much they have, what a datagram would be, what ended; and a peer that is forgotten.

use knifesilver::{Client, Config, Server, Would, MAX_DATAGRAM};
use std::net::{Ipv4Addr, SocketAddrV4};
use std::time::{Duration, Instant};

const HERE: SocketAddrV4 = SocketAddrV4::new(Ipv4Addr::LOCALHOST, 40_001);
const THERE: SocketAddrV4 = SocketAddrV4::new(Ipv4Addr::LOCALHOST, 5683);
const REMEMBERED: Duration = Duration::from_millis(247_000);
/// A Confirmable GET of `t` with Observe, and a Non-confirmable one without (RFC 7252, section 3; RFC 7641, section 2).
const OBSERVE: [u8; 8] = [0x41, 1, 0, 1, 9, 0x60, 0x51, b't'];
const GET: [u8; 7] = [0x51, 1, 0, 2, 8, 0xb1, b't'];

#[test]
fn a_server_tells_how_much_it_has() {
    let now = Instant::now();
    let mut server = Server::new(&Config::default(), now).unwrap();
    let load = server.load(now);
    assert_eq!((load.ids_left, load.changes_left, load.remembered_most), (65_536, 4_194_303, 4_096));
    server.set(now, "t", None, b"x").unwrap();
    assert_eq!(server.would(now, HERE, &OBSERVE), Would::Take);
    server.handle(now, HERE, &OBSERVE).unwrap();
    assert_eq!(server.would(now, HERE, &OBSERVE), Would::Repeat);
    assert_eq!(server.would(now, HERE, &GET), Would::Take);
    assert_eq!(server.would(now, HERE, b"@"), Would::Ignore);
    let load = server.load(now);
    assert_eq!((load.remembered, load.observers, load.paths, load.queued), (1, 1, 1, 1));
    assert!(server.knows(now, HERE) && !server.knows(now, THERE));
    assert_eq!(server.load(now + REMEMBERED).remembered, 1);
    assert_eq!(server.load(now + REMEMBERED + Duration::from_millis(1)).remembered, 0);
}

#[test]
fn a_notification_that_is_rejected_is_told() {
    let now = Instant::now();
    let mut buffer = [0; MAX_DATAGRAM];
    let mut server = Server::new(&Config::default(), now).unwrap();
    server.set(now, "t", None, b"x").unwrap();
    server.handle(now, HERE, &OBSERVE).unwrap();
    assert!(server.poll_transmit(&mut buffer).is_some());
    server.set(now, "t", None, b"y").unwrap();
    server.handle_timeout(now).unwrap();
    assert!(server.ended().is_empty());
    assert!(server.poll_transmit(&mut buffer).is_some());
    let reset = [0x70, 0, buffer[2], buffer[3]];
    assert_eq!(server.would(now, HERE, &reset), Would::Reset);
    server.handle(now, HERE, &reset).unwrap();
    let ended = &server.ended()[0];
    assert_eq!((ended.to, ended.token.as_slice(), ended.observe), (HERE.into(), [9].as_slice(), true));
    server.handle_timeout(now).unwrap();
    assert!(server.ended().is_empty());
}

#[test]
fn a_client_tells_how_much_it_has() {
    let now = Instant::now();
    let mut buffer = [0; MAX_DATAGRAM];
    let mut client = Client::new(&Config::default(), THERE, now).unwrap();
    client.observe(now, "t").unwrap();
    assert_eq!(client.load(now).waiting, 1);
    client.handle_timeout(now).unwrap();
    let load = client.load(now);
    assert_eq!((load.waiting, load.outstanding, load.queued, load.ids_left), (0, 1, 1, 65_535));
    assert!(client.poll_transmit(&mut buffer).is_some());
    let acknowledgement = [0x60, 0, buffer[2], buffer[3]];
    assert_eq!(client.would(now, THERE, &acknowledgement), Would::Acknowledge);
    client.handle(now, THERE, &acknowledgement).unwrap();
    assert_eq!(client.would(now, THERE, &acknowledgement), Would::Ignore);
    assert_eq!(client.load(now).outstanding, 0);
}

#[test]
fn a_forgotten_peer_has_nothing_left_but_what_tells_repeats() {
    let now = Instant::now();
    let mut buffer = [0; MAX_DATAGRAM];
    let mut server = Server::new(&Config::default(), now).unwrap();
    server.set(now, "t", None, b"x").unwrap();
    for peer in [HERE, THERE] {
        server.handle(now, peer, &OBSERVE).unwrap();
        assert!(server.poll_transmit(&mut buffer).is_some());
    }
    server.set(now, "t", None, b"y").unwrap();
    server.handle_timeout(now).unwrap();
    while server.poll_transmit(&mut buffer).is_some() {}
    assert_eq!((server.load(now).observers, server.load(now).outstanding), (2, 2));
    assert_eq!((server.forget(HERE), server.knows(now, HERE)), (Ok(true), false));
    let ended = &server.ended()[0];
    assert_eq!((ended.to, ended.token.as_slice(), ended.observe), (HERE.into(), [9].as_slice(), true));
    let load = server.load(now);
    assert_eq!((load.observers, load.outstanding, load.remembered), (1, 1, 2));
    assert_eq!((server.forget(HERE), server.knows(now, THERE)), (Ok(false), true));
    assert!(server.ended().is_empty());
    assert_eq!(server.would(now, HERE, &OBSERVE), Would::Repeat);
}
