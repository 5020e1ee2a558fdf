//! Peers that are no IPv4 addresses.

use knifesilver::{Client, Config, Key, Method, Peer, Report, Request, Server, MAX_DATAGRAM};
use std::iter::from_fn;
use std::net::{Ipv4Addr, Ipv6Addr, SocketAddr, SocketAddrV4, SocketAddrV6};
use std::time::{Duration, Instant};

/// A session, of a gateway and a number.
#[derive(Clone, Debug, PartialEq)]
struct Session(String, u64);

impl Peer for Session {
    fn key(&self) -> Key {
        Key::new(&[&self.1.to_be_bytes(), self.0.as_bytes()].concat()).expect("a short name")
    }

    fn of_key(key: &Key) -> Option<Session> {
        let (number, name) = key.as_bytes().split_at(8);
        Some(Session(String::from_utf8(name.to_vec()).ok()?, u64::from_be_bytes(number.try_into().ok()?)))
    }
}

fn session(number: u64) -> Session {
    Session(String::from("gateway"), number)
}

fn config(seed: u64) -> Config {
    Config::default().with_rng_seed(seed)
}

/// What is out on both sides is carried, and time passes until each of the clients has a report.
fn reports<P>(server: &mut Server<P>, clients: &mut [(P, Client<P>)], there: &P, now: &mut Instant) -> Vec<Report>
where
    P: Peer + Clone + PartialEq + std::fmt::Debug,
{
    let (mut buffer, mut all) = ([0; MAX_DATAGRAM], vec![]);
    for _ in 0..1_000 {
        for (own, client) in clients.iter_mut() {
            client.handle_timeout(*now).unwrap();
            while let Some(transmit) = client.poll_transmit(&mut buffer) {
                assert_eq!(transmit.destination, *there);
                server.handle(*now, own.clone(), &buffer[..transmit.size]).unwrap();
            }
        }
        server.handle_timeout(*now).unwrap();
        while let Some(transmit) = server.poll_transmit(&mut buffer) {
            for (own, client) in clients.iter_mut().filter(|(own, _)| *own == transmit.destination) {
                assert_eq!(*own, transmit.destination);
                client.handle(*now, there.clone(), &buffer[..transmit.size]).unwrap();
            }
        }
        for (_, client) in clients.iter_mut() {
            all.extend(client.poll_report().map(|(_, report)| report));
        }
        if all.len() == clients.len() {
            return all;
        }
        *now += Duration::from_millis(700);
    }
    panic!("no reports");
}

#[test]
fn keys_are_told_apart_and_read_back() {
    assert_eq!((Key::new(&[]), Key::new(&[0; 61])), (None, None));
    assert_ne!(Key::new(&[0]), Key::new(&[0, 0]));
    assert_eq!(Key::new(&[7; 60]).unwrap().as_bytes(), [7; 60]);
    let six = SocketAddrV6::new(Ipv6Addr::LOCALHOST, 5683, 0, 3);
    let all = [SocketAddr::V6(six), SocketAddr::from((Ipv4Addr::new(0, 1, 2, 3), 7))];
    assert!(all.iter().all(|peer| SocketAddr::of_key(&peer.key()) == Some(*peer)));
    // The flow is none of a peer's marks.
    assert_eq!(SocketAddrV6::new(Ipv6Addr::LOCALHOST, 5683, 9, 3).key(), six.key());
}

#[test]
fn addresses_of_two_links_and_of_ipv4_are_peers_of_one_server() {
    let mut now = Instant::now();
    let mut server = Server::new(&config(5), now).unwrap();
    server.set(now, "t", None, b"1").unwrap();
    let there = SocketAddr::from((Ipv6Addr::LOCALHOST, 5683));
    let local = |scope| SocketAddrV6::new(Ipv6Addr::new(0xfe80, 0, 0, 0, 0, 0, 0, 1), 40_001, 0, scope);
    let mut clients: Vec<_> = (1..4).map(|n| (local(n).into(), Client::new(&config(7), there, now).unwrap())).collect();
    let four = SocketAddrV4::new(Ipv4Addr::LOCALHOST, 40_001);
    clients.push((four.into(), Client::new(&config(7), there, now).unwrap()));
    for (_, client) in &mut clients {
        client.call(now, &Request::get("t")).unwrap();
    }
    let all = reports(&mut server, &mut clients, &there, &mut now);
    assert!(all.iter().all(|it| matches!(it, Report::Body(_))), "{all:?}");
    // (an IPv4 address takes no name)
    assert_eq!((server.peers(), server.dropped()), (3, 0));
}

#[test]
fn sessions_are_peers_and_are_told() {
    let mut now = Instant::now();
    let mut server = Server::<Session>::of_peers(&config(6), now).unwrap();
    server.set_delay("t", Duration::from_secs(300)).unwrap();
    let there = session(0);
    let mut clients: Vec<_> =
        (1..9).map(|n| (session(n), Client::of_peer(&config(8), there.clone(), now).unwrap())).collect();
    for (_, client) in &mut clients {
        client.call(now, &Request::put("t", None, b"2")).unwrap();
    }
    // Each is applied after 300 s, and is told of by its session, which was silent meanwhile.
    let all = reports(&mut server, &mut clients, &there, &mut now);
    assert_eq!(all.len(), 8);
    for _ in 0..400 {
        now += Duration::from_secs(1);
        server.handle_timeout(now).unwrap();
    }
    let told: Vec<_> = from_fn(|| server.poll_applied()).collect();
    assert!(told.iter().all(|it| it.method == Method::Put), "{told:?}");
    assert_eq!(told.iter().map(|it| it.from.1).collect::<Vec<_>>(), (1..9).collect::<Vec<_>>());
}

#[test]
fn where_there_is_no_place_a_peer_waits() {
    let now = Instant::now();
    let mut server = Server::<Session>::of_peers(&config(9).with_peers(2), now).unwrap();
    let mut buffer = [0; MAX_DATAGRAM];
    let mut asks = |at: u64, peer: u64, id: u8| {
        let at = now + Duration::from_millis(at);
        server.handle(at, session(peer), &[0x40, 1, 0, id]).unwrap();
        let sent: Vec<_> = from_fn(|| server.poll_transmit(&mut buffer)).map(|it| it.destination.1).collect();
        server.handle_timeout(at).unwrap();
        (sent, server.dropped())
    };
    assert_eq!(asks(0, 1, 1), (vec![1], 0));
    assert_eq!(asks(1_000, 2, 1), (vec![2], 0));
    assert_eq!(asks(2_000, 3, 1), (vec![], 1));
    assert_eq!(asks(247_000, 3, 1), (vec![], 2));
    assert_eq!(asks(247_001, 3, 1), (vec![3], 2));
    assert_eq!(asks(247_002, 1, 2), (vec![], 3));
    assert_eq!(asks(248_001, 1, 2), (vec![1], 3));
    assert_eq!(Server::<Session>::of_peers(&config(9).with_peers(0), now).err(), Some(knifesilver::NewError::Peers));
}

#[test]
fn who_observes_keeps_its_place_and_a_retired_one_is_unknown() {
    let now = Instant::now();
    let mut server = Server::<Session>::of_peers(&config(9).with_peers(2), now).unwrap();
    let mut buffer = [0; MAX_DATAGRAM];
    server.set(now, "t", None, b"1").unwrap();
    server.handle(now, session(1), &[0x41, 1, 0, 1, 9, 0x60, 0x51, b't']).unwrap();
    assert_eq!(server.poll_transmit(&mut buffer).unwrap().destination, session(1));
    assert!(server.knows(now, session(1)) && !server.knows(now, session(2)));
    let later = now + Duration::from_secs(3_600);
    for peer in 2..5 {
        let at = later + Duration::from_secs(600 * peer);
        // The name of the one before is let go once the server has nothing of it, and then kept for 247 s.
        server.handle_timeout(at - Duration::from_secs(300)).unwrap();
        server.handle_timeout(at).unwrap();
        server.handle(at, session(peer), &[0x40, 1, 0, 1]).unwrap();
        assert_eq!(server.poll_transmit(&mut buffer).unwrap().destination, session(peer));
    }
    assert_eq!((server.peers(), server.dropped()), (2, 0));
    server.set(later + Duration::from_secs(3_000), "t", None, b"2").unwrap();
    server.handle_timeout(later + Duration::from_secs(3_000)).unwrap();
    assert_eq!(server.poll_transmit(&mut buffer).unwrap().destination, session(1));
    assert!(server.retire(&session(1)) && !server.retire(&session(1)));
    assert!(!server.knows(later, session(1)));
    server.handle_timeout(later + Duration::from_secs(3_010)).unwrap();
    // A copy of what was told goes nowhere.
    assert_eq!(server.poll_transmit(&mut buffer), None);
}

#[test]
fn a_forgotten_session_is_retired_with_all_that_it_had() {
    let mut now = Instant::now();
    let mut server = Server::<Session>::of_peers(&config(9).with_peers(2), now).unwrap();
    let mut buffer = [0; MAX_DATAGRAM];
    server.set_delay("t", Duration::from_secs(5)).unwrap();
    server.handle(now, session(1), &[0x40, 3, 0, 1, 0xb1, b't', 0xff, b'1']).unwrap();
    assert_eq!(server.poll_transmit(&mut buffer).unwrap().destination, session(1));
    // Of whom nothing is known there is nothing to forget.
    assert_eq!(server.forget(session(2)), Ok(false));
    assert_eq!(server.forget(session(1)), Ok(true));
    assert!(server.retire(&session(1)));
    now += Duration::from_secs(6);
    server.handle_timeout(now).unwrap();
    assert_eq!((server.poll_applied(), server.get("t"), server.peers()), (None, None, 0));
}
