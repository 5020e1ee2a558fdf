//! A server with a journal in a file: what it took is there in its next life, and nothing goes out before it is kept.

use knifesilver::{Boot, Config, Journal, JournalError, Method, Replayed, Server, MAX_DATAGRAM};
use std::fs::{self, File, OpenOptions};
use std::net::{Ipv4Addr, SocketAddrV4};
use std::path::PathBuf;
use std::time::{Duration, Instant};

const HERE: SocketAddrV4 = SocketAddrV4::new(Ipv4Addr::LOCALHOST, 40_001);
const BOOT: Boot = Boot { name: 7, uptime: Duration::from_secs(60) };
/// How many bytes the first frame has, and that of a life.
const BEGINNING: u64 = 109;
const LIFE: u64 = 53;

/// A file that is deleted in the end.
struct Named(PathBuf);

impl Named {
    fn new(name: &str) -> Named {
        let file = std::env::temp_dir().join(format!("knifesilver-{}-{name}", std::process::id()));
        let _ = fs::remove_file(&file);
        Named(file)
    }

    fn open(&self) -> File {
        OpenOptions::new().read(true).write(true).create(true).truncate(false).open(&self.0).unwrap()
    }

    fn begin(&self) -> (Server, Journal) {
        Replayed::open(self.open(), &Config::default(), BOOT).unwrap().begin().unwrap()
    }
}

impl Drop for Named {
    fn drop(&mut self) {
        let _ = fs::remove_file(&self.0);
    }
}

/// A Confirmable request for the path `t`, whose Message ID and token are this number (RFC 7252, section 3).
fn request(method: Method, number: u8, body: &[u8]) -> Vec<u8> {
    let mut datagram = vec![0x41, method as u8, 0, number, number, 0xb1, b't'];
    if !body.is_empty() {
        datagram.push(0xff);
        datagram.extend(body);
    }
    datagram
}

#[test]
fn what_was_kept_is_there_in_the_next_life() {
    let file = Named::new("kept");
    let mut buffer = [0; MAX_DATAGRAM];
    let (mut server, mut journal) = file.begin();
    assert_eq!(journal.len(), BEGINNING + LIFE);
    server.handle(Instant::now(), HERE, &request(Method::Put, 1, b"x")).unwrap();
    assert_eq!(server.poll_transmit(&mut buffer), None);
    journal.keep(&mut server).unwrap();
    assert!(server.poll_transmit(&mut buffer).is_some());
    // What isn't kept is lost.
    server.handle(Instant::now(), HERE, &request(Method::Put, 2, b"y")).unwrap();
    let len = journal.len();
    drop((server, journal));
    assert_eq!(fs::metadata(&file.0).unwrap().len(), len);
    let (mut server, mut journal) = file.begin();
    assert_eq!(server.get("t").unwrap().body, b"x");
    // A copy of the first request gets the reply that was stored, and isn't served again.
    server.handle(Instant::now(), HERE, &request(Method::Put, 1, b"x")).unwrap();
    journal.keep(&mut server).unwrap();
    let sent = server.poll_transmit(&mut buffer).unwrap();
    assert_eq!(buffer[..sent.size][..5], [0x61, 0x41, 0, 1, 1]);
    assert_eq!(server.get("t").unwrap().version, 1);
}

#[test]
fn a_peer_that_was_forgotten_is_not_known_in_the_next_life() {
    let file = Named::new("forgotten");
    let mut buffer = [0; MAX_DATAGRAM];
    let (mut server, mut journal) = file.begin();
    server.set(Instant::now(), "t", None, b"x").unwrap();
    server.handle(Instant::now(), HERE, &[0x41, 1, 0, 1, 9, 0x60, 0x51, b't']).unwrap();
    journal.keep(&mut server).unwrap();
    while server.poll_transmit(&mut buffer).is_some() {}
    assert_eq!(server.forget(HERE), Ok(true));
    journal.keep(&mut server).unwrap();
    drop((server, journal));
    let (server, _journal) = file.begin();
    assert!(!server.knows(Instant::now(), HERE));
    assert_eq!(server.load(Instant::now()).observers, 0);
}

#[test]
fn a_torn_end_is_cut_off_and_other_files_are_left_as_they_are() {
    let file = Named::new("torn");
    drop(file.begin());
    let whole = fs::read(&file.0).unwrap();
    fs::write(&file.0, [&whole[..], b"torn"].concat()).unwrap();
    // (a life begins some time after its boot was told: on a busy machine that is a millisecond and more)
    let later = Boot { uptime: 2 * BOOT.uptime, ..BOOT };
    let replayed = Replayed::open(file.open(), &Config::default(), later).unwrap();
    assert_eq!((replayed.torn(), replayed.silence()), (4, Duration::ZERO));
    assert_eq!(fs::read(&file.0).unwrap(), whole);
    // After another boot it is silent first.
    let other = Boot { name: 8, ..BOOT };
    let replayed = Replayed::open(file.open(), &Config::default(), other).unwrap();
    assert_eq!(replayed.silence(), Duration::from_millis(47_001));
    let mut changed = whole.clone();
    changed[20] ^= 1;
    for (bytes, at) in [(&changed[..], Some(0)), (&b"no journal"[..], None)] {
        fs::write(&file.0, bytes).unwrap();
        match (Replayed::open(file.open(), &Config::default(), BOOT), at) {
            (Err(JournalError::Damaged(found)), Some(at)) => assert_eq!(found, at),
            (Err(JournalError::NotBegun), None) => {}
            (other, _) => panic!("{other:?}"),
        }
        assert_eq!(fs::read(&file.0).unwrap(), bytes);
    }
}
