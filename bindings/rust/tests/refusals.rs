//! Each refusal that can be had without a refused allocation (for those see `bindings/tests/ends.c`), and what is `Send`.

use knifesilver::*;
use std::net::{Ipv4Addr, SocketAddrV4};
use std::time::{Duration, Instant};

const THERE: SocketAddrV4 = SocketAddrV4::new(Ipv4Addr::LOCALHOST, 5683);

fn server() -> (Server, Instant) {
    let now = Instant::now();
    (Server::new(&Config::default(), now).unwrap(), now)
}

fn client() -> (Client, Instant) {
    let now = Instant::now();
    (Client::new(&Config::default(), THERE, now).unwrap(), now)
}

#[test]
fn the_library_is_that_of_this_crate() {
    assert!(fits_library());
}

#[test]
fn configurations_are_refused() {
    let refused = |change: fn(&mut Config)| {
        let mut config = Config::default();
        change(&mut config);
        let now = Instant::now();
        (Server::new(&config, now).err(), Client::new(&config, THERE, now).err())
    };
    assert_eq!(refused(|c| c.block_size = 2_048), (Some(NewError::BlockSize), Some(NewError::BlockSize)));
    assert_eq!(refused(|c| c.block_size = 17), (Some(NewError::BlockSize), Some(NewError::BlockSize)));
    assert_eq!(refused(|c| c.body_limit = 1_048_577), (Some(NewError::BodyLimit), Some(NewError::BodyLimit)));
    assert_eq!(refused(|c| c.remembered = 1_048_577), (Some(NewError::Remembered), Some(NewError::Remembered)));
    assert_eq!(refused(|c| c.remembered = 1_048_576), (None, None));
    assert_eq!(refused(|c| c.remembered = 1), (None, None));
    assert_eq!(refused(|c| c.changes = 4_194_304), (Some(NewError::Changes), None));
    assert_eq!(refused(|c| c.base = 1), (Some(NewError::Base), None));
    assert_eq!(refused(|c| c.base = 1 << 63), (Some(NewError::Base), None));
    assert_eq!(refused(|c| c.base = 1 << 24), (None, None));
    assert_eq!(refused(|c| c.block_size = 16), (None, None));
    assert_eq!(NewError::BodyLimit.to_string(), "the limit of bodies is not 1 to 1,048,576");
}

#[test]
fn changes_are_refused() {
    let (mut server, now) = server();
    assert_eq!(server.set(now, "t", None, &[0; 65_537]), Err(SetError::TooLarge));
    assert_eq!(server.set(now, &"a/".repeat(16), None, b""), Err(SetError::BadPath));
    assert_eq!(server.set(now, &"a".repeat(256), None, b""), Err(SetError::BadPath));
    assert_eq!(server.set(now, "100%", None, b""), Err(SetError::BadPath));
    assert_eq!(server.update(now, "t", None, b"x"), Ok((1, true)));
    assert_eq!(server.update(now, "t", None, b"x"), Ok((1, false)));
    assert_eq!(server.set(now, "t", None, b"x"), Ok(2));
    assert_eq!(server.remove(now, "none"), Ok(false));
    for number in 1..256 {
        server.set(now, &number.to_string(), None, b"").unwrap();
    }
    assert_eq!(server.set(now, "more", None, b""), Err(SetError::TooManyPaths));
    assert_eq!(server.remove(now, "t"), Ok(true));
    assert_eq!(server.get("t"), None);

    let mut config = Config::default();
    config.changes = 1;
    let mut server = Server::new(&config, now).unwrap();
    assert_eq!(server.set(now, "t", Some(0), b"x"), Ok(1));
    assert_eq!(server.set(now, "t", Some(0), b"y"), Err(SetError::RateExceeded));
    assert_eq!(server.get("/t").map(|held| (held.version, held.format, held.body)), Some((1, Some(0), b"x".to_vec())));
}

#[test]
fn delays_are_refused() {
    let (mut server, _) = server();
    for number in 0..16 {
        server.set_delay(&number.to_string(), Duration::from_millis(5)).unwrap();
    }
    assert_eq!(server.set_delay("more", Duration::ZERO), Err(DelayError::Full));
    assert_eq!(server.set_delay("7", Duration::MAX), Ok(()));
    assert_eq!(server.set_delay(&"a".repeat(256), Duration::ZERO), Err(DelayError::BadPath));
}

#[test]
fn plain_paths_are_refused() {
    let (mut server, _) = server();
    for number in 0..16 {
        server.set_plain(&number.to_string()).unwrap();
    }
    assert_eq!(server.set_plain("more"), Err(PlainError::Full));
    assert_eq!(server.set_plain("7"), Ok(()));
    assert_eq!(server.set_plain(&"a".repeat(256)), Err(PlainError::BadPath));
}

#[test]
fn calls_are_refused() {
    let (mut client, now) = client();
    let put = |body| Request::put("t", None, body);
    assert_eq!(client.call(now, &put(&[0; 65_537])), Err(CallError::BodyTooLarge));
    assert_eq!(client.call(now, &Request::get(&"a".repeat(256))), Err(CallError::BadPath));
    assert_eq!(client.call(now, &Request::get(&"a".repeat(200))), Err(CallError::BadPath));
    let tags = [Tag::new(b"1").unwrap(); 5];
    let mut get = Request::get("t");
    get.etags = &tags;
    assert_eq!(client.call(now, &get), Err(CallError::TooManyTags));
    assert_eq!(Tag::new(b""), None);
    assert_eq!(Tag::new(b"123456789"), None);
    for number in 0..8 {
        assert_eq!(client.call(now, &Request::get("t")), Ok(CallId(number)));
    }
    assert_eq!(client.call(now, &Request::get("t")), Err(CallError::QueueFull));
    assert_eq!(client.cancel(now, CallId(0)), Err(CancelError::Unknown));
    assert!(!client.forget(CallId(0)));
    assert_eq!(client.poll_timeout(), Some(now));
    assert_eq!(client.poll_report(), None);
}

#[test]
fn paths_are_told_by_their_texts() {
    let (mut server, now) = server();
    server.set(now, "a%2Fb/100%25", None, b"x").unwrap();
    assert_eq!(server.get("a/b/100%25"), None);
    assert_eq!(server.get("/%61%2fb/100%25").unwrap().body, b"x");
    // (Uri-Path options of three and of four bytes)
    let put = b"\x40\x03\x00\x01\xb3a/b\x04100%\xffy";
    assert_eq!(peek(put).unwrap().path, b"/a%2Fb/100%25");
    server.handle(now, THERE, put).unwrap();
    let applied = server.poll_applied().unwrap();
    assert_eq!((applied.path.as_slice(), applied.held.unwrap().body), (&b"/a%2Fb/100%25"[..], b"y".to_vec()));
}

#[test]
fn requests_are_refused() {
    let (mut server, now) = server();
    let mut buffer = [0; MAX_DATAGRAM];
    let mut answer = |server: &mut Server| server.poll_transmit(&mut buffer).map(|it| buffer[..it.size].to_vec());
    let put = b"\x41\x03\x00\x01\x07\xb1t\xffx";
    server.refuse(now, THERE, put).unwrap();
    assert_eq!(answer(&mut server), Some(b"\x61\x85\x00\x01\x07".to_vec()));
    // A copy has the same answer, though it may be served by now.
    server.handle(now, THERE, put).unwrap();
    assert_eq!(answer(&mut server), Some(b"\x61\x85\x00\x01\x07".to_vec()));
    assert_eq!((server.poll_applied(), server.get("t")), (None, None));
    assert_eq!(refusal(put, Code(0x81)), Some(b"\x61\x81\x00\x01\x07".to_vec()));
    assert_eq!(refusal(put, Code::CONTENT), None);
    let other = b"\x41\x03\x00\x02\x08\xb1t\xffy";
    assert_eq!(server.refuse_by(now, THERE, other, Code::CONTENT), Err(RefuseError::Code));
    assert_eq!(answer(&mut server), None);
    assert_eq!(server.refuse_by(now, THERE, other, Code(0x83)), Ok(()));
    assert_eq!(answer(&mut server), Some(b"\x61\x83\x00\x02\x08".to_vec()));
    // A copy has that answer, by whatever code it is refused.
    assert_eq!(server.refuse_by(now, THERE, other, Code(0xa3)), Ok(()));
    assert_eq!(answer(&mut server), Some(b"\x61\x83\x00\x02\x08".to_vec()));
    assert_eq!((server.poll_applied(), server.get("t")), (None, None));
}

#[test]
fn faults_are_told() {
    let fault = |bytes: &[u8]| peek(bytes).map(|_| ()).unwrap_err();
    assert_eq!(fault(b""), (PeekError::Short, 0));
    assert_eq!(fault(b"\x80\x01\x00\x00"), (PeekError::Version, 0));
    assert_eq!(fault(b"\x49\x01\x00\x00"), (PeekError::TokenLength, 0));
    assert_eq!(fault(b"\x42\x01\x00\x00\x00"), (PeekError::TokenCut, 5));
    assert_eq!(fault(b"\x40\x00\x00\x00\x00"), (PeekError::EmptyNotBare, 4));
    assert_eq!(fault(b"\x40\x01\x00\x00\xf1"), (PeekError::DeltaReserved, 4));
    assert_eq!(fault(b"\x40\x01\x00\x00\x1f"), (PeekError::LengthReserved, 4));
    assert_eq!(fault(b"\x40\x01\x00\x00\x11"), (PeekError::OptionCut, 5));
    assert_eq!(fault(b"\x40\x01\x00\x00\xe0\xff\xff"), (PeekError::NumberTooLarge, 4));
    assert_eq!(fault(b"\x40\x01\x00\x00\xff"), (PeekError::NoPayload, 5));
}

#[test]
fn ends_go_to_another_thread() {
    fn is_send<T: Send>(_: &T) {}
    let ((mut server, now), (client, _)) = (server(), client());
    is_send(&client);
    let server = std::thread::spawn(move || server.set(now, "t", None, b"x").map(|_| server)).join().unwrap().unwrap();
    assert_eq!(server.get("t").unwrap().body, b"x");
}
