//! Bodies in blocks over the exchange door, both ways (RFC 7959, sections 2.4 and 2.5).

use knifesilver::exchange::blocks::*;
use knifesilver::exchange::{Message, OptionNumber};
use knifesilver::{Code, Config, NewError};
use std::net::{Ipv4Addr, SocketAddrV4};
use std::time::{Duration, Instant};

const HERE: SocketAddrV4 = SocketAddrV4::new(Ipv4Addr::LOCALHOST, 40_001);

fn config() -> Config {
    Config::default().with_block_size(64).with_body_limit(1_000)
}

fn body(len: usize) -> Vec<u8> {
    (0..len).map(|place| (place * 7 % 251) as u8).collect()
}

/// The part of a body that is asked for, with that entity-tag.
fn part(body: &[u8], asked: Option<Block>, tag: Option<u8>) -> Message {
    let (given, bytes) = slice(body, asked.unwrap_or(Block::new(0, false, 64).unwrap())).unwrap();
    let response = Message::new(Code::CONTENT).with_block2(given).with_payload(bytes);
    tag.into_iter().fold(response, |response, tag| response.with_option(OptionNumber::ETAG, [tag]))
}

#[test]
fn a_body_is_fetched() {
    for (len, tag, untagged) in [(0, None, false), (64, None, false), (1_000, Some(1), false), (1_000, None, true)] {
        let all = body(len);
        let mut fetch = if untagged { Fetch::untagged(&config()) } else { Fetch::new(&config()) }.unwrap();
        let mut asked = None;
        let whole = loop {
            // (a body of no bytes is one message, with no block)
            let response = if len == 0 { Message::new(Code::CONTENT) } else { part(&all, asked, tag) };
            match fetch.accept(&response).unwrap() {
                Fetched::Ask(block) => asked = Some(block),
                done => break done,
            }
        };
        assert_eq!(whole, if untagged { Fetched::Joined(all) } else { Fetched::Whole(all) }, "{len} bytes");
    }
}

#[test]
fn a_body_that_is_not_fetched() {
    let (all, second) = (body(1_000), Block::new(1, false, 64));
    let fetch = || Fetch::new(&config()).unwrap();
    // Of several parts, one has no entity-tag.
    assert_eq!(fetch().accept(&part(&all, None, None)), Err(FetchError::NoTag));
    // Another block than the one that was asked for.
    let mut it = fetch();
    assert!(matches!(it.accept(&part(&all, None, Some(1))), Ok(Fetched::Ask(block)) if block.number() == 1));
    assert_eq!(it.accept(&part(&all, None, Some(1))), Err(FetchError::BadBlock));
    // Another entity-tag: from the beginning; and that again and again.
    let mut it = fetch();
    let mut change = |tag| {
        it.accept(&part(&all, None, Some(tag)))?;
        it.accept(&part(&all, second, Some(99)))
    };
    let ends: Vec<_> = (0..20).map(&mut change).collect();
    assert_eq!(ends[0], Ok(Fetched::Again));
    assert_eq!(ends.iter().find(|end| end.is_err()), Some(&Err(FetchError::Changed)));
    // Longer than the limit.
    let mut it = fetch();
    let (mut asked, longer) = (None, body(1_001));
    let end = loop {
        match it.accept(&part(&longer, asked, Some(1))) {
            Ok(Fetched::Ask(block)) => asked = Some(block),
            end => break end,
        }
    };
    assert_eq!(end, Err(FetchError::TooLarge));
    assert_eq!(Fetch::new(&config().with_block_size(100)).err(), Some(NewError::BlockSize));
    assert_eq!(Upload::new(&config().with_block_size(100), b"").err(), Some(NewError::BlockSize));
    let none = config().with_body_limit(2_000_000);
    assert_eq!(Assembly::new(&none, Instant::now()).err(), Some(NewError::BodyLimit));
}

#[test]
fn a_body_is_sent() {
    let now = Instant::now();
    let mut assembly = Assembly::new(&config(), now).unwrap();
    for len in [65, 128, 1_000] {
        let (all, mut seen) = (body(len), 0);
        let mut upload = Upload::new(&config(), &all).unwrap();
        let whole = loop {
            let (block, bytes) = upload.block();
            let request = Message::put("a/b").with_block1(block).with_payload(bytes);
            seen += 1;
            match assembly.take(now, HERE, &request).unwrap() {
                Assembled::Joined(answer) => {
                    let response = Message::new(Code::CONTINUE).with_block1(answer);
                    assert!(upload.accepted(&response));
                }
                Assembled::Whole(answer, whole) => {
                    assert!(!upload.accepted(&Message::new(Code::CHANGED).with_block1(answer)));
                    break whole;
                }
                other => panic!("{other:?}"),
            }
        };
        assert_eq!((whole, seen), (all, len.div_ceil(64)));
    }
}

#[test]
fn a_body_that_is_not_joined() {
    let now = Instant::now();
    let mut assembly = Assembly::new(&config(), now).unwrap();
    let put = |path: &str, number, more, len| {
        Message::put(path).with_block1(Block::new(number, more, 64).unwrap()).with_payload(body(len))
    };
    let soon = now + Duration::from_secs(1);
    let mut take = |request: Message| assembly.take(soon, HERE, &request).map_err(AssemblyError::code);
    assert_eq!(take(put("t", 1, true, 64)), Err(Code::REQUEST_ENTITY_INCOMPLETE));
    assert_eq!(take(put("t", 0, true, 63)), Err(Code::BAD_REQUEST));
    assert_eq!(take(Message::put("t")), Err(Code::BAD_REQUEST));
    for number in 0..16 {
        assert!(matches!(take(put(&number.to_string(), 0, true, 64)), Ok(Assembled::Joined(_))));
    }
    assert_eq!(take(put("more", 0, true, 64)), Err(Code::SERVICE_UNAVAILABLE));
    for number in 1..15 {
        assert!(matches!(take(put("7", number, true, 64)), Ok(Assembled::Joined(_))), "{number}");
    }
    assert_eq!(take(put("7", 15, true, 64)), Err(Code::REQUEST_ENTITY_TOO_LARGE));
}
