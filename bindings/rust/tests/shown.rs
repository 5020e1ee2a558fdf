//! Requests, configurations, and that each public type can be shown by `{:?}`.

use knifesilver::{
    Applied, CallError, CallId, CancelError, Client, Code, Config, DelayError, Fetched, Kind, Message, Method,
};
use knifesilver::{
    NewError, OutOfMemory, PeekError, PlainError, Report, Representation, Request, Server, SetError, Tag, Transmit,
};
use std::fmt::Debug;
use std::net::{Ipv4Addr, SocketAddrV4};
use std::time::Instant;

const THERE: SocketAddrV4 = SocketAddrV4::new(Ipv4Addr::LOCALHOST, 5683);

#[test]
fn each_request_has_what_its_method_has() {
    let shown = |request: Request<'_>| (request.method, request.format, request.body.to_vec());
    assert_eq!(shown(Request::get("a")), (Method::Get, None, vec![]));
    assert_eq!(shown(Request::put("a", Some(0), b"b")), (Method::Put, Some(0), b"b".to_vec()));
    assert_eq!(shown(Request::post("a", Some(50), b"{}")), (Method::Post, Some(50), b"{}".to_vec()));
    assert_eq!(shown(Request::delete("a")), (Method::Delete, None, vec![]));
    for request in [Request::post("a", None, b""), Request::delete("a")] {
        assert_eq!((request.path, request.accept, request.if_none_match), ("a", None, false));
        assert!(request.etags.is_empty() && request.if_match.is_empty());
    }
}

#[test]
fn each_with_changes_one_field() {
    let usual = Config::default();
    let mut changed = usual.clone();
    changed.block_size = 16;
    assert_eq!(usual.clone().with_block_size(16), changed);
    changed.body_limit = 1;
    assert_eq!(usual.clone().with_block_size(16).with_body_limit(1), changed);
    changed.remembered = 2;
    changed.changes = 3;
    changed.base = 1 << 24;
    changed.rng_seed = Some(4);
    let all = usual.clone().with_rng_seed(4).with_changes(3).with_remembered(2).with_body_limit(1).with_block_size(16);
    assert_eq!(all.with_base(1 << 24), changed);
    assert_eq!(usual.clone().with_drawn_base().base % (1 << 24), 0);
    assert_eq!(usual, Config::default());
}

#[test]
fn ends_are_shown_without_their_random_words() {
    let now = Instant::now();
    let config = Config::default().with_rng_seed(7);
    let mut client = Client::new(&config, THERE, now).unwrap();
    assert_eq!(format!("{client:?}"), "Client { due: None, .. }");
    client.call(now, &Request::get("t")).unwrap();
    assert!(format!("{client:?}").starts_with("Client { due: Some("), "{client:?}");
    let server = Server::new(&config, now).unwrap();
    assert!(format!("{server:?}").ends_with("applied: 0, .. }"), "{server:?}");
}

#[test]
fn each_type_can_be_shown() {
    fn can<T: Debug>() {}
    macro_rules! can_all {
        ($($name:ty),*) => { $(can::<$name>();)* };
    }
    can_all!(Applied, Client, Code, Config, CallId, Fetched, Kind, Message, Method, Report, Representation);
    can_all!(Request<'_>, Server, Tag, Transmit);
    can_all!(CallError, CancelError, DelayError, NewError, OutOfMemory, PeekError, PlainError, SetError);
}
