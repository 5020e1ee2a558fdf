//! The answers of `router` and `lwm2m` in made-up time, as a test of the crate (bindings/rust): routes, links that are
//! filtered, options that are not known, an observation whose acknowledgements are late, registrations that end.

#[allow(dead_code)]
#[path = "../lwm2m/main.rs"]
mod lwm2m;
#[allow(dead_code)]
#[path = "../router.rs"]
mod router;

use knifesilver::exchange::{Answerer, Message, OptionNumber};
use knifesilver::{Code, Config, Kind, MAX_DATAGRAM};
use std::net::{Ipv4Addr, SocketAddrV4};
use std::time::{Duration, Instant};

const HERE: SocketAddrV4 = SocketAddrV4::new(Ipv4Addr::new(192, 0, 2, 1), 40_001);
/// The critical options that both know.
const KNOWN: [OptionNumber; 5] = [
    OptionNumber::URI_HOST,
    OptionNumber::URI_PORT,
    OptionNumber::URI_PATH,
    OptionNumber::URI_QUERY,
    OptionNumber::ACCEPT,
];
const CON: u8 = 0x40;
const NON: u8 = 0x50;
const LINKS: &str = "</sensors/1>;rt=\"temperature\";if=\"sensor\",</lamp>;rt=\"light lamp\";obs";

/// A delta or a length: its nibble, and its further bytes (RFC 7252, section 3.1).
fn extended(number: u16) -> (u8, Vec<u8>) {
    match number {
        0..=12 => (number as u8, vec![]),
        13..=268 => (13, vec![(number - 13) as u8]),
        _ => (14, (number - 269).to_be_bytes().to_vec()),
    }
}

/// The bytes of a request with the token 07.
fn spelled(first: u8, id: u16, message: &Message) -> Vec<u8> {
    let mut bytes = vec![first | 1, message.code().0, (id >> 8) as u8, id as u8, 7];
    let mut last = 0;
    for (number, value) in message.options().iter() {
        let (delta, more_delta) = extended(number.0 - last);
        let (len, more_len) = extended(value.len() as u16);
        bytes.push(delta << 4 | len);
        bytes.extend([more_delta.as_slice(), more_len.as_slice(), value].concat());
        last = number.0;
    }
    if !message.payload().is_empty() {
        bytes.push(0xff);
        bytes.extend(message.payload());
    }
    bytes
}

fn sent(server: &mut Answerer) -> Option<Vec<u8>> {
    let mut buffer = [0; MAX_DATAGRAM];
    server.poll_transmit(&mut buffer).map(|it| buffer[..it.size].to_vec())
}

struct Routed {
    server: Answerer,
    router: router::Router,
    now: Instant,
    id: u16,
}

impl Routed {
    fn new() -> Routed {
        let now = Instant::now();
        let server = Answerer::new(&Config::default().with_rng_seed(1), now).unwrap();
        Routed { server, router: router::Router::default(), now, id: 0 }
    }

    /// What is sent for a request.
    fn ask_as(&mut self, first: u8, message: &Message) -> Option<Message> {
        self.id += 1;
        let bytes = spelled(first, self.id, message);
        let request = self.server.handle(self.now, HERE, &bytes).unwrap().unwrap();
        if let Some(answer) = self.router.answer(&request) {
            self.server.answer(&request.asked(), &answer).unwrap();
        }
        sent(&mut self.server).map(|bytes| Message::read(&bytes).unwrap())
    }

    fn ask(&mut self, message: &Message) -> (Code, String) {
        let answer = self.ask_as(CON, message).unwrap();
        (answer.code(), answer.text().unwrap().to_owned())
    }
}

#[test]
fn routes_are_found_by_path_and_method() {
    let mut routed = Routed::new();
    let cases = [
        (Message::get("sensors/1"), Code::CONTENT, "22.5 C"),
        (Message::get("sensors/1").with_query("unit=f"), Code::CONTENT, "72.5 F"),
        (Message::get("sensors/1").with_query("a").with_query("unit=f"), Code::CONTENT, "72.5 F"),
        (Message::get("sensors/1").with_query("unit=k"), Code::BAD_REQUEST, "the unit is c or f"),
        (Message::fetch("sensors/1").with_payload("f"), Code::CONTENT, "72.5 F"),
        (Message::put("sensors/1"), Code::METHOD_NOT_ALLOWED, ""),
        (Message::get("sensors"), Code::NOT_FOUND, ""),
        (Message::get("sensors/1/2"), Code::NOT_FOUND, ""),
        (Message::get("").with_option(OptionNumber::URI_PATH, "sensors/1"), Code::NOT_FOUND, ""),
        (Message::get("").with_option(OptionNumber::URI_PATH, [0xff]), Code::NOT_FOUND, ""),
        (Message::get(""), Code::NOT_FOUND, ""),
        (Message::get("lamp"), Code::CONTENT, "off"),
        (Message::put("lamp").with_payload("on"), Code::CHANGED, "on"),
        (Message::put("lamp").with_payload("dim"), Code::BAD_REQUEST, "a lamp is on or off"),
        (Message::put("lamp").with_payload([0xff]), Code::BAD_REQUEST, "a lamp is on or off"),
        (Message::get("lamp"), Code::CONTENT, "on"),
        (Message::post("lamp"), Code::CHANGED, "off"),
        (Message::post("lamp"), Code::CHANGED, "on"),
        (Message::delete("lamp"), Code::DELETED, "off"),
        (Message::fetch("lamp"), Code::METHOD_NOT_ALLOWED, ""),
        (Message::get("lamp").with_accept(0), Code::CONTENT, "off"),
        (Message::get("lamp").with_accept(50), Code::NOT_ACCEPTABLE, ""),
        (Message::get("lamp").with_option(OptionNumber::URI_HOST, "h"), Code::CONTENT, "off"),
        (Message::get(".well-known/core").with_accept(40), Code::CONTENT, LINKS),
    ];
    for (request, code, text) in cases {
        assert_eq!(routed.ask(&request), (code, text.to_owned()), "{request:?}");
    }
}

#[test]
fn links_are_found_by_what_is_asked_for() {
    let mut routed = Routed::new();
    let (sensor, lamp) = LINKS.split_once(',').unwrap();
    let cases = [
        ("rt=temperature", sensor),
        ("rt=light", lamp),
        ("rt=lamp", lamp),
        ("rt=l*", lamp),
        ("rt=light lamp", ""),
        ("if=sensor", sensor),
        ("href=/lamp", lamp),
        ("href=/sen*", sensor),
        ("href=*", LINKS),
        ("obs", lamp),
        ("rt=humidity", ""),
        ("ct=40", ""),
    ];
    for (query, links) in cases {
        let request = Message::get(".well-known/core").with_query(query);
        assert_eq!(routed.ask(&request), (Code::CONTENT, links.to_owned()), "{query}");
    }
    let two = Message::get(".well-known/core").with_query("rt=lamp").with_query("if=sensor");
    assert_eq!(routed.ask(&two), (Code::CONTENT, String::new()));
}

/// Option 2049 is critical, and nobody knows it; 2048 is elective (RFC 7252, section 5.4.1).
#[test]
fn an_option_that_is_not_known() {
    let mut routed = Routed::new();
    let get = |number| Message::get("lamp").with_option(OptionNumber(number), "x");
    assert_eq!(routed.ask(&get(2_049)), (Code::BAD_OPTION, "2049 is not known".to_owned()));
    assert_eq!(routed.ask_as(NON, &get(2_049)), None);
    assert_eq!(routed.ask(&get(2_048)), (Code::CONTENT, "off".to_owned()));
    assert_eq!(routed.ask_as(NON, &get(2_048)).map(|answer| answer.code()), Some(Code::CONTENT));
    let matching = Message::put("lamp").with_option(OptionNumber::IF_MATCH, "x").with_payload("on");
    assert_eq!(routed.ask(&matching), (Code::BAD_OPTION, "If-Match is not known".to_owned()));
}

/// An observer is told each change, or, where its acknowledgement of the last one is late, the state of then.
#[test]
fn an_observation() {
    let mut routed = Routed::new();
    let told = |routed: &mut Routed| {
        routed.router.tell(&mut routed.server, routed.now);
        sent(&mut routed.server)
    };
    let registered = routed.ask_as(CON, &Message::get("lamp").with_observe(0)).unwrap();
    assert_eq!((registered.observe(), registered.text()), (Some(0), Some("off")));
    assert_eq!(told(&mut routed), None);
    routed.ask(&Message::post("lamp"));
    let first = told(&mut routed).expect("a notification");
    let notification = Message::read(&first).unwrap();
    assert_eq!((notification.observe(), notification.text(), first[4]), (Some(1), Some("on"), 7));
    // Two changes more, before that is acknowledged: nothing is sent, and then the last state.
    routed.ask(&Message::post("lamp"));
    assert_eq!(told(&mut routed), None);
    routed.ask(&Message::post("lamp"));
    assert_eq!(told(&mut routed), None);
    assert!(routed.server.handle(routed.now, HERE, &[0x60, 0, first[2], first[3]]).unwrap().is_none());
    let second = Message::read(&told(&mut routed).expect("a notification")).unwrap();
    assert_eq!((second.observe(), second.text()), (Some(3), Some("on")));
    let other = routed.ask_as(CON, &Message::get("lamp").with_observe(1)).unwrap();
    assert_eq!((other.observe(), other.text()), (None, Some("on")));
    routed.ask(&Message::post("lamp"));
    assert_eq!(told(&mut routed), None);
}

#[test]
fn registrations() {
    let start = Instant::now();
    let mut server = Answerer::new(&Config::default().with_rng_seed(1), start).unwrap();
    let (mut registry, mut id) = (lwm2m::Registry::default(), 0);
    let mut ask = |after: u64, message: Message| {
        id += 1;
        let (now, bytes) = (start + Duration::from_secs(after), spelled(CON, id, &message));
        let request = server.handle(now, HERE, &bytes).unwrap().unwrap();
        let (asked, answer) = (request.asked(), registry.answer(now, &request).unwrap());
        server.answer(&asked, &answer).unwrap();
        let answer = Message::read(&sent(&mut server).unwrap()).unwrap();
        let location = answer.location().unwrap().join("/");
        (answer.code(), location, answer.text().unwrap().to_owned())
    };
    let code = |code: Code| (code, String::new(), String::new());
    let register = |name: &str| Message::post("rd").with_query(&format!("ep={name}")).with_query("lwm2m=1.2");
    let objects = || register("a").with_query("lt=60").with_query("b=U").with_format(40).with_payload("</1/0>,</3/0>");
    assert_eq!(ask(0, objects()), (Code::CREATED, "rd/1".into(), String::new()));
    assert_eq!(ask(0, register("b")), (Code::CREATED, "rd/2".into(), String::new()));
    let both = "</rd/1>;ep=\"a\";lt=60;v=\"1.2\",</rd/2>;ep=\"b\";lt=86400;v=\"1.2\"";
    assert_eq!(ask(1, Message::get("rd")), (Code::CONTENT, String::new(), both.into()));
    // An update begins the lifetime anew.
    assert_eq!(ask(50, Message::post("rd/1")), code(Code::CHANGED));
    assert_eq!(ask(109, Message::post("rd/1").with_query("lt=30")), code(Code::CHANGED));
    assert_eq!(ask(138, Message::post("rd/1")), code(Code::CHANGED));
    assert_eq!(ask(168, Message::post("rd/1")), code(Code::NOT_FOUND));
    // The same name registers anew, under another path.
    assert_eq!(ask(168, register("b").with_query("lt=9")), (Code::CREATED, "rd/3".into(), String::new()));
    assert_eq!(ask(168, Message::delete("rd/2")), code(Code::NOT_FOUND));
    assert_eq!(ask(168, Message::delete("rd/3")), code(Code::DELETED));
    assert_eq!(ask(168, Message::get("rd")), code(Code::CONTENT));
    let refused = |message: Message, ask: &mut dyn FnMut(u64, Message) -> (Code, String, String)| ask(200, message).0;
    let cases = [
        (Message::post("rd"), Code::BAD_REQUEST),
        (Message::post("rd").with_query("ep="), Code::BAD_REQUEST),
        (Message::post("rd").with_query("ep=\"x"), Code::BAD_REQUEST),
        (register("c").with_query("lt=0"), Code::BAD_REQUEST),
        (register("c").with_query("lt=soon"), Code::BAD_REQUEST),
        (Message::post("rd").with_query("ep=c").with_query("lwm2m=2.0"), Code::PRECONDITION_FAILED),
        (register("c").with_format(0).with_payload("x"), Code::UNSUPPORTED_CONTENT_FORMAT),
        (Message::put("rd"), Code::METHOD_NOT_ALLOWED),
        (Message::put("rd/9"), Code::NOT_FOUND),
        (Message::post("rd/x"), Code::NOT_FOUND),
        (Message::post("bs").with_query("ep=c"), Code::NOT_FOUND),
        (register("c").with_option(OptionNumber(2_049), "x"), Code::BAD_OPTION),
    ];
    for (message, wanted) in cases {
        assert_eq!(refused(message.clone(), &mut ask), wanted, "{message:?}");
    }
}

/// 100,000 requests that are some bytes off: each that is handed up has an answer, but for those that are to be ignored.
#[test]
fn requests_that_are_some_bytes_off() {
    let (mut routed, mut registry) = (Routed::new(), lwm2m::Registry::default());
    let seeds = [
        spelled(CON, 0, &Message::get("sensors/1").with_query("unit=f").with_accept(0)),
        spelled(NON, 0, &Message::put("lamp").with_payload("on")),
        spelled(CON, 0, &Message::get(".well-known/core").with_query("rt=l*")),
        spelled(CON, 0, &Message::post("rd").with_query("ep=a").with_query("lt=60").with_payload("</1/0>")),
        spelled(CON, 0, &Message::get("lamp").with_observe(0)),
    ];
    let (mut seed, mut handed) = (7_u64, 0);
    let mut draw = move |below: usize| {
        seed ^= seed << 13;
        seed ^= seed >> 7;
        seed ^= seed << 17;
        seed as usize % below
    };
    for number in 0..100_000_u32 {
        let mut bytes = seeds[draw(seeds.len())].clone();
        bytes[2..4].copy_from_slice(&(number as u16).to_be_bytes());
        for _ in 0..=draw(3) {
            let place = draw(bytes.len());
            bytes[place] = draw(256) as u8;
        }
        // (more a second than this it could not remember)
        routed.now += Duration::from_millis(100);
        let Some(request) = routed.server.handle(routed.now, HERE, &bytes).unwrap() else { continue };
        let is_known = request.unknown_critical(&KNOWN).is_none();
        let is_answered = is_known || request.asked().kind() == Kind::Confirmable;
        let (answer, other) = (routed.router.answer(&request), registry.answer(routed.now, &request));
        assert_eq!((answer.is_some(), other.is_some()), (is_answered, is_answered), "{request:?}");
        if let Some(answer) = answer {
            routed.server.answer(&request.asked(), &answer).unwrap();
        }
        while sent(&mut routed.server).is_some() {}
        handed += 1;
    }
    assert!(handed > 50_000, "{handed}");
    routed.now += Duration::from_secs(300);
    while sent(&mut routed.server).is_some() {}
    assert_eq!(routed.ask(&Message::get("sensors/1")), (Code::CONTENT, "22.5 C".to_owned()));
}
