//! router PORT: coap://127.0.0.1:PORT, whose answers are computed by the functions of a table of routes. From the table
//! /.well-known/core is made, too (RFC 6690). Who observes /lamp is told of its changes, each as soon as may be.

use knifesilver::driver::{Answerer, Told};
use knifesilver::exchange::{self, Message, Observers, OptionNumber as Number, Request};
use knifesilver::{fits_library, Code, Config, Kind, TEXT_PLAIN};
use std::net::{Ipv4Addr, SocketAddrV4};
use std::time::{Duration, Instant};

/// The Content-Format of links (RFC 6690, section 7.2).
const LINK_FORMAT: u16 = 40;
/// The critical options that are read here.
const KNOWN: [Number; 5] = [Number::URI_HOST, Number::URI_PORT, Number::URI_PATH, Number::URI_QUERY, Number::ACCEPT];

type Handler = fn(&mut Router, &Message) -> Message;
/// Methods, paths, the attributes of a path's link, and who answers.
const ROUTES: [(Code, &str, &str, Handler); 7] = [
    (Code::GET, ".well-known/core", "", |_, message| links(message)),
    (Code::GET, "sensors/1", "rt=\"temperature\";if=\"sensor\"", |_, message| reading(message.query("unit"))),
    (Code::FETCH, "sensors/1", "", |_, message| reading(message.text())),
    (Code::GET, "lamp", "rt=\"light lamp\";obs", |router, _| router.shown(Code::CONTENT)),
    (Code::PUT, "lamp", "", |router, message| router.switch(message.text())),
    (Code::POST, "lamp", "", |router, _| router.switch(Some(if router.is_on { "off" } else { "on" }))),
    (Code::DELETE, "lamp", "", |router, _| router.switch(Some("off")).with_code(Code::DELETED)),
];

fn text(code: Code, text: impl Into<String>) -> Message {
    Message::new(code).with_format(TEXT_PLAIN).with_payload(text.into())
}

fn reading(unit: Option<&str>) -> Message {
    match unit {
        None | Some("c") => text(Code::CONTENT, "22.5 C").with_max_age(5),
        Some("f") => text(Code::CONTENT, "72.5 F").with_max_age(5),
        Some(_) => text(Code::BAD_REQUEST, "the unit is c or f"),
    }
}

/// The links that are asked for, as by `?rt=lamp`, `?rt=li*` or `?href=/lamp` (RFC 6690, section 4.1).
fn links(message: &Message) -> Message {
    let is_asked_for = |path: &str, attributes: &str, (name, value): (&str, &str)| {
        let fits = |it: &str| value.strip_suffix('*').map_or(it == value, |start| it.starts_with(start));
        let mut pairs = attributes.split(';').map(|it| it.split_once('=').unwrap_or((it, "")));
        (name == "href" && fits(&format!("/{path}")))
            || pairs.any(|(of, values)| of == name && values.trim_matches('"').split(' ').any(fits))
    };
    let links = ROUTES.iter().filter(|(_, path, attributes, _)| {
        !attributes.is_empty() && message.queries().all(|query| is_asked_for(path, attributes, query))
    });
    let links: Vec<String> = links.map(|(_, path, attributes, _)| format!("</{path}>;{attributes}")).collect();
    Message::new(Code::CONTENT).with_format(LINK_FORMAT).with_payload(links.join(","))
}

/// A lamp, and who observes it.
#[derive(Default)]
pub struct Router {
    is_on: bool,
    observers: Observers,
}

impl Router {
    fn shown(&self, code: Code) -> Message {
        text(code, if self.is_on { "on" } else { "off" })
    }

    fn switch(&mut self, to: Option<&str>) -> Message {
        let Some(to @ ("on" | "off")) = to else { return text(Code::BAD_REQUEST, "a lamp is on or off") };
        if self.is_on != (to == "on") {
            self.is_on = to == "on";
            self.observers.changed();
        }
        self.shown(Code::CHANGED)
    }

    /// The answer, where there is one: a critical option that is not known is answered with 4.02 where the request is
    /// Confirmable, and not at all where it is not (RFC 7252, section 5.4.1).
    pub fn answer(&mut self, request: &Request<'_>) -> Option<Message> {
        if let Some(number) = request.unknown_critical(&KNOWN) {
            let is_answered = request.asked().kind() == Kind::Confirmable;
            return is_answered.then(|| text(Code::BAD_OPTION, format!("{number} is not known")));
        }
        let message = request.message();
        let path = message.path().unwrap_or_default();
        let here = ROUTES.iter().filter(|(_, route, ..)| route.split('/').eq(path.iter().copied())).collect::<Vec<_>>();
        let Some((.., attributes, handler)) = here.iter().find(|(method, ..)| *method == message.code()) else {
            return Some(Message::new(if here.is_empty() { Code::NOT_FOUND } else { Code::METHOD_NOT_ALLOWED }));
        };
        let answer = handler(self, &message);
        if answer.code() == Code::CONTENT && message.accept().is_some_and(|format| answer.format() != Some(format)) {
            return Some(Message::new(Code::NOT_ACCEPTABLE));
        }
        let is_observable = attributes.ends_with("obs");
        Some(if is_observable { self.observers.answer(&request.asked(), &message, answer) } else { answer })
    }

    /// Tells who observes the lamp what it is.
    pub fn tell(&mut self, server: &mut exchange::Answerer, now: Instant) {
        let shown = self.shown(Code::CONTENT);
        self.observers.tell(server, now, &shown);
    }
}

fn main() -> Result<(), Box<dyn std::error::Error>> {
    if !fits_library() {
        return Err("the library is not that of the crate".into());
    }
    let port = std::env::args().nth(1).ok_or("router PORT")?.parse()?;
    let mut server = Answerer::open(SocketAddrV4::new(Ipv4Addr::LOCALHOST, port), &Config::default())?;
    let mut router = Router::default();
    loop {
        server.turn(Duration::from_secs(1), |end, told| {
            let Told::Request(request) = told else { return };
            println!("called");
            // (without memory it is not sent)
            let _ = router.answer(&request).map(|answer| end.answer(&request.asked(), &answer));
        });
        router.tell(server.end(), Instant::now());
    }
}
