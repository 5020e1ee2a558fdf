//! bodies PORT: keeps what is put to coap://127.0.0.1:PORT/NAME, of up to 64 KiB, and gives it back, with an
//! entity-tag. What is longer than a block comes and goes in blocks (RFC 7959).

use knifesilver::driver::{Answerer, Told};
use knifesilver::exchange::blocks::{slice, Assembled, Assembly, Block};
use knifesilver::exchange::{Message, OptionNumber as Number, Request};
use knifesilver::{fits_library, Code, Config, Kind};
use std::collections::HashMap;
use std::net::{Ipv4Addr, SocketAddrV4};
use std::time::{Duration, Instant};

const MOST_BODIES: usize = 16;
const BLOCK_SIZE: usize = 1_024;
/// The critical options that are read here.
const KNOWN: [Number; 5] = [Number::URI_HOST, Number::URI_PORT, Number::URI_PATH, Number::BLOCK1, Number::BLOCK2];

struct Bodies {
    assembly: Assembly,
    /// Each has the number of the change that made it.
    bodies: HashMap<String, (u32, Vec<u8>)>,
    changes: u32,
}

impl Bodies {
    fn keep(&mut self, name: &str, body: Vec<u8>) -> Message {
        if self.bodies.len() == MOST_BODIES && !self.bodies.contains_key(name) {
            return Message::new(Code::SERVICE_UNAVAILABLE);
        }
        self.changes += 1;
        let before = self.bodies.insert(name.to_owned(), (self.changes, body));
        Message::new(if before.is_some() { Code::CHANGED } else { Code::CREATED })
    }

    fn put(&mut self, name: &str, request: &Request<'_>, message: &Message) -> Message {
        if message.options().get(Number::BLOCK1).is_none() {
            return self.keep(name, message.payload().to_vec());
        }
        match self.assembly.take(Instant::now(), request.asked().from(), message) {
            Ok(Assembled::Joined(block)) => Message::new(Code::CONTINUE).with_block1(block),
            Ok(Assembled::Whole(block, body)) => self.keep(name, body).with_block1(block),
            Ok(_) => Message::new(Code::NOT_IMPLEMENTED),
            Err(why) => Message::new(why.code()).with_payload(why.to_string()),
        }
    }

    fn get(&self, name: &str, message: &Message) -> Message {
        let Some((version, body)) = self.bodies.get(name) else { return Message::new(Code::NOT_FOUND) };
        let content = Message::new(Code::CONTENT).with_option(Number::ETAG, version.to_be_bytes());
        match message.block2().or(Block::new(0, false, BLOCK_SIZE)).map(|asked| (asked, slice(body, asked))) {
            Some((_, Some((given, bytes)))) if given.number() > 0 || given.more() => {
                content.with_block2(given).with_payload(bytes)
            }
            Some((_, Some((_, bytes)))) => content.with_payload(bytes),
            Some((asked, None)) if asked.number() == 0 => content,
            _ => Message::new(Code::BAD_REQUEST),
        }
    }

    /// See `Router::answer` of router.rs for options that are not known.
    fn answer(&mut self, request: &Request<'_>) -> Option<Message> {
        if request.unknown_critical(&KNOWN).is_some() {
            return (request.asked().kind() == Kind::Confirmable).then(|| Message::new(Code::BAD_OPTION));
        }
        let message = request.message();
        let path = message.path();
        let Some([name]) = path.as_deref() else { return Some(Message::new(Code::NOT_FOUND)) };
        Some(match message.code() {
            Code::GET => self.get(name, &message),
            Code::PUT => self.put(name, request, &message),
            _ => Message::new(Code::METHOD_NOT_ALLOWED),
        })
    }
}

fn main() -> Result<(), Box<dyn std::error::Error>> {
    if !fits_library() {
        return Err("the library is not that of the crate".into());
    }
    let port = std::env::args().nth(1).ok_or("bodies PORT")?.parse()?;
    let config = Config::default();
    let mut server = Answerer::open(SocketAddrV4::new(Ipv4Addr::LOCALHOST, port), &config)?;
    let mut bodies = Bodies { assembly: Assembly::new(&config, Instant::now())?, bodies: HashMap::new(), changes: 0 };
    loop {
        server.turn(Duration::from_secs(1), |end, told| {
            let Told::Request(request) = told else { return };
            // (without memory it is not sent)
            let _ = bodies.answer(&request).map(|answer| end.answer(&request.asked(), &answer));
        });
    }
}
