//! lwm2m PORT: the registration interface of a server of LwM2M (OMA LightweightM2M 1.2), at coap://127.0.0.1:PORT/rd,
//! without DTLS. A device registers by `POST /rd?ep=NAME&lt=SECONDS&lwm2m=1.2&b=U` with links to its objects.
//! Location-Path tells it where its registration is: `POST` there updates it, `DELETE` ends it, and it ends by itself
//! after its lifetime. `GET /rd` tells who is registered, as links (that is ours, and not of the standard). With
//! libcoap's client:
//!
//!     coap-client -m post -t 40 -e '</1/0>,</3/0>' 'coap://127.0.0.1:5683/rd?ep=node1&lt=60&lwm2m=1.2'
//!     coap-client -m get coap://127.0.0.1:5683/rd                      # </rd/1>;ep="node1";lt=60;v="1.2"
//!     coap-client -m delete coap://127.0.0.1:5683/rd/1

use knifesilver::driver::{Answerer, Told};
use knifesilver::exchange::{Message, OptionNumber, Request};
use knifesilver::{fits_library, Code, Config, Kind};
use std::collections::BTreeMap;
use std::net::{Ipv4Addr, SocketAddrV4};
use std::time::{Duration, Instant};

/// The Content-Format of links (RFC 6690, section 7.2).
const LINK_FORMAT: u16 = 40;
/// Where devices register.
const PLACE: &str = "rd";
/// How long a registration lasts for which nothing is said, in seconds.
const USUAL_LIFETIME_S: u64 = 86_400;
const VERSIONS: [&str; 3] = ["1.0", "1.1", "1.2"];
/// How many devices are registered at most, and how many bytes a name may have.
const MOST_DEVICES: usize = 1_000;
const LONGEST_NAME: usize = 128;
/// How many bytes of links an answer has room for.
const MOST_SHOWN: usize = 1_024;
/// The critical options that are read here.
const KNOWN: [OptionNumber; 5] = [
    OptionNumber::URI_HOST,
    OptionNumber::URI_PORT,
    OptionNumber::URI_PATH,
    OptionNumber::URI_QUERY,
    OptionNumber::ACCEPT,
];

/// The registration of a device.
struct Registration {
    name: String,
    version: String,
    lifetime: Duration,
    until: Instant,
    at: SocketAddrV4,
    objects: Vec<u8>,
}

/// Who is registered, by the number in the path of the registration.
#[derive(Default)]
pub struct Registry {
    last: u64,
    devices: BTreeMap<u64, Registration>,
}

/// A refusal, with a diagnostic payload (RFC 7252, section 5.5.2).
fn refused(code: Code, why: &str) -> Message {
    Message::new(code).with_payload(why)
}

/// The lifetime that a request says, or this one.
fn lifetime(request: &Message, usual: Duration) -> Result<Duration, Message> {
    match request.query("lt").map(str::parse::<u32>) {
        None => Ok(usual),
        Some(Ok(seconds @ 1..)) => Ok(Duration::from_secs(seconds.into())),
        Some(_) => Err(refused(Code::BAD_REQUEST, "lt is a number of seconds")),
    }
}

/// A name that can stand between quotes in a link.
fn is_name(name: &str) -> bool {
    let is_plain = |it: char| !it.is_control() && it != '"' && it != '\\';
    (1..=LONGEST_NAME).contains(&name.len()) && name.chars().all(is_plain)
}

/// Whether the payload is told to be links, or nothing of it is told.
fn is_links(request: &Message) -> bool {
    request.format().map_or(true, |format| format == LINK_FORMAT)
}

impl Registry {
    /// The answer to a request, where it has one: see `Router::answer` of router.rs for options that are not known.
    pub fn answer(&mut self, now: Instant, request: &Request<'_>) -> Option<Message> {
        let asked = request.asked();
        if let Some(number) = request.unknown_critical(&KNOWN) {
            let is_answered = asked.kind() == Kind::Confirmable;
            return is_answered.then(|| refused(Code::BAD_OPTION, &format!("{number} is not known")));
        }
        self.devices.retain(|_, device| device.until > now);
        let message = request.message();
        let answer = match (message.code(), message.path().unwrap_or_default().as_slice()) {
            (Code::POST, [PLACE]) => self.register(now, asked.from(), &message),
            (Code::GET, [PLACE]) => Ok(self.shown()),
            (_, [PLACE]) => Err(Message::new(Code::METHOD_NOT_ALLOWED)),
            (code, [PLACE, number]) => self.at(now, asked.from(), code, number, &message),
            _ => Err(Message::new(Code::NOT_FOUND)),
        };
        Some(answer.unwrap_or_else(|refusal| refusal))
    }

    /// A registration takes the place of the one of the same name.
    fn register(&mut self, now: Instant, from: SocketAddrV4, request: &Message) -> Result<Message, Message> {
        let name =
            request.query("ep").filter(|name| is_name(name)).ok_or(refused(Code::BAD_REQUEST, "ep is a name"))?;
        let version = request.query("lwm2m").unwrap_or(VERSIONS[0]);
        if !VERSIONS.contains(&version) {
            return Err(refused(Code::PRECONDITION_FAILED, "lwm2m is a version that is known here"));
        }
        if !is_links(request) {
            return Err(refused(Code::UNSUPPORTED_CONTENT_FORMAT, "the objects are links"));
        }
        let lifetime = lifetime(request, Duration::from_secs(USUAL_LIFETIME_S))?;
        self.devices.retain(|_, device| device.name != name);
        if self.devices.len() == MOST_DEVICES {
            return Err(refused(Code::SERVICE_UNAVAILABLE, "others are registered"));
        }
        self.last += 1;
        let (name, version, objects) = (name.to_owned(), version.to_owned(), request.payload().to_vec());
        let registration = Registration { name, version, lifetime, until: now + lifetime, at: from, objects };
        self.devices.insert(self.last, registration);
        Ok(Message::new(Code::CREATED).with_location(&format!("{PLACE}/{}", self.last)))
    }

    /// An update, or the end, of a registration.
    fn at(
        &mut self,
        now: Instant,
        from: SocketAddrV4,
        code: Code,
        number: &str,
        request: &Message,
    ) -> Result<Message, Message> {
        let number: u64 = number.parse().map_err(|_| Message::new(Code::NOT_FOUND))?;
        let device = self.devices.get_mut(&number).ok_or(Message::new(Code::NOT_FOUND))?;
        match code {
            Code::POST => {
                device.lifetime = lifetime(request, device.lifetime)?;
                if !is_links(request) {
                    return Err(refused(Code::UNSUPPORTED_CONTENT_FORMAT, "the objects are links"));
                }
                if !request.payload().is_empty() {
                    device.objects = request.payload().to_vec();
                }
                (device.until, device.at) = (now + device.lifetime, from);
                Ok(Message::new(Code::CHANGED))
            }
            Code::DELETE => {
                self.devices.remove(&number);
                Ok(Message::new(Code::DELETED))
            }
            _ => Err(Message::new(Code::METHOD_NOT_ALLOWED)),
        }
    }

    /// Who is registered, as links: as many as a message holds.
    fn shown(&self) -> Message {
        let mut links = String::new();
        for (number, device) in &self.devices {
            let comma = if links.is_empty() { "" } else { "," };
            let (name, seconds, version) = (&device.name, device.lifetime.as_secs(), &device.version);
            let link = format!("{comma}</{PLACE}/{number}>;ep=\"{name}\";lt={seconds};v=\"{version}\"");
            if links.len() + link.len() > MOST_SHOWN {
                break;
            }
            links += &link;
        }
        Message::new(Code::CONTENT).with_format(LINK_FORMAT).with_payload(links)
    }

    /// The objects of a device, as links, and where it is.
    pub fn objects(&self, name: &str) -> Option<(SocketAddrV4, &[u8])> {
        let device = self.devices.values().find(|device| device.name == name)?;
        Some((device.at, &device.objects))
    }
}

fn main() -> Result<(), Box<dyn std::error::Error>> {
    if !fits_library() {
        return Err("the library is not that of the crate".into());
    }
    let port = std::env::args().nth(1).ok_or("lwm2m PORT")?.parse()?;
    let mut server = Answerer::open(SocketAddrV4::new(Ipv4Addr::LOCALHOST, port), &Config::default())?;
    let mut registry = Registry::default();
    loop {
        server.turn(Duration::from_secs(1), |end, told| {
            let Told::Request(request) = told else { return };
            let Some(answer) = registry.answer(Instant::now(), &request) else { return };
            println!("{} {} {}", request.asked().from(), request.code(), answer.code());
            if let Some((at, objects)) = request.message().query("ep").and_then(|name| registry.objects(name)) {
                println!("{at} has {}", String::from_utf8_lossy(objects));
            }
            // (without memory it is not sent)
            let _ = end.answer(&request.asked(), &answer);
        });
    }
}
