//! request PORT METHOD PATH [?ARGUMENT ..] [PAYLOAD]: asks coap://127.0.0.1:PORT/PATH by GET, POST, PUT or DELETE, and
//! prints the code, the path of what was made, and the payload of the answer. In the place of METHOD, `observe` prints
//! three values and cancels; `load` gets a body in blocks, and prints it as it is; `store` puts the file that PAYLOAD
//! names in blocks. No entity-tag is asked for: where a server gives none, a word on standard error says so.

use knifesilver::driver::Asker;
use knifesilver::exchange::blocks::{Fetch, Fetched, Upload};
use knifesilver::exchange::Message;
use knifesilver::{fits_library, Code, Config};
use std::error::Error;
use std::io::Write;
use std::net::{Ipv4Addr, SocketAddrV4};
use std::time::Duration;

const VALUES: usize = 3;
/// After how long without a value the observation counts as gone.
const SILENCE: Duration = Duration::from_secs(60);
/// An Observe that registers, and one that deregisters (RFC 7641, section 2).
const REGISTER: u32 = 0;
const DEREGISTER: u32 = 1;

fn print(answer: &Message) {
    print!("{}", answer.code());
    if let Some(location) = answer.location().filter(|segments| !segments.is_empty()) {
        print!(" /{}", location.join("/"));
    }
    println!(" {}", String::from_utf8_lossy(answer.payload()));
}

/// Prints values until there are enough of them, or the observation ends.
fn observe(client: &mut Asker, get: Message) -> Result<(), Box<dyn Error>> {
    let (observation, first) = client.observe(&get.clone().with_observe(REGISTER))?;
    print(&first);
    let Some(observation) = observation else { return Err("it can't be observed".into()) };
    for _ in 1..VALUES {
        let (_, value) = client.notification(SILENCE).ok_or("no value came")?;
        print(&value);
        // (without Observe it is the last one: RFC 7641, section 3.2)
        if value.observe().is_none() {
            return Ok(());
        }
    }
    print(&client.cancel(&observation, &get.with_observe(DEREGISTER))?);
    Ok(())
}

/// Writes a body, of whatever length.
fn load(client: &mut Asker, get: &Message) -> Result<(), Box<dyn Error>> {
    let body = match client.load(get, Fetch::untagged(&Config::default())?)? {
        Fetched::Joined(body) => {
            eprintln!("joined, not proved to be of one version");
            body
        }
        Fetched::Whole(body) => body,
        other => return Err(format!("{other:?}").into()),
    };
    Ok(std::io::stdout().write_all(&body)?)
}

fn main() -> Result<(), Box<dyn Error>> {
    if !fits_library() {
        return Err("the library is not that of the crate".into());
    }
    let words: Vec<String> = std::env::args().skip(1).collect();
    let [port, method, path, more @ ..] = words.as_slice() else {
        return Err("request PORT METHOD PATH [?ARGUMENT ..] [PAYLOAD]".into());
    };
    let mut client = Asker::open(SocketAddrV4::new(Ipv4Addr::LOCALHOST, port.parse()?))?;
    let code = match method.as_str() {
        "get" | "observe" | "load" => Code::GET,
        "post" => Code::POST,
        "put" | "store" => Code::PUT,
        "delete" => Code::DELETE,
        _ => return Err("the method is get, post, put, delete, observe, load or store".into()),
    };
    let request = more.iter().fold(Message::new(code).with_path(path), |request, word| match word.strip_prefix('?') {
        Some(argument) => request.with_query(argument),
        None => request.with_payload(word.as_str()),
    });
    match method.as_str() {
        "observe" => observe(&mut client, request)?,
        "load" => load(&mut client, &request)?,
        "store" => {
            let body = std::fs::read(request.text().ok_or("the name of a file is text")?)?;
            print(&client.store(&request, Upload::new(&Config::default(), &body)?)?);
        }
        _ => print(&client.ask(&request)?),
    }
    Ok(())
}
