//! switch PORT on|off: switches the lamp of `lamp.c`, and says what became of it.

use knifesilver::driver::{Client, Error};
use knifesilver::fits_library;
use std::net::{Ipv4Addr, SocketAddrV4};
use std::process::ExitCode;

/// Text (RFC 7252, section 12.3).
const TEXT: u16 = 0;

fn main() -> ExitCode {
    let words: Vec<String> = std::env::args().skip(1).collect();
    let [port, state] = &words[..] else {
        eprintln!("switch PORT on|off");
        return ExitCode::from(2);
    };
    assert!(fits_library(), "the library is not the crate's");
    let server = SocketAddrV4::new(Ipv4Addr::LOCALHOST, port.parse().expect("a port"));
    let mut client = Client::open(server).expect("a socket");
    match client.put("lamp", Some(TEXT), state.as_bytes()) {
        Ok(code) => println!("switched once: {code}"),
        Err(Error::Failed(code)) => println!("not switched, and it won't be: {code}"),
        Err(Error::PerhapsApplied(_)) => println!("perhaps switched: ask what the lamp holds"),
        Err(other) => println!("not asked: {other}"),
    }
    ExitCode::SUCCESS
}
