//! ask PORT PATH [BODY]: gets what coap://127.0.0.1:PORT/PATH holds and prints it; or puts BODY there and prints what
//! became of that. Its client blocks: it has the socket, the clock and the loop (feature `std-driver`).

use knifesilver::driver::{Client, Error};
use knifesilver::{fits_library, TEXT_PLAIN};
use std::net::{Ipv4Addr, SocketAddrV4};

fn main() -> Result<(), Box<dyn std::error::Error>> {
    if !fits_library() {
        return Err("the library is not that of the crate".into());
    }
    let words: Vec<String> = std::env::args().skip(1).collect();
    let [port, path, body @ ..] = words.as_slice() else { return Err("ask PORT PATH [BODY]".into()) };
    let mut client = Client::open(SocketAddrV4::new(Ipv4Addr::LOCALHOST, port.parse()?))?;
    let Some(body) = body.first() else {
        println!("{}", String::from_utf8_lossy(&client.get(path)?.body));
        return Ok(());
    };
    match client.put(path, Some(TEXT_PLAIN), body.as_bytes()) {
        Ok(code) => println!("{code}: it was put once"),
        Err(Error::Failed(code)) => println!("{code}: it was not put, and never will be"),
        Err(why) => println!("{why}: see what the path holds before it is put again"),
    }
    Ok(())
}
