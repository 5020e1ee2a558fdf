//! lamp PORT: a server of a lamp, coap://127.0.0.1:PORT/lamp, which a client switches by a PUT of "on" or "off". The
//! lamp follows what its path holds, and not what it is told of requests: see `Lamp`.

use knifesilver::driver::Server;
use knifesilver::{fits_library, Config, Representation};
use std::net::{Ipv4Addr, SocketAddrV4};
use std::ops::ControlFlow;
use std::time::Duration;

/// How long a turn takes where nothing happens.
const TURN: Duration = Duration::from_secs(1);

/// An actuator hangs on what is held. A request is told of once: a program that ends before it has acted on that never
/// hears of it again, and one that acts on it twice moves twice. What the path holds can be looked at at any time.
struct Lamp {
    // What the lamp is, whatever the program did before. (A real one is asked, as the level of the pin of its relay.)
    is_on: bool,
}

impl Lamp {
    /// Switches the lamp where it isn't what the path holds. Where that holds nothing, the lamp stays as it is.
    fn follow(&mut self, held: Option<Representation>) {
        let Some(held) = held else { return };
        let wanted = held.body == b"on";
        if wanted != self.is_on {
            self.is_on = wanted;
            println!("switched {}", if wanted { "on" } else { "off" });
        }
    }
}

fn main() -> Result<(), Box<dyn std::error::Error>> {
    if !fits_library() {
        return Err("the library is not that of the crate".into());
    }
    let words: Vec<String> = std::env::args().skip(1).collect();
    let [port] = words.as_slice() else { return Err("lamp PORT".into()) };
    let config = Config::default().with_drawn_base();
    let mut server = Server::open(SocketAddrV4::new(Ipv4Addr::LOCALHOST, port.parse()?), &config)?;
    let mut lamp = Lamp { is_on: false };
    server.run(TURN, |server, _told| {
        lamp.follow(server.get("lamp"));
        ControlFlow::Continue(())
    })
}
