//! observe PORT [COUNT [PATH]]: observes coap://127.0.0.1:PORT/PATH (temperature), prints COUNT values (3), cancels and
//! ends. It sleeps until a datagram comes or something is due.

use knifesilver::{fits_library, Client, Config, Report, MAX_DATAGRAM};
use std::error::Error;
use std::net::{Ipv4Addr, SocketAddr, SocketAddrV4, UdpSocket};
use std::time::{Duration, Instant};

fn main() -> Result<(), Box<dyn Error>> {
    if !fits_library() {
        return Err("the library is not that of the crate".into());
    }
    let mut words = std::env::args().skip(1);
    let port: u16 = words.next().ok_or("observe PORT [COUNT [PATH]]")?.parse()?;
    let count: u32 = words.next().map_or(Ok(3), |word| word.parse())?;
    let path = words.next().unwrap_or("temperature".into());
    let server = SocketAddrV4::new(Ipv4Addr::LOCALHOST, port);
    let socket = UdpSocket::bind((Ipv4Addr::LOCALHOST, 0))?;

    let mut client = Client::new(&Config::default(), server, Instant::now())?;
    let observation = client.observe(Instant::now(), &path)?;
    let (mut seen, mut buffer, mut arrived) = (0, [0; MAX_DATAGRAM], [0; 65_536]);
    loop {
        while let Some((id, report)) = client.poll_report() {
            assert_eq!(id, observation);
            match report {
                Report::Value(sequence, fetched) => {
                    println!("{sequence}: {}", String::from_utf8_lossy(&fetched.body));
                    seen += 1;
                    if seen == count {
                        client.cancel(Instant::now(), id)?;
                    }
                }
                last => {
                    println!("{last:?}");
                    return Ok(());
                }
            }
        }
        client.handle_timeout(Instant::now())?;
        while let Some(transmit) = client.poll_transmit(&mut buffer) {
            // What the socket does not take is lost, and sent again if it is to be.
            let _ = socket.send_to(&buffer[..transmit.size], transmit.destination);
        }
        // A wait of no length would be one without end.
        let wait = client.poll_timeout().map(|at| at.saturating_duration_since(Instant::now()));
        socket.set_read_timeout(wait.map(|wait| wait.max(Duration::from_millis(1))))?;
        if let Ok((len, SocketAddr::V4(from))) = socket.recv_from(&mut arrived) {
            client.handle(Instant::now(), from, &arrived[..len])?;
        }
    }
}
