//! fleet PORT [COUNT [ROUNDS]]: asks COUNT devices (1,000) for their temperature, ROUNDS times each (3). They are at
//! 127.1.0.1:PORT, 127.1.0.2:PORT and so on. Each has a client of its own, and all clients share one socket: a datagram
//! is for the client of the device that it came from. A heap has the moments at which something is due.

use knifesilver::{fits_library, Client, Config, Report, Request, MAX_DATAGRAM};
use std::cmp::Reverse;
use std::collections::{BinaryHeap, HashMap};
use std::error::Error;
use std::net::{Ipv4Addr, SocketAddr, SocketAddrV4, UdpSocket};
use std::time::{Duration, Instant};

const FIRST_DEVICE: u32 = 0x7f01_0001;
/// The clients begin one behind the other, so that the socket's buffer holds what comes at once.
const APART: Duration = Duration::from_micros(200);
const PATH: &str = "temperature";

struct Device {
    client: Client,
    /// So many times it is still asked, the call that runs included.
    left: u32,
    /// When it is due: what else the heap has of it is passed over.
    due: Option<Instant>,
    begun: bool,
}

/// The devices, by their addresses and by the moments at which they are due.
struct Fleet {
    socket: UdpSocket,
    devices: Vec<Device>,
    of: HashMap<SocketAddrV4, usize>,
    due: BinaryHeap<Reverse<(Instant, usize)>>,
    values: usize,
    failed: usize,
    buffer: [u8; MAX_DATAGRAM],
}

impl Fleet {
    fn new(port: u16, count: u32, rounds: u32) -> Result<Fleet, Box<dyn Error>> {
        let (socket, now) = (UdpSocket::bind((Ipv4Addr::UNSPECIFIED, 0))?, Instant::now());
        // A device sends some messages in 247 s, so a client remembers few.
        let config = Config::default().with_remembered(64).with_body_limit(1024);
        let (mut devices, mut of, mut due) = (Vec::new(), HashMap::new(), BinaryHeap::new());
        for n in 0..count {
            let at = SocketAddrV4::new(Ipv4Addr::from(FIRST_DEVICE + n), port);
            of.insert(at, devices.len());
            let first = now + APART * n;
            due.push(Reverse((first, devices.len())));
            let client = Client::new(&config, at, now)?;
            devices.push(Device { client, left: rounds, due: Some(first), begun: false });
        }
        Ok(Fleet { socket, devices, of, due, values: 0, failed: 0, buffer: [0; MAX_DATAGRAM] })
    }

    /// What is due of a device is done and sent; what it said is counted, and it is asked again.
    fn turn(&mut self, n: usize, now: Instant) -> Result<(), Box<dyn Error>> {
        let device = &mut self.devices[n];
        if !device.begun {
            device.begun = true;
            device.client.call(now, &Request::get(PATH))?;
        }
        device.client.handle_timeout(now)?;
        while let Some((_, report)) = device.client.poll_report() {
            match report {
                Report::Body(_) => self.values += 1,
                _ => self.failed += 1,
            }
            device.left -= 1;
            if device.left > 0 {
                device.client.call(now, &Request::get(PATH))?;
                device.client.handle_timeout(now)?;
            }
        }
        while let Some(transmit) = device.client.poll_transmit(&mut self.buffer) {
            // What the socket does not take is lost, and sent again if it is to be.
            let _ = self.socket.send_to(&self.buffer[..transmit.size], transmit.destination);
        }
        device.due = device.client.poll_timeout();
        self.due.extend(device.due.map(|at| Reverse((at, n))));
        Ok(())
    }

    /// How long nothing is due; where something is, it is done.
    fn wait(&mut self) -> Result<Duration, Box<dyn Error>> {
        while let Some(&Reverse((at, n))) = self.due.peek() {
            let now = Instant::now();
            if at > now {
                return Ok(at - now);
            }
            self.due.pop();
            if self.devices[n].due == Some(at) {
                self.turn(n, now)?;
            }
        }
        Ok(Duration::from_secs(1))
    }
}

fn main() -> Result<(), Box<dyn Error>> {
    assert!(fits_library(), "the library is not that of the crate");
    let words = std::env::args().skip(1).map(|word| word.parse()).collect::<Result<Vec<u32>, _>>()?;
    let [port, more @ ..] = words.as_slice() else { return Err("fleet PORT [COUNT [ROUNDS]]".into()) };
    let (count, rounds) = (*more.first().unwrap_or(&1000), *more.get(1).unwrap_or(&3));
    let mut fleet = Fleet::new(u16::try_from(*port)?, count, rounds)?;
    let (began, mut arrived) = (Instant::now(), [0; 65_536]);
    while fleet.values + fleet.failed < (count * rounds) as usize {
        // A wait of no length would be one without end.
        let wait = fleet.wait()?.max(Duration::from_millis(1));
        fleet.socket.set_read_timeout(Some(wait))?;
        if let Ok((len, SocketAddr::V4(from))) = fleet.socket.recv_from(&mut arrived) {
            if let Some(&n) = fleet.of.get(&from) {
                fleet.devices[n].client.handle(Instant::now(), from, &arrived[..len])?;
                fleet.turn(n, Instant::now())?;
            }
        }
    }
    let seconds = began.elapsed().as_secs_f64();
    println!("{count} devices: {} values, {} failed, {seconds:.1} s", fleet.values, fleet.failed);
    Ok(())
}
