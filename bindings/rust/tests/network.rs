//! Both ends against each other, over a network in memory that loses, repeats and delays what a seed says; a lamp that is
//! switched once, whatever is repeated; and datagrams that are no messages, or those of strangers.

use knifesilver::{Applied, CallId, Client, Config, Method, Report, Request, Server, MAX_DATAGRAM};
use std::collections::BTreeMap;
use std::net::{Ipv4Addr, SocketAddrV4};
use std::time::{Duration, Instant};

const HERE: SocketAddrV4 = SocketAddrV4::new(Ipv4Addr::new(192, 0, 2, 1), 40_001);
const THERE: SocketAddrV4 = SocketAddrV4::new(Ipv4Addr::new(192, 0, 2, 2), 5683);
const STRANGER: SocketAddrV4 = SocketAddrV4::new(Ipv4Addr::new(192, 0, 2, 3), 9);

/// Numbers from a seed (SplitMix64).
struct Chance(u64);

impl Chance {
    fn next(&mut self) -> u64 {
        self.0 = self.0.wrapping_add(0x9e37_79b9_7f4a_7c15);
        let mut x = self.0;
        x = (x ^ (x >> 30)).wrapping_mul(0xbf58_476d_1ce4_e5b9);
        x = (x ^ (x >> 27)).wrapping_mul(0x94d0_49bb_1331_11eb);
        x ^ (x >> 31)
    }

    fn below(&mut self, n: u64) -> u64 {
        self.next() % n
    }
}

/// What is on its way: by its moment and a number, to the server or to the client.
type OnItsWay = BTreeMap<(Instant, u64), (bool, Vec<u8>)>;

struct Run {
    now: Instant,
    chance: Chance,
    loss: u64,
    repeats: u64,
    delay: u64,
    server: Server,
    client: Client,
    on_its_way: OnItsWay,
    applied: Vec<(Applied, Vec<u8>)>,
    reports: Vec<(CallId, Report)>,
}

impl Run {
    /// Loss in percent; up to so many repeats; up to so many ms on the way.
    fn new(seed: u64, loss: u64, repeats: u64, delay: u64) -> Run {
        let now = Instant::now();
        let mut config = Config::default();
        config.rng_seed = Some(seed);
        config.block_size = 64;
        let server = Server::new(&config, now).unwrap();
        config.rng_seed = Some(seed + 1);
        let client = Client::new(&config, THERE, now).unwrap();
        let chance = Chance(seed);
        Run { now, chance, loss, repeats, delay, server, client, on_its_way: BTreeMap::new(), applied: vec![], reports: vec![] }
    }

    fn send(&mut self, to_server: bool, bytes: &[u8]) {
        if self.chance.below(100) < self.loss {
            return;
        }
        for _ in 0..=self.chance.below(self.repeats + 1) {
            let at = self.now + Duration::from_millis(self.chance.below(self.delay + 1));
            let number = self.chance.next();
            self.on_its_way.insert((at, number), (to_server, bytes.to_vec()));
        }
    }

    /// What is due, what is out, and what is told. What was applied, with what its path held right then.
    fn turn(&mut self) {
        let mut buffer = [0; MAX_DATAGRAM];
        self.client.handle_timeout(self.now).unwrap();
        self.server.handle_timeout(self.now).unwrap();
        while let Some(transmit) = self.client.poll_transmit(&mut buffer) {
            assert_eq!(transmit.destination, THERE.into());
            self.send(true, &buffer[..transmit.size]);
        }
        while let Some(transmit) = self.server.poll_transmit(&mut buffer) {
            assert_eq!(transmit.destination, HERE.into());
            self.send(false, &buffer[..transmit.size]);
        }
        while let Some(applied) = self.server.poll_applied() {
            let path = String::from_utf8(applied.path.clone()).unwrap();
            let body = self.server.get(&path).map_or(vec![], |held| held.body);
            self.applied.push((applied, body));
        }
        while let Some(report) = self.client.poll_report() {
            self.reports.push(report);
        }
    }

    /// Goes on to the next moment at which something comes or is due. False where there is none.
    fn step(&mut self) -> bool {
        self.turn();
        let arrival = self.on_its_way.keys().next().map(|(at, _)| *at);
        let dues = [arrival, self.client.poll_timeout(), self.server.poll_timeout()];
        let Some(at) = dues.into_iter().flatten().min() else { return false };
        assert!(at >= self.now, "nothing is due before now");
        self.now = at;
        while let Some(first) = self.on_its_way.first_entry().filter(|first| first.key().0 <= at) {
            let (to_server, bytes) = first.remove();
            if to_server {
                self.server.handle(self.now, HERE, &bytes).unwrap();
            } else {
                self.client.handle(self.now, THERE, &bytes).unwrap();
            }
            self.turn();
        }
        true
    }

    fn until_report(&mut self) -> (CallId, Report) {
        for _ in 0..100_000 {
            if let Some(report) = self.reports.pop() {
                return report;
            }
            // The last step of all may be the one that has it.
            let goes_on = self.step();
            assert!(goes_on || !self.reports.is_empty(), "each call has a report");
        }
        panic!("no report");
    }
}

#[test]
fn each_body_is_applied_as_its_report_says() {
    let mut done = 0;
    for seed in 0..40 {
        let mut run = Run::new(seed, 25, 2, 3_000);
        for number in 0..12u64 {
            let body = format!("{seed}/{number}/").repeat(1 + run.chance.below(40) as usize);
            let id = run.client.call(run.now, &Request::put("value", None, body.as_bytes())).unwrap();
            let (of, report) = run.until_report();
            assert_eq!(of, id);
            let times = run.applied.iter().filter(|(_, held)| held == body.as_bytes()).count();
            match report {
                Report::Done(code) => {
                    assert_eq!((code.class(), times), (2, 1));
                    done += 1;
                }
                Report::Failed(_) => assert_eq!(times, 0),
                _ => assert!(times <= 1),
            }
        }
        assert!(run.applied.iter().all(|(applied, _)| applied.method == Method::Put && applied.from == HERE.into()));
        let versions: Vec<_> = run.applied.iter().map(|(applied, _)| applied.version).collect();
        assert!(versions.windows(2).all(|pair| pair[0] < pair[1]), "{versions:?}");
    }
    assert!(done > 200, "most are: {done}");
}

#[test]
fn what_is_fetched_was_held() {
    for seed in 100..120 {
        let mut run = Run::new(seed, 20, 1, 2_000);
        let body: Vec<u8> = (0..2_000).map(|i| (i * 7 + seed) as u8).collect();
        let version = run.server.set(run.now, "big", Some(42), &body).unwrap();
        run.client.call(run.now, &Request::get("big")).unwrap();
        if let (_, Report::Body(fetched)) = run.until_report() {
            assert_eq!((fetched.body, fetched.format), (body, Some(42)));
            assert_eq!(fetched.tag.unwrap().as_slice(), version.to_be_bytes());
        }
    }
}

#[test]
fn values_of_an_observation_are_those_that_were_set() {
    for seed in 200..210 {
        let mut run = Run::new(seed, 15, 1, 500);
        run.server.set(run.now, "o", None, b"0").unwrap();
        run.client.observe(run.now, "o").unwrap();
        let (mut last, mut seen) = (0, 0);
        for number in 1..30u32 {
            for _ in 0..20 {
                run.step();
            }
            run.server.update(run.now, "o", None, number.to_string().as_bytes()).unwrap();
            for (_, report) in run.reports.drain(..) {
                let Report::Value(_, fetched) = report else { break };
                let value: u32 = String::from_utf8(fetched.body).unwrap().parse().unwrap();
                assert!(value >= last && value < number);
                (last, seen) = (value, seen + 1);
            }
        }
        assert!(seen > 0);
    }
}

#[test]
fn a_lamp_is_switched_once() {
    for seed in 300..400 {
        let mut run = Run::new(seed, 30, 4, 5_000);
        run.server.set_delay("lamp", Duration::from_millis(500)).unwrap();
        run.client.call(run.now, &Request::put("lamp", None, b"on")).unwrap();
        let (_, report) = run.until_report();
        while run.step() {}
        match report {
            Report::Done(_) => assert_eq!(run.applied.len(), 1),
            _ => assert!(run.applied.len() <= 1),
        }
    }
}

#[test]
fn random_datagrams_leave_both_ends_at_work() {
    let mut run = Run::new(500, 0, 0, 0);
    run.server.set(run.now, "t", None, b"22.3 C").unwrap();
    let mut buffer = [0; MAX_DATAGRAM];
    for number in 0..10_000u64 {
        let len = run.chance.below(if number % 10 == 0 { 1_400 } else { 40 }) as usize;
        let mut bytes: Vec<u8> = (0..len).map(|_| run.chance.next() as u8).collect();
        if let (Some(first), true) = (bytes.first_mut(), number % 2 == 0) {
            // .. of the version of CoAP
            *first = *first & 0x3f | 0x40;
        }
        let _ = knifesilver::peek(&bytes);
        run.now += Duration::from_millis(run.chance.below(200));
        run.server.handle(run.now, STRANGER, &bytes).unwrap();
        run.client.handle(run.now, if number % 3 == 0 { THERE } else { STRANGER }, &bytes).unwrap();
        run.server.handle_timeout(run.now).unwrap();
        run.client.handle_timeout(run.now).unwrap();
        while run.server.poll_transmit(&mut buffer).is_some() {}
        while run.client.poll_transmit(&mut buffer).is_some() {}
        while run.server.poll_applied().is_some() {}
    }
    // What strangers sent is forgotten in 247 s.
    run.now += Duration::from_secs(300);
    run.server.set(run.now, "t", None, b"22.3 C").unwrap();
    run.client.call(run.now, &Request::get("t")).unwrap();
    let (_, report) = run.until_report();
    assert!(matches!(report, Report::Body(fetched) if fetched.body == b"22.3 C"));
}

#[test]
fn as_many_messages_are_remembered_as_are_chosen() {
    for remembered in [1, 2, 4_096, 5_000] {
        let mut config = Config::default();
        config.remembered = remembered;
        let (now, mut buffer) = (Instant::now(), [0; MAX_DATAGRAM]);
        let mut server = Server::new(&config, now).unwrap();
        let mut asks = |id: u32, now| {
            server.handle(now, HERE, &[0x40, 1, (id >> 8) as u8, id as u8, 0xb1, b't']).unwrap();
            server.poll_transmit(&mut buffer).is_some()
        };
        assert!((0..remembered).all(|id| asks(id, now)));
        // The places are taken for 247 s.
        assert!(!asks(remembered, now));
        assert!(!asks(remembered, now + Duration::from_secs(247)));
        assert!(asks(remembered, now + Duration::from_millis(247_001)));
    }
}
