//! The plain ends, asked as the static library asks the proved ones.

use crate::client::{Client, Report};
use crate::message::Endpoint;
use crate::server::Server;
use crate::work::{GET_LAST, GET_ONE, Timed, numbered};
use bench_common::forgetting::FORGOTTEN_AFTER_MS;
use std::time::Instant;

const CLIENT: Endpoint = ([127, 0, 0, 1], 40_001);
const PATH: [&[u8]; 1] = [b"temperature"];
const BODY: &[u8] = b"22.3 C";

/// How many paths a server holds at most.
const MAX_PATHS: u32 = 256;

fn get(server: &mut Server, datagram: &[u8], now: u64) -> u64 {
    get_from(server, CLIENT, datagram, now)
}

fn get_from(server: &mut Server, from: Endpoint, datagram: &[u8], now: u64) -> u64 {
    server.feed(now, from, datagram);
    server.next_out().map_or(0, |(_, bytes)| bytes.len() as u64)
}

/// The same as `proved::gets`.
pub fn gets(before: u32, timed: u32, step: u64) -> Timed {
    let mut server = Server::default();
    server.set(&PATH, BODY);
    let mut now = 0;
    let mut sum = 0;
    for number in 0..before {
        now += step;
        sum += get(&mut server, &numbered(GET_ONE, number), now);
    }
    let begin = Instant::now();
    for number in before..before + timed {
        now += step;
        sum += get(&mut server, &numbered(GET_ONE, number), now);
    }
    let nanoseconds = begin.elapsed().as_nanos() as u64;
    Timed { sum, nanoseconds }
}

/// Has the server take one of the requests of which `held` come in each 247 s.
fn paced(server: &mut Server, held: u32, number: u32) -> u64 {
    let (ip, port) = CLIENT;
    let from = (ip, port.wrapping_add((number >> 16) as u16));
    let now = u64::from(number) * FORGOTTEN_AFTER_MS / u64::from(held);
    get_from(server, from, &numbered(GET_ONE, number), now)
}

fn run(server: &mut Server, held: u32, first: u32, count: u32) -> u64 {
    (first..first + count)
        .map(|number| paced(server, held, number))
        .sum()
}

/// The same as `proved::paced_gets`.
pub fn paced_gets(held: u32, before: u32, count: u32, times: &mut [u64]) -> u64 {
    let mut server = Server::new(held as usize);
    server.set(&PATH, BODY);
    let mut sum = run(&mut server, held, 0, before);
    let mut first = before;
    for least in times {
        let begin = Instant::now();
        sum += run(&mut server, held, first, count);
        *least = (begin.elapsed().as_nanos() as u64).min(*least);
        first += count;
    }
    sum
}

/// The same as `proved::gets_of_many`, in a list.
pub fn gets_of_many(timed: u32) -> Timed {
    let mut server = Server::default();
    for number in 0..MAX_PATHS {
        server.set(&[PATH[0], &[number as u8]], BODY);
    }
    let begin = Instant::now();
    let sum = (0..timed)
        .map(|number| get(&mut server, &numbered(GET_LAST, number), 0))
        .sum();
    let nanoseconds = begin.elapsed().as_nanos() as u64;
    Timed { sum, nanoseconds }
}

/// Hands what each end has out to the other, until the client reports: how many exchanges it took.
fn exchange(client: &mut Client, server: &mut Server) -> (u64, Option<Report>) {
    let mut exchanges = 0;
    while let Some(bytes) = client.next_out() {
        exchanges += 1;
        server.feed(0, CLIENT, &bytes);
        while let Some((_, reply)) = server.next_out() {
            client.feed(0, &reply);
        }
    }
    (exchanges, client.next_report())
}

/// The same as `proved::bodies`.
pub fn bodies(body: &[u8]) -> [Timed; 2] {
    let mut server = Server::default();
    let mut client = Client::default();
    let begin = Instant::now();
    client.put(0, &PATH, body);
    let (puts, put) = exchange(&mut client, &mut server);
    let between = Instant::now();
    client.get(0, &PATH);
    let (gets, got) = exchange(&mut client, &mut server);
    let end = Instant::now();
    assert_eq!(put, Some(Report::Done(65)));
    assert_eq!(got, Some(Report::Body(body.to_vec())));
    [
        Timed {
            sum: puts + gets,
            nanoseconds: (between - begin).as_nanos() as u64,
        },
        Timed {
            sum: puts + gets,
            nanoseconds: (end - between).as_nanos() as u64,
        },
    ]
}
