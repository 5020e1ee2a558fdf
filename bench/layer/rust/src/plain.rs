//! A message layer in plain Rust: a table of what is remembered, a list of what is outstanding, and
//! a queue of what waits.

use crate::forgetting::Pace;
use std::collections::{HashMap, VecDeque};
use std::time::Instant;

/// For so long a message is remembered, in milliseconds.
const LIFETIME: u64 = 247_000;
/// So many messages are remembered at most, where no other number is chosen.
const DEFAULT_REMEMBERED: usize = 4_096;

/// An address and a port.
type Endpoint = ([u8; 4], u16);
/// What tells messages apart.
type Key = (Endpoint, u16);

struct Sending {
    to: Endpoint,
    id: u16,
    bytes: Vec<u8>,
    first: u64,
    timeout: u64,
    last: u64,
}

struct Layer {
    most: usize,
    replies: HashMap<Key, Option<Vec<u8>>>,
    order: VecDeque<(u64, Key)>,
    sendings: Vec<Sending>,
    waiting: VecDeque<(Endpoint, Vec<u8>)>,
}

impl Layer {
    /// A layer that remembers at most so many messages.
    fn new(most: usize) -> Layer {
        Layer {
            most,
            replies: HashMap::new(),
            order: VecDeque::new(),
            sendings: Vec::new(),
            waiting: VecDeque::new(),
        }
    }

    fn forget(&mut self, now: u64) {
        while let Some((at, key)) = self.order.front() {
            if now - at <= LIFETIME {
                return;
            }
            self.replies.remove(key);
            self.order.pop_front();
        }
    }

    /// Takes a datagram: the Message ID, where it is a new request.
    fn receive(&mut self, now: u64, from: Endpoint, bytes: &[u8]) -> Option<u16> {
        self.forget(now);
        let &[first, code, high, low, ..] = bytes else {
            return None;
        };
        if first >> 4 != 4 || !(1..32).contains(&code) {
            return None;
        }
        let id = u16::from_be_bytes([high, low]);
        if let Some(reply) = self.replies.get(&(from, id)) {
            if let Some(reply) = reply {
                self.waiting.push_back((from, reply.clone()));
            }
            return None;
        }
        if self.replies.len() >= self.most {
            return None;
        }
        self.replies.insert((from, id), None);
        self.order.push_back((now, (from, id)));
        Some(id)
    }

    fn reply(&mut self, to: Endpoint, id: u16, bytes: &[u8]) {
        if let Some(reply) = self.replies.get_mut(&(to, id)) {
            *reply = Some(bytes.to_vec());
            self.waiting.push_back((to, bytes.to_vec()));
        }
    }

    fn confirm(&mut self, now: u64, to: Endpoint, id: u16) {
        let [high, low] = id.to_be_bytes();
        let bytes = vec![0x40, 0x01, high, low];
        if self.sendings.iter().all(|sending| sending.to != to) {
            self.waiting.push_back((to, bytes.clone()));
            let (first, last) = (now, now);
            let timeout = 2_000;
            self.sendings.push(Sending {
                to,
                id,
                bytes,
                first,
                timeout,
                last,
            });
        }
    }

    /// Sends a copy of the first message that is due: its Message ID.
    fn tick(&mut self, now: u64) -> Option<u16> {
        let due = |sending: &&mut Sending| {
            [1, 3, 7, 15, 31].iter().any(|factor| {
                let at = sending.first + factor * sending.timeout;
                sending.last < at && at <= now
            })
        };
        let sending = self.sendings.iter_mut().find(due)?;
        sending.last = now;
        self.waiting.push_back((sending.to, sending.bytes.clone()));
        Some(sending.id)
    }
}

fn endpoint(number: u32) -> Endpoint {
    let [_, _, high, low] = number.to_be_bytes();
    ([192, 0, high, low], 5683)
}

fn request(layer: &mut Layer, number: u32, now: u64) -> usize {
    let [_, _, high, low] = number.to_be_bytes();
    let from = endpoint(number >> 16);
    if let Some(id) = layer.receive(now, from, &[0x40, 0x01, high, low]) {
        layer.reply(from, id, &[0x60, 0x45, high, low]);
    }
    layer
        .waiting
        .pop_front()
        .map_or(0, |(_, bytes)| bytes.len())
}

/// The same as `proved::requests`.
pub fn requests(count: u32, step: u64, again: u32) -> u64 {
    let mut layer = Layer::new(DEFAULT_REMEMBERED);
    let mut now = 0;
    let mut sum = 0;
    for number in 0..count {
        now += step;
        sum += request(&mut layer, number, now);
    }
    for _ in 0..again {
        for number in 0..count {
            sum += request(&mut layer, number, now);
        }
    }
    sum as u64
}

/// The same as `proved::ticks`.
pub fn ticks(outstanding: u32, ticks: u32) -> u64 {
    let mut layer = Layer::new(DEFAULT_REMEMBERED);
    for number in 0..outstanding {
        layer.confirm(0, endpoint(number), number as u16);
        layer.waiting.pop_front();
    }
    for _ in 0..ticks {
        assert_eq!(layer.tick(1), None);
    }
    layer.sendings.len() as u64
}

fn run(layer: &mut Layer, pace: Pace, first: u32, count: u32) -> u64 {
    (first..first + count)
        .map(|number| request(layer, pace.number(number), pace.moment(number)) as u64)
        .sum()
}

/// The same as `proved::paced`.
pub fn paced(pace: Pace, before: u32, count: u32, times: &mut [u64]) -> u64 {
    let mut layer = Layer::new(pace.held as usize);
    let mut sum = run(&mut layer, pace, 0, before);
    let mut first = before;
    for least in times {
        let begin = Instant::now();
        sum += run(&mut layer, pace, first, count);
        *least = (begin.elapsed().as_nanos() as u64).min(*least);
        first += count;
    }
    sum
}
