//! Times the proved block-wise transfers and plain ones of the same bodies, and prints a table.

mod plain;
mod proved;

use bench_common::body;
use bench_common::table::{Pairs, print_head};
use std::hint::black_box;
use std::time::Instant;

/// About how long one timing takes, in nanoseconds.
const TIMING: f64 = 2_000_000.0;
/// How many timings of each a median is taken of.
const TIMINGS: usize = 301;
/// The bodies, in bytes: a block's time is to be the same for each.
const LENS: [usize; 2] = [16_384, 65_536];
/// The least and the greatest size exponent.
const EXPONENTS: [u8; 2] = [0, 6];

/// Carries a body in blocks of a size exponent as often as is wanted: the sum of the lengths.
type Transfer = fn(&[u8], u8, usize) -> u64;

/// One row of the table: the same transfer by both.
struct Row {
    name: String,
    body: Vec<u8>,
    exponent: u8,
    proved: Transfer,
    plain: Transfer,
    /// How many transfers one timing takes.
    rounds: usize,
    /// Nanoseconds a block.
    timings: Pairs,
}

impl Row {
    fn new(name: &str, len: usize, exponent: u8, proved: Transfer, plain: Transfer) -> Row {
        let size = 16 << exponent;
        let mut row = Row {
            name: format!("{name}, {len} bytes, blocks of {size}"),
            body: body(len),
            exponent,
            proved,
            plain,
            rounds: 10,
            timings: Pairs::with_capacity(TIMINGS),
        };
        let trial = row.nanoseconds(plain) * row.blocks();
        row.rounds = (TIMING / trial).ceil() as usize;
        row
    }

    fn blocks(&self) -> f64 {
        (self.body.len() / (16 << self.exponent)) as f64
    }

    fn nanoseconds(&self, transfer: Transfer) -> f64 {
        let start = Instant::now();
        let sum = transfer(black_box(&self.body), self.exponent, self.rounds);
        let time = start.elapsed().as_nanos() as f64;
        assert_eq!(sum, (self.body.len() * self.rounds) as u64);
        time / (self.rounds as f64 * self.blocks())
    }

    fn time(&mut self) {
        let timing = [self.nanoseconds(self.proved), self.nanoseconds(self.plain)];
        self.timings.push(timing);
    }

    fn print(&self) {
        self.timings.print(&self.name);
    }
}

fn main() {
    let mut rows = Vec::new();
    for exponent in EXPONENTS {
        for len in LENS {
            rows.push(Row::new(
                "upload",
                len,
                exponent,
                proved::upload,
                plain::upload,
            ));
            rows.push(Row::new(
                "fetch",
                len,
                exponent,
                proved::fetch,
                plain::fetch,
            ));
        }
    }
    for _ in 0..TIMINGS {
        rows.iter_mut().for_each(Row::time);
    }
    print_head("nanoseconds a block");
    rows.iter().for_each(Row::print);
}

#[test]
fn both_carry_each_body() {
    for len in [0, 1, 16, 17, 200, 65_536] {
        let body = body(len);
        for exponent in 0..=6 {
            assert_eq!(proved::upload(&body, exponent, 2), 2 * len as u64);
            assert_eq!(plain::upload(&body, exponent, 2), 2 * len as u64);
            assert_eq!(proved::fetch(&body, exponent, 2), 2 * len as u64);
            assert_eq!(plain::fetch(&body, exponent, 2), 2 * len as u64);
        }
    }
}
