//! Times the proved ends and plain ones on the same exchanges, and prints a table.

mod block;
mod client;
mod codec;
mod forgetting;
mod message;
mod plain;
mod proved;
mod server;
mod work;

use bench_common::table::{print_head, print_row};
use bench_common::{body, memory};
use std::hint::black_box;
use work::{Store, Timed};

/// How many timings the least is taken of.
const TIMINGS: usize = 301;

/// How many requests are timed.
const REQUESTS: u32 = 64;

/// How many bytes a body has that goes in blocks, and a long one.
const BODY_LEN: usize = 65_536;
const LONG_BODY_LEN: usize = 1_048_576;
/// How many bytes of it an exchange carries.
const BLOCK_LEN: usize = 1_024;

/// What the ends are asked for.
#[derive(Clone, Copy)]
enum Work {
    /// So many requests before those that are timed, so many milliseconds apart.
    Gets(u32, u64),
    /// Of the last of 256 paths.
    GetsOfMany(Store),
    /// The PUT of a body of so many bytes, in blocks.
    Put(usize),
    /// Its GET.
    Get(usize),
}

impl Work {
    fn of_proved(self) -> Timed {
        match self {
            Work::Gets(before, step) => proved::gets(before, REQUESTS, step),
            Work::GetsOfMany(store) => proved::gets_of_many(store, REQUESTS),
            Work::Put(len) => proved::bodies(&body(len))[0],
            Work::Get(len) => proved::bodies(&body(len))[1],
        }
    }

    fn of_plain(self) -> Timed {
        match self {
            Work::Gets(before, step) => plain::gets(before, REQUESTS, step),
            Work::GetsOfMany(_) => plain::gets_of_many(REQUESTS),
            Work::Put(len) => plain::bodies(&body(len))[0],
            Work::Get(len) => plain::bodies(&body(len))[1],
        }
    }

    fn exchanges(self) -> u32 {
        match self {
            Work::Gets(..) | Work::GetsOfMany(_) => REQUESTS,
            Work::Put(len) | Work::Get(len) => (len / BLOCK_LEN) as u32,
        }
    }
}

/// One row of the table.
struct Row {
    name: &'static str,
    work: Work,
    /// The least nanoseconds: of the proved ends, and of the plain ones.
    least: [u64; 2],
}

impl Row {
    fn new(name: &'static str, work: Work) -> Row {
        let least = [u64::MAX; 2];
        Row { name, work, least }
    }

    fn time(&mut self) {
        let proved = black_box(self.work).of_proved();
        let plain = black_box(self.work).of_plain();
        assert_eq!(proved.sum, plain.sum);
        let [least_proved, least_plain] = &mut self.least;
        *least_proved = proved.nanoseconds.min(*least_proved);
        *least_plain = plain.nanoseconds.min(*least_plain);
    }

    fn print(&self) {
        let exchanges = f64::from(self.work.exchanges());
        print_row(self.name, self.least.map(|least| least as f64 / exchanges));
    }
}

fn rows() -> Vec<Row> {
    vec![
        Row::new("GET, 0 to 64 remembered", Work::Gets(0, 0)),
        Row::new("GET, 4,000 to 4,064 remembered", Work::Gets(4_000, 0)),
        Row::new("PUT of 65,536 bytes, a block", Work::Put(BODY_LEN)),
        Row::new("GET of 65,536 bytes, a block", Work::Get(BODY_LEN)),
        Row::new("PUT of 1,048,576 bytes, a block", Work::Put(LONG_BODY_LEN)),
        Row::new("GET of 1,048,576 bytes, a block", Work::Get(LONG_BODY_LEN)),
        Row::new("GET, 256 paths in a list", Work::GetsOfMany(Store::List)),
        Row::new("GET, 256 paths in a map", Work::GetsOfMany(Store::Map)),
    ]
}

fn time_all() {
    let mut rows = rows();
    for _ in 0..TIMINGS {
        rows.iter_mut().for_each(Row::time);
    }
    print_head("nanoseconds an exchange");
    rows.iter().for_each(Row::print);
    forgetting::rows().iter().for_each(forgetting::Row::print);
}

/// Does the work of one row three times, that of requests that forget one once, with one pair of
/// ends: for a program that counts the instructions between two readings of the clock.
fn repeat(row: &str, ends: &str) {
    let row: usize = row.parse().expect("the number of a row, from 0 on");
    let rows = rows();
    if row >= rows.len() {
        forgetting::rows()[row - rows.len()].count(match ends {
            "proved" => proved::paced_gets,
            "plain" => plain::paced_gets,
            _ => panic!("proved or plain"),
        });
        return;
    }
    let work = rows[row].work;
    for _ in 0..3 {
        black_box(match ends {
            "proved" => black_box(work).of_proved(),
            "plain" => black_box(work).of_plain(),
            _ => panic!("proved or plain"),
        });
    }
}

/// Prints the rows of so many remembered messages alone.
fn print_forgetting(held: &str) {
    let held = held.parse().expect("how many are remembered");
    forgetting::rows()
        .iter()
        .filter(|row| row.remembers(held))
        .for_each(forgetting::Row::print);
}

/// What a reply has beside the body: its head, entity-tag, format and payload marker.
const BESIDE_BODY: usize = 15;

/// Has a server remember so many messages with replies of so many bytes, and prints what each takes of memory.
fn print_kept(count: &str, len: &str) {
    let cells = format!("{count} | {len}");
    let count: u32 = count.parse().expect("how many messages");
    let len: usize = len.parse().expect("how many bytes a reply has");
    let body = vec![0x60; len - BESIDE_BODY];
    memory::print(&cells, count, || {
        assert_eq!(proved::keep(count, &body), u64::from(count) * len as u64);
    });
}

fn main() {
    let words: Vec<String> = std::env::args().skip(1).collect();
    match words.as_slice() {
        [] => time_all(),
        [word, held] if word == "forgetting" => print_forgetting(held),
        [word, count, len] if word == "keep" => print_kept(count, len),
        [row, ends] => repeat(row, ends),
        _ => panic!("forgetting HELD, ROW proved, ROW plain, keep COUNT LEN, or nothing"),
    }
}

#[test]
fn both_answer_alike() {
    for Row { work, .. } in rows() {
        assert_eq!(work.of_proved().sum, work.of_plain().sum);
    }
    // 4,096 replies of 21 bytes: the table is full then.
    let full = proved::gets(4_200, 0, 0).sum;
    assert_eq!(full, 4_096 * 21);
    assert_eq!(full, plain::gets(4_200, 0, 0).sum);
    assert_eq!(proved::bodies(&body(BODY_LEN))[0].sum, 128);
    assert_eq!(proved::bodies(&body(LONG_BODY_LEN))[0].sum, 2_048);
}
