//! Times the proved message layer and a plain one on the same datagrams, and prints a table.

mod forgetting;
mod plain;
mod proved;
mod spread;

use bench_common::memory;
use bench_common::table::{print_head, print_row};
use std::hint::black_box;
use std::time::Instant;

/// How many timings the least is taken of.
const TIMINGS: usize = 301;

/// Of so many remembered messages the dearest datagram is sought.
const REMEMBERED: [u32; 2] = [4_096, 1_048_576];

/// What a layer is asked for.
#[derive(Clone, Copy)]
enum Work {
    /// So many requests, so many milliseconds apart, and so often again.
    Requests(u32, u64, u32),
    /// With so many messages outstanding, so many ticks.
    Ticks(u32, u32),
}

impl Work {
    fn of_proved(self) -> u64 {
        match self {
            Work::Requests(count, step, again) => proved::requests(count, step, again),
            Work::Ticks(outstanding, ticks) => proved::ticks(outstanding, ticks),
        }
    }

    fn of_plain(self) -> u64 {
        match self {
            Work::Requests(count, step, again) => plain::requests(count, step, again),
            Work::Ticks(outstanding, ticks) => plain::ticks(outstanding, ticks),
        }
    }
}

/// One row of the table: what the greater work takes longer than the smaller.
struct Row {
    name: &'static str,
    works: [Work; 2],
    /// So many steps more has the greater.
    steps: f64,
    /// The least nanoseconds of each work: the proved layer's, and the plain one's.
    least: [[f64; 2]; 2],
}

fn nanoseconds(run: impl Fn() -> u64) -> f64 {
    let start = Instant::now();
    black_box(run());
    start.elapsed().as_nanos() as f64
}

impl Row {
    fn new(name: &'static str, smaller: Work, greater: Work, steps: u32) -> Row {
        Row {
            name,
            works: [smaller, greater],
            steps: f64::from(steps),
            least: [[f64::INFINITY; 2]; 2],
        }
    }

    fn time(&mut self) {
        for (work, [proved, plain]) in self.works.iter().zip(&mut self.least) {
            *proved = proved.min(nanoseconds(|| black_box(*work).of_proved()));
            *plain = plain.min(nanoseconds(|| black_box(*work).of_plain()));
        }
    }

    /// Nanoseconds of a step: the proved layer's, and the plain one's.
    fn steps(&self) -> [f64; 2] {
        let [smaller, greater] = self.least;
        [0, 1].map(|layer| (greater[layer] - smaller[layer]) / self.steps)
    }

    fn print(&self) {
        print_row(self.name, self.steps());
    }
}

fn rows() -> Vec<Row> {
    use Work::{Requests, Ticks};
    vec![
        Row::new(
            "a new request, 0 to 400 remembered",
            Requests(0, 0, 0),
            Requests(400, 0, 0),
            400,
        ),
        Row::new(
            "a new request, 3,650 to 4,050 remembered",
            Requests(3_650, 0, 0),
            Requests(4_050, 0, 0),
            400,
        ),
        Row::new(
            "a duplicate, 1 remembered",
            Requests(1, 0, 0),
            Requests(1, 0, 4_000),
            4_000,
        ),
        Row::new(
            "a duplicate, 4,000 remembered",
            Requests(4_000, 0, 0),
            Requests(4_000, 0, 1),
            4_000,
        ),
        Row::new("a tick, 1 outstanding", Ticks(1, 0), Ticks(1, 1_000), 1_000),
        Row::new(
            "a tick, 1,000 outstanding",
            Ticks(1_000, 0),
            Ticks(1_000, 1_000),
            1_000,
        ),
    ]
}

fn time_all() {
    let mut rows = rows();
    for _ in 0..TIMINGS {
        rows.iter_mut().for_each(Row::time);
    }
    print_head("nanoseconds");
    rows.iter().for_each(Row::print);
    forgetting::rows().iter().for_each(forgetting::Row::print);
    println!("\n| microseconds of the dearest datagram | proved | plain Rust |");
    println!("|---|---:|---:|");
    REMEMBERED.into_iter().for_each(forgetting::print_dearest);
}

/// Does the two works of one row, each twice, with one layer, or the work of a row of requests that
/// forget one once: for a program that counts the instructions between two readings of the clock.
fn repeat(row: &str, layer: &str) {
    let row: usize = row.parse().expect("the number of a row, from 0 on");
    let rows = rows();
    if row >= rows.len() {
        forgetting::rows()[row - rows.len()].count(match layer {
            "proved" => proved::paced,
            "plain" => plain::paced,
            _ => panic!("proved or plain"),
        });
        return;
    }
    for work in rows[row].works {
        for _ in 0..2 {
            nanoseconds(|| match layer {
                "proved" => black_box(work).of_proved(),
                "plain" => black_box(work).of_plain(),
                _ => panic!("proved or plain"),
            });
        }
    }
}

/// Prints the rows of so many remembered messages alone.
fn print_forgetting(held: &str) {
    let held = held.parse().expect("how many are remembered");
    forgetting::rows()
        .iter()
        .filter(|row| row.remembers(held))
        .for_each(forgetting::Row::print);
}

/// Has a layer remember so many messages with replies of so many bytes, and prints what each takes of memory.
fn print_kept(count: &str, len: &str) {
    let cells = format!("{count} | {len}");
    let count: u32 = count.parse().expect("how many messages");
    let reply = vec![0x60; len.parse().expect("how many bytes a reply has")];
    memory::print(&cells, count, || {
        assert_eq!(proved::keep(count, &reply), u64::from(count));
    });
}

/// Prints how calls are spread with so many remembered messages, and replies of so many bytes.
fn print_spread(held: &str, len: &str) {
    let held = held.parse().expect("how many are remembered");
    let reply = vec![0x60; len.parse().expect("how many bytes a reply has")];
    spread::print(held, &reply);
}

fn main() {
    let words: Vec<String> = std::env::args().skip(1).collect();
    match words.as_slice() {
        [] => time_all(),
        [word, held] if word == "forgetting" => print_forgetting(held),
        [word, held] if word == "dearest" => {
            forgetting::print_dearest(held.parse().expect("how many are remembered"));
        }
        [word, count, len] if word == "keep" => print_kept(count, len),
        [word, held, len] if word == "spread" => print_spread(held, len),
        [word] if word == "spread" => spread::print_head(),
        [row, layer] => repeat(row, layer),
        _ => panic!(
            "forgetting HELD, dearest HELD, spread HELD LEN, ROW proved, ROW plain, keep COUNT LEN, or nothing"
        ),
    }
}

#[test]
fn both_answer_alike() {
    for work in [
        Work::Requests(1, 0, 3),
        Work::Requests(4_200, 0, 2),
        Work::Requests(5_000, 62, 1),
        Work::Requests(300, 1_000, 1),
        Work::Requests(20, 130_000, 1),
        Work::Ticks(1_000, 3),
    ] {
        assert_eq!(work.of_proved(), work.of_plain());
    }
    for Row { works, .. } in rows() {
        for work in works {
            assert_eq!(work.of_proved(), work.of_plain());
        }
    }
    assert_eq!(proved::ticks(1_000, 3), 1_000);
    // 4,096 replies of 4 bytes, and two of each again: the table is full then.
    assert_eq!(proved::requests(4_200, 0, 2), 3 * 4_096 * 4);
}
