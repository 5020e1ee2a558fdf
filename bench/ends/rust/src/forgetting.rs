//! GET requests of which each forgets one, with more or fewer that are remembered.

use crate::{plain, proved};
use bench_common::forgetting::{TOGETHER, before, mean, timed, timings};
use bench_common::table::print_row;
use std::hint::black_box;

/// How many bytes a reply has.
const REPLY_LEN: u64 = 21;

/// What is handed requests: `proved::paced_gets` or `plain::paced_gets`.
type Ends = fn(u32, u32, u32, &mut [u64]) -> u64;

/// A row of the table: so many requests in each 247 s, to a server that remembers as many.
pub struct Row {
    name: &'static str,
    held: u32,
}

impl Row {
    /// The nanoseconds of a request, where of those that are timed together the least of so many
    /// timings counts.
    fn time(&self, ends: Ends, timings: usize) -> f64 {
        let before = before(self.held);
        mean(self.held, timings, |times| {
            let sum = ends(black_box(self.held), before, TOGETHER, times);
            assert_eq!(sum, REPLY_LEN * u64::from(before + timed(self.held)));
        })
    }

    pub fn remembers(&self, held: u32) -> bool {
        self.held == held
    }

    pub fn print(&self) {
        let timings = timings(self.held);
        let both = [proved::paced_gets as Ends, plain::paced_gets];
        print_row(self.name, both.map(|ends| self.time(ends, timings)));
    }

    /// Does the work once, and reads the clock at its begin and its end alone; prints how many
    /// requests lie between.
    pub fn count(&self, ends: Ends) {
        let timed = timed(self.held);
        ends(
            black_box(self.held),
            before(self.held),
            timed,
            &mut [u64::MAX],
        );
        println!("{timed} requests");
    }
}

pub fn rows() -> Vec<Row> {
    [
        ("GET, 0 remembered, one forgotten", 1),
        ("GET, 4,000 remembered, one forgotten", 4_000),
        ("GET, 65,536 remembered, one forgotten", 65_536),
        ("GET, 1,048,576 remembered, one forgotten", 1_048_576),
    ]
    .map(|(name, held)| Row { name, held })
    .into()
}

#[test]
fn both_answer_all() {
    for row in rows() {
        row.time(proved::paced_gets, 1);
        row.time(plain::paced_gets, 1);
    }
}
