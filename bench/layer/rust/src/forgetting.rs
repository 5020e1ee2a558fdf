//! Requests of which each forgets one, with more or fewer that are remembered: what one takes in the
//! mean over a full 247 s, and what the dearest of all takes.

use crate::{plain, proved};
use bench_common::forgetting::{FORGOTTEN_AFTER_MS, TOGETHER, before, mean, timed, timings};
use bench_common::table::print_row;
use std::hint::black_box;

/// What takes in requests: `proved::paced` or `plain::paced`.
type Layer = fn(Pace, u32, u32, &mut [u64]) -> u64;

/// How requests come: so many in each 247 s, one by one or all at its start, and so many numbers
/// are used in turn, or each once where that is 0. As many are remembered at most.
#[derive(Clone, Copy)]
pub struct Pace {
    pub held: u32,
    pub numbers: u32,
    pub at_once: bool,
}

impl Pace {
    pub fn number(self, request: u32) -> u32 {
        request.checked_rem(self.numbers).unwrap_or(request)
    }

    pub fn moment(self, request: u32) -> u64 {
        let [request, held] = [request, self.held].map(u64::from);
        if self.at_once {
            request / held * FORGOTTEN_AFTER_MS
        } else {
            request * FORGOTTEN_AFTER_MS / held
        }
    }
}

/// A row of the table.
pub struct Row {
    name: &'static str,
    pace: Pace,
}

impl Row {
    fn new(name: &'static str, held: u32, numbers: u32) -> Row {
        let pace = Pace {
            held,
            numbers,
            at_once: false,
        };
        Row { name, pace }
    }

    /// The nanoseconds of a request, where of those that are timed together the least of some
    /// timings counts.
    fn time(&self, layer: Layer) -> f64 {
        let pace = self.pace;
        let before = before(pace.held);
        mean(pace.held, timings(pace.held), |times| {
            let sum = layer(black_box(pace), before, TOGETHER, times);
            assert_eq!(sum, 4 * u64::from(before + timed(pace.held)));
        })
    }

    pub fn remembers(&self, held: u32) -> bool {
        self.pace.held == held
    }

    pub fn print(&self) {
        print_row(
            self.name,
            [self.time(proved::paced), self.time(plain::paced)],
        );
    }

    /// Does the work once, and reads the clock at its begin and its end alone; prints how many
    /// requests lie between.
    pub fn count(&self, layer: Layer) {
        let pace = self.pace;
        let timed = timed(pace.held);
        layer(black_box(pace), before(pace.held), timed, &mut [u64::MAX]);
        println!("{timed} requests");
    }
}

pub fn rows() -> Vec<Row> {
    vec![
        Row::new("a new request, 0 remembered, one forgotten", 1, 0),
        Row::new("a new request, 4,000 remembered, one forgotten", 4_000, 0),
        Row::new("a new request, 65,536 remembered, one forgotten", 65_536, 0),
        Row::new(
            "a new request, 1,048,576 remembered, one forgotten",
            1_048_576,
            0,
        ),
        Row::new(
            "4,000 remembered, the one just forgotten comes again",
            4_000,
            4_000,
        ),
        Row::new(
            "65,536 remembered, the one just forgotten comes again",
            65_536,
            65_536,
        ),
        Row::new(
            "1,048,576 remembered, the one just forgotten comes again",
            1_048_576,
            1_048_576,
        ),
    ]
}

/// Single datagrams, of which the dearest is sought.
struct Datagrams {
    name: &'static str,
    pace: Pace,
    before: u32,
    timed: u32,
}

impl Datagrams {
    /// The microseconds of the dearest, where of each the least of some timings counts.
    fn dearest(&self, layer: Layer) -> f64 {
        let mut times = vec![u64::MAX; self.timed as usize];
        for _ in 0..timings(self.pace.held) {
            let sum = layer(black_box(self.pace), self.before, 1, &mut times);
            assert_eq!(sum, 4 * u64::from(self.before + self.timed));
        }
        times.into_iter().max().unwrap_or(0) as f64 / 1_000.0
    }

    fn print(&self) {
        let name = self.name;
        let held = self.pace.held;
        let [proved, plain] = [self.dearest(proved::paced), self.dearest(plain::paced)];
        println!("| {name}, {held} remembered | {proved:.1} | {plain:.1} |");
    }
}

/// Prints, for so many remembered, the dearest while the first come, once each forgets one, and
/// where all are forgotten at one moment.
pub fn print_dearest(held: u32) {
    let print = |name, at_once, before, timed| {
        let pace = Pace {
            held,
            numbers: 0,
            at_once,
        };
        Datagrams {
            name,
            pace,
            before,
            timed,
        }
        .print();
    };
    print("the first come", false, 0, held);
    print("each forgets one", false, 2 * held, held);
    print("all are forgotten at one moment", true, held, 3);
}

#[test]
fn both_answer_all() {
    for Row { pace, .. } in rows() {
        let before = before(pace.held);
        for layer in [proved::paced, plain::paced] {
            mean(pace.held, 1, |times| {
                let sum = layer(pace, before, TOGETHER, times);
                assert_eq!(sum, 4 * u64::from(before + timed(pace.held)));
            });
        }
    }
}
