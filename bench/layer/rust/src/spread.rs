//! How what single calls of the proved layer take is spread: while the first requests come, once each forgets one, and after
//! a silence in which all are forgotten.

use crate::proved;

/// The least of so many timings counts of each call.
const TIMINGS: usize = 3;
/// For so long nothing comes, in milliseconds.
const SILENCE: u64 = 1_000_000;
/// So many calls of 1,000 take longer than the quantile that is told.
const DEARER_OF_1000: usize = 1;

struct Calls {
    name: &'static str,
    before: u32,
    silence: u64,
    ticks: bool,
}

impl Calls {
    /// The nanoseconds of each call, the least first.
    fn times(&self, held: u32, reply: &[u8]) -> Vec<u64> {
        let mut times = vec![u64::MAX; held as usize];
        for _ in 0..TIMINGS {
            let done = proved::spread(
                held,
                self.before,
                self.silence,
                self.ticks,
                reply,
                &mut times,
            );
            assert_eq!(done, u64::from(self.before) + u64::from(held));
        }
        times.sort_unstable();
        times
    }

    fn print(&self, held: u32, reply: &[u8]) {
        let times = self.times(held, reply);
        let mean = times.iter().sum::<u64>() as f64 / times.len() as f64;
        let [quantile, dearest] = [times.len() * DEARER_OF_1000 / 1_000, 0]
            .map(|back| times[times.len() - 1 - back] as f64 / 1_000.0);
        let (name, len) = (self.name, reply.len());
        println!("| {name} | {held} | {len} | {mean:.0} | {quantile:.1} | {dearest:.1} |");
    }
}

/// Prints the rows of so many remembered messages, with replies of so many bytes.
pub fn print(held: u32, reply: &[u8]) {
    let calls = |name, before, silence, ticks| Calls {
        name,
        before,
        silence,
        ticks,
    };
    for row in [
        calls("a request, while the first come", 0, 0, false),
        calls("a request, once each forgets one", 2 * held, 0, false),
        calls("a request, after a silence", held, SILENCE, false),
        calls("a tick, after a silence", held, SILENCE, true),
    ] {
        row.print(held, reply);
    }
}

/// Prints the head of the table.
pub fn print_head() {
    println!("\n| | remembered | bytes of a reply | mean, ns | 99.9 %, us | dearest, us |");
    println!("|---|---:|---:|---:|---:|---:|");
}

#[test]
fn all_are_answered() {
    let mut times = vec![u64::MAX; 100];
    for ticks in [false, true] {
        assert_eq!(
            proved::spread(100, 200, SILENCE, ticks, &[0x60; 21], &mut times),
            300
        );
    }
}
