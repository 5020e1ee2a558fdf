//! Times the calls of a table of names, and prints tables.

mod proved;

use bench_common::memory;

/// So many places a table has.
const PLACES: [u32; 3] = [4_096, 65_536, 1_048_576];

/// What is timed, in the order of `library.rt.in`.
const ROWS: [&str; proved::ROWS] = [
    "a datagram from a new peer, a place is free",
    "a datagram from a peer that has a name",
    "a datagram to a name",
    "the peer of a name",
    "a name is held and released",
    "a datagram from a new peer, a name is forgotten",
];

/// How many timings the least is taken of.
fn timings(places: u32) -> usize {
    if places <= 4_096 { 301 } else { 5 }
}

/// The least nanoseconds of each row, a call.
fn row_times(places: u32) -> [f64; proved::ROWS] {
    let mut least = [u64::MAX; proved::ROWS];
    for _ in 0..timings(places) {
        let done = proved::time(places, &mut least);
        assert_eq!(
            done,
            u64::from(places) * ROWS.len() as u64,
            "each call is done"
        );
    }
    least.map(|nanoseconds| nanoseconds as f64 / f64::from(places))
}

/// The dearest new peer, in microseconds: the least of the timings.
fn dearest(places: u32) -> f64 {
    let least = (0..timings(places)).map(|_| proved::dearest(places)).min();
    least.map_or(0.0, |nanoseconds| nanoseconds as f64 / 1_000.0)
}

fn time_all() {
    let heads = PLACES.map(|places| format!(" {places} places |")).concat();
    println!("| nanoseconds a call |{heads}");
    println!("|---|{}", "---:|".repeat(PLACES.len()));
    let columns = PLACES.map(row_times);
    for (row, name) in ROWS.iter().enumerate() {
        let cells = columns
            .map(|column| format!(" {:.0} |", column[row]))
            .concat();
        println!("| {name} |{cells}");
    }
    let cells = PLACES
        .map(|places| format!(" {:.1} |", dearest(places)))
        .concat();
    println!("\n| microseconds of the dearest call |{heads}");
    println!("|---|{}", "---:|".repeat(PLACES.len()));
    println!("| a datagram from a new peer, a place is free |{cells}");
}

/// Fills a table of so many places, and prints what each takes of memory.
fn print_kept(places: &str) {
    let count: u32 = places.parse().expect("how many places");
    memory::print(places, count, || {
        assert_eq!(proved::keep(count), u64::from(count));
    });
}

fn main() {
    let words: Vec<String> = std::env::args().skip(1).collect();
    match words.as_slice() {
        [] => time_all(),
        [keep, places] if keep == "keep" => print_kept(places),
        _ => panic!("no words, or `keep` and a number of places"),
    }
}
