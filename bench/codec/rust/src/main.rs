//! Times the proved codec and a plain one on the same datagrams, and prints a table.

mod codec;
mod datagrams;
mod plain;
mod proved;
#[cfg(test)]
mod tests;

use bench_common::table::{Pairs, print_head};
use datagrams::{Sample, batch, samples};
use std::hint::black_box;
use std::time::Instant;

/// How many datagrams lie in a batch: few enough for the fastest cache.
const BATCH: u16 = 16;
/// About how long one timing takes, in nanoseconds: less than a turn of the scheduler.
const TIMING: f64 = 300_000.0;
/// How many timings of each codec a median is taken of.
const TIMINGS: usize = 1_001;
/// How many batches the trial before the timings takes.
const TRIAL: usize = 1_000;

/// Works on a number of batches.
type Work = Box<dyn FnMut(usize)>;

/// One row of the table: the same work by both codecs.
struct Row {
    name: String,
    proved: Work,
    plain: Work,
    /// How many batches one timing takes.
    batches: usize,
    /// Nanoseconds a datagram.
    timings: Pairs,
}

/// The nanoseconds a datagram that `work` takes for this many batches.
fn nanoseconds(work: &mut Work, batches: usize) -> f64 {
    let start = Instant::now();
    work(batches);
    start.elapsed().as_nanos() as f64 / (batches * usize::from(BATCH)) as f64
}

impl Row {
    fn new(name: String, proved: Work, mut plain: Work) -> Row {
        let trial = nanoseconds(&mut plain, TRIAL) * f64::from(BATCH);
        Row {
            name,
            proved,
            plain,
            batches: (TIMING / trial).ceil() as usize,
            timings: Pairs::with_capacity(TIMINGS),
        }
    }

    fn time(&mut self) {
        let proved = nanoseconds(&mut self.proved, self.batches);
        let plain = nanoseconds(&mut self.plain, self.batches);
        self.timings.push([proved, plain]);
    }

    fn print(&self) {
        self.timings.print(&self.name);
    }
}

/// Decodes a batch as often as is wanted, and walks over the options.
fn decode_work(sample: &Sample, decode_all: fn(&[u8], usize) -> u64) -> Work {
    let batch = batch(&sample.datagram, BATCH);
    let len = sample.datagram.len();
    let sum = plain::decode_all(&batch, len);
    Box::new(move |batches| {
        for _ in 0..batches {
            assert_eq!(black_box(decode_all(black_box(&batch), len)), sum);
        }
    })
}

/// Encodes the messages of a batch as often as is wanted.
fn encode_work(sample: &Sample, encode_all: fn(&[u8], usize, &mut [u8], usize) -> u64) -> Work {
    let batch = batch(&sample.datagram, BATCH);
    let len = sample.datagram.len();
    let mut out = vec![0; len];
    Box::new(move |batches| {
        let sum = encode_all(black_box(&batch), len, black_box(&mut out), batches);
        assert_eq!(sum, (batch.len() * batches) as u64);
        assert_eq!(out, batch[batch.len() - len..]);
    })
}

fn decode_row(sample: &Sample) -> Row {
    Row::new(
        format!("decode {}", sample.name),
        decode_work(sample, proved::decode_all),
        decode_work(sample, plain::decode_all),
    )
}

fn encode_row(sample: &Sample) -> Row {
    Row::new(
        format!("encode {}", sample.name),
        encode_work(sample, proved::encode_all),
        encode_work(sample, plain::encode_all),
    )
}

fn main() {
    let samples = samples();
    let decoded = samples.iter().map(decode_row);
    let mut rows: Vec<_> = decoded.chain(samples.iter().map(encode_row)).collect();
    for _ in 0..TIMINGS {
        rows.iter_mut().for_each(Row::time);
    }
    print_head("nanoseconds a datagram");
    rows.iter().for_each(Row::print);
}
