//! How much memory something takes, by the allocator and by the system.

use std::fs;

/// What the C library says of its memory (`malloc.h`), in bytes.
#[repr(C)]
struct Mallinfo2 {
    arena: usize,
    ordblks: usize,
    smblks: usize,
    hblks: usize,
    /// In blocks that were mapped one by one.
    hblkhd: usize,
    usmblks: usize,
    fsmblks: usize,
    /// In other blocks that are handed out, each with what the allocator adds.
    uordblks: usize,
    fordblks: usize,
    keepcost: usize,
}

unsafe extern "C" {
    safe fn mallinfo2() -> Mallinfo2;
}

/// The bytes that the allocator has handed out.
fn allocated() -> usize {
    let info = mallinfo2();
    info.uordblks + info.hblkhd
}

/// The bytes of the process that lie in memory: now, and at most so far.
fn resident() -> [usize; 2] {
    let status = fs::read_to_string("/proc/self/status").expect("the status of this process");
    ["VmRSS:", "VmHWM:"].map(|name| {
        let line = status.lines().find_map(|line| line.strip_prefix(name));
        let words = line.expect("a line of that name");
        let kilobytes = words.trim().trim_end_matches(" kB");
        kilobytes.parse::<usize>().expect("a number") * 1_024
    })
}

/// Prints a row with these cells first, and then the bytes of memory for each of so many that are kept: what is
/// allocated, what lies in memory, and the most that did.
pub fn print(cells: &str, count: u32, keep: impl FnOnce()) {
    let (before, [in_memory, _]) = (allocated(), resident());
    keep();
    let [now, most] = resident();
    let share = |bytes: usize| bytes as f64 / f64::from(count);
    println!(
        "| {cells} | {:.0} | {:.0} | {:.0} |",
        share(allocated() - before),
        share(now - in_memory),
        share(most - in_memory),
    );
}
