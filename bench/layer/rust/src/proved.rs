//! The proved message layer, as the static library exports it.

use crate::forgetting::Pace;

/// The library's functions, as `library.rt.in` declares them: a slice is a pointer and a length.
mod library {
    unsafe extern "C" {
        pub safe fn coap_bench_requests(count: u32, step: u64, again: u32) -> u64;

        pub safe fn coap_bench_ticks(outstanding: u32, ticks: u32) -> u64;

        /// The length must be that of the memory at the pointer.
        pub fn coap_bench_paced(
            held: u32,
            numbers: u32,
            at_once: bool,
            before: u32,
            count: u32,
            times: *mut u64,
            len: usize,
        ) -> u64;

        /// The lengths must be those of the memory at the pointers.
        pub fn coap_bench_spread(
            held: u32,
            before: u32,
            silence: u64,
            ticks: bool,
            reply: *const u8,
            reply_len: usize,
            times: *mut u64,
            len: usize,
        ) -> u64;

        /// The length must be that of the memory at the pointer.
        pub fn coap_bench_keep(count: u32, reply: *const u8, len: usize) -> u64;
    }
}

/// Takes in `count` requests that differ, `step` ms from each other, and then all of them `again`
/// times more: how many bytes go out.
pub fn requests(count: u32, step: u64, again: u32) -> u64 {
    library::coap_bench_requests(count, step, again)
}

/// Ticks so many times while so many messages are outstanding, and nothing is due: how many are.
pub fn ticks(outstanding: u32, ticks: u32) -> u64 {
    library::coap_bench_ticks(outstanding, ticks)
}

/// Takes in `before` requests at that pace, and then `count` for each of the times: how many bytes
/// go out. What these took, in nanoseconds, is kept where it is less than before.
pub fn paced(pace: Pace, before: u32, count: u32, times: &mut [u64]) -> u64 {
    // SAFETY: the pointer and the length are those of one slice.
    unsafe {
        library::coap_bench_paced(
            pace.held,
            pace.numbers,
            pace.at_once,
            before,
            count,
            times.as_mut_ptr(),
            times.len(),
        )
    }
}

/// Takes in so many requests, replies with these bytes to each, and keeps the layer for good: how
/// many are remembered.
pub fn keep(count: u32, reply: &[u8]) -> u64 {
    // SAFETY: the pointer and the length are those of one slice.
    unsafe { library::coap_bench_keep(count, reply.as_ptr(), reply.len()) }
}

/// Takes in `before` requests, one by one so many in each 247 s, and then, so many ms later, one for each of the times,
/// or ticks, and replies with these bytes to each: how many were replied to or ticked. What each takes, in nanoseconds,
/// is kept where it is less than before.
pub fn spread(
    held: u32,
    before: u32,
    silence: u64,
    ticks: bool,
    reply: &[u8],
    times: &mut [u64],
) -> u64 {
    // SAFETY: each pointer and length are those of one slice.
    unsafe {
        library::coap_bench_spread(
            held,
            before,
            silence,
            ticks,
            reply.as_ptr(),
            reply.len(),
            times.as_mut_ptr(),
            times.len(),
        )
    }
}
