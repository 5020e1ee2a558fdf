//! The proved ends, as the static library exports them.

use crate::work::{Store, Timed};

/// The library's functions, as `library.rt.in` declares them: a slice is a pointer and a length.
mod library {
    unsafe extern "C" {
        pub safe fn coap_bench_gets(
            before: u32,
            timed: u32,
            step: u64,
            nanoseconds: &mut u64,
        ) -> u64;

        pub safe fn coap_bench_in_map(timed: u32, nanoseconds: &mut u64) -> u64;

        pub safe fn coap_bench_in_list(timed: u32, nanoseconds: &mut u64) -> u64;

        /// The length must be that of the memory at the pointer.
        pub fn coap_bench_paced(
            held: u32,
            before: u32,
            count: u32,
            times: *mut u64,
            len: usize,
        ) -> u64;

        /// The length must be that of the memory at the pointer.
        pub fn coap_bench_keep(count: u32, body: *const u8, len: usize) -> u64;

        /// The length must be that of the memory at the pointer.
        pub fn coap_bench_bodies(body: *const u8, len: usize, put: &mut u64, get: &mut u64) -> u64;
    }
}

/// Hands a server `before` GET requests that differ, `step` ms from each other, and then `timed`
/// more, which are timed: how many bytes go out in all.
pub fn gets(before: u32, timed: u32, step: u64) -> Timed {
    let mut nanoseconds = 0;
    let sum = library::coap_bench_gets(before, timed, step, &mut nanoseconds);
    Timed { sum, nanoseconds }
}

/// Hands a server that remembers `held` messages `before` GET requests, of which so many come in
/// each 247 s, and then `count` for each of the times: how many bytes go out. What these took, in
/// nanoseconds, is kept where it is less than before.
pub fn paced_gets(held: u32, before: u32, count: u32, times: &mut [u64]) -> u64 {
    // SAFETY: the pointer and the length are those of one slice.
    unsafe { library::coap_bench_paced(held, before, count, times.as_mut_ptr(), times.len()) }
}

/// Hands a server that holds this body and remembers so many messages as many GET requests, and
/// keeps it for good: how many bytes go out.
pub fn keep(count: u32, body: &[u8]) -> u64 {
    // SAFETY: the pointer and the length are those of one slice.
    unsafe { library::coap_bench_keep(count, body.as_ptr(), body.len()) }
}

/// Hands a server that holds 256 paths, in that store, GET requests of the last: how many bytes go
/// out.
pub fn gets_of_many(store: Store, timed: u32) -> Timed {
    let mut nanoseconds = 0;
    let sum = match store {
        Store::List => library::coap_bench_in_list(timed, &mut nanoseconds),
        Store::Map => library::coap_bench_in_map(timed, &mut nanoseconds),
    };
    Timed { sum, nanoseconds }
}

/// Has a client put a body to a server and get it back: how many exchanges each takes.
pub fn bodies(body: &[u8]) -> [Timed; 2] {
    let [mut put, mut get] = [0; 2];
    // SAFETY: the pointer and the length are those of one slice.
    let sum = unsafe { library::coap_bench_bodies(body.as_ptr(), body.len(), &mut put, &mut get) };
    [put, get].map(|nanoseconds| Timed { sum, nanoseconds })
}
