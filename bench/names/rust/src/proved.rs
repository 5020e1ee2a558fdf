//! The proved table of names, as the static library exports it.

/// How many rows `library.rt.in` has.
pub const ROWS: usize = 6;

/// The library's functions, as `library.rt.in` declares them: a slice is a pointer and a length.
mod library {
    unsafe extern "C" {
        /// The length must be that of the memory at the pointer.
        pub fn coap_bench_names(places: u32, times: *mut u64, len: usize) -> u64;

        pub safe fn coap_bench_dearest(places: u32) -> u64;

        pub safe fn coap_bench_keep(places: u32) -> u64;
    }
}

/// Makes the calls of all rows with a table of so many places: how many were done. What those of a row took, in
/// nanoseconds, is kept where it is less than before.
pub fn time(places: u32, times: &mut [u64; ROWS]) -> u64 {
    // SAFETY: the pointer and the length are those of one array.
    unsafe { library::coap_bench_names(places, times.as_mut_ptr(), times.len()) }
}

/// The most nanoseconds that one new peer takes.
pub fn dearest(places: u32) -> u64 {
    library::coap_bench_dearest(places)
}

/// Fills a table of so many places and keeps it for good: how many peers have a name.
pub fn keep(places: u32) -> u64 {
    library::coap_bench_keep(places)
}
