//! The proved transfers, as the static library exports them.

/// The library's functions, as `library.rt.in` declares them: a slice is a pointer and a length.
mod library {
    unsafe extern "C" {
        /// The length must be that of the memory at the pointer.
        pub fn coap_bench_upload(body: *const u8, len: usize, exponent: u8, rounds: usize) -> u64;

        /// As above.
        pub fn coap_bench_fetch(body: *const u8, len: usize, exponent: u8, rounds: usize) -> u64;
    }
}

/// Carries a body from a client to a server, again and again: the sum of the lengths.
pub fn upload(body: &[u8], exponent: u8, rounds: usize) -> u64 {
    // SAFETY: the pointer and the length are those of one slice.
    unsafe { library::coap_bench_upload(body.as_ptr(), body.len(), exponent, rounds) }
}

/// Carries a body from a server to a client, again and again: the sum of the lengths.
pub fn fetch(body: &[u8], exponent: u8, rounds: usize) -> u64 {
    // SAFETY: the pointer and the length are those of one slice.
    unsafe { library::coap_bench_fetch(body.as_ptr(), body.len(), exponent, rounds) }
}
