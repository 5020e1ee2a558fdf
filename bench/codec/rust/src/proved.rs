//! The proved codec, as the static library exports it.

/// The library's functions, as `library.rt.in` declares them: a slice is a pointer and a length.
mod library {
    unsafe extern "C" {
        /// The two lengths must be those of the memory at the pointer.
        pub fn coap_bench_decode(
            datagrams: *const u8,
            datagrams_len: usize,
            len: usize,
            count: usize,
        ) -> u64;

        /// As above, and `out` must overlap nothing else.
        pub fn coap_bench_encode(
            datagrams: *const u8,
            datagrams_len: usize,
            len: usize,
            count: usize,
            out: *mut u8,
            out_len: usize,
            rounds: usize,
        ) -> u64;
    }
}

/// Decodes the datagrams of `len` bytes each in a batch, and walks over their options: the sum of
/// what was read.
pub fn decode_all(batch: &[u8], len: usize) -> u64 {
    // SAFETY: the pointer and the length are those of one slice.
    unsafe { library::coap_bench_decode(batch.as_ptr(), batch.len(), len, batch.len() / len) }
}

/// Writes the messages of a batch to the start of `out` again and again: the sum of the lengths.
pub fn encode_all(batch: &[u8], len: usize, out: &mut [u8], rounds: usize) -> u64 {
    // SAFETY: each pointer and its length are those of one slice, and `out` is lent for writing.
    unsafe {
        library::coap_bench_encode(
            batch.as_ptr(),
            batch.len(),
            len,
            batch.len() / len,
            out.as_mut_ptr(),
            out.len(),
            rounds,
        )
    }
}
