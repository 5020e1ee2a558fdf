//! The datagrams that are measured.

/// How many bytes of payload the two large messages have.
const PAYLOAD_LEN: usize = 1024;
/// Where the Message ID stands.
const ID_AT: std::ops::Range<usize> = 2..4;

/// A datagram, and what it is.
pub struct Sample {
    pub name: &'static str,
    pub datagram: Vec<u8>,
}

/// A CON of code 0.00.
fn ping() -> Vec<u8> {
    b"\x40\x00\x00\x00".to_vec()
}

/// A CON GET with a token of 8 bytes and five options.
fn get() -> Vec<u8> {
    let parts: [&[u8]; 7] = [
        b"\x48\x01\x00\x00",
        b"\x51\x52\x53\x54\x55\x56\x57\x58",
        b"\x44\xe1\xe2\xe3\xe4", // ETag (4)
        b"\x77sensors",          // Uri-Path (11)
        b"\x07kitchen",          // Uri-Path (11)
        b"\x0btemperature",      // Uri-Path (11)
        b"\x61\x32",             // Accept (17)
    ];
    parts.concat()
}

/// An ACK with 2.05, its payload one block of a body.
fn content() -> Vec<u8> {
    let parts: [&[u8]; 7] = [
        b"\x68\x45\x00\x00",
        b"\x51\x52\x53\x54\x55\x56\x57\x58",
        b"\x48\xe1\xe2\xe3\xe4\xe5\xe6\xe7\xe8", // ETag (4)
        b"\x81\x32",                             // Content-Format (12)
        b"\xb1\x5e",                             // Block2 (23)
        b"\xff",
        &[0x2a; PAYLOAD_LEN],
    ];
    parts.concat()
}

/// A CON PUT, its payload one block of a body; two deltas take one byte more.
fn put() -> Vec<u8> {
    let parts: [&[u8]; 8] = [
        b"\x48\x03\x00\x00",
        b"\x51\x52\x53\x54\x55\x56\x57\x58",
        b"\xb8firmware",         // Uri-Path (11)
        b"\x11\x2a",             // Content-Format (12)
        b"\xd1\x02\x5e",         // Block1 (27)
        b"\xd3\x14\x01\x00\x00", // Size1 (60)
        b"\xff",
        &[0x2a; PAYLOAD_LEN],
    ];
    parts.concat()
}

/// The datagrams that are measured.
pub fn samples() -> Vec<Sample> {
    let sample = |name, datagram| Sample { name, datagram };
    vec![
        sample("ping", ping()),
        sample("GET, five options", get()),
        sample("2.05, 1,024 bytes", content()),
        sample("Block1 PUT, 1,024 bytes", put()),
    ]
}

/// Copies of a datagram that differ in their Message IDs, one behind another.
pub fn batch(datagram: &[u8], count: u16) -> Vec<u8> {
    let mut batch = datagram.repeat(usize::from(count));
    for (id, copy) in (0..count).zip(batch.chunks_exact_mut(datagram.len())) {
        copy[ID_AT].copy_from_slice(&id.to_be_bytes());
    }
    batch
}
