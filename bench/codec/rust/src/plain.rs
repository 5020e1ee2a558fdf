//! The plain codec, called as the static library calls the proved one.

use crate::codec::{Fault, Head, Opt, Token, View, decode, encode};

/// A message ready to be written.
struct Message<'a> {
    head: Head,
    options: Vec<Opt<'a>>,
    payload: &'a [u8],
}

fn message_sum(view: &View<'_>) -> u64 {
    let mut sum = view.kind as u64 + u64::from(view.code) + u64::from(view.id);
    sum += view.token.len() as u64;
    for option in view.options() {
        sum += (u64::from(option.number) << 16) + option.value.len() as u64;
    }
    sum + view.payload.len() as u64
}

fn fault_sum(fault: &Fault) -> u64 {
    let mut sum = ((fault.reason as u64) << 56) + ((fault.at as u64) << 24);
    if let Some((kind, id)) = fault.head {
        sum += (1 << 20) + ((kind as u64) << 16) + u64::from(id);
    }
    sum
}

fn datagram_sum(datagram: &[u8]) -> u64 {
    match decode(datagram) {
        Ok(view) => message_sum(&view),
        Err(fault) => fault_sum(&fault),
    }
}

/// Decodes the datagrams of `len` bytes each in a batch, and walks over their options: the sum of
/// what was read.
#[inline(never)]
pub fn decode_all(batch: &[u8], len: usize) -> u64 {
    batch
        .chunks_exact(len)
        .map(datagram_sum)
        .fold(0, u64::wrapping_add)
}

fn message(datagram: &[u8]) -> Option<Message<'_>> {
    let view = decode(datagram).ok()?;
    let token = Token::new(view.token)?;
    Some(Message {
        head: Head {
            kind: view.kind,
            code: view.code,
            id: view.id,
            token,
        },
        options: view.options().collect(),
        payload: view.payload,
    })
}

/// Writes the messages of a batch to the start of `out` again and again: the sum of the lengths, a
/// refusal counting as its number in the upper half.
#[inline(never)]
pub fn encode_all(batch: &[u8], len: usize, out: &mut [u8], rounds: usize) -> u64 {
    let messages: Vec<_> = batch.chunks_exact(len).filter_map(message).collect();
    let mut sum = 0;
    for _ in 0..rounds {
        for message in &messages {
            sum += match encode(&message.head, &message.options, message.payload, out) {
                Ok(len) => len as u64,
                Err(refusal) => (refusal as u64) << 32,
            };
        }
    }
    sum
}
