//! The two codecs agree: numbers that are compared are of the same work.

use crate::datagrams::{batch, samples};
use crate::{plain, proved};

/// Both read the same message or the same fault of the bytes.
fn assert_read_alike(datagram: &[u8]) {
    let len = datagram.len();
    let read = proved::decode_all(datagram, len);
    assert_eq!(read, plain::decode_all(datagram, len), "{datagram:02x?}");
}

/// Both answer and write the same for the message of the bytes in this room.
fn assert_written_alike(datagram: &[u8], room: usize) {
    let len = datagram.len();
    let (mut by_proved, mut by_plain) = (vec![0xaa; room], vec![0xaa; room]);
    let answer = proved::encode_all(datagram, len, &mut by_proved, 1);
    let expected = plain::encode_all(datagram, len, &mut by_plain, 1);
    assert_eq!(answer, expected, "{datagram:02x?} in {room}");
    assert_eq!(by_proved, by_plain, "{datagram:02x?} in {room}");
}

#[test]
fn each_front_of_a_datagram_is_read_alike() {
    for sample in samples() {
        for len in 1..=sample.datagram.len() {
            assert_read_alike(&sample.datagram[..len]);
        }
    }
}

#[test]
fn each_change_of_a_byte_is_read_and_written_alike() {
    for sample in samples() {
        for at in 0..sample.datagram.len().min(64) {
            for byte in 0..=u8::MAX {
                let mut datagram = sample.datagram.clone();
                datagram[at] = byte;
                assert_read_alike(&datagram);
                assert_written_alike(&datagram, datagram.len());
            }
        }
    }
}

#[test]
fn each_room_is_written_alike() {
    for sample in samples() {
        for room in 0..=sample.datagram.len() + 1 {
            assert_written_alike(&sample.datagram, room);
        }
    }
}

#[test]
fn what_is_measured_is_a_message_and_is_written_as_it_was() {
    for sample in samples() {
        let len = sample.datagram.len();
        let batch = batch(&sample.datagram, 3);
        let mut out = vec![0; len];
        assert_eq!(plain::encode_all(&batch, len, &mut out, 2), 6 * len as u64);
        assert_eq!(out, batch[2 * len..]);
        assert_eq!(proved::encode_all(&batch, len, &mut out, 2), 6 * len as u64);
        assert_eq!(out, batch[2 * len..]);
    }
}
