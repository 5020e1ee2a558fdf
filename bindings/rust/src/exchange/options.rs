//! The options of a message, by number.

use crate::raw;
use crate::raw_exchange::{ks_option, ks_options, options_begin, options_next};
use std::fmt;

/// The number of an option (RFC 7252, section 5.10). An odd one is critical (section 5.4.6).
///
/// ```
/// # use knifesilver::exchange::OptionNumber;
/// assert!(OptionNumber::URI_PATH.is_critical() && !OptionNumber::MAX_AGE.is_critical());
/// assert_eq!(OptionNumber::URI_QUERY.to_string(), "Uri-Query");
/// assert_eq!(OptionNumber(2_049).to_string(), "2049");
/// ```
#[derive(Clone, Copy, PartialEq, Eq, PartialOrd, Ord, Hash)]
pub struct OptionNumber(pub u16);

macro_rules! numbers {
    ($($(#[$doc:meta])* $name:ident = $number:literal, $text:literal;)*) => {
        impl OptionNumber {
            $($(#[$doc])* pub const $name: OptionNumber = OptionNumber($number);)*

            /// Its name, where it is one of the above.
            pub fn name(self) -> Option<&'static str> {
                match self {
                    $(OptionNumber::$name => Some($text),)*
                    _ => None,
                }
            }
        }
    };
}

numbers! {
    /// A representation that has to be there (RFC 7252, section 5.10.8.1).
    IF_MATCH = 1, "If-Match";
    /// The host of the request's URI (section 5.10.1).
    URI_HOST = 3, "Uri-Host";
    /// An entity-tag (section 5.10.6).
    ETAG = 4, "ETag";
    /// Nothing may be there (section 5.10.8.2).
    IF_NONE_MATCH = 5, "If-None-Match";
    /// A registration, or the number of a notification (RFC 7641, section 2).
    OBSERVE = 6, "Observe";
    /// The port of the request's URI (RFC 7252, section 5.10.1).
    URI_PORT = 7, "Uri-Port";
    /// A segment of the path of what was made (section 5.10.7).
    LOCATION_PATH = 8, "Location-Path";
    /// A segment of the request's path (section 5.10.1).
    URI_PATH = 11, "Uri-Path";
    /// The format of the payload (section 5.10.3).
    CONTENT_FORMAT = 12, "Content-Format";
    /// For how many seconds the response is fresh (section 5.10.5).
    MAX_AGE = 14, "Max-Age";
    /// An argument of the request's URI (section 5.10.1).
    URI_QUERY = 15, "Uri-Query";
    /// The format that is wanted (section 5.10.4).
    ACCEPT = 17, "Accept";
    /// An argument of the URI of what was made (section 5.10.7).
    LOCATION_QUERY = 20, "Location-Query";
    /// A block of a response's body (RFC 7959, section 2.1).
    BLOCK2 = 23, "Block2";
    /// A block of a request's body (RFC 7959, section 2.1).
    BLOCK1 = 27, "Block1";
    /// How many bytes a response's body has (RFC 7959, section 4).
    SIZE2 = 28, "Size2";
    /// The URI that a proxy is asked for (RFC 7252, section 5.10.2).
    PROXY_URI = 35, "Proxy-Uri";
    /// The scheme that a proxy is asked for (section 5.10.2).
    PROXY_SCHEME = 39, "Proxy-Scheme";
    /// How many bytes a request's body has (section 5.10.9).
    SIZE1 = 60, "Size1";
}

impl OptionNumber {
    /// Whether who doesn't know it may not go on as if it weren't there (RFC 7252, section 5.4.1).
    pub fn is_critical(self) -> bool {
        self.0 % 2 == 1
    }
}

impl fmt::Display for OptionNumber {
    fn fmt(&self, f: &mut fmt::Formatter<'_>) -> fmt::Result {
        match self.name() {
            Some(name) => f.write_str(name),
            None => self.0.fmt(f),
        }
    }
}

impl fmt::Debug for OptionNumber {
    fn fmt(&self, f: &mut fmt::Formatter<'_>) -> fmt::Result {
        write!(f, "OptionNumber({self})")
    }
}

/// The options of a message in rising order of their numbers; those of one number in the order in which they were
/// added.
///
/// ```
/// # use knifesilver::exchange::{OptionNumber, Options};
/// let mut options = Options::new();
/// options.add_number(OptionNumber::MAX_AGE, 5);
/// options.add(OptionNumber::URI_PATH, "sensors");
/// options.add(OptionNumber::URI_PATH, "1");
/// let numbers: Vec<_> = options.iter().map(|(number, _)| number.0).collect();
/// assert_eq!(numbers, [11, 11, 14]);
/// assert_eq!(options.get(OptionNumber::URI_PATH), Some(&b"sensors"[..]));
/// assert_eq!(options.number(OptionNumber::MAX_AGE), Some(5));
/// ```
#[derive(Clone, Default, PartialEq, Eq, Hash)]
pub struct Options(Vec<(OptionNumber, Vec<u8>)>);

impl Options {
    /// No options.
    pub fn new() -> Options {
        Options::default()
    }

    /// Adds an option, after those of its number that are there.
    pub fn add(&mut self, number: OptionNumber, value: impl Into<Vec<u8>>) {
        let place = self.0.partition_point(|(of, _)| *of <= number);
        self.0.insert(place, (number, value.into()));
    }

    /// Adds an option whose value is a number, in as few bytes as it takes (RFC 7252, section 3.2).
    pub fn add_number(&mut self, number: OptionNumber, value: u32) {
        let bytes = value.to_be_bytes();
        let zeros = bytes.iter().take_while(|byte| **byte == 0).count();
        self.add(number, &bytes[zeros..]);
    }

    /// Takes away the options of this number, and whether there was one.
    pub fn remove(&mut self, number: OptionNumber) -> bool {
        let before = self.0.len();
        self.0.retain(|(of, _)| *of != number);
        self.0.len() < before
    }

    /// The value of the first option of this number.
    pub fn get(&self, number: OptionNumber) -> Option<&[u8]> {
        self.all(number).next()
    }

    /// The values of all options of this number, in order.
    pub fn all(&self, number: OptionNumber) -> impl Iterator<Item = &[u8]> {
        let first = self.0.partition_point(|(of, _)| *of < number);
        self.0[first..].iter().take_while(move |(of, _)| *of == number).map(|(_, value)| value.as_slice())
    }

    /// The value of the first option of this number, as a number (RFC 7252, section 3.2). None, too, where it is above
    /// 4,294,967,295.
    pub fn number(&self, number: OptionNumber) -> Option<u32> {
        let value = self.get(number)?;
        let zeros = value.iter().take_while(|byte| **byte == 0).count();
        let digits = &value[zeros..];
        (digits.len() <= 4).then(|| digits.iter().fold(0, |sum, byte| sum << 8 | u32::from(*byte)))
    }

    /// All of them, in order.
    pub fn iter(&self) -> impl Iterator<Item = (OptionNumber, &[u8])> {
        self.0.iter().map(|(number, value)| (*number, value.as_slice()))
    }

    /// How many there are.
    pub fn len(&self) -> usize {
        self.0.len()
    }

    /// Whether there is none.
    pub fn is_empty(&self) -> bool {
        self.0.is_empty()
    }

    /// Those of a message, as the library reads them, and its payload. None where the datagram is no message.
    pub(super) fn read(datagram: &[u8]) -> Option<(Options, &[u8])> {
        let mut reading = ks_options::default();
        if options_begin(datagram, &mut reading) != raw::KS_OK {
            return None;
        }
        // (behind the marker, where there is a payload)
        let payload = datagram.get(reading.end + 1..).unwrap_or_default();
        let (mut options, mut option) = (Vec::new(), ks_option::default());
        while options_next(datagram, &mut reading, &mut option) == raw::KS_DONE {
            let value = datagram.get(option.value_at..)?.get(..option.value_len)?;
            options.push((OptionNumber(option.number), value.to_vec()));
        }
        Some((Options(options), payload))
    }
}

/// What stands between the options and the payload (RFC 7252, section 3).
pub(super) const PAYLOAD_MARKER: u8 = 0xff;

impl fmt::Debug for Options {
    fn fmt(&self, f: &mut fmt::Formatter<'_>) -> fmt::Result {
        f.debug_list().entries(self.0.iter().map(|(number, value)| Shown(*number, value))).finish()
    }
}

struct Shown<'a>(OptionNumber, &'a [u8]);

impl fmt::Debug for Shown<'_> {
    fn fmt(&self, f: &mut fmt::Formatter<'_>) -> fmt::Result {
        write!(f, "{}: \"{}\"", self.0, self.1.escape_ascii())
    }
}

impl<N: Into<OptionNumber>, V: Into<Vec<u8>>> FromIterator<(N, V)> for Options {
    fn from_iter<I: IntoIterator<Item = (N, V)>>(pairs: I) -> Options {
        let mut options = Options::new();
        pairs.into_iter().for_each(|(number, value)| options.add(number.into(), value));
        options
    }
}

impl From<u16> for OptionNumber {
    fn from(number: u16) -> OptionNumber {
        OptionNumber(number)
    }
}

#[cfg(test)]
mod tests {
    use super::*;
    use crate::raw::{KS_DONE, KS_OK};
    use crate::raw_exchange::next_option;

    /// The options of a message, as the library tells them one by one.
    fn told(datagram: &[u8]) -> Options {
        let (mut place, mut number, mut len, mut room) = (0, 0, 0, vec![0; datagram.len()]);
        let mut options = Options::new();
        loop {
            match next_option(datagram, &mut place, &mut number, &mut room, &mut len) {
                KS_DONE => options.add(OptionNumber(number), &room[..len]),
                answer => {
                    assert_eq!(answer, KS_OK);
                    return options;
                }
            }
        }
    }

    /// Of 100,000 datagrams, those that are messages have the options that the library tells.
    #[test]
    fn options_are_read_as_the_library_reads_them() {
        let (mut seed, mut messages, mut most) = (7_u64, 0, 0);
        let mut draw = move |below: u64| {
            seed ^= seed << 13;
            seed ^= seed >> 7;
            seed ^= seed << 17;
            seed % below
        };
        for _ in 0..100_000 {
            let mut datagram = vec![0x40, 1, 0, 1];
            for _ in 0..draw(8) {
                let len = draw(15) as u8;
                datagram.push((draw(16) as u8) << 4 | len);
                datagram.extend((0..draw(20)).map(|_| draw(256) as u8));
            }
            let Ok(message) = crate::peek(&datagram) else {
                assert!(Options::read(&datagram).is_none(), "{datagram:02x?} is no message");
                continue;
            };
            let (options, payload) = Options::read(&datagram).expect("a message");
            assert_eq!((&options, payload.len()), (&told(&datagram), message.payload_len), "{datagram:02x?}");
            messages += 1;
            most = most.max(options.len());
        }
        assert!(messages > 10_000 && most > 10, "{messages} messages, {most} options at most");
    }
}
