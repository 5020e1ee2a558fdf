//! CoAP messages as datagrams (RFC 7252, section 3) in plain Rust: what the proved codec is
//! compared with. It gives the same answers, faults and refusals.

const HEADER_LEN: usize = 4;
const VERSION: u8 = 1;
const MAX_TOKEN_LEN: usize = 8;
const EMPTY: u8 = 0;
const PAYLOAD_MARKER: u8 = 0xff;
const MAX_OPTION_NUMBER: usize = 0xffff;
/// The least number that takes one byte more than its nibble, and the least that takes two.
const ONE_BYTE_BASE: usize = 13;
const TWO_BYTE_BASE: usize = ONE_BYTE_BASE + 0x100;
const MAX_VALUE_LEN: usize = TWO_BYTE_BASE + 0xffff;

#[derive(Clone, Copy, Debug, PartialEq, Eq)]
pub enum Kind {
    Con,
    Non,
    Ack,
    Rst,
}

impl Kind {
    fn of(first: u8) -> Kind {
        match (first >> 4) & 0b11 {
            0 => Kind::Con,
            1 => Kind::Non,
            2 => Kind::Ack,
            _ => Kind::Rst,
        }
    }
}

/// An option, its value lent from where it lies.
#[derive(Clone, Copy, Debug, PartialEq, Eq)]
pub struct Opt<'a> {
    pub number: u16,
    pub value: &'a [u8],
}

/// Why a datagram is no message, numbered as the proved codec numbers it.
#[derive(Clone, Copy, Debug, PartialEq, Eq)]
pub enum Reason {
    Short = 1,
    Version,
    TokenLength,
    TokenCut,
    EmptyNotBare,
    DeltaReserved,
    LengthReserved,
    OptionCut,
    NumberTooLarge,
    NoPayload,
}

/// The first fault of a datagram, its place, and the type and Message ID where they can be told.
#[derive(Clone, Copy, Debug, PartialEq, Eq)]
pub struct Fault {
    pub reason: Reason,
    pub at: usize,
    pub head: Option<(Kind, u16)>,
}

/// A message, lent from its datagram.
#[derive(Clone, Copy, Debug)]
pub struct View<'a> {
    pub kind: Kind,
    pub code: u8,
    pub id: u16,
    pub token: &'a [u8],
    pub payload: &'a [u8],
    options: &'a [u8],
}

impl<'a> View<'a> {
    pub fn options(&self) -> Options<'a> {
        Options {
            number: 0,
            rest: self.options,
        }
    }
}

/// The options of a message, in the order of their numbers.
#[derive(Clone, Debug)]
pub struct Options<'a> {
    number: u16,
    rest: &'a [u8],
}

impl<'a> Iterator for Options<'a> {
    type Item = Opt<'a>;

    fn next(&mut self) -> Option<Opt<'a>> {
        let (option, rest) = read_option(self.number, self.rest).ok()?;
        self.number = option.number;
        self.rest = rest;
        Some(option)
    }
}

/// The number that a nibble and the bytes that extend it say, and what is behind them.
fn read_extended(nibble: u8, bytes: &[u8]) -> Result<(usize, &[u8]), Reason> {
    match (nibble, bytes) {
        (0..=12, _) => Ok((usize::from(nibble), bytes)),
        (13, [more, rest @ ..]) => Ok((ONE_BYTE_BASE + usize::from(*more), rest)),
        (14, [high, low, rest @ ..]) => {
            let more = u16::from_be_bytes([*high, *low]);
            Ok((TWO_BYTE_BASE + usize::from(more), rest))
        }
        _ => Err(Reason::OptionCut),
    }
}

/// The option in front of the bytes, behind one of number `base`, and what is behind it.
fn read_option(base: u16, bytes: &[u8]) -> Result<(Opt<'_>, &[u8]), Reason> {
    let (first, rest) = bytes.split_first().ok_or(Reason::OptionCut)?;
    let (delta, len) = (first >> 4, first & 0x0f);
    if delta == 15 {
        return Err(Reason::DeltaReserved);
    }
    if len == 15 {
        return Err(Reason::LengthReserved);
    }
    let (delta, rest) = read_extended(delta, rest)?;
    let (len, rest) = read_extended(len, rest)?;
    let number = usize::from(base) + delta;
    if number > MAX_OPTION_NUMBER {
        return Err(Reason::NumberTooLarge);
    }
    let (value, rest) = rest.split_at_checked(len).ok_or(Reason::OptionCut)?;
    let number = number as u16;
    Ok((Opt { number, value }, rest))
}

/// The message that a datagram spells, or the datagram's first fault.
pub fn decode(bytes: &[u8]) -> Result<View<'_>, Fault> {
    let [first, code, id_high, id_low, behind @ ..] = bytes else {
        return Err(Fault {
            reason: Reason::Short,
            at: bytes.len(),
            head: None,
        });
    };
    if first >> 6 != VERSION {
        return Err(Fault {
            reason: Reason::Version,
            at: 0,
            head: None,
        });
    }
    let kind = Kind::of(*first);
    let id = u16::from_be_bytes([*id_high, *id_low]);
    let fault = |reason, at| Fault {
        reason,
        at,
        head: Some((kind, id)),
    };
    let token_len = usize::from(first & 0x0f);
    if token_len > MAX_TOKEN_LEN {
        return Err(fault(Reason::TokenLength, 0));
    }
    if *code == EMPTY && (token_len > 0 || !behind.is_empty()) {
        return Err(fault(Reason::EmptyNotBare, HEADER_LEN));
    }
    let Some((token, options)) = behind.split_at_checked(token_len) else {
        return Err(fault(Reason::TokenCut, bytes.len()));
    };
    let mut number = 0;
    let mut rest = options;
    let payload = loop {
        match rest {
            [] => break rest,
            [PAYLOAD_MARKER] => return Err(fault(Reason::NoPayload, bytes.len())),
            [PAYLOAD_MARKER, payload @ ..] => break payload,
            _ => {}
        }
        match read_option(number, rest) {
            Ok((option, behind)) => {
                number = option.number;
                rest = behind;
            }
            Err(Reason::OptionCut) => return Err(fault(Reason::OptionCut, bytes.len())),
            Err(reason) => return Err(fault(reason, bytes.len() - rest.len())),
        }
    };
    Ok(View {
        kind,
        code: *code,
        id,
        token,
        payload,
        options: &options[..options.len() - rest.len()],
    })
}

/// A token of 0 to 8 bytes.
#[derive(Clone, Copy, Debug)]
pub struct Token {
    bytes: [u8; MAX_TOKEN_LEN],
    len: u8,
}

impl Token {
    /// The token of these bytes, where they are at most 8.
    pub fn new(bytes: &[u8]) -> Option<Token> {
        let mut token = Token {
            bytes: [0; MAX_TOKEN_LEN],
            len: bytes.len() as u8,
        };
        token.bytes.get_mut(..bytes.len())?.copy_from_slice(bytes);
        Some(token)
    }

    pub fn as_slice(&self) -> &[u8] {
        &self.bytes[..usize::from(self.len)]
    }
}

/// What a message begins with.
#[derive(Clone, Copy, Debug)]
pub struct Head {
    pub kind: Kind,
    pub code: u8,
    pub id: u16,
    pub token: Token,
}

/// Why a message was not written, numbered as the proved codec numbers it.
#[derive(Clone, Copy, Debug, PartialEq, Eq)]
pub enum Refusal {
    NoRoom = 1,
    OptionOrder,
    OptionTooLong,
    EmptyNotBare,
}

/// The nibble of a number.
fn nibble(number: usize) -> u8 {
    if number < ONE_BYTE_BASE {
        number as u8
    } else if number < TWO_BYTE_BASE {
        13
    } else {
        14
    }
}

/// How many bytes extend the nibble of a number.
fn extension_len(number: usize) -> usize {
    if number < ONE_BYTE_BASE {
        0
    } else if number < TWO_BYTE_BASE {
        1
    } else {
        2
    }
}

/// How many bytes the options take.
fn options_len(options: &[Opt<'_>]) -> Result<usize, Refusal> {
    let mut base = 0;
    let mut len = 0;
    let mut is_too_long = false;
    for option in options {
        let Some(delta) = option.number.checked_sub(base) else {
            return Err(Refusal::OptionOrder);
        };
        let value_len = option.value.len();
        is_too_long |= value_len > MAX_VALUE_LEN;
        len += 1 + extension_len(usize::from(delta)) + extension_len(value_len) + value_len;
        base = option.number;
    }
    if is_too_long {
        return Err(Refusal::OptionTooLong);
    }
    Ok(len)
}

/// How many bytes a message takes.
fn message_len(head: &Head, options: &[Opt<'_>], payload: &[u8]) -> Result<usize, Refusal> {
    let token_len = head.token.as_slice().len();
    let is_bare = token_len == 0 && options.is_empty() && payload.is_empty();
    if head.code == EMPTY && !is_bare {
        return Err(Refusal::EmptyNotBare);
    }
    let payload_len = if payload.is_empty() {
        0
    } else {
        1 + payload.len()
    };
    Ok(HEADER_LEN + token_len + options_len(options)? + payload_len)
}

/// Writes bytes one part behind another.
struct Writer<'a> {
    out: &'a mut [u8],
    at: usize,
}

impl Writer<'_> {
    fn put(&mut self, bytes: &[u8]) {
        let end = self.at + bytes.len();
        self.out[self.at..end].copy_from_slice(bytes);
        self.at = end;
    }

    fn put_extension(&mut self, number: usize) {
        if number >= TWO_BYTE_BASE {
            self.put(&((number - TWO_BYTE_BASE) as u16).to_be_bytes());
        } else if number >= ONE_BYTE_BASE {
            self.put(&[(number - ONE_BYTE_BASE) as u8]);
        }
    }

    fn put_option(&mut self, base: u16, option: &Opt<'_>) {
        let delta = usize::from(option.number - base);
        let len = option.value.len();
        self.put(&[nibble(delta) << 4 | nibble(len)]);
        self.put_extension(delta);
        self.put_extension(len);
        self.put(option.value);
    }
}

/// Writes the spelling of a message to the start of `out`, and answers its length. What is
/// refused leaves `out` as it was.
pub fn encode(
    head: &Head,
    options: &[Opt<'_>],
    payload: &[u8],
    out: &mut [u8],
) -> Result<usize, Refusal> {
    let len = message_len(head, options, payload)?;
    let out = out.get_mut(..len).ok_or(Refusal::NoRoom)?;
    let mut writer = Writer { out, at: 0 };
    let token = head.token.as_slice();
    let first = VERSION << 6 | (head.kind as u8) << 4 | token.len() as u8;
    let [id_high, id_low] = head.id.to_be_bytes();
    writer.put(&[first, head.code, id_high, id_low]);
    writer.put(token);
    let mut base = 0;
    for option in options {
        writer.put_option(base, option);
        base = option.number;
    }
    if !payload.is_empty() {
        writer.put(&[PAYLOAD_MARKER]);
        writer.put(payload);
    }
    Ok(len)
}
