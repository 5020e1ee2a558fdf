//! Messages of CoAP (RFC 7252, section 3) and the value of the option OSCORE (RFC 8613, section 6.1).

use crate::Refusal;

pub(crate) const ROOM: usize = 2048;
pub(crate) const CON: u8 = 0;
pub(crate) const ACK: u8 = 2;
pub(crate) const ETAG: u32 = 4;
pub(crate) const OBSERVE: u32 = 6;
pub(crate) const OSCORE: u32 = 9;
pub(crate) const PROXY_URI: u32 = 35;
const URI_HOST: u32 = 3;
const URI_PORT: u32 = 7;
const PROXY_SCHEME: u32 = 39;
const MARKER: u8 = 0xff;
const HEADER: usize = 4;
const MOST_TOKEN: usize = 8;
const MOST_OPTION: u32 = 65_535;
const MOST_OBSERVE: usize = 3;
const MOST_PIV: usize = 5;

/// What a message is told by outside.
#[derive(Clone, PartialEq, Eq)]
pub(crate) struct Head {
    pub kind: u8,
    pub id: [u8; 2],
    pub token: Vec<u8>,
}

#[derive(Clone, Copy, PartialEq, Eq)]
pub(crate) enum Observe {
    Registers,
    Cancels,
}

pub(crate) type Opt = (u32, Vec<u8>);

pub(crate) struct Message {
    pub head: Head,
    pub code: u8,
    pub options: Vec<Opt>,
    pub payload: Vec<u8>,
}

impl Message {
    pub fn value(&self, number: u32) -> Option<&[u8]> {
        self.options.iter().find(|it| it.0 == number).map(|it| it.1.as_slice())
    }

    pub fn is_request(&self) -> bool {
        self.code != 0 && self.code >> 5 == 0
    }

    pub fn is_response(&self) -> bool {
        (2..=5).contains(&(self.code >> 5))
    }

    pub fn observe(&self) -> Option<Observe> {
        match self.value(OBSERVE)? {
            [] | [0] => Some(Observe::Registers),
            [1] => Some(Observe::Cancels),
            _ => None,
        }
    }

    /// Code, options and payload, of the options that `keeps`.
    pub fn text(&self, keeps: impl Fn(u32) -> bool) -> Vec<u8> {
        let kept: Vec<Opt> = self.options.iter().filter(|it| keeps(it.0)).cloned().collect();
        let mut text = vec![self.code];
        put_tail(&mut text, &kept, &self.payload);
        text
    }
}

pub(crate) fn is_outer(number: u32) -> bool {
    matches!(number, URI_HOST | URI_PORT | OSCORE | PROXY_URI | PROXY_SCHEME)
}

struct Reader<'a>(&'a [u8]);

impl<'a> Reader<'a> {
    fn take(&mut self, len: usize) -> Result<&'a [u8], Refusal> {
        let (taken, rest) = self.0.split_at_checked(len).ok_or(Refusal::Malformed)?;
        self.0 = rest;
        Ok(taken)
    }

    fn extended(&mut self, nibble: u8) -> Result<u32, Refusal> {
        match nibble {
            0..=12 => Ok(nibble.into()),
            13 => Ok(13 + u32::from(self.take(1)?[0])),
            14 => self.take(2).map(|it| 269 + u32::from(u16::from_be_bytes([it[0], it[1]]))),
            _ => Err(Refusal::Malformed),
        }
    }
}

fn read_tail(bytes: &[u8]) -> Result<(Vec<Opt>, Vec<u8>), Refusal> {
    let mut rest = Reader(bytes);
    let (mut options, mut number) = (Vec::new(), 0);
    while let Some(&first) = rest.0.first().filter(|it| **it != MARKER) {
        rest.take(1)?;
        number += rest.extended(first >> 4)?;
        let len = rest.extended(first & 15)? as usize;
        let value = rest.take(len)?;
        let again = options.iter().any(|it: &Opt| it.0 == number) && matches!(number, OBSERVE | OSCORE);
        if number > MOST_OPTION || again || (number == OBSERVE && len > MOST_OBSERVE) {
            return Err(Refusal::Malformed);
        }
        options.push((number, value.to_vec()));
    }
    match rest.0 {
        [_] => Err(Refusal::Malformed),
        [] => Ok((options, Vec::new())),
        [_, payload @ ..] => Ok((options, payload.to_vec())),
    }
}

pub(crate) fn read(bytes: &[u8]) -> Result<Message, Refusal> {
    if !(HEADER..=ROOM).contains(&bytes.len()) || bytes[0] >> 6 != 1 {
        return Err(Refusal::Malformed);
    }
    let mut rest = Reader(&bytes[HEADER..]);
    let len = usize::from(bytes[0] & 15);
    if len > MOST_TOKEN || (bytes[1] == 0 && bytes.len() != HEADER) {
        return Err(Refusal::Malformed);
    }
    let head = Head { kind: bytes[0] >> 4 & 3, id: [bytes[2], bytes[3]], token: rest.take(len)?.to_vec() };
    let (options, payload) = read_tail(rest.0)?;
    Ok(Message { head, code: bytes[1], options, payload })
}

/// What was sealed, under the head of the datagram.
pub(crate) fn read_inner(head: &Head, text: &[u8]) -> Result<Message, Refusal> {
    let (&code, rest) = text.split_first().ok_or(Refusal::Malformed)?;
    let (options, payload) = read_tail(rest)?;
    if options.iter().any(|it| is_outer(it.0)) {
        return Err(Refusal::Malformed);
    }
    Ok(Message { head: head.clone(), code, options, payload })
}

fn shortened(n: u32) -> (u8, Vec<u8>) {
    match n {
        0..=12 => (n as u8, Vec::new()),
        13..=268 => (13, vec![(n - 13) as u8]),
        _ => (14, ((n - 269) as u16).to_be_bytes().to_vec()),
    }
}

fn put_tail(to: &mut Vec<u8>, options: &[Opt], payload: &[u8]) {
    let mut last = 0;
    for (number, value) in options {
        let ((delta, of_delta), (len, of_len)) = (shortened(number - last), shortened(value.len() as u32));
        to.push(delta << 4 | len);
        for part in [&of_delta, &of_len, value] {
            to.extend_from_slice(part);
        }
        last = *number;
    }
    if !payload.is_empty() {
        to.push(MARKER);
        to.extend_from_slice(payload);
    }
}

/// A datagram, whose options are put into the order of their numbers.
pub(crate) fn write(head: &Head, code: u8, mut options: Vec<Opt>, payload: &[u8]) -> Result<Vec<u8>, Refusal> {
    options.sort_by_key(|it| it.0);
    let mut to = vec![0x40 | head.kind << 4 | head.token.len() as u8, code, head.id[0], head.id[1]];
    to.extend_from_slice(&head.token);
    put_tail(&mut to, &options, payload);
    if to.len() > ROOM {
        return Err(Refusal::Malformed);
    }
    Ok(to)
}

/// The value of the option OSCORE.
#[derive(Default)]
pub(crate) struct Value {
    pub piv: Vec<u8>,
    pub kid: Option<Vec<u8>>,
    pub id_context: Vec<u8>,
}

const HAS_ID_CONTEXT: u8 = 0x10;
const HAS_KID: u8 = 0x08;
const PIV_LEN: u8 = 0x07;
const RESERVED: u8 = 0xe0;

impl Value {
    pub fn read(bytes: &[u8]) -> Result<Self, Refusal> {
        let Some((&flags, rest)) = bytes.split_first() else { return Ok(Self::default()) };
        let (mut rest, piv_len) = (Reader(rest), usize::from(flags & PIV_LEN));
        if flags == 0 || flags & RESERVED != 0 || piv_len > MOST_PIV {
            return Err(Refusal::Malformed);
        }
        let piv = rest.take(piv_len)?.to_vec();
        let mut id_context = Vec::new();
        if flags & HAS_ID_CONTEXT != 0 {
            let len = rest.take(1)?[0];
            id_context = rest.take(len.into())?.to_vec();
        }
        let has_kid = flags & HAS_KID != 0;
        if (piv.len() > 1 && piv[0] == 0) || (!has_kid && !rest.0.is_empty()) {
            return Err(Refusal::Malformed);
        }
        Ok(Self { piv, kid: has_kid.then(|| rest.0.to_vec()), id_context })
    }

    pub fn written(&self) -> Vec<u8> {
        let of_kid = if self.kid.is_some() { HAS_KID } else { 0 };
        let of_context = if self.id_context.is_empty() { 0 } else { HAS_ID_CONTEXT };
        let flags = self.piv.len() as u8 | of_kid | of_context;
        if flags == 0 {
            return Vec::new();
        }
        let mut bytes = vec![flags];
        bytes.extend_from_slice(&self.piv);
        if of_context != 0 {
            bytes.push(self.id_context.len() as u8);
            bytes.extend_from_slice(&self.id_context);
        }
        bytes.extend(self.kid.iter().flatten());
        bytes
    }
}

pub(crate) fn piv_of(number: u64) -> Vec<u8> {
    let bytes = number.to_be_bytes();
    let first = bytes.iter().position(|it| *it != 0).unwrap_or(bytes.len() - 1);
    bytes[first..].to_vec()
}

pub(crate) fn number_of(piv: &[u8]) -> u64 {
    piv.iter().fold(0, |number, it| number << 8 | u64::from(*it))
}
