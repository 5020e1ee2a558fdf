//! What is sealed and what is opened (RFC 8613, section 8).

use std::path::Path;

use openssl::sha::sha256;

use crate::cipher::{Binding, Cipher};
use crate::exchanges::{self, Digest, Exchange, Sent, COPY_OF_REQUEST_MS, KEEP_MS};
use crate::message::{self, is_outer, piv_of, Message, Value, ETAG, OBSERVE, OSCORE, PROXY_URI, ROOM};
use crate::numbers::Numbers;
use crate::Refusal;

const MORE: usize = 96;
const POST: u8 = 0x02;
const FETCH: u8 = 0x05;
const CHANGED: u8 = 0x44;
const CONTENT: u8 = 0x45;
const FRESHNESS: u64 = 0xff_ffff;

/// Of one end; the other one has sender and recipient exchanged.
#[derive(Default, Clone)]
pub struct Keys {
    /// The master secret, of at most 32 bytes.
    pub secret: Vec<u8>,
    /// The master salt, or nothing.
    pub salt: Vec<u8>,
    /// The ID context, or nothing.
    pub id_context: Vec<u8>,
    /// The ID of this end, of at most 7 bytes.
    pub sender: Vec<u8>,
    /// The ID of the other end.
    pub recipient: Vec<u8>,
}

/// What kind of datagram was sealed or opened.
#[derive(Debug, Clone, Copy, PartialEq, Eq)]
pub enum Kind {
    /// It is sealed, or it opened for the first time. A request of this kind moves the address of its peer.
    Done = 1,
    /// An Empty message, as it is.
    Passed = 161,
    /// It was opened before, under the same type, Message ID and token.
    Copy = 162,
}

/// A datagram that goes on its way.
#[derive(Debug)]
pub struct Datagram {
    /// Of which kind it is.
    pub kind: Kind,
    /// Its bytes.
    pub bytes: Vec<u8>,
}

/// What two ends share; one program at a time has it.
pub struct Context {
    sender: Vec<u8>,
    recipient: Vec<u8>,
    id_context: Vec<u8>,
    cipher: Cipher,
    numbers: Numbers,
    now: u64,
    asked: Vec<Exchange>,
    taken: Vec<Exchange>,
}

fn same_of(message: &Message) -> Digest {
    sha256(&message.text(|number| !is_outer(number) && number != OBSERVE && number != ETAG))
}

fn outside(message: &Message, value: Vec<u8>) -> Vec<message::Opt> {
    let kept = message.options.iter().filter(|it| is_outer(it.0) || it.0 == OBSERVE);
    kept.cloned().chain([(OSCORE, value)]).collect()
}

fn merged(outer: &Message, inner: Message) -> Result<Vec<u8>, Refusal> {
    if outer.value(PROXY_URI).is_some() {
        return Err(Refusal::Malformed);
    }
    let kept = outer.options.iter().filter(|it| is_outer(it.0) && it.0 != OSCORE).cloned();
    message::write(&outer.head, inner.code, kept.chain(inner.options).collect(), &inner.payload)
}

impl Context {
    /// Makes a context with the file of its numbers. `begins`: there is no such file yet, and it is made, for keys that
    /// were never used. No file is for keys that this run alone has.
    pub fn new(keys: &Keys, file: Option<&Path>, begins: bool) -> Result<Self, Refusal> {
        let cipher = Cipher::new(keys)?;
        let numbers = Numbers::open(cipher.check(), file, begins)?;
        let (sender, recipient) = (keys.sender.clone(), keys.recipient.clone());
        let id_context = keys.id_context.clone();
        Ok(Self { sender, recipient, id_context, cipher, numbers, now: 0, asked: Vec::new(), taken: Vec::new() })
    }

    /// Seals what an end has out.
    pub fn seal(&mut self, now: u64, plain: &[u8]) -> Result<Datagram, Refusal> {
        self.now = self.now.max(now);
        let message = message::read(plain)?;
        let bytes = match message.code {
            0 => return Ok(Datagram { kind: Kind::Passed, bytes: plain.to_vec() }),
            _ if message.value(OSCORE).or(message.value(PROXY_URI)).is_some() => return Err(Refusal::Malformed),
            _ if plain.len() > ROOM - MORE => return Err(Refusal::Malformed),
            _ if message.is_request() => self.seal_request(&message, sha256(plain))?,
            _ if message.is_response() => self.seal_response(&message, sha256(plain))?,
            _ => return Err(Refusal::Malformed),
        };
        Ok(Datagram { kind: Kind::Done, bytes })
    }

    fn seal_request(&mut self, message: &Message, digest: Digest) -> Result<Vec<u8>, Refusal> {
        let now = self.now;
        let copied = self.asked.iter().find(|it| it.sent_before(&digest, now, COPY_OF_REQUEST_MS).is_some());
        if let Some(before) = copied {
            return self.write_request(message, before.number);
        }
        let number = self.numbers.take()?;
        let bytes = self.write_request(message, number)?;
        let mut made = self.exchange(message, message, number);
        made.sent.push(Sent { digest, at: now, own: None });
        exchanges::put_asked(&mut self.asked, made);
        Ok(bytes)
    }

    fn exchange(&self, outer: &Message, inner: &Message, number: u64) -> Exchange {
        Exchange {
            head: outer.head.clone(),
            number,
            observe: inner.observe(),
            same: same_of(inner),
            at: self.now,
            used: self.now,
            is_answered: false,
            sent: Vec::new(),
            heard: Default::default(),
        }
    }

    fn seal_response(&mut self, message: &Message, digest: Digest) -> Result<Vec<u8>, Refusal> {
        let now = self.now;
        let sent_before = |it: &Exchange| it.sent_before(&digest, now, KEEP_MS).map(|sent| (it.number, sent.own));
        if let Some((number, own)) = self.taken.iter().find_map(sent_before) {
            return self.write_response(message, number, own);
        }
        let place = exchanges::request_of(&self.taken, message)?;
        let observes = message.value(OBSERVE).is_some();
        let is_nonce_used = self.taken[place].sent.iter().any(|it| it.own.is_none());
        let own = if observes || is_nonce_used { Some(self.numbers.take()?) } else { None };
        let to = &mut self.taken[place];
        to.sent.retain(|it| it.own.is_none() != own.is_none());
        to.sent.push(Sent { digest, at: now, own });
        let number = to.number;
        exchanges::answered(&mut self.taken, place, observes, now);
        self.write_response(message, number, own)
    }

    fn write_request(&self, message: &Message, number: u64) -> Result<Vec<u8>, Refusal> {
        let piv = piv_of(number);
        let of = Binding { id: &self.sender, piv: &piv, kid: &self.sender, request_piv: &piv };
        let sealed = self.cipher.seal(&of, &message.text(|it| !is_outer(it)))?;
        let value = Value { kid: Some(self.sender.clone()), id_context: self.id_context.clone(), piv };
        let code = if message.value(OBSERVE).is_some() { FETCH } else { POST };
        message::write(&message.head, code, outside(message, value.written()), &sealed)
    }

    fn write_response(&self, message: &Message, number: u64, own: Option<u64>) -> Result<Vec<u8>, Refusal> {
        let request_piv = piv_of(number);
        let value = Value { piv: own.map(piv_of).unwrap_or_default(), ..Value::default() };
        let (id, piv) = if own.is_some() { (&self.sender, &value.piv) } else { (&self.recipient, &request_piv) };
        let of = Binding { id, piv, kid: &self.recipient, request_piv: &request_piv };
        let empty = |it: &message::Opt| (it.0, if it.0 == OBSERVE { Vec::new() } else { it.1.clone() });
        let options = message.options.iter().map(empty).collect();
        let payload = message.payload.clone();
        let inner = Message { head: message.head.clone(), code: message.code, options, payload };
        let sealed = self.cipher.seal(&of, &inner.text(|it| !is_outer(it)))?;
        let code = if message.value(OBSERVE).is_some() { CONTENT } else { CHANGED };
        message::write(&message.head, code, outside(message, value.written()), &sealed)
    }

    /// Opens what came.
    pub fn open(&mut self, now: u64, datagram: &[u8]) -> Result<Datagram, Refusal> {
        self.now = self.now.max(now);
        let message = message::read(datagram)?;
        if message.code == 0 {
            return Ok(Datagram { kind: Kind::Passed, bytes: datagram.to_vec() });
        }
        if !message.is_request() && !message.is_response() {
            return Err(Refusal::Malformed);
        }
        let asks = message.is_request();
        let unprotected = if asks { Refusal::UnprotectedRequest } else { Refusal::UnprotectedResponse };
        let value = Value::read(message.value(OSCORE).ok_or(unprotected)?)?;
        if asks {
            self.open_request(&message, &value)
        } else {
            self.open_response(&message, &value)
        }
    }

    /// Whether this request names the context.
    pub fn names(&self, datagram: &[u8]) -> bool {
        let value = message::read(datagram).map(|it| it.value(OSCORE).map(Value::read));
        matches!(value, Ok(Some(Ok(it))) if it.kid.is_some() && self.is_named(&it))
    }

    fn is_named(&self, value: &Value) -> bool {
        let is_own = value.id_context.is_empty() || value.id_context == self.id_context;
        value.kid.as_ref() == Some(&self.recipient) && is_own
    }

    fn open_request(&mut self, message: &Message, value: &Value) -> Result<Datagram, Refusal> {
        let (false, Some(kid)) = (value.piv.is_empty(), &value.kid) else { return Err(Refusal::Malformed) };
        if !self.is_named(value) {
            return Err(Refusal::OtherContext);
        }
        let number = message::number_of(&value.piv);
        let is_new = self.numbers.is_new(number);
        let is_copy = |it: &Exchange| it.number == number && it.is_copy(&message.head, self.now);
        if !is_new && !self.taken.iter().any(is_copy) {
            return Err(Refusal::Replayed);
        }
        let of = Binding { id: kid, piv: &value.piv, kid, request_piv: &value.piv };
        let inner = message::read_inner(&message.head, &self.cipher.open(&of, &message.payload)?)?;
        if !inner.is_request() {
            return Err(Refusal::Malformed);
        }
        let made = self.exchange(message, &inner, number);
        let bytes = merged(message, inner)?;
        if !is_new {
            return Ok(Datagram { kind: Kind::Copy, bytes });
        }
        let place = exchanges::place_of_taken(&self.taken, &made, self.now)?;
        self.numbers.note(number)?;
        exchanges::put_taken(&mut self.taken, made, place);
        Ok(Datagram { kind: Kind::Done, bytes })
    }

    /// The place of the request to which this is a response, and what it says.
    fn opened(&self, message: &Message, value: &Value) -> Result<(usize, Vec<u8>), Refusal> {
        let mut why = Refusal::Unasked;
        for (place, asked) in self.asked.iter().enumerate() {
            if asked.head.token != message.head.token {
                continue;
            }
            let request_piv = piv_of(asked.number);
            let is_own = !value.piv.is_empty();
            let (id, piv) = if is_own { (&self.recipient, &value.piv) } else { (&self.sender, &request_piv) };
            let of = Binding { id, piv, kid: &self.sender, request_piv: &request_piv };
            match self.cipher.open(&of, &message.payload) {
                Ok(text) => return Ok((place, text)),
                Err(Refusal::Forged) => why = Refusal::Forged,
                Err(other) => return Err(other),
            }
        }
        Err(why)
    }

    fn open_response(&mut self, message: &Message, value: &Value) -> Result<Datagram, Refusal> {
        if value.kid.is_some() && !self.is_named(value) {
            return Err(Refusal::OtherContext);
        }
        let (place, text) = self.opened(message, value)?;
        let mut inner = message::read_inner(&message.head, &text)?;
        let to = &mut self.asked[place];
        if !inner.is_response() || (inner.value(OBSERVE).is_some() && !to.registers()) {
            return Err(Refusal::Malformed);
        }
        let own = message::number_of(&value.piv);
        let is_copy = to.hear(&message.head, if value.piv.is_empty() { 0 } else { own + 1 })?;
        to.used = self.now;
        let fresh = own & FRESHNESS;
        for it in inner.options.iter_mut().filter(|it| it.0 == OBSERVE) {
            it.1 = if fresh == 0 { Vec::new() } else { piv_of(fresh) };
        }
        let kind = if is_copy { Kind::Copy } else { Kind::Done };
        Ok(Datagram { kind, bytes: merged(message, inner)? })
    }
}
