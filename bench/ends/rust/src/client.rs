//! A client in plain Rust: one request at a time, and bodies in blocks.

use crate::block::Block;
use crate::codec::{Head, Kind, Token, View, decode};
use crate::message::*;

/// The size exponent of the client's blocks.
const SZX: u8 = 6;

/// What became of a request.
#[derive(Debug, PartialEq, Eq)]
pub enum Report {
    Body(Vec<u8>),
    Done(u8),
    Failed(u8),
}

/// The request that runs.
struct Running {
    method: u8,
    path: Vec<Vec<u8>>,
    /// What is sent, or what came so far.
    body: Vec<u8>,
    offset: usize,
    szx: u8,
    tag: Option<Vec<u8>>,
}

/// A Confirmable message that waits for its acknowledgement, for its retransmissions.
struct Outstanding {
    id: u16,
    token: u64,
    bytes: Vec<u8>,
    since: u64,
}

#[derive(Default)]
pub struct Client {
    token: u64,
    id: u16,
    running: Option<Running>,
    outstanding: Option<Outstanding>,
    waiting: Option<Vec<u8>>,
    report: Option<Report>,
}

impl Client {
    pub fn put(&mut self, now: u64, path: &[&[u8]], body: &[u8]) {
        self.start(now, PUT, path, body.to_vec());
    }

    pub fn get(&mut self, now: u64, path: &[&[u8]]) {
        self.start(now, GET, path, Vec::new());
    }

    pub fn next_out(&mut self) -> Option<Vec<u8>> {
        self.waiting.take()
    }

    pub fn next_report(&mut self) -> Option<Report> {
        self.report.take()
    }

    fn start(&mut self, now: u64, method: u8, path: &[&[u8]], body: Vec<u8>) {
        self.running = Some(Running {
            method,
            path: path.iter().map(|segment| segment.to_vec()).collect(),
            body,
            offset: 0,
            szx: SZX,
            tag: None,
        });
        self.send(now);
    }

    /// Sends the block that is next.
    fn send(&mut self, now: u64) {
        let Some(running) = &self.running else {
            return;
        };
        let content = running.next();
        let head = Head {
            kind: Kind::Con,
            code: running.method,
            id: self.id,
            token: Token::new(&self.token.to_be_bytes()).expect("a token has at most 8 bytes"),
        };
        let bytes = spell(&head, &content);
        self.outstanding = Some(Outstanding {
            id: self.id,
            token: self.token,
            bytes: bytes.clone(),
            since: now,
        });
        self.waiting = Some(bytes);
        self.id = self.id.wrapping_add(1);
        self.token = self.token.wrapping_add(1);
    }

    pub fn feed(&mut self, now: u64, bytes: &[u8]) {
        let Ok(message) = decode(bytes) else {
            return;
        };
        let is_answer = self.outstanding.as_ref().is_some_and(|sent| {
            message.kind == Kind::Ack
                && message.id == sent.id
                && message.token == sent.token.to_be_bytes()
                && now >= sent.since
                && !sent.bytes.is_empty()
        });
        if is_answer {
            self.outstanding = None;
            self.take(now, &message);
        }
    }

    fn take(&mut self, now: u64, message: &View<'_>) {
        let Some(mut running) = self.running.take() else {
            return;
        };
        let report = match message.code {
            CONTINUE => running.accept(message),
            CONTENT => running.join(message),
            code if code >> 5 == 2 => Some(Report::Done(code)),
            code => Some(Report::Failed(code)),
        };
        if report.is_some() {
            self.report = report;
        } else {
            self.running = Some(running);
            self.send(now);
        }
    }
}

impl Running {
    fn next(&self) -> Content<'_> {
        let path = &self.path;
        if self.method == GET {
            let block = Block {
                num: (self.offset >> (self.szx + 4)) as u32,
                more: false,
                szx: self.szx,
            };
            let block2 = (self.offset > 0).then_some(block);
            return Content {
                path,
                block2,
                ..Content::default()
            };
        }
        let (block, payload) = Block::of(&self.body, self.offset, self.szx);
        let block1 = (block.more || block.num > 0).then_some(block);
        Content {
            path,
            block1,
            payload,
            ..Content::default()
        }
    }

    /// The server has the block that was sent.
    fn accept(&mut self, message: &View<'_>) -> Option<Report> {
        match Options::of(message).block1 {
            Some(Ok(block)) if block.more && block.szx <= self.szx => {
                self.offset += 16 << self.szx;
                self.szx = block.szx;
                None
            }
            _ => Some(Report::Failed(message.code)),
        }
    }

    /// A part of the body came.
    fn join(&mut self, message: &View<'_>) -> Option<Report> {
        let options = Options::of(message);
        let tag = options.tags.first().map(|tag| tag.to_vec());
        if self.offset > 0 && tag != self.tag {
            return Some(Report::Failed(message.code));
        }
        self.tag = tag;
        match options.block2 {
            None => Some(Report::Body(message.payload.to_vec())),
            Some(Ok(block)) if block.offset() == self.body.len() => {
                self.body.extend_from_slice(message.payload);
                self.offset = self.body.len();
                self.szx = block.szx;
                (!block.more).then(|| Report::Body(std::mem::take(&mut self.body)))
            }
            Some(_) => Some(Report::Failed(message.code)),
        }
    }
}
