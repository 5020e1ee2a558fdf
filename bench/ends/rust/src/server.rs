//! A server in plain Rust: the same table of checks and methods, without observation and deferral.

use crate::block::Block;
use crate::codec::{Head, Kind, Token, View, decode};
use crate::message::*;
use std::collections::{HashMap, VecDeque};

/// For so long a message is remembered, and a partial body is kept, in milliseconds.
const LIFETIME: u64 = 247_000;
/// So many messages are remembered at most, where no other number is chosen.
const DEFAULT_REMEMBERED: usize = 4_096;
/// The size exponent of the server's blocks.
const SZX: u8 = 6;
const MAX_BODY: usize = 1_048_576;
const MAX_SEGMENTS: usize = 16;

type Key = (Endpoint, u16);
type Path = Vec<Vec<u8>>;

/// What a path holds.
struct Resource {
    path: Path,
    version: u64,
    format: Option<u16>,
    body: Vec<u8>,
}

/// The blocks of a body that is not whole.
struct Partial {
    from: Endpoint,
    path: Path,
    method: u8,
    body: Vec<u8>,
    last: u64,
}

/// A request as it is served.
struct Request<'a> {
    method: u8,
    options: &'a Options<'a>,
    body: &'a [u8],
}

pub struct Server {
    most: usize,
    replies: HashMap<Key, Vec<u8>>,
    order: VecDeque<(u64, Key)>,
    resources: Vec<Resource>,
    partials: Vec<Partial>,
    version: u64,
    waiting: VecDeque<(Endpoint, Vec<u8>)>,
}

fn is_path(path: &[Vec<u8>], segments: &[&[u8]]) -> bool {
    path.iter().map(Vec::as_slice).eq(segments.iter().copied())
}

fn owned(segments: &[&[u8]]) -> Path {
    segments.iter().map(|segment| segment.to_vec()).collect()
}

/// A response without options.
fn coded(code: u8) -> (u8, Content<'static>) {
    (code, Content::default())
}

impl Default for Server {
    fn default() -> Server {
        Server::new(DEFAULT_REMEMBERED)
    }
}

impl Server {
    /// A server that remembers at most so many messages.
    pub fn new(most: usize) -> Server {
        Server {
            most,
            replies: HashMap::new(),
            order: VecDeque::new(),
            resources: Vec::new(),
            partials: Vec::new(),
            version: 0,
            waiting: VecDeque::new(),
        }
    }

    /// Has a path hold a body of format 0.
    pub fn set(&mut self, path: &[&[u8]], body: &[u8]) {
        self.put(path, Some(0), body);
    }

    pub fn next_out(&mut self) -> Option<(Endpoint, Vec<u8>)> {
        self.waiting.pop_front()
    }

    fn forget(&mut self, now: u64) {
        while let Some((at, key)) = self.order.front() {
            if now - at <= LIFETIME {
                return;
            }
            self.replies.remove(key);
            self.order.pop_front();
        }
    }

    pub fn feed(&mut self, now: u64, from: Endpoint, bytes: &[u8]) {
        self.forget(now);
        let Ok(message) = decode(bytes) else {
            return;
        };
        if message.kind != Kind::Con || !(1..32).contains(&message.code) {
            return;
        }
        let key = (from, message.id);
        if let Some(reply) = self.replies.get(&key) {
            self.waiting.push_back((from, reply.clone()));
            return;
        }
        if self.replies.len() >= self.most {
            return;
        }
        let reply = self.reply(now, from, &message);
        self.replies.insert(key, reply.clone());
        self.order.push_back((now, key));
        self.waiting.push_back((from, reply));
    }

    fn reply(&mut self, now: u64, from: Endpoint, message: &View<'_>) -> Vec<u8> {
        let options = Options::of(message);
        let head = |code| Head {
            kind: Kind::Ack,
            code,
            id: message.id,
            token: Token::new(message.token).expect("a token has at most 8 bytes"),
        };
        let block1 = match self.check(&options, message) {
            Ok(block1) => block1,
            Err(code) => return spell(&head(code), &Content::default()),
        };
        let Some(block) = block1 else {
            let (code, content) = self.serve(&Request {
                method: message.code,
                options: &options,
                body: message.payload,
            });
            return spell(&head(code), &content);
        };
        match self.join(now, from, message, &options, block) {
            Err((code, block1)) => spell(
                &head(code),
                &Content {
                    block1,
                    ..Content::default()
                },
            ),
            Ok(body) => {
                let (code, content) = self.serve(&Request {
                    method: message.code,
                    options: &options,
                    body: &body,
                });
                spell(
                    &head(code),
                    &Content {
                        block1: Some(block),
                        ..content
                    },
                )
            }
        }
    }

    /// The Block1 of a request that passes the checks.
    fn check(&self, options: &Options<'_>, message: &View<'_>) -> Result<Option<Block>, u8> {
        if options.is_bad {
            return Err(BAD_OPTION);
        }
        if options.is_proxied {
            return Err(PROXYING_NOT_SUPPORTED);
        }
        if !(GET..=DELETE).contains(&message.code) {
            return Err(METHOD_NOT_ALLOWED);
        }
        if options.path.len() > MAX_SEGMENTS || options.block2 == Some(Err(())) {
            return Err(BAD_REQUEST);
        }
        match options.block1 {
            None => Ok(None),
            Some(Ok(block)) if matches!(message.code, PUT | POST) => Ok(Some(block)),
            Some(_) => Err(BAD_REQUEST),
        }
    }

    /// Takes a block: the body that it makes whole, or the response.
    fn join(
        &mut self,
        now: u64,
        from: Endpoint,
        message: &View<'_>,
        options: &Options<'_>,
        block: Block,
    ) -> Result<Vec<u8>, (u8, Option<Block>)> {
        let payload = message.payload;
        let is_sized = if block.more {
            payload.len() == block.size()
        } else {
            payload.len() <= block.size()
        };
        if !is_sized {
            return Err((BAD_REQUEST, None));
        }
        self.partials
            .retain(|partial| now - partial.last <= LIFETIME);
        let found = self.partials.iter().position(|partial| {
            partial.from == from
                && partial.method == message.code
                && is_path(&partial.path, &options.path)
        });
        let offset = block.offset();
        let held = found.map_or(0, |at| self.partials[at].body.len());
        if block.num > 0 && (found.is_none() || held != offset) {
            return Err((INCOMPLETE, None));
        }
        if offset + payload.len() > MAX_BODY {
            found.map(|at| self.partials.remove(at));
            return Err((TOO_LARGE, None));
        }
        let mut body = match found {
            Some(at) if block.more && block.num > 0 => {
                let partial = &mut self.partials[at];
                partial.body.extend_from_slice(payload);
                partial.last = now;
                return Err((CONTINUE, Some(block)));
            }
            Some(at) => self.partials.remove(at).body,
            None => Vec::new(),
        };
        if block.num == 0 {
            body.clear();
        }
        body.extend_from_slice(payload);
        if !block.more {
            return Ok(body);
        }
        self.partials.push(Partial {
            from,
            path: owned(&options.path),
            method: message.code,
            body,
            last: now,
        });
        let szx = block.szx.min(SZX);
        Err((CONTINUE, Some(Block { szx, ..block })))
    }

    fn serve<'a>(&'a mut self, request: &Request<'_>) -> (u8, Content<'a>) {
        let options = request.options;
        let found = self
            .resources
            .iter()
            .position(|resource| is_path(&resource.path, &options.path));
        let tag = found.map(|at| self.resources[at].version.to_be_bytes());
        let is_matched = |value: &&[u8]| tag.is_some_and(|tag| value.is_empty() || *value == tag);
        if !options.if_match.is_empty() && !options.if_match.iter().any(is_matched) {
            return coded(PRECONDITION_FAILED);
        }
        if options.if_none_match && found.is_some() {
            return coded(PRECONDITION_FAILED);
        }
        match (request.method, found) {
            (GET, Some(at)) => shown(&self.resources[at], options),
            (PUT, _) => {
                self.put(&options.path, options.format, request.body);
                coded(if found.is_some() { CHANGED } else { CREATED })
            }
            (POST, Some(at)) => {
                self.version += 1;
                let resource = &mut self.resources[at];
                resource.version = self.version;
                resource.body.extend_from_slice(request.body);
                coded(CHANGED)
            }
            (DELETE, Some(at)) => {
                self.version += 1;
                self.resources.remove(at);
                coded(DELETED)
            }
            (DELETE, None) => coded(DELETED),
            _ => coded(NOT_FOUND),
        }
    }

    fn put(&mut self, path: &[&[u8]], format: Option<u16>, body: &[u8]) {
        self.version += 1;
        let version = self.version;
        let found = self
            .resources
            .iter_mut()
            .find(|resource| is_path(&resource.path, path));
        match found {
            Some(resource) => {
                resource.version = version;
                resource.format = format;
                resource.body = body.to_vec();
            }
            None => self.resources.push(Resource {
                path: owned(path),
                version,
                format,
                body: body.to_vec(),
            }),
        }
    }
}

/// The response to a GET of a resource.
fn shown<'a>(resource: &'a Resource, options: &Options<'_>) -> (u8, Content<'a>) {
    if options.accept.is_some() && options.accept != resource.format {
        return coded(NOT_ACCEPTABLE);
    }
    let tag = Some(resource.version.to_be_bytes());
    if options
        .tags
        .iter()
        .any(|value| tag.is_some_and(|tag| *value == tag))
    {
        return (
            VALID,
            Content {
                tag,
                ..Content::default()
            },
        );
    }
    let asked = options.block2.and_then(Result::ok);
    let szx = asked.map_or(SZX, |block| block.szx.min(SZX));
    let offset = asked.map_or(0, Block::offset);
    if offset > 0 && offset >= resource.body.len() {
        return coded(BAD_REQUEST);
    }
    let (block, payload) = Block::of(&resource.body, offset, szx);
    let is_told = asked.is_some() || resource.body.len() > block.size();
    let content = Content {
        tag,
        format: resource.format,
        block2: is_told.then_some(block),
        payload,
        ..Content::default()
    };
    (CONTENT, content)
}
