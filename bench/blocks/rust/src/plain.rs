//! Block-wise transfers (RFC 7959) in plain Rust: what the proved ones are compared with. They make
//! the same tests and keep what an undo would need no more than Rust programs do.

const MAX_BODY_LEN: usize = 65_536;
const MAX_PARTIALS: usize = 16;
const PARTIAL_LIFETIME_MS: u64 = 247_000;
const MAX_RESTARTS: u8 = 3;

#[derive(Clone, Copy, PartialEq, Eq)]
pub struct Block {
    pub num: u32,
    pub more: bool,
    pub szx: u8,
}

impl Block {
    fn size(self) -> usize {
        1 << (self.szx + 4)
    }

    fn offset(self) -> usize {
        self.num as usize * self.size()
    }
}

/// The bytes of a body that a block carries.
fn slice(body: &[u8], block: Block) -> &[u8] {
    let end = (block.offset() + block.size()).min(body.len());
    &body[block.offset()..end]
}

struct Upload {
    body: Vec<u8>,
    num: u32,
    szx: u8,
}

impl Upload {
    fn next(&self) -> (Block, &[u8]) {
        let mut block = Block {
            num: self.num,
            more: false,
            szx: self.szx,
        };
        block.more = block.offset() + block.size() < self.body.len();
        (block, slice(&self.body, block))
    }

    fn accepted(&mut self, answer: Block) -> bool {
        let (sent, _) = self.next();
        let smaller = self.num == 0 && answer.szx < self.szx;
        if !sent.more || answer.num != self.num || !answer.more {
            return false;
        }
        if answer.szx != self.szx && !smaller {
            return false;
        }
        self.num = ((sent.offset() + sent.size()) / answer.size()) as u32;
        self.szx = answer.szx;
        true
    }
}

#[derive(Clone, PartialEq, Eq)]
pub struct Key {
    from: ([u8; 4], u16),
    path: Vec<Vec<u8>>,
    method: u8,
}

struct Partial {
    key: Key,
    bytes: Vec<u8>,
    last: u64,
}

pub struct Assembly {
    szx: u8,
    clock: u64,
    partials: Vec<Partial>,
}

pub enum Took {
    More(Block),
    Whole(Vec<u8>),
    Refused(u8),
}

impl Assembly {
    fn take(&mut self, now: u64, key: &Key, block: Block, payload: &[u8]) -> Took {
        self.clock = self.clock.max(now);
        let clock = self.clock;
        self.partials
            .retain(|partial| clock - partial.last <= PARTIAL_LIFETIME_MS);
        let at = self.partials.iter().position(|partial| partial.key == *key);
        let sized = if block.more {
            payload.len() == block.size()
        } else {
            payload.len() <= block.size()
        };
        if !sized {
            return Took::Refused(0x80);
        }
        let reached = at.map(|at| self.partials[at].bytes.len());
        if block.num > 0 && reached != Some(block.offset()) {
            return Took::Refused(0x88);
        }
        if block.offset() + payload.len() > MAX_BODY_LEN {
            if let Some(at) = at {
                self.partials.remove(at);
            }
            return Took::Refused(0x8d);
        }
        if !block.more {
            return Took::Whole(self.whole(at, block, payload));
        }
        self.join(at, key, block, payload)
    }

    fn whole(&mut self, at: Option<usize>, block: Block, payload: &[u8]) -> Vec<u8> {
        let partial = at.map(|at| self.partials.remove(at));
        match partial {
            Some(partial) if block.num > 0 => [&partial.bytes, payload].concat(),
            _ => payload.to_vec(),
        }
    }

    fn join(&mut self, at: Option<usize>, key: &Key, block: Block, payload: &[u8]) -> Took {
        match at {
            Some(at) => {
                let partial = &mut self.partials[at];
                if block.num == 0 {
                    partial.bytes.clear();
                }
                partial.bytes.extend_from_slice(payload);
                partial.last = self.clock;
            }
            None if self.partials.len() >= MAX_PARTIALS => return Took::Refused(0xa3),
            None => self.partials.push(Partial {
                key: key.clone(),
                bytes: payload.to_vec(),
                last: self.clock,
            }),
        }
        let szx = if block.num == 0 {
            block.szx.min(self.szx)
        } else {
            block.szx
        };
        Took::More(Block { szx, ..block })
    }
}

struct Fetch {
    szx: u8,
    bytes: Vec<u8>,
    asked: Option<Block>,
    tag: Option<Vec<u8>>,
    restarts: u8,
}

enum Step {
    Next(Block),
    Whole(Vec<u8>),
    Restart,
    Refused,
}

impl Fetch {
    fn accept(&mut self, block: Block, tag: Option<&[u8]>, payload: &[u8]) -> Step {
        let fits = match self.asked {
            None => block.num == 0,
            Some(asked) => block.num == asked.num && block.szx == asked.szx,
        };
        let sized = if block.more {
            payload.len() == block.size()
        } else {
            payload.len() <= block.size() && (block.num == 0 || !payload.is_empty())
        };
        let end = block.offset() + payload.len();
        let several = block.more || block.num > 0;
        if !fits || !sized || end > MAX_BODY_LEN || (several && tag.is_none()) {
            return Step::Refused;
        }
        if self.asked.is_some() && self.tag.as_deref() != tag {
            return self.restart();
        }
        if !block.more {
            let whole = [&self.bytes, payload].concat();
            self.bytes.clear();
            self.asked = None;
            self.restarts = 0;
            return Step::Whole(whole);
        }
        self.bytes.extend_from_slice(payload);
        self.tag = tag.map(<[u8]>::to_vec);
        let mut next = Block {
            num: 0,
            more: false,
            szx: block.szx.min(self.szx),
        };
        next.num = (end / next.size()) as u32;
        self.asked = Some(next);
        Step::Next(next)
    }

    fn restart(&mut self) -> Step {
        if self.restarts == MAX_RESTARTS {
            return Step::Refused;
        }
        self.bytes.clear();
        self.asked = None;
        self.restarts += 1;
        Step::Restart
    }
}

fn send(assembly: &mut Assembly, key: &Key, body: &[u8], szx: u8) -> usize {
    let mut upload = Upload {
        body: body.to_vec(),
        num: 0,
        szx,
    };
    loop {
        let (block, payload) = upload.next();
        match assembly.take(0, key, block, payload) {
            Took::More(answer) => assert!(upload.accepted(answer)),
            Took::Whole(whole) => return whole.len(),
            Took::Refused(code) => panic!("refused with {code:x}"),
        }
    }
}

/// Carries a body from a client to a server, again and again: the sum of the lengths.
pub fn upload(body: &[u8], szx: u8, rounds: usize) -> u64 {
    let key = Key {
        from: ([192, 0, 2, 1], 5683),
        path: vec![b"sensors".to_vec()],
        method: 3,
    };
    let mut assembly = Assembly {
        szx,
        clock: 0,
        partials: Vec::new(),
    };
    (0..rounds)
        .map(|_| send(&mut assembly, &key, body, szx) as u64)
        .sum()
}

fn get(fetch: &mut Fetch, body: &[u8], szx: u8) -> usize {
    let mut asked = Block {
        num: 0,
        more: false,
        szx,
    };
    loop {
        let more = asked.offset() + asked.size() < body.len();
        let block = Block { more, ..asked };
        match fetch.accept(block, Some(&[1]), slice(body, block)) {
            Step::Next(next) => asked = next,
            Step::Whole(whole) => return whole.len(),
            Step::Restart | Step::Refused => panic!("refused"),
        }
    }
}

/// Carries a body from a server to a client, again and again: the sum of the lengths.
pub fn fetch(body: &[u8], szx: u8, rounds: usize) -> u64 {
    let mut fetch = Fetch {
        szx,
        bytes: Vec::new(),
        asked: None,
        tag: None,
        restarts: 0,
    };
    (0..rounds).map(|_| get(&mut fetch, body, szx) as u64).sum()
}
