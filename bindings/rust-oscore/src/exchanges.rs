//! The requests that may be answered, ours and the peer's.

use std::collections::BTreeMap;

use crate::message::{Head, Message, Observe, ACK, CON, OBSERVE};
use crate::Refusal;

pub(crate) const COPY_OF_REQUEST_MS: u64 = 47_000;
pub(crate) const KEEP_MS: u64 = 247_000;
const WATCH_MS: u64 = 86_400_000 + KEEP_MS;
const ASKED: usize = 64;
const TAKEN: usize = 256;
const HEARD: usize = 8;

pub(crate) type Digest = [u8; 32];

/// What was sealed: when, and under which number of our own.
pub(crate) struct Sent {
    pub digest: Digest,
    pub at: u64,
    pub own: Option<u64>,
}

pub(crate) struct Exchange {
    pub head: Head,
    pub number: u64,
    pub observe: Option<Observe>,
    /// Of the request but for Observe and ETag.
    pub same: Digest,
    pub at: u64,
    pub used: u64,
    pub is_answered: bool,
    pub sent: Vec<Sent>,
    /// The heads of responses, by their own number and one more, or 0.
    pub heard: BTreeMap<u64, Head>,
}

impl Exchange {
    pub fn registers(&self) -> bool {
        self.observe == Some(Observe::Registers)
    }

    fn is_observation_of(&self, other: &Exchange) -> bool {
        let is_same = self.head.token == other.head.token && self.same == other.same;
        self.registers() && other.observe.is_some() && is_same
    }

    fn may_be_answered(&self, now: u64) -> bool {
        if self.registers() {
            return now - self.used < WATCH_MS;
        }
        !self.is_answered && now - self.at < KEEP_MS
    }

    pub fn is_copy(&self, head: &Head, now: u64) -> bool {
        self.head == *head && now - self.at < KEEP_MS
    }

    pub fn sent_before(&self, digest: &Digest, now: u64, longest: u64) -> Option<&Sent> {
        self.sent.iter().find(|it| it.digest == *digest && now - it.at <= longest)
    }

    /// Whether a response of this number came under this head, or, where it did not, may come.
    pub fn hear(&mut self, head: &Head, number: u64) -> Result<bool, Refusal> {
        let known = if self.registers() { self.heard.get(&number) } else { self.heard.values().next() };
        let least = self.heard.keys().next().copied().filter(|_| self.heard.len() >= HEARD);
        match known {
            Some(known) if known == head => Ok(true),
            None if least.is_none_or(|least| number > least) => {
                least.map(|least| self.heard.remove(&least));
                self.heard.insert(number, head.clone());
                Ok(false)
            }
            _ => Err(Refusal::Replayed),
        }
    }
}

/// Ours: the earlier ones of its token are answered no more, but for the observation that it cancels.
pub(crate) fn put_asked(asked: &mut Vec<Exchange>, made: Exchange) {
    let cancels = made.observe == Some(Observe::Cancels);
    asked.retain(|it| it.head.token != made.head.token || (cancels && it.is_observation_of(&made)));
    if asked.len() >= ASKED {
        let age = |i: &usize| (asked[*i].registers(), asked[*i].used, asked[*i].number);
        if let Some(oldest) = (0..asked.len()).min_by_key(age) {
            asked.swap_remove(oldest);
        }
    }
    asked.push(made);
}

/// The place of the peer's request: a new one, or the oldest which is answered no more.
pub(crate) fn place_of_taken(taken: &[Exchange], made: &Exchange, now: u64) -> Result<usize, Refusal> {
    let is_taken = |it: &Exchange| {
        it.head.token == made.head.token && it.may_be_answered(now) && !it.is_observation_of(made)
    };
    if taken.iter().any(is_taken) {
        return Err(Refusal::TokenUsed);
    }
    if taken.len() < TAKEN {
        return Ok(taken.len());
    }
    let over = (0..TAKEN).filter(|i| !taken[*i].may_be_answered(now));
    over.min_by_key(|i| (taken[*i].used, taken[*i].number)).ok_or(Refusal::Full)
}

fn end_observations(taken: &mut [Exchange], of: &Exchange) {
    for it in taken.iter_mut().filter(|it| it.number != of.number && it.is_observation_of(of)) {
        it.observe = None;
        it.is_answered = true;
    }
}

pub(crate) fn put_taken(taken: &mut Vec<Exchange>, made: Exchange, place: usize) {
    if made.registers() {
        end_observations(taken, &made);
    }
    if place < taken.len() {
        taken[place] = made;
    } else {
        taken.push(made);
    }
}

/// The request that this response of ours is to: by its Message ID, of an acknowledgement, or by its token.
pub(crate) fn request_of(taken: &[Exchange], response: &Message) -> Result<usize, Refusal> {
    let newest = |holds: &dyn Fn(&Exchange) -> bool| {
        let fits = |i: &usize| taken[*i].head.token == response.head.token && holds(&taken[*i]);
        (0..taken.len()).filter(fits).max_by_key(|i| taken[*i].number)
    };
    let found = match response.head.kind {
        ACK => newest(&|it| it.head.kind == CON && it.head.id == response.head.id),
        _ if response.value(OBSERVE).is_some() => newest(&Exchange::registers),
        _ => newest(&|it| !it.is_answered).or_else(|| newest(&Exchange::registers)),
    };
    found.ok_or(Refusal::Unasked)
}

/// The request at this place has a response.
pub(crate) fn answered(taken: &mut [Exchange], place: usize, observes: bool, now: u64) {
    if taken[place].observe == Some(Observe::Cancels) {
        let (before, rest) = taken.split_at_mut(place);
        if let Some((of, after)) = rest.split_first_mut() {
            end_observations(before, of);
            end_observations(after, of);
        }
    }
    let it = &mut taken[place];
    if !observes {
        it.observe = None;
    }
    it.is_answered = true;
    it.used = now;
}
