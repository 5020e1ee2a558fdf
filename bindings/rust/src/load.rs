//! How much an end has at a moment, and what a datagram would be.

use crate::raw;

/// How much an end has at a moment. What an end of the other kind has alone is 0.
#[derive(Clone, Copy, Debug, PartialEq, Eq)]
#[non_exhaustive]
pub struct Load {
    /// Message IDs that can be given now, one after the other. At 0 nothing new can be sent.
    pub ids_left: u32,
    /// Of a server: changes that its store can take now, one after the other.
    pub changes_left: u64,
    /// Messages that are remembered, to tell repeats.
    pub remembered: u64,
    /// How many can be. With as many, new messages go unanswered.
    pub remembered_most: u64,
    /// Confirmable messages that are not acknowledged yet.
    pub outstanding: u64,
    /// Datagrams that wait for `poll_transmit`.
    pub queued: u64,
    /// Of a server: observers, 64 at most.
    pub observers: u64,
    /// Of a server: uploads that are not whole yet, 16 at most.
    pub partial: u64,
    /// Of a server: requests that wait for their separate responses, 16 at most.
    pub deferred: u64,
    /// Of a server: paths that hold something, 256 at most.
    pub paths: u64,
    /// Of a server: paths with a delay, 16 at most.
    pub delays: u64,
    /// Of a server: plain paths, 16 at most.
    pub plains: u64,
    /// Of a client: calls and cancels that wait, 8 at most.
    pub waiting: u64,
    /// Of a client: live observations, 16 at most.
    pub observations: u64,
    /// Of a client: reports that wait for `poll_report`.
    pub reports: u64,
}

// A struct to be written.
pub(crate) fn empty() -> raw::ks_end_load {
    raw::ks_end_load { size: std::mem::size_of::<raw::ks_end_load>() as u32, ..raw::ks_end_load::default() }
}

impl Load {
    pub(crate) fn of(told: &raw::ks_end_load) -> Load {
        Load {
            ids_left: told.ids_left,
            changes_left: told.changes_left,
            remembered: told.remembered,
            remembered_most: told.remembered_most,
            outstanding: told.outstanding,
            queued: told.queued,
            observers: told.observers,
            partial: told.partial,
            deferred: told.deferred,
            paths: told.paths,
            delays: told.delays,
            plains: told.plains,
            waiting: told.waiting,
            observations: told.observations,
            reports: told.reports,
        }
    }
}

/// What a datagram would be if it were handed in now.
#[derive(Clone, Copy, Debug, PartialEq, Eq)]
#[non_exhaustive]
pub enum Would {
    /// Silently ignored.
    Ignore,
    /// Answered with a Reset.
    Reject,
    /// A repeat of what is remembered: the stored reply goes out again, if there is one.
    Repeat,
    /// New: handed up.
    Take,
    /// New, but dropped: as many messages are remembered as can be.
    NoPlace,
    /// A Non-confirmable request that is not served, as no Message ID is free for its answer.
    NoId,
    /// An acknowledgement of what is outstanding, and no more.
    Acknowledge,
    /// A Reset, of what is outstanding or of what is not.
    Reset,
}

impl Would {
    pub(crate) fn of(answer: i32) -> Would {
        match answer {
            raw::KS_WOULD_REJECT => Would::Reject,
            raw::KS_WOULD_REPEAT => Would::Repeat,
            raw::KS_WOULD_TAKE => Would::Take,
            raw::KS_WOULD_NO_PLACE => Would::NoPlace,
            raw::KS_WOULD_NO_ID => Would::NoId,
            raw::KS_WOULD_ACKNOWLEDGE => Would::Acknowledge,
            raw::KS_WOULD_RESET => Would::Reset,
            _ => Would::Ignore,
        }
    }
}
