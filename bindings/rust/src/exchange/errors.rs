//! Why an exchange does not do what it is asked for. After each of these nothing was sent, and what may be answered may
//! still be.

use crate::{raw, raw_exchange};
use std::error::Error;
use std::fmt;

errors! {
    /// Why a message can't be sent as it is.
    MessageError {
        /// It has over 1,152 bytes, or would have with a token of 8 bytes.
        TooLong = "the message has over 1,152 bytes",
    }

    /// Why an answer is not sent.
    AnswerError {
        /// An allocation was refused.
        Memory = "out of memory",
        /// It is not the request that the last `handle` told.
        NotAsked = "it is not the request that was told last",
        /// It was answered, or deferred, already.
        Given = "it was answered, or deferred, already",
        /// The code is not of class 2 to 5, or the message has over 1,152 bytes with the request's token.
        BadResponse = "the code is not of class 2 to 5, or the message is too long",
    }

    /// Why a request is not deferred.
    DeferError {
        /// It is not the request that the last `handle` told.
        NotAsked = "it is not the request that was told last",
        /// It was answered, or deferred, already.
        Given = "it was answered, or deferred, already",
        /// A Non-confirmable request is answered at once (RFC 7252, section 5.2.3).
        NotConfirmable = "a Non-confirmable request is answered at once",
        /// 16 requests are deferred: answer this one now, as by 5.03.
        Full = "16 requests are deferred",
    }

    /// Why the answer to a deferred request is not sent.
    RespondError {
        /// An allocation was refused.
        Memory = "out of memory",
        /// The last `handle_timeout` did not call it ready, or something was handed in since.
        NotReady = "the request is not ready",
        /// It was answered already.
        Given = "it was answered already",
        /// The code is not of class 2 to 5, or the message has over 1,152 bytes with the request's token.
        BadResponse = "the code is not of class 2 to 5, or the message is too long",
    }

    /// Why a request is not sent.
    AskError {
        /// An allocation was refused.
        Memory = "out of memory",
        /// An exchange runs: await its answer (NSTART is 1: RFC 7252, section 4.7).
        Running = "an exchange runs",
        /// Each token was given once.
        TokensSpent = "the tokens are spent",
        /// No Message ID is free (RFC 7252, section 4.4).
        NoIds = "no Message ID is free",
        /// The code is none of GET, POST, PUT and DELETE, or the message has over 1,152 bytes with a token of 8 bytes.
        BadRequest = "the code is none of GET, POST, PUT and DELETE, or the message is too long",
    }

    /// Why a notification is not sent.
    NotifyError {
        /// An allocation was refused.
        Memory = "out of memory",
        /// A Confirmable message to there is outstanding, or no Message ID is free (RFC 7252, sections 4.4 and 4.7).
        NotReady = "a message to there is outstanding, or no Message ID is free",
        /// The code is not of class 2 to 5, or the message has over 1,152 bytes with the token.
        BadResponse = "the code is not of class 2 to 5, or the message is too long",
    }
}

pub(super) fn answered(answer: i32) -> Result<(), AnswerError> {
    match answer {
        raw::KS_OK => Ok(()),
        raw_exchange::KS_ANSWER_NOT_ASKED => Err(AnswerError::NotAsked),
        raw_exchange::KS_ANSWER_GIVEN => Err(AnswerError::Given),
        raw_exchange::KS_ANSWER_BAD_RESPONSE => Err(AnswerError::BadResponse),
        _ => Err(AnswerError::Memory),
    }
}

pub(super) fn deferred(answer: i32) -> Result<(), DeferError> {
    match answer {
        raw::KS_OK => Ok(()),
        raw_exchange::KS_ANSWER_GIVEN => Err(DeferError::Given),
        raw_exchange::KS_ANSWER_NOT_CONFIRMABLE => Err(DeferError::NotConfirmable),
        raw_exchange::KS_ANSWER_DEFERRALS_FULL => Err(DeferError::Full),
        _ => Err(DeferError::NotAsked),
    }
}

pub(super) fn responded(answer: i32) -> Result<(), RespondError> {
    match answer {
        raw::KS_OK => Ok(()),
        raw_exchange::KS_ANSWER_NOT_READY => Err(RespondError::NotReady),
        raw_exchange::KS_ANSWER_GIVEN => Err(RespondError::Given),
        raw_exchange::KS_ANSWER_BAD_RESPONSE => Err(RespondError::BadResponse),
        _ => Err(RespondError::Memory),
    }
}

pub(super) fn asked(answer: i32) -> Result<(), AskError> {
    match answer {
        raw::KS_OK => Ok(()),
        raw_exchange::KS_ASK_RUNNING => Err(AskError::Running),
        raw_exchange::KS_ASK_TOKENS_SPENT => Err(AskError::TokensSpent),
        raw_exchange::KS_ASK_NO_IDS => Err(AskError::NoIds),
        raw_exchange::KS_ASK_BAD_REQUEST => Err(AskError::BadRequest),
        _ => Err(AskError::Memory),
    }
}

pub(super) fn notified(answer: i32) -> Result<(), NotifyError> {
    match answer {
        raw::KS_OK => Ok(()),
        raw_exchange::KS_ANSWER_NOT_READY => Err(NotifyError::NotReady),
        raw_exchange::KS_ANSWER_BAD_RESPONSE => Err(NotifyError::BadResponse),
        _ => Err(NotifyError::Memory),
    }
}

macro_rules! too_long {
    ($($name:ident::$is:ident)*) => {$(
        impl From<MessageError> for $name {
            fn from(_: MessageError) -> $name {
                $name::$is
            }
        }
    )*};
}

too_long!(AnswerError::BadResponse RespondError::BadResponse NotifyError::BadResponse AskError::BadRequest);
