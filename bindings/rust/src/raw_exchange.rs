//! The calls of `knifesilver_exchange.h`, and a safe method for each. With `raw.rs` it is all that has `unsafe` in it.
//!
//! `bindings/check` compares these declarations with the header and with the library's exports, as those of `raw.rs`.

#![allow(unsafe_code, non_camel_case_types)]

use crate::raw::{ks_address, ks_handle, ks_seed, EMPTY};
use std::cell::UnsafeCell;
use std::ffi::c_void;

pub const KS_READY: i32 = 2;
pub const KS_ANSWER_NOT_ASKED: i32 = 112;
pub const KS_ANSWER_GIVEN: i32 = 113;
pub const KS_ANSWER_DEFERRALS_FULL: i32 = 114;
pub const KS_ANSWER_NOT_READY: i32 = 115;
pub const KS_ASK_RUNNING: i32 = 116;
pub const KS_ASK_TOKENS_SPENT: i32 = 117;
pub const KS_ANSWER_NOT_CONFIRMABLE: i32 = 118;
pub const KS_ANSWER_BAD_RESPONSE: i32 = 119;
pub const KS_ASK_NO_IDS: i32 = 122;
pub const KS_ASK_BAD_REQUEST: i32 = 123;

pub const KS_JOINED: i32 = 3;
pub const KS_AGAIN: i32 = 4;
pub const KS_FETCH_NO_TAG: i32 = 125;
pub const KS_FETCH_TOO_LARGE: i32 = 126;
pub const KS_FETCH_CHANGED: i32 = 127;
pub const KS_ASSEMBLY_INCOMPLETE: i32 = 129;
pub const KS_ASSEMBLY_TOO_LARGE: i32 = 130;
pub const KS_ASSEMBLY_FULL: i32 = 131;

pub const KS_RESPONSE: u8 = 16;
pub const KS_NOTIFICATION: u8 = 17;

#[repr(C)]
pub struct ks_answerer {
    handle: ks_handle,
}

#[repr(C)]
#[derive(Clone, Copy, Default)]
pub struct ks_asked {
    pub from: ks_address,
    pub id: u16,
    pub kind: u8,
    pub token_len: u8,
    pub token: [u8; 8],
}

#[repr(C)]
#[derive(Clone, Copy, Default)]
pub struct ks_request_told {
    pub payload_len: usize,
    pub asked: ks_asked,
    pub code: u8,
}

#[repr(C)]
pub struct ks_asker {
    handle: ks_handle,
}

#[repr(C)]
#[derive(Clone, Copy, Default)]
pub struct ks_token {
    pub len: u8,
    pub bytes: [u8; 8],
}

#[repr(C)]
#[derive(Clone, Copy, Default)]
pub struct ks_answer {
    pub payload_len: usize,
    pub kind: u8,
    pub code: u8,
    pub token_len: u8,
    pub token: [u8; 8],
}

#[repr(C)]
#[derive(Clone, Copy, Default)]
pub struct ks_block {
    pub num: u32,
    pub more: bool,
    pub szx: u8,
}

#[repr(C)]
#[derive(Clone, Copy, Default)]
pub struct ks_load {
    pub deferred: usize,
    pub most_deferred: usize,
    pub most_remembered: usize,
}

#[repr(C)]
#[derive(Clone, Copy, Default)]
pub struct ks_options {
    pub at: usize,
    pub end: usize,
    pub number: u16,
}

#[repr(C)]
#[derive(Clone, Copy, Default)]
pub struct ks_option {
    pub value_at: usize,
    pub value_len: usize,
    pub number: u16,
}

#[repr(C)]
pub struct ks_fetch {
    handle: ks_handle,
}

#[repr(C)]
pub struct ks_upload {
    handle: ks_handle,
}

#[repr(C)]
pub struct ks_assembly {
    handle: ks_handle,
}

#[rustfmt::skip]
extern "C" {
    fn ks_answerer_new(handle: *mut ks_answerer, remembered: u32, seed: *const ks_seed) -> i32;
    fn ks_answerer_free(handle: *mut ks_answerer);
    fn ks_answerer_feed(handle: *mut ks_answerer, now: u64, from: *const ks_address, datagram: *const c_void, datagram_len: usize, request: *mut ks_request_told) -> i32;
    fn ks_answerer_answer(handle: *mut ks_answerer, asked: *const ks_asked, message: *const c_void, message_len: usize) -> i32;
    fn ks_answerer_defer(handle: *mut ks_answerer, now: u64, asked: *const ks_asked, delay_ms: u64) -> i32;
    fn ks_answerer_respond(handle: *mut ks_answerer, asked: *const ks_asked, message: *const c_void, message_len: usize, word: u64) -> i32;
    fn ks_answerer_tick(handle: *mut ks_answerer, now: u64, asked: *mut ks_asked) -> i32;
    fn ks_answerer_due(handle: *mut ks_answerer, now: u64, at: *mut u64) -> i32;
    fn ks_answerer_next_out(handle: *mut ks_answerer, to: *mut ks_address, room: *mut c_void, room_len: usize, len: *mut usize) -> i32;
    fn ks_answerer_ready(handle: *mut ks_answerer, now: u64, to: *const ks_address) -> i32;
    fn ks_answerer_notify(handle: *mut ks_answerer, now: u64, to: *const ks_address, token: *const c_void, token_len: usize, message: *const c_void, message_len: usize, word: u64, id: *mut u16) -> i32;
    fn ks_answerer_notify_plain(handle: *mut ks_answerer, now: u64, to: *const ks_address, token: *const c_void, token_len: usize, message: *const c_void, message_len: usize, id: *mut u16) -> i32;
    fn ks_answerer_ended(handle: *mut ks_answerer, to: *mut ks_address, token: *mut ks_token, observe: *mut bool) -> i32;
    fn ks_answerer_unmatched(handle: *mut ks_answerer, from: *mut ks_address, id: *mut u16) -> i32;
    fn ks_answerer_load(handle: *mut ks_answerer, load: *mut ks_load) -> i32;
    fn ks_asker_new(handle: *mut ks_asker, server: *const ks_address, remembered: u32, seed: *const ks_seed) -> i32;
    fn ks_asker_free(handle: *mut ks_asker);
    fn ks_asker_ask(handle: *mut ks_asker, now: u64, message: *const c_void, message_len: usize, word: u64, token: *mut ks_token) -> i32;
    fn ks_asker_feed(handle: *mut ks_asker, now: u64, from: *const ks_address, datagram: *const c_void, datagram_len: usize) -> i32;
    fn ks_asker_tick(handle: *mut ks_asker, now: u64) -> i32;
    fn ks_asker_next_answer(handle: *mut ks_asker, answer: *mut ks_answer) -> i32;
    fn ks_asker_keep(handle: *mut ks_asker, token: *const c_void, token_len: usize) -> i32;
    fn ks_asker_release(handle: *mut ks_asker, token: *const c_void, token_len: usize) -> i32;
    fn ks_asker_due(handle: *mut ks_asker, now: u64, at: *mut u64) -> i32;
    fn ks_asker_next_out(handle: *mut ks_asker, to: *mut ks_address, room: *mut c_void, room_len: usize, len: *mut usize) -> i32;
    #[cfg(test)]
    fn ks_block_in(datagram: *const c_void, datagram_len: usize, number: u16, block: *mut ks_block) -> i32;
    fn ks_slice(body: *const c_void, body_len: usize, asked: *const ks_block, given: *mut ks_block, room: *mut c_void, room_len: usize, len: *mut usize) -> i32;
    fn ks_fetch_new(handle: *mut ks_fetch, block_size: u32, body_limit: u32, untagged: bool) -> i32;
    fn ks_fetch_free(handle: *mut ks_fetch);
    fn ks_fetch_accept(handle: *mut ks_fetch, datagram: *const c_void, datagram_len: usize, next: *mut ks_block, body_len: *mut usize) -> i32;
    fn ks_fetch_body(handle: *mut ks_fetch, room: *mut c_void, room_len: usize, len: *mut usize) -> i32;
    fn ks_upload_new(handle: *mut ks_upload, body: *const c_void, body_len: usize, block_size: u32) -> i32;
    fn ks_upload_free(handle: *mut ks_upload);
    fn ks_upload_next(handle: *mut ks_upload, block: *mut ks_block, room: *mut c_void, room_len: usize, len: *mut usize) -> i32;
    fn ks_upload_accepted(handle: *mut ks_upload, datagram: *const c_void, datagram_len: usize) -> i32;
    fn ks_assembly_new(handle: *mut ks_assembly, block_size: u32, body_limit: u32) -> i32;
    fn ks_assembly_free(handle: *mut ks_assembly);
    fn ks_assembly_take(handle: *mut ks_assembly, now: u64, from: *const ks_address, datagram: *const c_void, datagram_len: usize, answer: *mut ks_block, body_len: *mut usize) -> i32;
    fn ks_assembly_body(handle: *mut ks_assembly, room: *mut c_void, room_len: usize, len: *mut usize) -> i32;
    #[cfg(test)]
    fn ks_next_option(datagram: *const c_void, datagram_len: usize, place: *mut usize, number: *mut u16, room: *mut c_void, room_len: usize, value_len: *mut usize) -> i32;
    fn ks_options_begin(datagram: *const c_void, datagram_len: usize, options: *mut ks_options) -> i32;
    fn ks_options_next(datagram: *const c_void, datagram_len: usize, options: *mut ks_options, option: *mut ks_option) -> i32;
    fn ks_unknown_critical(datagram: *const c_void, datagram_len: usize, known: *const u16, known_len: usize, number: *mut u16) -> i32;
    fn ks_options_add(room: *mut c_void, room_len: usize, len: *mut usize, last: *mut u16, number: u16, value: *const c_void, value_len: usize) -> i32;
}

// SAFETY of all calls below: as in `raw.rs`.

/// The option at a place of a message.
#[cfg(test)]
pub fn next_option(datagram: &[u8], place: &mut usize, number: &mut u16, room: &mut [u8], len: &mut usize) -> i32 {
    let (at, to) = (datagram.as_ptr().cast(), room.as_mut_ptr().cast());
    unsafe { ks_next_option(at, datagram.len(), place, number, to, room.len(), len) }
}

/// Begins a reading of the options of a message.
pub fn options_begin(datagram: &[u8], options: &mut ks_options) -> i32 {
    unsafe { ks_options_begin(datagram.as_ptr().cast(), datagram.len(), options) }
}

/// The next option of a reading.
pub fn options_next(datagram: &[u8], options: &mut ks_options, option: &mut ks_option) -> i32 {
    unsafe { ks_options_next(datagram.as_ptr().cast(), datagram.len(), options, option) }
}

/// The first critical option of a message that is none of these.
pub fn unknown_critical(datagram: &[u8], known: &[u16], number: &mut u16) -> i32 {
    unsafe { ks_unknown_critical(datagram.as_ptr().cast(), datagram.len(), known.as_ptr(), known.len(), number) }
}

/// An option behind those that a message has.
pub fn options_add(room: &mut [u8], len: &mut usize, last: &mut u16, number: u16, value: &[u8]) -> i32 {
    let (to, from) = (room.as_mut_ptr().cast(), value.as_ptr().cast());
    unsafe { ks_options_add(to, room.len(), len, last, number, from, value.len()) }
}

/// The block that an option of a message says.
#[cfg(test)]
pub fn block_in(datagram: &[u8], number: u16, block: &mut ks_block) -> i32 {
    unsafe { ks_block_in(datagram.as_ptr().cast(), datagram.len(), number, block) }
}

/// The bytes of a body that a block asks for.
pub fn slice(body: &[u8], asked: &ks_block, given: &mut ks_block, room: &mut [u8], len: &mut usize) -> i32 {
    let (from, to) = (body.as_ptr().cast(), room.as_mut_ptr().cast());
    unsafe { ks_slice(from, body.len(), asked, given, to, room.len(), len) }
}

/// The handle of a server whose answers are computed, or of nothing.
pub struct Answerer(UnsafeCell<ks_answerer>);

// SAFETY: as of `raw::Server`.
unsafe impl Send for Answerer {}

impl Answerer {
    pub fn empty() -> Answerer {
        Answerer(UnsafeCell::new(ks_answerer { handle: EMPTY }))
    }

    pub fn make(&mut self, remembered: u32, seed: &ks_seed) -> i32 {
        unsafe { ks_answerer_new(self.0.get_mut(), remembered, seed) }
    }

    pub fn feed(&mut self, now: u64, from: &ks_address, datagram: &[u8], request: &mut ks_request_told) -> i32 {
        unsafe { ks_answerer_feed(self.0.get_mut(), now, from, datagram.as_ptr().cast(), datagram.len(), request) }
    }

    pub fn answer(&mut self, asked: &ks_asked, message: &[u8]) -> i32 {
        unsafe { ks_answerer_answer(self.0.get_mut(), asked, message.as_ptr().cast(), message.len()) }
    }

    pub fn defer(&mut self, now: u64, asked: &ks_asked, delay_ms: u64) -> i32 {
        unsafe { ks_answerer_defer(self.0.get_mut(), now, asked, delay_ms) }
    }

    pub fn respond(&mut self, asked: &ks_asked, message: &[u8], word: u64) -> i32 {
        unsafe { ks_answerer_respond(self.0.get_mut(), asked, message.as_ptr().cast(), message.len(), word) }
    }

    pub fn tick(&mut self, now: u64, asked: &mut ks_asked) -> i32 {
        unsafe { ks_answerer_tick(self.0.get_mut(), now, asked) }
    }

    pub fn due(&self, now: u64, at: &mut u64) -> i32 {
        unsafe { ks_answerer_due(self.0.get(), now, at) }
    }

    pub fn next_out(&mut self, to: &mut ks_address, room: &mut [u8], len: &mut usize) -> i32 {
        unsafe { ks_answerer_next_out(self.0.get_mut(), to, room.as_mut_ptr().cast(), room.len(), len) }
    }

    pub fn ready(&self, now: u64, to: &ks_address) -> i32 {
        unsafe { ks_answerer_ready(self.0.get(), now, to) }
    }

    pub fn notify(&mut self, now: u64, to: &ks_address, token: &[u8], message: &[u8], word: u64, id: &mut u16) -> i32 {
        let (name, text) = (token.as_ptr().cast(), message.as_ptr().cast());
        unsafe { ks_answerer_notify(self.0.get_mut(), now, to, name, token.len(), text, message.len(), word, id) }
    }

    pub fn notify_plain(&mut self, now: u64, to: &ks_address, token: &[u8], message: &[u8], id: &mut u16) -> i32 {
        let (name, text) = (token.as_ptr().cast(), message.as_ptr().cast());
        unsafe { ks_answerer_notify_plain(self.0.get_mut(), now, to, name, token.len(), text, message.len(), id) }
    }

    pub fn load(&self, load: &mut ks_load) -> i32 {
        unsafe { ks_answerer_load(self.0.get(), load) }
    }

    pub fn ended(&self, to: &mut ks_address, token: &mut ks_token, observe: &mut bool) -> i32 {
        unsafe { ks_answerer_ended(self.0.get(), to, token, observe) }
    }

    pub fn unmatched(&self, from: &mut ks_address, id: &mut u16) -> i32 {
        unsafe { ks_answerer_unmatched(self.0.get(), from, id) }
    }
}

impl Drop for Answerer {
    fn drop(&mut self) {
        unsafe { ks_answerer_free(self.0.get_mut()) }
    }
}

/// The handle of a client for any request, or of nothing.
pub struct Asker(UnsafeCell<ks_asker>);

// SAFETY: as of `raw::Server`.
unsafe impl Send for Asker {}

impl Asker {
    pub fn empty() -> Asker {
        Asker(UnsafeCell::new(ks_asker { handle: EMPTY }))
    }

    pub fn make(&mut self, server: &ks_address, remembered: u32, seed: &ks_seed) -> i32 {
        unsafe { ks_asker_new(self.0.get_mut(), server, remembered, seed) }
    }

    pub fn ask(&mut self, now: u64, message: &[u8], word: u64, token: &mut ks_token) -> i32 {
        unsafe { ks_asker_ask(self.0.get_mut(), now, message.as_ptr().cast(), message.len(), word, token) }
    }

    pub fn feed(&mut self, now: u64, from: &ks_address, datagram: &[u8]) -> i32 {
        unsafe { ks_asker_feed(self.0.get_mut(), now, from, datagram.as_ptr().cast(), datagram.len()) }
    }

    pub fn tick(&mut self, now: u64) -> i32 {
        unsafe { ks_asker_tick(self.0.get_mut(), now) }
    }

    pub fn next_answer(&mut self, answer: &mut ks_answer) -> i32 {
        unsafe { ks_asker_next_answer(self.0.get_mut(), answer) }
    }

    pub fn keep(&mut self, token: &[u8]) -> i32 {
        unsafe { ks_asker_keep(self.0.get_mut(), token.as_ptr().cast(), token.len()) }
    }

    pub fn release(&mut self, token: &[u8]) -> i32 {
        unsafe { ks_asker_release(self.0.get_mut(), token.as_ptr().cast(), token.len()) }
    }

    pub fn due(&self, now: u64, at: &mut u64) -> i32 {
        unsafe { ks_asker_due(self.0.get(), now, at) }
    }

    pub fn next_out(&mut self, to: &mut ks_address, room: &mut [u8], len: &mut usize) -> i32 {
        unsafe { ks_asker_next_out(self.0.get_mut(), to, room.as_mut_ptr().cast(), room.len(), len) }
    }
}

impl Drop for Asker {
    fn drop(&mut self) {
        unsafe { ks_asker_free(self.0.get_mut()) }
    }
}

/// The handle of a fetch, or of nothing.
pub struct Fetch(UnsafeCell<ks_fetch>);

// SAFETY: as of `raw::Server`.
unsafe impl Send for Fetch {}

impl Fetch {
    pub fn empty() -> Fetch {
        Fetch(UnsafeCell::new(ks_fetch { handle: EMPTY }))
    }

    pub fn make(&mut self, block_size: u32, body_limit: u32, untagged: bool) -> i32 {
        unsafe { ks_fetch_new(self.0.get_mut(), block_size, body_limit, untagged) }
    }

    pub fn accept(&mut self, datagram: &[u8], next: &mut ks_block, body_len: &mut usize) -> i32 {
        unsafe { ks_fetch_accept(self.0.get_mut(), datagram.as_ptr().cast(), datagram.len(), next, body_len) }
    }

    pub fn body(&mut self, room: &mut [u8], len: &mut usize) -> i32 {
        unsafe { ks_fetch_body(self.0.get_mut(), room.as_mut_ptr().cast(), room.len(), len) }
    }
}

impl Drop for Fetch {
    fn drop(&mut self) {
        unsafe { ks_fetch_free(self.0.get_mut()) }
    }
}

/// The handle of an upload, or of nothing.
pub struct Upload(UnsafeCell<ks_upload>);

// SAFETY: as of `raw::Server`.
unsafe impl Send for Upload {}

impl Upload {
    pub fn empty() -> Upload {
        Upload(UnsafeCell::new(ks_upload { handle: EMPTY }))
    }

    pub fn make(&mut self, body: &[u8], block_size: u32) -> i32 {
        unsafe { ks_upload_new(self.0.get_mut(), body.as_ptr().cast(), body.len(), block_size) }
    }

    pub fn next(&mut self, block: &mut ks_block, room: &mut [u8], len: &mut usize) -> i32 {
        unsafe { ks_upload_next(self.0.get_mut(), block, room.as_mut_ptr().cast(), room.len(), len) }
    }

    pub fn accepted(&mut self, datagram: &[u8]) -> i32 {
        unsafe { ks_upload_accepted(self.0.get_mut(), datagram.as_ptr().cast(), datagram.len()) }
    }
}

impl Drop for Upload {
    fn drop(&mut self) {
        unsafe { ks_upload_free(self.0.get_mut()) }
    }
}

/// The handle of an assembly, or of nothing.
pub struct Assembly(UnsafeCell<ks_assembly>);

// SAFETY: as of `raw::Server`.
unsafe impl Send for Assembly {}

impl Assembly {
    pub fn empty() -> Assembly {
        Assembly(UnsafeCell::new(ks_assembly { handle: EMPTY }))
    }

    pub fn make(&mut self, block_size: u32, body_limit: u32) -> i32 {
        unsafe { ks_assembly_new(self.0.get_mut(), block_size, body_limit) }
    }

    pub fn take(
        &mut self,
        now: u64,
        from: &ks_address,
        datagram: &[u8],
        answer: &mut ks_block,
        len: &mut usize,
    ) -> i32 {
        let (bytes, size) = (datagram.as_ptr().cast(), datagram.len());
        unsafe { ks_assembly_take(self.0.get_mut(), now, from, bytes, size, answer, len) }
    }

    pub fn body(&mut self, room: &mut [u8], len: &mut usize) -> i32 {
        unsafe { ks_assembly_body(self.0.get_mut(), room.as_mut_ptr().cast(), room.len(), len) }
    }
}

impl Drop for Assembly {
    fn drop(&mut self) {
        unsafe { ks_assembly_free(self.0.get_mut()) }
    }
}
