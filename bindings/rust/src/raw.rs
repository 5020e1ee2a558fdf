//! The calls of `knifesilver.h`, and a safe method for each. With `raw_exchange.rs` it is all that has `unsafe` in it.
//!
//! `bindings/check` compares these declarations with the header and with the library's exports, since no compiler does:
//! numbers, names, parameters, the order of fields, sizes.

#![allow(unsafe_code, non_camel_case_types)]

use std::cell::UnsafeCell;
use std::ffi::{c_char, c_void};
use std::ptr::null_mut;

pub const KS_OK: i32 = 0;
pub const KS_DONE: i32 = 1;
pub const KS_NO_MEMORY: i32 = -2;
pub const KS_BAD_PATH: i32 = -3;
pub const KS_SMALL_ROOM: i32 = -4;
pub const KS_BAD_BLOCK_SIZE: i32 = -7;
pub const KS_BAD_BODY_LIMIT: i32 = -8;
pub const KS_BAD_REMEMBERED: i32 = -9;
pub const KS_BAD_CHANGES: i32 = -10;
pub const KS_BAD_BASE: i32 = -11;
pub const KS_SET_TOO_LARGE: i32 = 18;
pub const KS_SET_TOO_MANY_PATHS: i32 = 19;
pub const KS_SET_RATE_EXCEEDED: i32 = 20;
pub const KS_SET_VERSIONS_SPENT: i32 = 21;
pub const KS_CALL_QUEUE_FULL: i32 = 33;
pub const KS_CALL_BODY_TOO_LARGE: i32 = 34;
pub const KS_CALL_BAD_PATH: i32 = 35;
pub const KS_CALL_WATCHES_FULL: i32 = 37;
pub const KS_CALL_CALLS_SPENT: i32 = 38;
pub const KS_DELAY_FULL: i32 = 48;
pub const KS_PLAIN_FULL: i32 = 49;
pub const KS_CANCEL_QUEUE_FULL: i32 = 58;
pub const KS_WOULD_REJECT: i32 = 65;
pub const KS_WOULD_REPEAT: i32 = 66;
pub const KS_WOULD_TAKE: i32 = 67;
pub const KS_WOULD_NO_PLACE: i32 = 68;
pub const KS_WOULD_NO_ID: i32 = 69;
pub const KS_WOULD_ACKNOWLEDGE: i32 = 70;
pub const KS_WOULD_RESET: i32 = 71;
pub const KS_FAULT_SHORT: i32 = 81;
pub const KS_FAULT_VERSION: i32 = 82;
pub const KS_FAULT_TOKEN_LENGTH: i32 = 83;
pub const KS_FAULT_TOKEN_CUT: i32 = 84;
pub const KS_FAULT_EMPTY_NOT_BARE: i32 = 85;
pub const KS_FAULT_DELTA_RESERVED: i32 = 86;
pub const KS_FAULT_LENGTH_RESERVED: i32 = 87;
pub const KS_FAULT_OPTION_CUT: i32 = 88;
pub const KS_FAULT_NUMBER_TOO_LARGE: i32 = 89;
pub const KS_NAMES_FULL: i32 = 96;
pub const KS_NAMES_SPENT: i32 = 97;
pub const KS_JOURNAL_DAMAGED: i32 = 145;
pub const KS_JOURNAL_NOT_BEGUN: i32 = 146;
pub const KS_JOURNAL_OTHER_FORMAT: i32 = 147;
pub const KS_JOURNAL_OTHER_LAW: i32 = 148;
pub const KS_JOURNAL_UNREADABLE: i32 = 149;
pub const KS_JOURNAL_OTHER_SERVER: i32 = 150;
pub const KS_VERSION: u32 = 200;
pub const KS_NO_FORMAT: i32 = -1;
pub const KS_DATAGRAM_ROOM: usize = 1152;
pub const KS_PATH_ROOM: usize = 12256;
pub const KS_REFUSAL_ROOM: usize = 12;
pub const KS_KEY_ROOM: usize = 60;

pub const KS_GET: u8 = 1;
pub const KS_POST: u8 = 2;
pub const KS_PUT: u8 = 3;
pub const KS_DELETE: u8 = 4;
pub const KS_CON: u8 = 0;
pub const KS_NON: u8 = 1;
pub const KS_ACK: u8 = 2;
pub const KS_BODY: u8 = 1;
pub const KS_VALID: u8 = 2;
pub const KS_SUCCESS: u8 = 3;
pub const KS_VALUE: u8 = 4;
pub const KS_ENDED: u8 = 5;
pub const KS_CANCELLED: u8 = 6;
pub const KS_FAILED: u8 = 7;
pub const KS_TIMEOUT: u8 = 8;
pub const KS_RESET: u8 = 9;
pub const KS_NO_RESPONSE: u8 = 10;
pub const KS_CHANGED: u8 = 11;
pub const KS_BAD_BLOCK: u8 = 12;
pub const KS_NO_TAG: u8 = 13;
pub const KS_TOO_LARGE: u8 = 14;

#[repr(C)]
pub struct ks_handle {
    at: *mut c_void,
    live: bool,
}

#[repr(C)]
pub struct ks_server {
    handle: ks_handle,
}

#[repr(C)]
pub struct ks_client {
    handle: ks_handle,
}

#[repr(C)]
pub struct ks_names {
    handle: ks_handle,
}

#[repr(C)]
#[derive(Clone, Copy, Default, PartialEq, Eq)]
pub struct ks_address {
    pub ip: [u8; 4],
    pub port: u16,
}

#[repr(C)]
#[derive(Clone, Copy, Default)]
pub struct ks_config {
    pub size: u32,
    pub block_size: u32,
    pub body_limit: u32,
    pub remembered: u32,
    pub changes: u32,
    pub base: u64,
}

#[repr(C)]
#[derive(Clone, Copy)]
pub struct ks_seed {
    pub word: u64,
    pub key0: u64,
    pub key1: u64,
}

#[repr(C)]
#[derive(Clone, Copy, Default)]
pub struct ks_representation {
    pub version: u64,
    pub body_len: usize,
    pub format: i32,
}

#[repr(C)]
#[derive(Clone, Copy, Default)]
pub struct ks_applied {
    pub version: u64,
    pub path_len: usize,
    pub from: ks_address,
    pub method: u8,
    pub token_len: u8,
    pub token: [u8; 8],
}

#[repr(C)]
#[derive(Clone, Copy, Default)]
pub struct ks_life {
    pub boot_high: u64,
    pub boot_low: u64,
    pub uptime: u64,
    pub moment: u64,
}

#[repr(C)]
#[derive(Clone, Copy, Default)]
pub struct ks_replayed {
    pub end: u64,
    pub torn: u64,
    pub moment: u64,
    pub life: ks_life,
}

#[repr(C)]
#[derive(Clone, Copy)]
pub struct ks_request {
    pub format: i32,
    pub accept: i32,
    pub method: u8,
    pub if_none_match: bool,
}

#[repr(C)]
#[derive(Clone, Copy, Default)]
pub struct ks_tag {
    pub len: u8,
    pub bytes: [u8; 8],
}

#[repr(C)]
#[derive(Clone, Copy, Default)]
pub struct ks_report {
    pub id: u64,
    pub body_len: usize,
    pub format: i32,
    pub sequence: u32,
    pub kind: u8,
    pub code: u8,
    pub tag_len: u8,
    pub tag: [u8; 8],
}

#[repr(C)]
#[derive(Clone, Copy, Default)]
pub struct ks_message {
    pub fault_at: usize,
    pub path_len: usize,
    pub payload_len: usize,
    pub id: u16,
    pub kind: u8,
    pub code: u8,
    pub token_len: u8,
    pub token: [u8; 8],
}

#[repr(C)]
#[derive(Clone, Copy, Default)]
pub struct ks_end_load {
    pub size: u32,
    pub ids_left: u32,
    pub changes_left: u64,
    pub remembered: u64,
    pub remembered_most: u64,
    pub outstanding: u64,
    pub queued: u64,
    pub observers: u64,
    pub partial: u64,
    pub deferred: u64,
    pub paths: u64,
    pub delays: u64,
    pub plains: u64,
    pub waiting: u64,
    pub observations: u64,
    pub reports: u64,
}

#[repr(C)]
#[derive(Clone, Copy, Default)]
pub struct ks_ended {
    pub to: ks_address,
    pub observe: bool,
    pub token_len: u8,
    pub token: [u8; 8],
}

#[rustfmt::skip]
extern "C" {
    fn ks_version() -> u32;
    fn ks_base(word: u64) -> u64;
    fn ks_server_new(handle: *mut ks_server, config: *const ks_config, seed: *const ks_seed) -> i32;
    fn ks_server_free(handle: *mut ks_server);
    fn ks_server_set(handle: *mut ks_server, now: u64, path: *const c_char, path_len: usize, format: i32, body: *const c_void, body_len: usize, version: *mut u64) -> i32;
    fn ks_server_update(handle: *mut ks_server, now: u64, path: *const c_char, path_len: usize, format: i32, body: *const c_void, body_len: usize, version: *mut u64) -> i32;
    fn ks_server_remove(handle: *mut ks_server, now: u64, path: *const c_char, path_len: usize) -> i32;
    fn ks_server_get(handle: *mut ks_server, path: *const c_char, path_len: usize, shown: *mut ks_representation, room: *mut c_void, room_len: usize) -> i32;
    fn ks_server_paths(handle: *mut ks_server, place: usize, shown: *mut ks_representation, room: *mut c_char, room_len: usize, path_len: *mut usize) -> i32;
    fn ks_server_set_delay(handle: *mut ks_server, path: *const c_char, path_len: usize, ms: u64) -> i32;
    fn ks_server_set_plain(handle: *mut ks_server, path: *const c_char, path_len: usize) -> i32;
    fn ks_server_feed(handle: *mut ks_server, now: u64, from: *const ks_address, datagram: *const c_void, datagram_len: usize, word: u64) -> i32;
    fn ks_server_tick(handle: *mut ks_server, now: u64, word: u64) -> i32;
    fn ks_server_due(handle: *mut ks_server, at: *mut u64) -> i32;
    fn ks_server_next_out(handle: *mut ks_server, to: *mut ks_address, room: *mut c_void, room_len: usize, len: *mut usize) -> i32;
    fn ks_server_applied(handle: *mut ks_server, done: *mut ks_applied, room: *mut c_char, room_len: usize) -> i32;
    fn ks_journal_begin(config: *const ks_config, seed: *const ks_seed, life: *const ks_life, room: *mut c_void, room_len: usize, len: *mut usize) -> i32;
    fn ks_journal_wake(place: u64, life: *const ks_life, room: *mut c_void, room_len: usize, len: *mut usize) -> i32;
    fn ks_journal_frame(place: u64, turn: *const c_void, turn_len: usize, room: *mut c_void, room_len: usize, len: *mut usize) -> i32;
    fn ks_server_replay(handle: *mut ks_server, file: *const c_void, file_len: usize, told: *mut ks_replayed) -> i32;
    fn ks_journal_go_on(replayed: *const ks_replayed, now: *const ks_life, moment: *mut u64) -> u64;
    fn ks_server_noted(handle: *mut ks_server, room: *mut c_void, room_len: usize, len: *mut usize) -> i32;
    fn ks_client_new(handle: *mut ks_client, server: *const ks_address, config: *const ks_config, seed: *const ks_seed) -> i32;
    fn ks_client_free(handle: *mut ks_client);
    fn ks_client_call(handle: *mut ks_client, now: u64, what: *const ks_request, path: *const c_char, path_len: usize, body: *const c_void, body_len: usize, etags: *const ks_tag, etags_len: usize, if_match: *const ks_tag, if_match_len: usize, id: *mut u64) -> i32;
    fn ks_client_observe(handle: *mut ks_client, now: u64, path: *const c_char, path_len: usize, id: *mut u64) -> i32;
    fn ks_client_cancel(handle: *mut ks_client, now: u64, id: u64) -> i32;
    fn ks_client_forget(handle: *mut ks_client, id: u64) -> i32;
    fn ks_client_feed(handle: *mut ks_client, now: u64, from: *const ks_address, datagram: *const c_void, datagram_len: usize, word: u64) -> i32;
    fn ks_client_tick(handle: *mut ks_client, now: u64, word: u64) -> i32;
    fn ks_client_due(handle: *mut ks_client, at: *mut u64) -> i32;
    fn ks_client_next_out(handle: *mut ks_client, to: *mut ks_address, room: *mut c_void, room_len: usize, len: *mut usize) -> i32;
    fn ks_client_next_report(handle: *mut ks_client, report: *mut ks_report, room: *mut c_void, room_len: usize) -> i32;
    fn ks_server_refuse_by(handle: *mut ks_server, now: u64, from: *const ks_address, datagram: *const c_void, datagram_len: usize, word: u64, code: u8) -> i32;
    fn ks_server_refuse(handle: *mut ks_server, now: u64, from: *const ks_address, datagram: *const c_void, datagram_len: usize, word: u64) -> i32;
    fn ks_refuse(datagram: *const c_void, datagram_len: usize, code: u8, room: *mut c_void, room_len: usize, len: *mut usize) -> i32;
    fn ks_server_load(handle: *mut ks_server, now: u64, load: *mut ks_end_load) -> i32;
    fn ks_client_load(handle: *mut ks_client, now: u64, load: *mut ks_end_load) -> i32;
    fn ks_server_would(handle: *mut ks_server, now: u64, from: *const ks_address, datagram: *const c_void, datagram_len: usize) -> i32;
    fn ks_client_would(handle: *mut ks_client, now: u64, from: *const ks_address, datagram: *const c_void, datagram_len: usize) -> i32;
    fn ks_server_knows(handle: *mut ks_server, now: u64, peer: *const ks_address) -> i32;
    fn ks_server_forget(handle: *mut ks_server, peer: *const ks_address) -> i32;
    fn ks_server_ended(handle: *mut ks_server, ended: *mut ks_ended) -> i32;
    fn ks_names_new(handle: *mut ks_names, places: u32, this_network: bool, seed: *const ks_seed) -> i32;
    fn ks_names_free(handle: *mut ks_names);
    fn ks_names_fed(handle: *mut ks_names, now: u64, key: *const c_void, key_len: usize, name: *mut ks_address) -> i32;
    fn ks_names_sent(handle: *mut ks_names, now: u64, name: *const ks_address, room: *mut c_void, room_len: usize, len: *mut usize) -> i32;
    fn ks_names_of(handle: *mut ks_names, key: *const c_void, key_len: usize, name: *mut ks_address) -> i32;
    fn ks_names_key(handle: *mut ks_names, name: *const ks_address, room: *mut c_void, room_len: usize, len: *mut usize) -> i32;
    fn ks_names_hold(handle: *mut ks_names, name: *const ks_address) -> i32;
    fn ks_names_release(handle: *mut ks_names, now: u64, name: *const ks_address) -> i32;
    fn ks_names_retire(handle: *mut ks_names, name: *const ks_address) -> i32;
    fn ks_names_load(handle: *mut ks_names, taken: *mut u64) -> i32;
    fn ks_peek(datagram: *const c_void, datagram_len: usize, shown: *mut ks_message, room: *mut c_char, room_len: usize) -> i32;
}

// SAFETY of all calls below. The declarations above fit the exports. A handle begins as zeros, is written by exports alone
// and is private, in an `UnsafeCell`, so that its type is not `Sync`; no call calls back. So calls of one handle come one
// at a time. Each other pointer is that of a Rust reference, so it is not null and aligned, and where it is written through
// it is apart from all others; each length is that of its slice. No export asks for more.

pub const EMPTY: ks_handle = ks_handle { at: null_mut(), live: false };

/// The version of the library that is linked.
pub fn version() -> u32 {
    unsafe { ks_version() }
}

/// The base that this word chooses.
pub fn base(word: u64) -> u64 {
    unsafe { ks_base(word) }
}

/// The frame with which the file of a journal begins.
pub fn journal_begin(config: &ks_config, seed: &ks_seed, life: &ks_life, room: &mut [u8], len: &mut usize) -> i32 {
    unsafe { ks_journal_begin(config, seed, life, room.as_mut_ptr().cast(), room.len(), len) }
}

/// The frame of a further life.
pub fn journal_wake(place: u64, life: &ks_life, room: &mut [u8], len: &mut usize) -> i32 {
    unsafe { ks_journal_wake(place, life, room.as_mut_ptr().cast(), room.len(), len) }
}

/// The frame of a turn.
pub fn journal_frame(place: u64, turn: &[u8], room: &mut [u8], len: &mut usize) -> i32 {
    let (at, bytes) = (turn.as_ptr().cast(), room.as_mut_ptr().cast());
    unsafe { ks_journal_frame(place, at, turn.len(), bytes, room.len(), len) }
}

/// For how long a server that was replayed is silent, and its moment behind that.
pub fn journal_go_on(replayed: &ks_replayed, now: &ks_life, moment: &mut u64) -> u64 {
    unsafe { ks_journal_go_on(replayed, now, moment) }
}

/// What a datagram says.
pub fn peek(datagram: &[u8], shown: &mut ks_message, room: &mut [u8]) -> i32 {
    let (at, len) = (datagram.as_ptr().cast(), datagram.len());
    unsafe { ks_peek(at, len, shown, room.as_mut_ptr().cast(), room.len()) }
}

/// The answer of a request that is refused.
pub fn refuse(datagram: &[u8], code: u8, room: &mut [u8], len: &mut usize) -> i32 {
    unsafe { ks_refuse(datagram.as_ptr().cast(), datagram.len(), code, room.as_mut_ptr().cast(), room.len(), len) }
}

/// The handle of a server, or of nothing.
pub struct Server(UnsafeCell<ks_server>);

// SAFETY: that the handle may go to another thread is proved of it (`unsafe impl Send for KsHandle` in the library), where
// the way there is ordered by a lock, a start or join of a thread, or a sequentially consistent atomic. What safe Rust
// moves it by orders at least by release and acquire, which is what the library's plain memory needs.
unsafe impl Send for Server {}

impl Server {
    pub fn empty() -> Server {
        Server(UnsafeCell::new(ks_server { handle: EMPTY }))
    }

    pub fn make(&mut self, config: &ks_config, seed: &ks_seed) -> i32 {
        unsafe { ks_server_new(self.0.get_mut(), config, seed) }
    }

    pub fn replay(&mut self, file: &[u8], told: &mut ks_replayed) -> i32 {
        unsafe { ks_server_replay(self.0.get_mut(), file.as_ptr().cast(), file.len(), told) }
    }

    pub fn noted(&mut self, room: &mut [u8], len: &mut usize) -> i32 {
        unsafe { ks_server_noted(self.0.get_mut(), room.as_mut_ptr().cast(), room.len(), len) }
    }

    pub fn set(&mut self, now: u64, path: &str, format: i32, body: &[u8], version: &mut u64) -> i32 {
        let (text, bytes) = (path.as_ptr().cast(), body.as_ptr().cast());
        unsafe { ks_server_set(self.0.get_mut(), now, text, path.len(), format, bytes, body.len(), version) }
    }

    pub fn update(&mut self, now: u64, path: &str, format: i32, body: &[u8], version: &mut u64) -> i32 {
        let (text, bytes) = (path.as_ptr().cast(), body.as_ptr().cast());
        unsafe { ks_server_update(self.0.get_mut(), now, text, path.len(), format, bytes, body.len(), version) }
    }

    pub fn remove(&mut self, now: u64, path: &str) -> i32 {
        unsafe { ks_server_remove(self.0.get_mut(), now, path.as_ptr().cast(), path.len()) }
    }

    pub fn get(&self, path: &[u8], shown: &mut ks_representation, room: &mut [u8]) -> i32 {
        let (text, place) = (path.as_ptr().cast(), room.as_mut_ptr().cast());
        unsafe { ks_server_get(self.0.get(), text, path.len(), shown, place, room.len()) }
    }

    pub fn path_at(&self, place: usize, shown: &mut ks_representation, room: &mut [u8], path_len: &mut usize) -> i32 {
        unsafe { ks_server_paths(self.0.get(), place, shown, room.as_mut_ptr().cast(), room.len(), path_len) }
    }

    pub fn set_delay(&mut self, path: &str, ms: u64) -> i32 {
        unsafe { ks_server_set_delay(self.0.get_mut(), path.as_ptr().cast(), path.len(), ms) }
    }

    pub fn set_plain(&mut self, path: &str) -> i32 {
        unsafe { ks_server_set_plain(self.0.get_mut(), path.as_ptr().cast(), path.len()) }
    }

    pub fn feed(&mut self, now: u64, from: &ks_address, datagram: &[u8], word: u64) -> i32 {
        unsafe { ks_server_feed(self.0.get_mut(), now, from, datagram.as_ptr().cast(), datagram.len(), word) }
    }

    pub fn refuse_by(&mut self, now: u64, from: &ks_address, datagram: &[u8], word: u64, code: u8) -> i32 {
        unsafe { ks_server_refuse_by(self.0.get_mut(), now, from, datagram.as_ptr().cast(), datagram.len(), word, code) }
    }

    pub fn refuse(&mut self, now: u64, from: &ks_address, datagram: &[u8], word: u64) -> i32 {
        unsafe { ks_server_refuse(self.0.get_mut(), now, from, datagram.as_ptr().cast(), datagram.len(), word) }
    }

    pub fn tick(&mut self, now: u64, word: u64) -> i32 {
        unsafe { ks_server_tick(self.0.get_mut(), now, word) }
    }

    pub fn due(&self, at: &mut u64) -> i32 {
        unsafe { ks_server_due(self.0.get(), at) }
    }

    pub fn next_out(&mut self, to: &mut ks_address, room: &mut [u8], len: &mut usize) -> i32 {
        unsafe { ks_server_next_out(self.0.get_mut(), to, room.as_mut_ptr().cast(), room.len(), len) }
    }

    pub fn applied(&self, done: &mut ks_applied, room: &mut [u8]) -> i32 {
        unsafe { ks_server_applied(self.0.get(), done, room.as_mut_ptr().cast(), room.len()) }
    }

    pub fn load(&self, now: u64, load: &mut ks_end_load) -> i32 {
        unsafe { ks_server_load(self.0.get(), now, load) }
    }

    pub fn would(&self, now: u64, from: &ks_address, datagram: &[u8]) -> i32 {
        unsafe { ks_server_would(self.0.get(), now, from, datagram.as_ptr().cast(), datagram.len()) }
    }

    pub fn knows(&self, now: u64, peer: &ks_address) -> i32 {
        unsafe { ks_server_knows(self.0.get(), now, peer) }
    }

    pub fn forget(&mut self, peer: &ks_address) -> i32 {
        unsafe { ks_server_forget(self.0.get_mut(), peer) }
    }

    pub fn ended(&self, ended: &mut ks_ended) -> i32 {
        unsafe { ks_server_ended(self.0.get(), ended) }
    }
}

impl Drop for Server {
    fn drop(&mut self) {
        unsafe { ks_server_free(self.0.get_mut()) }
    }
}

/// The handle of a table of names, or of nothing.
pub struct Names(UnsafeCell<ks_names>);

// SAFETY: as of `Server`.
unsafe impl Send for Names {}

impl Names {
    pub fn empty() -> Names {
        Names(UnsafeCell::new(ks_names { handle: EMPTY }))
    }

    pub fn make(&mut self, places: u32, this_network: bool, seed: &ks_seed) -> i32 {
        unsafe { ks_names_new(self.0.get_mut(), places, this_network, seed) }
    }

    pub fn fed(&mut self, now: u64, key: &[u8], name: &mut ks_address) -> i32 {
        unsafe { ks_names_fed(self.0.get_mut(), now, key.as_ptr().cast(), key.len(), name) }
    }

    pub fn sent(&mut self, now: u64, name: &ks_address, room: &mut [u8], len: &mut usize) -> i32 {
        unsafe { ks_names_sent(self.0.get_mut(), now, name, room.as_mut_ptr().cast(), room.len(), len) }
    }

    pub fn of(&self, key: &[u8], name: &mut ks_address) -> i32 {
        unsafe { ks_names_of(self.0.get(), key.as_ptr().cast(), key.len(), name) }
    }

    pub fn key(&self, name: &ks_address, room: &mut [u8], len: &mut usize) -> i32 {
        unsafe { ks_names_key(self.0.get(), name, room.as_mut_ptr().cast(), room.len(), len) }
    }

    pub fn hold(&mut self, name: &ks_address) -> i32 {
        unsafe { ks_names_hold(self.0.get_mut(), name) }
    }

    pub fn release(&mut self, now: u64, name: &ks_address) -> i32 {
        unsafe { ks_names_release(self.0.get_mut(), now, name) }
    }

    pub fn retire(&mut self, name: &ks_address) -> i32 {
        unsafe { ks_names_retire(self.0.get_mut(), name) }
    }

    pub fn load(&self, taken: &mut u64) -> i32 {
        unsafe { ks_names_load(self.0.get(), taken) }
    }
}

impl Drop for Names {
    fn drop(&mut self) {
        unsafe { ks_names_free(self.0.get_mut()) }
    }
}

/// The handle of a client, or of nothing.
pub struct Client(UnsafeCell<ks_client>);

// SAFETY: as of `Server`.
unsafe impl Send for Client {}

impl Client {
    pub fn empty() -> Client {
        Client(UnsafeCell::new(ks_client { handle: EMPTY }))
    }

    pub fn make(&mut self, server: &ks_address, config: &ks_config, seed: &ks_seed) -> i32 {
        unsafe { ks_client_new(self.0.get_mut(), server, config, seed) }
    }

    #[allow(clippy::too_many_arguments)]
    pub fn call(
        &mut self,
        now: u64,
        what: &ks_request,
        path: &str,
        body: &[u8],
        etags: &[ks_tag],
        if_match: &[ks_tag],
        id: &mut u64,
    ) -> i32 {
        let (text, bytes) = (path.as_ptr().cast(), body.as_ptr().cast());
        let (known, wanted) = (etags.as_ptr(), if_match.as_ptr());
        unsafe {
            ks_client_call(
                self.0.get_mut(), now, what, text, path.len(), bytes, body.len(), known, etags.len(), wanted, if_match.len(), id,
            )
        }
    }

    pub fn observe(&mut self, now: u64, path: &str, id: &mut u64) -> i32 {
        unsafe { ks_client_observe(self.0.get_mut(), now, path.as_ptr().cast(), path.len(), id) }
    }

    pub fn cancel(&mut self, now: u64, id: u64) -> i32 {
        unsafe { ks_client_cancel(self.0.get_mut(), now, id) }
    }

    pub fn forget(&mut self, id: u64) -> i32 {
        unsafe { ks_client_forget(self.0.get_mut(), id) }
    }

    pub fn feed(&mut self, now: u64, from: &ks_address, datagram: &[u8], word: u64) -> i32 {
        unsafe { ks_client_feed(self.0.get_mut(), now, from, datagram.as_ptr().cast(), datagram.len(), word) }
    }

    pub fn tick(&mut self, now: u64, word: u64) -> i32 {
        unsafe { ks_client_tick(self.0.get_mut(), now, word) }
    }

    pub fn due(&self, at: &mut u64) -> i32 {
        unsafe { ks_client_due(self.0.get(), at) }
    }

    pub fn next_out(&mut self, to: &mut ks_address, room: &mut [u8], len: &mut usize) -> i32 {
        unsafe { ks_client_next_out(self.0.get_mut(), to, room.as_mut_ptr().cast(), room.len(), len) }
    }

    pub fn load(&self, now: u64, load: &mut ks_end_load) -> i32 {
        unsafe { ks_client_load(self.0.get(), now, load) }
    }

    pub fn would(&self, now: u64, from: &ks_address, datagram: &[u8]) -> i32 {
        unsafe { ks_client_would(self.0.get(), now, from, datagram.as_ptr().cast(), datagram.len()) }
    }

    pub fn next_report(&mut self, report: &mut ks_report, room: &mut [u8]) -> i32 {
        unsafe { ks_client_next_report(self.0.get_mut(), report, room.as_mut_ptr().cast(), room.len()) }
    }
}

impl Drop for Client {
    fn drop(&mut self) {
        unsafe { ks_client_free(self.0.get_mut()) }
    }
}
