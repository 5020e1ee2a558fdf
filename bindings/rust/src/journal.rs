//! A server that is ended at any moment, and goes on: the file of its journal.

use crate::errors::{made, NewError};
use crate::raw;
use crate::setting::{Config, Surroundings};
use crate::Server;
use std::error::Error;
use std::fmt;
use std::fs::File;
use std::io::{self, Read, Seek, SeekFrom, Write};
use std::time::{Duration, Instant};

// How many bytes the frame of a beginning, and that of a life, have at most.
const HEAD_ROOM: usize = 128;

/// A boot of the machine, and how long it has been up. In the boot in which a server ran last its moments go on by the
/// uptimes; in another one it is silent first.
#[derive(Clone, Copy, Debug, PartialEq, Eq)]
pub struct Boot {
    /// 128 bits that differ in each boot.
    pub name: u128,
    /// How long the machine has been up, with what it slept.
    pub uptime: Duration,
}

impl Boot {
    /// That of this machine, where it is Linux: by `/proc`.
    pub fn current() -> io::Result<Boot> {
        let name = std::fs::read_to_string("/proc/sys/kernel/random/boot_id")?;
        let up = std::fs::read_to_string("/proc/uptime")?;
        let digits: String = name.chars().filter(char::is_ascii_hexdigit).collect();
        let name = u128::from_str_radix(&digits, 16).ok();
        let seconds = up.split(' ').next().and_then(|seconds| seconds.parse().ok()).map(Duration::try_from_secs_f64);
        match (name, seconds) {
            (Some(name), Some(Ok(uptime))) => Ok(Boot { name, uptime }),
            _ => Err(io::Error::from(io::ErrorKind::InvalidData)),
        }
    }

    fn life(&self, moment: u64) -> raw::ks_life {
        let (high, low) = (self.name >> u64::BITS, self.name & u128::from(u64::MAX));
        raw::ks_life { boot_high: high as u64, boot_low: low as u64, uptime: milliseconds(self.uptime), moment }
    }
}

fn milliseconds(of: Duration) -> u64 {
    u64::try_from(of.as_millis()).unwrap_or(u64::MAX)
}

/// Why a server has no journal.
#[derive(Debug)]
#[non_exhaustive]
pub enum JournalError {
    /// The file. After a write or a sync that failed nothing more goes out.
    File(io::Error),
    /// The configuration.
    New(NewError),
    /// An allocation was refused.
    Memory,
    /// Whole frames stand behind one that isn't, which begins there. The file isn't touched.
    Damaged(u64),
    /// No frame is whole: no journal, or one that was cut off in its first frame. The file isn't touched.
    NotBegun,
    /// Another library wrote it.
    OtherFormat,
    /// It is of a server that does otherwise with the same inputs.
    OtherLaw,
    /// A whole frame holds no record, or the first one no beginning.
    Unreadable,
    /// More datagrams went out than its server had.
    OtherServer,
    /// A write or a sync failed before; or the file is full.
    Over,
}

impl fmt::Display for JournalError {
    fn fmt(&self, f: &mut fmt::Formatter<'_>) -> fmt::Result {
        match self {
            JournalError::File(error) => write!(f, "the journal's file: {error}"),
            JournalError::New(error) => error.fmt(f),
            JournalError::Memory => f.write_str("out of memory"),
            JournalError::Damaged(at) => write!(f, "the journal is damaged at byte {at}, and further frames follow"),
            JournalError::NotBegun => f.write_str("no frame of the journal is whole"),
            JournalError::OtherFormat => f.write_str("a journal of another format"),
            JournalError::OtherLaw => f.write_str("a journal of a server by another law"),
            JournalError::Unreadable => f.write_str("a whole frame of the journal that holds no record"),
            JournalError::OtherServer => f.write_str("a journal of another server"),
            JournalError::Over => f.write_str("the journal has ended"),
        }
    }
}

impl Error for JournalError {}

impl From<io::Error> for JournalError {
    fn from(error: io::Error) -> JournalError {
        JournalError::File(error)
    }
}

// What an answer says that isn't `KS_OK`, or `KS_DONE`.
fn refused(answer: i32, at: u64) -> JournalError {
    match answer {
        raw::KS_JOURNAL_DAMAGED => JournalError::Damaged(at),
        raw::KS_JOURNAL_NOT_BEGUN => JournalError::NotBegun,
        raw::KS_JOURNAL_OTHER_FORMAT => JournalError::OtherFormat,
        raw::KS_JOURNAL_OTHER_LAW => JournalError::OtherLaw,
        raw::KS_JOURNAL_UNREADABLE => JournalError::Unreadable,
        raw::KS_JOURNAL_OTHER_SERVER => JournalError::OtherServer,
        raw::KS_NO_MEMORY => JournalError::Memory,
        _ => JournalError::Over,
    }
}

/// A server that was replayed from its journal, before its life begins.
pub struct Replayed {
    raw: raw::Server,
    file: File,
    config: Config,
    told: raw::ks_replayed,
    boot: Boot,
    read: Instant,
}

impl Replayed {
    /// Replays the journal in this file, which is open for reading and writing, and locked (`File::try_lock`): no other
    /// program writes to it. An empty one is begun with this configuration; else the configuration is the file's. A torn
    /// frame at its end is cut off.
    pub fn open(mut file: File, config: &Config, boot: Boot) -> Result<Replayed, JournalError> {
        let (mut raw, mut told, mut bytes) = (raw::Server::empty(), raw::ks_replayed::default(), Vec::new());
        file.seek(SeekFrom::Start(0))?;
        file.read_to_end(&mut bytes)?;
        let mut answer = raw.replay(&bytes, &mut told);
        if bytes.is_empty() {
            bytes = beginning(config, boot)?;
            file.write_all(&bytes)?;
            answer = raw.replay(&bytes, &mut told);
        }
        if answer != raw::KS_OK {
            return Err(refused(answer, told.end));
        }
        file.set_len(told.end)?;
        file.sync_all()?;
        Ok(Replayed { raw, file, config: config.clone(), told, boot, read: Instant::now() })
    }

    /// How many bytes of a torn frame were cut off.
    pub fn torn(&self) -> u64 {
        self.told.torn
    }

    /// For how long the server is silent: `begin` waits for the end of that. Open the socket behind it.
    pub fn silence(&self) -> Duration {
        Duration::from_millis(raw::journal_go_on(&self.told, &self.boot.life(0), &mut 0))
    }

    /// Waits for the end of the silence, and begins the life. Then look at what the paths hold: what was applied before is
    /// not told again. What comes from a peer that is no IPv4 address is dropped.
    pub fn begin(mut self) -> Result<(Server, Journal), JournalError> {
        std::thread::sleep(self.silence().saturating_sub(self.read.elapsed()));
        let mut moment = 0;
        let silence = Duration::from_millis(raw::journal_go_on(&self.told, &self.boot.life(0), &mut moment));
        let passed = self.read.elapsed();
        moment = moment.saturating_add(milliseconds(passed.saturating_sub(silence)));
        let boot = Boot { uptime: self.boot.uptime + passed, ..self.boot };
        self.throw_away();
        let mut frame = vec![0; HEAD_ROOM];
        let mut len = 0;
        let answer = raw::journal_wake(self.told.end, &boot.life(moment), &mut frame, &mut len);
        if answer != raw::KS_DONE {
            return Err(refused(answer, self.told.end));
        }
        let mut journal = Journal { file: self.file, place: self.told.end, turn: Vec::new(), frame, is_over: false };
        journal.append(len)?;
        Ok((Server::replayed(self.raw, &self.config, Instant::now(), moment), journal))
    }

    // What was to be sent is lost: it went out before, or is sent again.
    fn throw_away(&mut self) {
        let (mut to, mut room, mut len) = (raw::ks_address::default(), [0; raw::KS_DATAGRAM_ROOM], 0);
        while self.raw.next_out(&mut to, &mut room, &mut len) == raw::KS_DONE {}
    }
}

// The frame with which a file begins.
fn beginning(config: &Config, boot: Boot) -> Result<Vec<u8>, JournalError> {
    let (mut room, mut len) = (vec![0; HEAD_ROOM], 0);
    let seed = Surroundings::new(config, Instant::now()).seed();
    match raw::journal_begin(&config.raw(), &seed, &boot.life(0), &mut room, &mut len) {
        raw::KS_DONE => {
            room.truncate(len);
            Ok(room)
        }
        answer => Err(made(answer).map_or_else(JournalError::New, |()| JournalError::Memory)),
    }
}

impl fmt::Debug for Replayed {
    fn fmt(&self, f: &mut fmt::Formatter<'_>) -> fmt::Result {
        f.debug_struct("Replayed").field("end", &self.told.end).field("torn", &self.told.torn).finish_non_exhaustive()
    }
}

/// The file of a server's journal.
///
/// ```no_run
/// use knifesilver::{Boot, Config, Replayed};
/// use std::fs::OpenOptions;
///
/// let file = OpenOptions::new().read(true).append(true).create(true).open("sensor.journal")?;
/// let (mut server, mut journal) = Replayed::open(file, &Config::default().with_drawn_base(), Boot::current()?)?.begin()?;
/// loop {
///     // .. `handle`, `handle_timeout`, `update`; and then, before `poll_transmit`:
///     journal.keep(&mut server)?;
/// }
/// # #[allow(unreachable_code)]
/// # Ok::<(), Box<dyn std::error::Error>>(())
/// ```
pub struct Journal {
    file: File,
    place: u64,
    turn: Vec<u8>,
    frame: Vec<u8>,
    is_over: bool,
}

impl Journal {
    /// Writes what the server took since the last call to the file, and syncs that. Before it nothing goes out. After an
    /// error but want of memory nothing more is written: end the program.
    pub fn keep(&mut self, server: &mut Server) -> Result<(), JournalError> {
        if self.is_over {
            return Err(JournalError::Over);
        }
        let Some(turn) = server.noted(&mut self.turn).map_err(|_| JournalError::Memory)? else { return Ok(()) };
        let mut len = 0;
        let mut answer = raw::journal_frame(self.place, turn, &mut self.frame, &mut len);
        if answer == raw::KS_SMALL_ROOM {
            self.frame.resize(len, 0);
            answer = raw::journal_frame(self.place, turn, &mut self.frame, &mut len);
        }
        if answer != raw::KS_DONE {
            // (what was told is told no more)
            self.is_over = true;
            return Err(refused(answer, self.place));
        }
        self.append(len)
    }

    // Appends the front of the room, and syncs.
    fn append(&mut self, len: usize) -> Result<(), JournalError> {
        self.is_over = true;
        self.file.seek(SeekFrom::Start(self.place))?;
        self.file.write_all(&self.frame[..len])?;
        self.file.sync_data()?;
        self.is_over = false;
        self.place += len as u64;
        Ok(())
    }

    /// How many bytes the file has.
    pub fn len(&self) -> u64 {
        self.place
    }

    /// Whether it has none, which is so of no journal.
    pub fn is_empty(&self) -> bool {
        self.place == 0
    }
}

impl fmt::Debug for Journal {
    fn fmt(&self, f: &mut fmt::Formatter<'_>) -> fmt::Result {
        f.debug_struct("Journal").field("place", &self.place).field("is_over", &self.is_over).finish_non_exhaustive()
    }
}
