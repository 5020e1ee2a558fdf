//! The file of a context's numbers: a page that names the keys, and two pages of a record each, of which the older one
//! is written over. It is never renamed: who has its lock is alone.

use std::fs::{File, OpenOptions, TryLockError};
use std::io;
use std::os::unix::fs::{FileExt, OpenOptionsExt};
use std::path::Path;

use openssl::sha::sha256;

use crate::cipher::CHECK;
use crate::Refusal;

const PAGE: u64 = 4096;
const RECORDS: u64 = 2;
const RECORD: usize = 64;
const SUM: usize = 8;
const STEP: u64 = 1000;
const MOST: u64 = 1 << 40;
const WINDOW: u64 = 256;
const MAGIC: &[u8; 16] = b"ks_oscore 1\n\0\0\0\0";
const MODE: u32 = 0o600;

#[derive(Clone)]
struct State {
    turn: u64,
    next: u64,
    reserved: u64,
    above: u64,
    came: [u8; WINDOW as usize / 8],
}

pub(crate) struct Numbers {
    file: Option<File>,
    check: [u8; CHECK],
    is_broken: bool,
    state: State,
}

impl From<io::Error> for Refusal {
    fn from(_: io::Error) -> Self {
        Refusal::FileFailed
    }
}

fn place_of(turn: u64) -> u64 {
    PAGE * (1 + turn % RECORDS)
}

fn u64_at(record: &[u8], place: usize) -> u64 {
    record[place..place + 8].iter().fold(0, |n, it| n << 8 | u64::from(*it))
}

impl Numbers {
    pub fn open(check: [u8; CHECK], path: Option<&Path>, begins: bool) -> Result<Self, Refusal> {
        let state = State { turn: 0, next: 0, reserved: 0, above: 0, came: [0; WINDOW as usize / 8] };
        let mut numbers = Self { file: None, check, is_broken: false, state };
        let Some(path) = path else { return Ok(numbers) };
        let mut how = OpenOptions::new();
        how.read(true).write(true).create_new(begins).mode(MODE).custom_flags(libc::O_NOFOLLOW);
        let file = how.open(path)?;
        file.try_lock().map_err(|why| match why {
            TryLockError::WouldBlock => Refusal::FileTaken,
            TryLockError::Error(_) => Refusal::FileFailed,
        })?;
        if begins {
            numbers.begin(file, path)?;
        } else {
            numbers.load(file)?;
        }
        Ok(numbers)
    }

    fn begin(&mut self, file: File, path: &Path) -> Result<(), Refusal> {
        file.set_len(PAGE * (1 + RECORDS))?;
        file.write_all_at(&[&MAGIC[..], &self.check].concat(), 0)?;
        let first = State { turn: 1, ..self.state.clone() };
        self.file = Some(file);
        self.keep(first)?;
        let folder = path.parent().filter(|it| !it.as_os_str().is_empty()).unwrap_or(Path::new("."));
        File::open(folder)?.sync_all()?;
        self.file.iter().try_for_each(|it| Ok(it.sync_all()?))
    }

    fn load(&mut self, file: File) -> Result<(), Refusal> {
        let mut page = [0; MAGIC.len() + CHECK];
        if file.metadata()?.len() != PAGE * (1 + RECORDS) {
            return Err(Refusal::FileForeign);
        }
        file.read_exact_at(&mut page, 0)?;
        if page[..MAGIC.len()] != *MAGIC || page[MAGIC.len()..] != self.check {
            return Err(Refusal::FileForeign);
        }
        let mut found = None;
        for turn in 0..RECORDS {
            let mut record = [0; RECORD];
            file.read_exact_at(&mut record, place_of(turn))?;
            let is_whole = self.sum(&record[..RECORD - SUM]) == record[RECORD - SUM..];
            if is_whole && found.as_ref().is_none_or(|it: &State| it.turn <= u64_at(&record, 0)) {
                let reserved = u64_at(&record, 8);
                let mut came = [0; WINDOW as usize / 8];
                came.copy_from_slice(&record[24..RECORD - SUM]);
                let (turn, above) = (u64_at(&record, 0), u64_at(&record, 16));
                found = Some(State { turn, next: reserved, reserved, above, came });
            }
        }
        self.state = found.ok_or(Refusal::FileDamaged)?;
        self.file = Some(file);
        Ok(())
    }

    fn sum(&self, record: &[u8]) -> [u8; SUM] {
        let mut sum = [0; SUM];
        sum.copy_from_slice(&sha256(&[&self.check[..], record].concat())[..SUM]);
        sum
    }

    /// Writes this as the next record, and syncs. After a failure nothing more is written.
    fn keep(&mut self, now: State) -> Result<(), Refusal> {
        if let Some(file) = &self.file {
            let words = [now.turn, now.reserved, now.above];
            let mut record: Vec<u8> = words.iter().flat_map(|it| it.to_be_bytes()).collect();
            record.extend(now.came);
            record.extend(self.sum(&record));
            let kept = file.write_all_at(&record, place_of(now.turn)).and_then(|()| file.sync_data());
            self.is_broken |= kept.is_err();
        }
        if self.is_broken {
            return Err(Refusal::FileFailed);
        }
        self.state = now;
        Ok(())
    }

    /// A number of ours that was never used.
    pub fn take(&mut self) -> Result<u64, Refusal> {
        if self.is_broken {
            return Err(Refusal::FileFailed);
        }
        let next = self.state.next;
        if next >= MOST {
            return Err(Refusal::Spent);
        }
        if next >= self.state.reserved {
            self.keep(State { turn: self.state.turn + 1, reserved: next + STEP, ..self.state.clone() })?;
        }
        self.state.next = next + 1;
        Ok(next)
    }

    pub fn is_new(&self, number: u64) -> bool {
        let is_marked = self.state.came[(number % WINDOW / 8) as usize] >> (number % 8) & 1 == 1;
        number >= self.state.above || (self.state.above - number <= WINDOW && !is_marked)
    }

    /// Notes that this one of the peer came.
    pub fn note(&mut self, number: u64) -> Result<(), Refusal> {
        if self.is_broken {
            return Err(Refusal::FileFailed);
        }
        let mut now = self.state.clone();
        for passed in now.above.max(number.saturating_sub(WINDOW))..number {
            now.came[(passed % WINDOW / 8) as usize] &= !(1 << (passed % 8));
        }
        now.came[(number % WINDOW / 8) as usize] |= 1 << (number % 8);
        now.above = now.above.max(number + 1);
        now.turn += 1;
        self.keep(now)
    }
}
