//! The file of a log of calls; docs/CALL-LOG.md has its bytes.
#![forbid(unsafe_code)]

use crate::calls::{self, ToldCall};
use crate::sums::{crc32, sha256};
use crate::told::{Mode, Refused};
use std::error::Error;
use std::ffi::OsString;
use std::fmt;
use std::fs::{self, File, OpenOptions};
use std::io::{self, ErrorKind};
use std::os::unix::fs::FileExt;
use std::path::{Path, PathBuf};

pub(crate) const BEGIN_WINDOW: u8 = 1;
pub(crate) const ADD_RUN: u8 = 2;
pub(crate) const WINDOW: u8 = 3;
pub(crate) const TAKE: u8 = 4;
pub(crate) const GIVE: u8 = 5;
pub(crate) const PROBE: u8 = 6;
pub(crate) const CLOSE_WINDOW: u8 = 7;
pub(crate) const RESTAND: u8 = 8;
pub(crate) const LOSE: u8 = 9;
/// From here on kinds are the file's own.
const OWN: u8 = 128;
pub(crate) const STARTED: u8 = 128;
pub(crate) const TRIGGERED: u8 = 129;
pub(crate) const RUN_OF: u8 = 130;
pub(crate) const SYNCED: u8 = 131;
pub(crate) const REPORTED: u8 = 132;
pub(crate) const ANEW: u8 = 133;
pub(crate) const COUNTED: u8 = 134;

const MAGIC: &[u8; 8] = b"lazcall1";
const HEAD: usize = 60; // bytes before the checksum
const START: usize = 64;
const CALL: usize = 24;
const BODY: usize = 28;
const RECORD: usize = 32;

/// Why a log is refused. A record is told by its number, from 0.
#[derive(Clone, Copy, Debug, PartialEq, Eq, Hash)]
pub enum LogFault {
    /// Another process has it open, or this one.
    InUse,
    /// The file is none, or its head is damaged.
    NotALog,
    /// It is of another script.
    OtherScript,
    /// It is of another model or scheduler.
    OtherMode,
    /// It is of another version of the library.
    OtherVersion,
    /// This record was synced, and is not what was written.
    Damaged(u64),
    /// This call, made again, was refused, or answered something else.
    Differs(u64),
    /// The disk refused a read, a write or a sync; or there was no memory, or there are no bytes, for the record of a call
    /// that was made.
    Failed(ErrorKind),
}

/// Why a call of a [`LoggedHub`](crate::LoggedHub) did nothing.
#[derive(Clone, Copy, Debug, PartialEq, Eq, Hash)]
pub enum LogError {
    /// The home refuses it.
    Refused(Refused),
    /// The log is refused, or has failed.
    Log(LogFault),
}

impl fmt::Display for LogError {
    fn fmt(&self, f: &mut fmt::Formatter<'_>) -> fmt::Result {
        match self {
            LogError::Refused(refused) => refused.fmt(f),
            LogError::Log(fault) => write!(f, "lazbendix: the log: {fault:?}"),
        }
    }
}

impl Error for LogError {}

impl From<Refused> for LogError {
    fn from(refused: Refused) -> LogError {
        LogError::Refused(refused)
    }
}

impl From<LogFault> for LogError {
    fn from(fault: LogFault) -> LogError {
        LogError::Log(fault)
    }
}

fn failed(error: &io::Error) -> LogFault {
    LogFault::Failed(error.kind())
}

/// The six numbers of a record.
#[derive(Clone, Copy, Debug, Default, PartialEq, Eq)]
pub(crate) struct Call {
    pub(crate) kind: u8,
    pub(crate) sort: u8,
    pub(crate) device: u16,
    pub(crate) value: u32,
    pub(crate) first: u64,
    pub(crate) second: u64,
}

impl Call {
    /// The library makes the bytes of a home's call; refused where no call has these numbers.
    fn bytes(&self) -> Result<[u8; CALL], LogFault> {
        let (told, mut bytes) = (self.told(), [0; CALL]);
        if self.kind >= OWN {
            bytes = self.own_bytes();
        } else if calls::log(&told, &mut bytes) != 0 {
            return Err(LogFault::Failed(ErrorKind::InvalidInput));
        }
        Ok(bytes)
    }

    fn told(&self) -> ToldCall {
        let (kind, sort, device) = (self.kind.into(), self.sort.into(), self.device.into());
        ToldCall { first: self.first, second: self.second, kind, sort, device, value: self.value }
    }

    /// Those of a record of the file's own.
    fn own_bytes(&self) -> [u8; CALL] {
        let mut bytes = [0; CALL];
        (bytes[0], bytes[1]) = (self.kind, self.sort);
        bytes[2..4].copy_from_slice(&self.device.to_le_bytes());
        bytes[4..8].copy_from_slice(&self.value.to_le_bytes());
        bytes[8..16].copy_from_slice(&self.first.to_le_bytes());
        bytes[16..].copy_from_slice(&self.second.to_le_bytes());
        bytes
    }
}

/// A call, and a checksum of what all calls up to it answered.
#[derive(Clone, Copy, Debug, PartialEq, Eq)]
pub(crate) struct Record {
    pub(crate) call: Call,
    pub(crate) answers: u32,
}

impl Record {
    fn body(&self) -> Result<[u8; BODY], LogFault> {
        let mut bytes = [0; BODY];
        bytes[..CALL].copy_from_slice(&self.call.bytes()?);
        bytes[CALL..].copy_from_slice(&self.answers.to_le_bytes());
        Ok(bytes)
    }

    fn at(data: &[u8], at: usize) -> Record {
        let call = Call {
            kind: data[at],
            sort: data[at + 1],
            device: number(data, at + 2, 2) as u16,
            value: number(data, at + 4, 4) as u32,
            first: number(data, at + 8, 8),
            second: number(data, at + 16, 8),
        };
        Record { call, answers: number(data, at + CALL, 4) as u32 }
    }
}

/// The number of these bytes, the low one first.
fn number(data: &[u8], at: usize, bytes: usize) -> u64 {
    data[at..at + bytes].iter().rev().fold(0, |number, byte| number << 8 | u64::from(*byte))
}

/// What a log belongs to.
#[derive(Clone, Copy, Debug, PartialEq, Eq)]
pub(crate) struct Head {
    version: u32,
    mode: (u32, u32),
    script: [u8; 32],
}

impl Head {
    pub(crate) fn new(script: &[u8], mode: Mode) -> Head {
        Head { version: calls::version().unsigned_abs(), mode: mode.numbers(), script: sha256(script) }
    }

    /// The bytes before the checksum.
    fn bytes(&self) -> [u8; HEAD] {
        let mut bytes = [0; HEAD];
        bytes[..8].copy_from_slice(MAGIC);
        bytes[8..12].copy_from_slice(&self.version.to_le_bytes());
        bytes[12..16].copy_from_slice(&self.mode.0.to_le_bytes());
        bytes[16..20].copy_from_slice(&self.mode.1.to_le_bytes());
        bytes[20..52].copy_from_slice(&self.script);
        bytes
    }

    fn read(data: &[u8]) -> Result<Head, LogFault> {
        let is_whole = data.len() >= START && u64::from(crc32(0, &data[..HEAD])) == number(data, HEAD, 4);
        if !is_whole || &data[..8] != MAGIC {
            return Err(LogFault::NotALog);
        }
        let mut script = [0; 32];
        script.copy_from_slice(&data[20..52]);
        let word = |at| number(data, at, 4) as u32;
        Ok(Head { version: word(8), mode: (word(12), word(16)), script })
    }

    /// That the log that was found with this head is that of the other one.
    fn belongs(&self, head: &Head, other_version: bool) -> Result<(), LogFault> {
        if self.script != head.script {
            Err(LogFault::OtherScript)
        } else if self.mode != head.mode {
            Err(LogFault::OtherMode)
        } else if self.version != head.version && !other_version {
            Err(LogFault::OtherVersion)
        } else {
            Ok(())
        }
    }
}

/// Whether the record at this place has the checksum that follows from the one before it.
fn is_good(data: &[u8], at: usize) -> bool {
    let before = number(data, at - 4, 4) as u32;
    u64::from(crc32(before, &data[at..at + BODY])) == number(data, at + BODY, 4)
}

/// The records up to the first that is not good, and how many of them a later one says to have been synced.
fn good_records(data: &[u8]) -> Result<(Vec<Record>, u64), LogFault> {
    let (mut records, mut synced, mut at) = (Vec::new(), 0, START);
    while at + RECORD <= data.len() && is_good(data, at) {
        let record = Record::at(data, at);
        if record.call.kind == SYNCED {
            synced = record.call.first;
        }
        records.push(record);
        at += RECORD;
    }
    let bad = records.len() as u64;
    for later in (at + RECORD..).step_by(RECORD).take_while(|later| later + RECORD <= data.len()) {
        let call = Record::at(data, later).call;
        if call.kind == SYNCED && call.first > bad && is_good(data, later) {
            return Err(LogFault::Damaged(bad));
        }
    }
    Ok((records, synced))
}

fn beside(path: &Path, ending: &str) -> PathBuf {
    let mut name = OsString::from(path);
    name.push(ending);
    PathBuf::from(name)
}

fn opened(path: &Path, truncate: bool) -> io::Result<File> {
    OpenOptions::new().read(true).write(true).create(true).truncate(truncate).open(path)
}

/// A file with these bytes, which are on the disk, in the place of the one at the path.
fn new_file(path: &Path, data: &[u8]) -> io::Result<File> {
    let new = beside(path, ".new");
    let made = opened(&new, true).and_then(|file| {
        file.write_all_at(data, 0)?;
        file.sync_data()?;
        fs::rename(&new, path)?;
        Ok(file)
    });
    if made.is_err() {
        let _ = fs::remove_file(&new); // it may not be there
    }
    made
}

/// The names in the folder of this path are on the disk.
fn sync_folder(path: &Path) -> io::Result<()> {
    let folder = path.parent().filter(|folder| !folder.as_os_str().is_empty()).unwrap_or(Path::new("."));
    File::open(folder)?.sync_all()
}

/// A log that is appended to. What is appended is in memory until [`LogFile::sync`].
pub(crate) struct LogFile {
    path: PathBuf,
    file: File,
    _lock: File,
    buffer: Vec<u8>,
    check: u32,
    pub(crate) count: u64,
    durable: u64,
    failure: Option<LogFault>,
}

impl LogFile {
    /// Opens the log at the path, or begins it, and reads its records. What follows the good ones is cut off; those of which
    /// no later one says that they were synced are written once more, so that a sync that failed in a former life does no
    /// harm.
    pub(crate) fn open(path: &Path, head: &Head, other_version: bool) -> Result<(LogFile, Vec<Record>), LogFault> {
        let lock = opened(&beside(path, ".lock"), false).map_err(|error| failed(&error))?;
        if !calls::hold(&lock) {
            return Err(LogFault::InUse);
        }
        let data = match fs::read(path) {
            Ok(data) => data,
            Err(error) if error.kind() == ErrorKind::NotFound => return LogFile::begin(path, head, lock),
            Err(error) => return Err(failed(&error)),
        };
        let found = Head::read(&data)?;
        found.belongs(head, other_version)?;
        let (records, synced) = good_records(&data)?;
        let end = START + RECORD * records.len();
        let tail = START + RECORD * synced as usize;
        let file = opened(path, false).map_err(|error| failed(&error))?;
        file.write_all_at(&data[tail..end], tail as u64)
            .and_then(|()| file.set_len(end as u64))
            .and_then(|()| file.sync_data())
            .map_err(|error| failed(&error))?;
        let (check, count) = (number(&data, end - 4, 4) as u32, records.len() as u64);
        let path = path.to_owned();
        Ok((LogFile { path, file, _lock: lock, buffer: Vec::new(), check, count, durable: count, failure: None }, records))
    }

    fn begin(path: &Path, head: &Head, lock: File) -> Result<(LogFile, Vec<Record>), LogFault> {
        let (check, data) = bytes(head, &[])?;
        let file = new_file(path, &data).map_err(|error| failed(&error))?;
        sync_folder(path).map_err(|error| failed(&error))?;
        let path = path.to_owned();
        Ok((LogFile { path, file, _lock: lock, buffer: Vec::new(), check, count: 0, durable: 0, failure: None }, Vec::new()))
    }

    /// A new file with these records takes the place of the log. Where it can not be written the old one goes on.
    pub(crate) fn replace(&mut self, head: &Head, records: &[Record]) -> Result<(), LogFault> {
        self.may_go_on()?;
        let (check, data) = bytes(head, records)?;
        self.file = new_file(&self.path, &data).map_err(|error| failed(&error))?;
        sync_folder(&self.path).map_err(|error| self.fail(failed(&error)))?;
        (self.check, self.count, self.durable) = (check, records.len() as u64, records.len() as u64);
        self.buffer.clear();
        Ok(())
    }

    /// Where it refuses, the home is ahead of the log, and nothing may be let out any more.
    pub(crate) fn append(&mut self, call: Call, answers: u32) -> Result<(), LogFault> {
        let pushed = pushed(&mut self.buffer, self.check, &Record { call, answers });
        self.check = pushed.map_err(|fault| self.fail(fault))?;
        self.count += 1;
        Ok(())
    }

    /// What was appended is on the disk when this answers `Ok`. Else nothing may be let out any more.
    pub(crate) fn sync(&mut self) -> Result<(), LogFault> {
        self.may_go_on()?;
        if self.buffer.is_empty() {
            return Ok(());
        }
        self.append(Call { kind: SYNCED, first: self.durable, ..Call::default() }, 0)?;
        let at = START as u64 + RECORD as u64 * self.durable;
        self.file
            .write_all_at(&self.buffer, at)
            .and_then(|()| self.file.sync_data())
            .map_err(|error| self.fail(failed(&error)))?;
        self.buffer.clear();
        self.durable = self.count;
        Ok(())
    }

    /// Refused where something has failed.
    pub(crate) fn may_go_on(&self) -> Result<(), LogFault> {
        self.failure.map_or(Ok(()), Err)
    }

    /// From now on every call is refused, for the first such fault.
    pub(crate) fn fail(&mut self, fault: LogFault) -> LogFault {
        *self.failure.get_or_insert(fault)
    }
}

/// The last checksum and the bytes of a log.
fn bytes(head: &Head, records: &[Record]) -> Result<(u32, Vec<u8>), LogFault> {
    let mut data = head.bytes().to_vec();
    let mut check = crc32(0, &data);
    data.extend(check.to_le_bytes());
    for record in records {
        check = pushed(&mut data, check, record)?;
    }
    Ok((check, data))
}

/// Appends the bytes of the record that follows the one with this checksum; its own checksum.
fn pushed(data: &mut Vec<u8>, before: u32, record: &Record) -> Result<u32, LogFault> {
    let body = record.body()?;
    let check = crc32(before, &body);
    data.extend(body);
    data.extend(check.to_le_bytes());
    Ok(check)
}

#[cfg(test)]
mod tests {
    use super::*;

    /// The rows of the table in docs/CALL-LOG.md, as its test in C has them, and its two records.
    #[rustfmt::skip]
    const PAGE: [(Call, &[u8]); 13] = [
        (call(1, 0, 0, 2, 20261201090500, 0), &[1, 0, 0, 0, 2, 0, 0, 0, 0xc4, 0x97, 0xb1, 0x6d, 0x6d, 0x12]),
        (call(2, 0, 0, 258, 0, 0), &[2, 0, 0, 0, 2, 1]),
        (call(2, 1, 0, 3, 4294967295, 0), &[2, 1, 0, 0, 3, 0, 0, 0, 255, 255, 255, 255]),
        (call(3, 0, 0, 4294967295, 0, 0), &[3, 0, 0, 0, 255, 255, 255, 255]),
        (call(4, 0, 0, 64, 0, u64::MAX),
         &[4, 0, 0, 0, 64, 0, 0, 0, 0, 0, 0, 0, 0, 0, 0, 0, 255, 255, 255, 255, 255, 255, 255, 255]),
        (call(4, 0, 0, 1, 0, 1500), &[4, 0, 0, 0, 1, 0, 0, 0, 0, 0, 0, 0, 0, 0, 0, 0, 0xdc, 5]),
        (call(5, 1, 3, 0, 7, 1750), &[5, 1, 3, 0, 0, 0, 0, 0, 7, 0, 0, 0, 0, 0, 0, 0, 0xd6, 6]),
        (call(5, 2, 65535, 9, u64::MAX, 256),
         &[5, 2, 255, 255, 9, 0, 0, 0, 255, 255, 255, 255, 255, 255, 255, 255, 0, 1]),
        (call(5, 3, 1, 0, 8, 1), &[5, 3, 1, 0, 0, 0, 0, 0, 8, 0, 0, 0, 0, 0, 0, 0, 1]),
        (call(6, 0, 256, 0, 0, 0), &[6, 0, 0, 1]),
        (call(7, 0, 0, 0, 0, 0), &[7]),
        (call(8, 0, 2, 1, 0, 0), &[8, 0, 2, 0, 1]),
        (call(9, 0, 513, 0, 0, 0), &[9, 0, 1, 2]),
    ];

    const fn call(kind: u8, sort: u8, device: u16, value: u32, first: u64, second: u64) -> Call {
        Call { kind, sort, device, value, first, second }
    }

    #[test]
    fn a_call_has_the_bytes_of_the_page() {
        for (call, page) in PAGE {
            let mut wanted = [0; CALL];
            wanted[..page.len()].copy_from_slice(page);
            assert_eq!(call.bytes(), Ok(wanted));
            let body = Record { call, answers: 9 }.body().unwrap();
            assert_eq!(Record::at(&body, 0), Record { call, answers: 9 });
        }
    }

    #[test]
    fn a_record_of_the_files_own_has_the_bytes_of_the_page() {
        let mut wanted = [0; CALL];
        (wanted[0], wanted[4], wanted[9], wanted[23]) = (ANEW, 3, 1, 128);
        assert_eq!(call(ANEW, 0, 0, 3, 256, 1 << 63).bytes(), Ok(wanted));
    }

    #[test]
    fn numbers_of_no_call_are_refused() {
        for none in
            [call(0, 0, 0, 0, 0, 0), call(1, 0, 0, 0, 20261301090500, 0), call(5, 4, 0, 0, 1, 1), call(7, 0, 1, 0, 0, 0)]
        {
            assert_eq!(none.bytes(), Err(LogFault::Failed(ErrorKind::InvalidInput)));
        }
    }

    #[test]
    fn a_log_that_has_no_bytes_for_a_call_has_failed() {
        let path = std::env::temp_dir().join(format!("lazbendix-none-{}", std::process::id()));
        let (mut log, _) = LogFile::open(&path, &Head::new(b"", Mode::default()), false).unwrap();
        let failed = Err(LogFault::Failed(ErrorKind::InvalidInput));
        assert_eq!(log.append(call(CLOSE_WINDOW, 0, 1, 0, 0, 0), 0), failed);
        assert_eq!((log.may_go_on(), log.sync(), log.count), (failed, failed, 0));
        for file in [&path, &beside(&path, ".lock")] {
            fs::remove_file(file).unwrap();
        }
    }
}
