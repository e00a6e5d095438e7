//! A home whose calls are kept in a log, so that a new process makes it again.
#![forbid(unsafe_code)]

use crate::calls::{self, ToldEntry, ToldMade, ToldTurn};
use crate::hubs::Hub;
use crate::log_files::{self as log, Call, Head, LogError, LogFault, LogFile, Record};
use crate::sums::crc32;
use crate::told::{done, Answer, Counts, Entry, Go, Item, Left, Made, Mode, Refused, Stand, Status, Task, Turn, What};
use std::collections::{BTreeMap, BTreeSet, HashMap};
use std::fmt;
use std::io::ErrorKind;
use std::path::Path;

/// Something to hand on.
#[derive(Clone, Debug, PartialEq, Eq)]
pub enum Report {
    /// A trigger was taken: it is in the queue, and a kill does not lose it.
    Triggered {
        /** From 1. */
        trigger: u64,
        /** From 0. */
        routine: u32,
    },
    /// A run has ended.
    Ended {
        /** None where the run is that of no trigger. */
        trigger: Option<u64>,
        /** From 1. */
        run: u32,
        /** How. */
        end: What,
    },
    /// Between two windows the home was told of a device: how it stands from then on.
    Stood {
        /** From 0. */
        device: u32,
        /** Where, and whether it is up. */
        stand: Stand,
    },
    /// A window was closed.
    Closed {
        /** Its number. */
        window: u32,
        /** Its time, empty where it is only in the script. */
        at: String,
        /** Of each run its trigger, and its routine where it was added. */
        runs: Vec<(Option<u64>, Option<u32>)>,
        /** Its text with the trace, as a record has it. */
        text: String,
    },
}

/// What may leave the home.
#[derive(Clone, Debug, Default, PartialEq, Eq)]
pub struct LetOut {
    /// Calls of devices to make.
    pub calls: Vec<Go>,
    /// Reports to hand on, with their numbers from 1. One that is handed out once more has its number again.
    pub reports: Vec<(u64, Report)>,
}

/// The runs of a window, as far as they were added, and its time.
#[derive(Debug, Default)]
struct Runs {
    at: String,
    runs: Vec<(Option<u64>, Option<u32>)>,
}

/// A home whose calls go to a log.
///
/// Make the calls of devices that [`LoggedHub::let_out`] hands out, and no others, and report what it hands out, and nothing
/// else: it syncs the log before a device is driven and before anything is reported. Call it again when what it handed out
/// before was made or begun, and reported. After a kill the home is as it was at the last sync or later, and a report that
/// was perhaps not handed on is handed out once more. docs/EMBEDDING.md, "A log of calls", says why.
///
/// Each call may answer [`LogFault::Failed`], where the disk refused a write or a sync: then nothing may be let out any more.
/// The package for Python writes and reads the same file.
pub struct LoggedHub {
    hub: Hub,
    log: LogFile,
    script: Vec<u8>,
    mode: Mode,
    moment: u64,
    last_time: Option<String>,
    begun: Option<u32>,
    opened: Option<u32>,
    queue: BTreeMap<u64, u32>,
    down: BTreeSet<u32>,
    former: Vec<Go>,
    windows: HashMap<u32, Runs>,
    triggers: u64,
    tickets: u64,
    base: u64,
    answers: u32,
    next_trigger: Option<u64>,
    ready: Vec<Go>,
    reports: Vec<(u64, Report)>,
    made: u64,
    handed: u64,
    noted: u64,
    again: Option<Record>,
}

impl fmt::Debug for LoggedHub {
    fn fmt(&self, f: &mut fmt::Formatter<'_>) -> fmt::Result {
        f.debug_struct("LoggedHub").finish_non_exhaustive()
    }
}

const ANY_HOME: &[u8] = br#"{"safehome": 1, "devices": [], "routines": [], "windows": []}"#;

fn is_drive(go: &Go) -> bool {
    matches!(go.task, Task::Drive(_) | Task::Restore(_))
}

impl LoggedHub {
    /// The home that the script and the calls of the log at the path make. A log that is not there is begun.
    ///
    /// What [`Hub::open`] refuses, and each [`LogFault`].
    pub fn open(path: &Path, script: &[u8], mode: Mode) -> Result<LoggedHub, LogError> {
        LoggedHub::made(path, script, mode, false)
    }

    /// The same, also of a log of another version of the library: it is as good as one of this version where each call
    /// answers what it did.
    pub fn open_other_version(path: &Path, script: &[u8], mode: Mode) -> Result<LoggedHub, LogError> {
        LoggedHub::made(path, script, mode, true)
    }

    fn made(path: &Path, script: &[u8], mode: Mode, other_version: bool) -> Result<LoggedHub, LogError> {
        let hub = Hub::open(script, mode)?;
        let (log, records) = LogFile::open(path, &Head::new(script, mode), other_version)?;
        let mut made = LoggedHub {
            hub,
            log,
            script: script.to_vec(),
            mode,
            moment: 0,
            last_time: None,
            begun: None,
            opened: None,
            queue: BTreeMap::new(),
            down: BTreeSet::new(),
            former: Vec::new(),
            windows: HashMap::new(),
            triggers: 0,
            tickets: 0,
            base: 0,
            answers: 0,
            next_trigger: None,
            ready: Vec::new(),
            reports: Vec::new(),
            made: 0,
            handed: 0,
            noted: 0,
            again: None,
        };
        made.make_again(&records)?;
        Ok(made)
    }

    // What the home is.

    /// The moment of the last call; moments go on from it.
    pub fn moment(&self) -> u64 {
        self.moment
    }

    /// The time of the window that was begun last.
    pub fn last_time(&self) -> Option<&str> {
        self.last_time.as_deref()
    }

    /// The window that was begun, and not opened.
    pub fn begun(&self) -> Option<u32> {
        self.begun
    }

    /// The window that is open.
    pub fn opened(&self) -> Option<u32> {
        self.opened
    }

    /// By trigger its routine, where no window has its run.
    pub fn queue(&self) -> &BTreeMap<u64, u32> {
        &self.queue
    }

    /// The devices that are counted down.
    pub fn down(&self) -> &BTreeSet<u32> {
        &self.down
    }

    /// The calls that were out when the log was opened, and are not called again yet.
    pub fn former(&self) -> &[Go] {
        &self.former
    }

    /// How many records the log has.
    pub fn records(&self) -> u64 {
        self.log.count
    }

    // The log.

    fn keep(&mut self, call: Call, answered: &[u8]) -> Result<(), LogError> {
        self.answers = crc32(self.answers, answered);
        match self.again {
            None => self.log.append(call, self.answers)?,
            Some(again) if again != (Record { call, answers: self.answers }) => return Err(LogFault::Differs(0).into()),
            Some(_) => {}
        }
        Ok(())
    }

    /// Reports that were handed on in a former life are not made again.
    fn report(&mut self, report: Report) {
        self.made += 1;
        if self.made > self.handed {
            self.reports.push((self.made, report));
        }
    }

    fn note(&mut self, made: &Made) {
        for entry in made.entries() {
            match *entry {
                Entry::Fell { device } => drop(self.down.insert(device)),
                Entry::Rose { device } => drop(self.down.remove(&device)),
                Entry::Ended { run, end } => {
                    let trigger =
                        self.runs().and_then(|runs| runs.runs.get(run as usize - 1)).and_then(|(trigger, _)| *trigger);
                    self.report(Report::Ended { trigger, run, end });
                }
                _ => {}
            }
        }
    }

    /// Those of the window that is open, or else begun.
    fn runs(&mut self) -> Option<&mut Runs> {
        self.windows.get_mut(&self.opened.or(self.begun)?)
    }

    /// What may leave the home now. Syncs the log where a device is to be driven, or something to be reported: once for all
    /// of it. [`LogFault::Failed`], and then nothing is let out.
    pub fn let_out(&mut self) -> Result<LetOut, LogError> {
        self.log.may_go_on()?;
        if self.noted < self.handed {
            self.noted = self.handed;
            self.log.append(Call { kind: log::REPORTED, first: self.noted, ..Call::default() }, 0)?;
        }
        let out = LetOut { calls: std::mem::take(&mut self.ready), reports: std::mem::take(&mut self.reports) };
        self.handed = self.made;
        if !out.reports.is_empty() || out.calls.iter().any(is_drive) {
            self.log.sync()?;
        }
        Ok(out)
    }

    /// Puts on the disk what is in the log. [`LoggedHub::let_out`] does so where it has to; before the end of a process it
    /// keeps the last answers.
    pub fn sync(&mut self) -> Result<(), LogError> {
        Ok(self.log.sync()?)
    }

    /// Lets out once more the calls that were out when the log was opened. Those that drive a device of `not_twice` are
    /// answered [`Answer::Dead`].
    ///
    /// Such a call of the former life may still be on its way, and must not arrive after a later one. Call this when the time
    /// limit of a call is over, or where the way to each device keeps the order over a restart.
    pub fn call_again(&mut self, not_twice: &[u32]) -> Result<(), LogError> {
        for go in std::mem::take(&mut self.former) {
            if not_twice.contains(&go.device) && is_drive(&go) {
                self.give(go.device, go.ticket, Answer::Dead, self.moment)?;
            } else {
                self.ready.push(go);
            }
        }
        Ok(())
    }

    // Triggers.

    /// Takes a trigger into the queue, and answers its number. [`Status::Absent`].
    pub fn trigger(&mut self, routine: u32) -> Result<u64, LogError> {
        self.log.may_go_on()?;
        if u64::from(routine) >= self.hub.counts()?.routines {
            return Err(Refused(Status::Absent).into());
        }
        let trigger = self.triggers + 1;
        self.take_trigger(trigger, routine)?;
        Ok(trigger)
    }

    fn take_trigger(&mut self, trigger: u64, routine: u32) -> Result<(), LogError> {
        self.triggers = self.triggers.max(trigger);
        self.queue.insert(trigger, routine);
        self.keep(Call { kind: log::TRIGGERED, value: routine, first: trigger, ..Call::default() }, &[])?;
        self.report(Report::Triggered { trigger, routine });
        Ok(())
    }

    /// [`Hub::add_run`] of a trigger that is in the queue, which then leaves it. [`Status::Absent`] where it is not there.
    pub fn add_run_of(&mut self, trigger: u64, follows: Option<u32>) -> Result<u32, LogError> {
        self.log.may_go_on()?;
        let routine = *self.queue.get(&trigger).ok_or(Refused(Status::Absent))?;
        let run = self.hub.add_run(routine, follows)?;
        self.keep(Call { kind: log::RUN_OF, first: trigger, ..Call::default() }, &[])?;
        self.next_trigger = Some(trigger);
        self.run_added(run, routine, follows)?;
        Ok(run)
    }

    // The calls of a hub. Each is made, and then appended.

    /// As [`Hub::begin_window`].
    pub fn begin_window(&mut self, at: &str, probes: u32) -> Result<u32, LogError> {
        self.log.may_go_on()?;
        let number = self.hub.begin_window(at, probes)?;
        // (the window is begun: without its time the home would be ahead of the log)
        let at = plain_time(at).map_err(|_| self.log.fail(LogFault::Failed(ErrorKind::OutOfMemory)))?;
        if number == 0 {
            self.windows.clear();
        }
        let call = Call { kind: log::BEGIN_WINDOW, value: probes, first: time_number(&at), ..Call::default() };
        (self.last_time, self.begun) = (Some(at.clone()), Some(number));
        self.windows.insert(number, Runs { at, runs: Vec::new() });
        self.keep(call, &u64::from(number).to_le_bytes())?;
        Ok(number)
    }

    /// As [`Hub::add_run`].
    pub fn add_run(&mut self, routine: u32, follows: Option<u32>) -> Result<u32, LogError> {
        self.log.may_go_on()?;
        let run = self.hub.add_run(routine, follows)?;
        self.run_added(run, routine, follows)?;
        Ok(run)
    }

    fn run_added(&mut self, run: u32, routine: u32, follows: Option<u32>) -> Result<(), LogError> {
        let trigger = self.next_trigger.take();
        if let Some(trigger) = trigger {
            self.queue.remove(&trigger);
        }
        if let Some(runs) = self.runs() {
            runs.runs.push((trigger, Some(routine)));
        }
        let (sort, first) = (follows.is_some().into(), follows.unwrap_or(0).into());
        let call = Call { kind: log::ADD_RUN, sort, value: routine, first, ..Call::default() };
        self.keep(call, &u64::from(run).to_le_bytes())
    }

    /// As [`Hub::window`].
    pub fn window(&mut self, number: u32) -> Result<(), LogError> {
        self.log.may_go_on()?;
        self.hub.window(number)?;
        let count = self.hub.run_count(number)? as usize;
        self.windows.entry(number).or_insert_with(|| Runs { at: String::new(), runs: vec![(None, None); count] });
        (self.moment, self.opened) = (0, Some(number));
        self.begun = self.begun.filter(|begun| *begun != number);
        self.keep(Call { kind: log::WINDOW, value: number, ..Call::default() }, &[])
    }

    /// As [`Hub::take`].
    pub fn take(&mut self, run: u32, now: u64) -> Result<Turn, LogError> {
        self.log.may_go_on()?;
        let (moment, mut told) = (self.moment.max(now), ToldTurn::default());
        done(calls::take(&mut self.hub.handle, run, moment, &mut told))?;
        self.moment = moment;
        told.ticket += self.base;
        let turn = Turn::from(&told);
        let answered = match &turn {
            Turn::Waits(_) | Turn::NoRun => return Ok(turn), // the moment alone has changed, and the next record has one
            Turn::Go(go) => {
                self.going(*go);
                go_bytes(&told)
            }
            Turn::Moved(_) => made_bytes(&told.made),
            Turn::Over(..) => [entry_bytes(&told.end), made_bytes(&told.made)].concat(),
        };
        self.keep(Call { kind: log::TAKE, value: run, second: moment, ..Call::default() }, &answered)?;
        if let Turn::Moved(made) | Turn::Over(_, made) = &turn {
            self.note(made);
        }
        Ok(turn)
    }

    /// As [`Hub::give`].
    pub fn give(&mut self, device: u32, ticket: u64, answer: Answer, now: u64) -> Result<Made, LogError> {
        self.log.may_go_on()?;
        let own = ticket.checked_sub(self.base).filter(|own| *own > 0).ok_or(Refused(Status::NotOut))?;
        let (moment, mut told, (sort, value)) = (self.moment.max(now), ToldMade::default(), answer.numbers());
        done(calls::give(&mut self.hub.handle, device, own, sort, value, moment, &mut told))?;
        self.moment = moment;
        self.ready.retain(|go| go.device != device);
        self.former.retain(|go| go.device != device);
        let call = Call { kind: log::GIVE, sort: sort as u8, device: device as u16, value, first: own, second: moment };
        self.keep(call, &made_bytes(&told))?;
        let made = Made::from(&told);
        self.note(&made);
        Ok(made)
    }

    /// As [`Hub::probe`].
    pub fn probe(&mut self, device: u32) -> Result<Go, LogError> {
        self.log.may_go_on()?;
        let mut told = ToldTurn::default();
        done(calls::probe(&mut self.hub.handle, device, &mut told))?;
        told.ticket += self.base;
        self.going((&told).into());
        self.keep(Call { kind: log::PROBE, device: device as u16, ..Call::default() }, &go_bytes(&told))?;
        Ok((&told).into())
    }

    /// A device went out: its call is to be let out.
    fn going(&mut self, go: Go) {
        self.tickets = self.tickets.max(go.ticket);
        self.ready.push(go);
    }

    /// As [`Hub::close_window`].
    pub fn close_window(&mut self) -> Result<(), LogError> {
        self.log.may_go_on()?;
        self.hub.close_window()?;
        // (the window is closed: without its text the home would be ahead of the log)
        let text = self.hub.record(true).map_err(|_| self.log.fail(LogFault::Failed(ErrorKind::OutOfMemory)))?;
        let window = self.opened.take().unwrap_or(0);
        let Runs { at, runs } = self.windows.remove(&window).unwrap_or_default();
        self.keep(Call { kind: log::CLOSE_WINDOW, ..Call::default() }, text.as_bytes())?;
        self.report(Report::Closed { window, at, runs, text });
        Ok(())
    }

    /// As [`Hub::restand`].
    pub fn restand(&mut self, device: u32, value: u32) -> Result<(), LogError> {
        self.log.may_go_on()?;
        self.hub.restand(device, value)?;
        self.down.remove(&device);
        self.stood(Call { kind: log::RESTAND, device: device as u16, value, ..Call::default() }, device)
    }

    /// As [`Hub::lose`].
    pub fn lose(&mut self, device: u32) -> Result<(), LogError> {
        self.log.may_go_on()?;
        self.hub.lose(device)?;
        self.down.insert(device);
        self.stood(Call { kind: log::LOSE, device: device as u16, ..Call::default() }, device)
    }

    fn stood(&mut self, call: Call, device: u32) -> Result<(), LogError> {
        self.keep(call, &[])?;
        let stand = self.hub.stand(device)?;
        self.report(Report::Stood { device, stand });
        Ok(())
    }

    // A new life.

    /// Makes the calls of the records, one after another.
    fn make_again(&mut self, records: &[Record]) -> Result<(), LogError> {
        let handed = records.iter().filter(|record| record.call.kind == log::REPORTED).map(|record| record.call.first);
        self.handed = handed.max().unwrap_or(0);
        self.noted = self.handed;
        for (number, record) in records.iter().enumerate() {
            self.again = Some(*record);
            self.make(record.call).map_err(|_| LogFault::Differs(number as u64))?;
        }
        (self.again, self.next_trigger) = (None, None);
        self.ready.clear();
        if self.opened.is_some() {
            let devices = self.hub.counts()?.devices as u32;
            self.former = (0..devices).filter_map(|device| self.out(device).ok()).collect();
        }
        Ok(self.log.append(Call { kind: log::STARTED, ..Call::default() }, 0)?)
    }

    fn make(&mut self, call: Call) -> Result<(), LogError> {
        let (device, value) = (u32::from(call.device), call.value);
        match call.kind {
            log::BEGIN_WINDOW => self.begin_window(&time_text(call.first), value).map(drop),
            log::ADD_RUN => self.add_run(value, (call.sort == 1).then_some(call.first as u32)).map(drop),
            log::WINDOW => self.window(value),
            log::TAKE => self.take(value, call.second).map(drop),
            log::GIVE => {
                let answer = match call.sort {
                    1 => Answer::Worked,
                    2 => Answer::Found(value),
                    _ => Answer::Dead,
                };
                self.give(device, call.first + self.base, answer, call.second).map(drop)
            }
            log::PROBE => self.probe(device).map(drop),
            log::CLOSE_WINDOW => self.close_window(),
            log::RESTAND => self.restand(device, value),
            log::LOSE => self.lose(device),
            _ => self.make_own(call),
        }
    }

    /// What a record of the file's own says.
    fn make_own(&mut self, call: Call) -> Result<(), LogError> {
        match call.kind {
            log::STARTED => self.next_trigger = None,
            log::TRIGGERED => self.take_trigger(call.first, call.value)?,
            log::RUN_OF => self.next_trigger = Some(call.first),
            log::ANEW => {
                (self.triggers, self.tickets, self.base) = (call.value.into(), call.first, call.first);
                self.last_time = (call.second > 0).then(|| time_text(call.second));
            }
            log::COUNTED => {
                self.made = call.first;
                self.reports.clear(); // of calls that only bring the home to where it was
            }
            log::SYNCED | log::REPORTED => {}
            _ => return Err(LogFault::Differs(0).into()), // a kind that there is not
        }
        Ok(())
    }

    // A new log.

    /// Begins the log anew, so that a restart has fewer calls to make again: the home of now, in a new file that takes the
    /// place of the old one. What [`LoggedHub::record`] and [`LoggedHub::entry`] have of the window closed last is gone then,
    /// and windows are counted from the script's. Tickets, triggers and reports go on.
    ///
    /// [`Status::InWindow`] where a window is open or begun; [`Status::NotQuiet`] where something is still to be let out.
    /// Where the new file can not be written: [`LogFault::Failed`], and the old one goes on.
    pub fn begin_anew(&mut self) -> Result<(), LogError> {
        self.log.may_go_on()?;
        if self.opened.is_some() || self.begun.is_some() {
            return Err(Refused(Status::InWindow).into());
        }
        if !self.reports.is_empty() || !self.ready.is_empty() {
            return Err(Refused(Status::NotQuiet).into());
        }
        let mut fresh = Hub::open(&self.script, self.mode)?;
        let records: Vec<Record> = self.anew(&mut fresh)?.into_iter().map(|call| Record { call, answers: 0 }).collect();
        self.log.replace(&Head::new(&self.script, self.mode), &records)?;
        self.hub = fresh;
        self.windows.clear();
        (self.answers, self.base) = (0, self.tickets);
        (self.noted, self.handed) = (self.made, self.made);
        Ok(())
    }

    /// The calls that bring a home that was just opened to where this one is.
    fn anew(&mut self, fresh: &mut Hub) -> Result<Vec<Call>, LogError> {
        let second = self.last_time.as_deref().map_or(0, time_number);
        let call = Call { kind: log::ANEW, value: self.triggers as u32, first: self.tickets, second, ..Call::default() };
        let mut made = vec![call];
        for device in 0..self.hub.counts()?.devices as u32 {
            let (stand, number) = (self.hub.stand(device)?, device as u16);
            if stand.value != fresh.stand(device)?.value {
                fresh.restand(device, stand.value)?;
                made.push(Call { kind: log::RESTAND, device: number, value: stand.value, ..Call::default() });
            }
            if !stand.up {
                fresh.lose(device)?;
                made.push(Call { kind: log::LOSE, device: number, ..Call::default() });
            }
        }
        let waiting = self.queue.len() as u64;
        made.push(Call { kind: log::COUNTED, first: self.made - waiting, ..Call::default() });
        made.extend(self.queue.iter().map(|(trigger, routine)| Call {
            kind: log::TRIGGERED,
            value: *routine,
            first: *trigger,
            ..Call::default()
        }));
        made.push(Call { kind: log::REPORTED, first: self.made, ..Call::default() });
        Ok(made)
    }

    // What changes nothing.

    /// As [`Hub::out`].
    pub fn out(&mut self, device: u32) -> Result<Go, Refused> {
        let go = self.hub.out(device)?;
        Ok(Go { ticket: go.ticket + self.base, ..go })
    }

    /// As [`Hub::is_blocked`].
    pub fn is_blocked(&mut self, run: u32) -> Result<bool, Refused> {
        self.hub.is_blocked(run)
    }

    /// As [`Hub::blocked_runs`].
    pub fn blocked_runs(&mut self) -> Result<u64, Refused> {
        self.hub.blocked_runs()
    }

    /// As [`Hub::left`].
    pub fn left(&mut self) -> Result<Option<Left>, Refused> {
        self.hub.left()
    }

    /// As [`Hub::sealed`].
    pub fn sealed(&mut self) -> Result<u32, Refused> {
        self.hub.sealed()
    }

    /// As [`Hub::final_item`].
    pub fn final_item(&mut self, at: u32) -> Result<Item, Refused> {
        self.hub.final_item(at)
    }

    /// As [`Hub::record`].
    pub fn record(&mut self, trace: bool) -> Result<String, Refused> {
        self.hub.record(trace)
    }

    /// As [`Hub::head`].
    pub fn head(&mut self) -> Result<String, Refused> {
        self.hub.head()
    }

    /// As [`Hub::entry_count`].
    pub fn entry_count(&mut self) -> Result<u64, Refused> {
        self.hub.entry_count()
    }

    /// As [`Hub::entry`].
    pub fn entry(&mut self, at: u64) -> Result<(Entry, u32), Refused> {
        self.hub.entry(at)
    }

    /// As [`Hub::entry_text`].
    pub fn entry_text(&mut self, at: u64) -> Result<String, Refused> {
        self.hub.entry_text(at)
    }

    /// As [`Hub::stand`].
    pub fn stand(&mut self, device: u32) -> Result<Stand, Refused> {
        self.hub.stand(device)
    }

    /// As [`Hub::counts`].
    pub fn counts(&mut self) -> Result<Counts, Refused> {
        self.hub.counts()
    }

    /// As [`Hub::run_count`].
    pub fn run_count(&mut self, window: u32) -> Result<u64, Refused> {
        self.hub.run_count(window)
    }

    /// As [`Hub::device_name`].
    pub fn device_name(&mut self, device: u32) -> Result<String, Refused> {
        self.hub.device_name(device)
    }

    /// As [`Hub::routine_name`].
    pub fn routine_name(&mut self, routine: u32) -> Result<String, Refused> {
        self.hub.routine_name(routine)
    }

    /// As [`Hub::value_name`].
    pub fn value_name(&mut self, device: u32, value: u32) -> Result<String, Refused> {
        self.hub.value_name(device, value)
    }
}

/// The time as a record has it. A script may have other forms, which the library reads.
fn plain_time(at: &str) -> Result<String, Refused> {
    let fits = |(sign, form): (u8, u8)| if form == b'0' { sign.is_ascii_digit() } else { sign == form };
    if at.len() == 19 && at.bytes().zip(*b"0000-00-00T00:00:00").all(fits) && at.as_bytes()[17] < b'6' {
        return Ok(at.to_owned());
    }
    let mut hub = Hub::open(ANY_HOME, Mode::default())?;
    let number = hub.begin_window(at, 0)?;
    hub.window(number)?;
    hub.close_window()?;
    Ok(hub.record(false)?.split_whitespace().nth(2).unwrap_or_default().to_owned())
}

/// The number of a plain time's digits: 20261201090500 for `2026-12-01T09:05:00`.
fn time_number(at: &str) -> u64 {
    at.chars().filter_map(|sign| sign.to_digit(10)).fold(0, |number, digit| number * 10 + u64::from(digit))
}

/// The time with these digits.
fn time_text(number: u64) -> String {
    let [second, minute, hour, day, month] = [1, 100, 10_000, 1_000_000, 100_000_000].map(|unit| number / unit % 100);
    format!("{:04}-{month:02}-{day:02}T{hour:02}:{minute:02}:{second:02}", number / 10_000_000_000)
}

// What a call answered, as bytes to take a checksum of.

fn number_bytes(numbers: &[u64]) -> Vec<u8> {
    numbers.iter().flat_map(|number| number.to_le_bytes()).collect()
}

fn entry_bytes(told: &ToldEntry) -> Vec<u8> {
    let numbers = [told.kind, told.run, told.command, told.device, told.place, told.answer];
    let more = [told.value, told.drove, told.cause, told.lender];
    let mut bytes: Vec<u8> = numbers.iter().chain(&more).flat_map(|number| u64::from(*number).to_le_bytes()).collect();
    bytes.extend(number_bytes(&[told.moment, told.deadline]));
    bytes
}

fn made_bytes(told: &ToldMade) -> Vec<u8> {
    told.entries[..told.count.min(3) as usize].iter().flat_map(entry_bytes).collect()
}

fn go_bytes(told: &ToldTurn) -> Vec<u8> {
    let [device, run, task] = [told.device, told.run, told.task].map(u64::from);
    number_bytes(&[device, told.ticket, run, task, told.value.into(), told.stood.into()])
}
