//! What the calls of a hub tell, and what they take.
#![forbid(unsafe_code)]

use crate::calls::{ToldEntry, ToldFault, ToldItem, ToldMade, ToldTurn};
use std::error::Error;
use std::fmt;

/// Why a call did nothing.
#[derive(Clone, Copy, Debug, PartialEq, Eq, Hash)]
pub enum Status {
    /// The script is refused: the fault tells why.
    Refused(Fault),
    /// There is no memory; the call may be made again.
    NoMemory,
    /// A window is open.
    InWindow,
    /// No window is open, or none was begun that is still to be opened.
    NoWindow,
    /// There is no such window, routine, device, entry or final item.
    Absent,
    /// More runs, rounds of probes, or windows of a home than there may be.
    TooMany,
    /// The device is not out, or is out with another ticket: an answer that is late, or twice.
    NotOut,
    /// No answer to the task.
    Wrong,
    /// A sense found another value than that at which the device stands for the hub.
    Differs,
    /// The device is out, or no probe of it is left, or there is no such device.
    NoProbe,
    /// A run of the window has not ended, or a device is out.
    NotQuiet,
    /// No window was closed since the last one was begun or opened.
    NoRecord,
    /// No time, or one that is not later than that of the window before.
    BadTime,
    /// The run that is to be followed is none of those before.
    BadFollow,
    /// The device has no such value.
    NoValue,
    /// A call of the log is refused: the one behind so many bytes.
    NoCall(u64),
    /// A status that this crate does not know: the library is of another version.
    Unknown(i32),
}

/// A call did nothing, and why.
#[derive(Clone, Copy, Debug, PartialEq, Eq, Hash)]
pub struct Refused(pub Status);

impl fmt::Display for Refused {
    fn fmt(&self, f: &mut fmt::Formatter<'_>) -> fmt::Result {
        write!(f, "lazbendix: {:?}", self.0)
    }
}

impl Error for Refused {}

/// `Ok` of a call that did what it says.
pub(crate) fn done(status: i32) -> Result<(), Refused> {
    Err(Refused(match status {
        0 => return Ok(()),
        5 => Status::NoMemory,
        6 => Status::InWindow,
        7 => Status::NoWindow,
        8 => Status::Absent,
        9 => Status::TooMany,
        10 => Status::NotOut,
        11 => Status::Wrong,
        12 => Status::Differs,
        13 => Status::NoProbe,
        14 => Status::NotQuiet,
        15 => Status::NoRecord,
        16 => Status::BadTime,
        17 => Status::BadFollow,
        18 => Status::NoValue,
        other => Status::Unknown(other),
    }))
}

/// How the runs of a window see each other, and under the eventual model how a run gets its place.
#[derive(Clone, Copy, Debug, Default, PartialEq, Eq, Hash)]
pub enum Mode {
    /// Eventual, first come first served.
    #[default]
    Eventual,
    /// Eventual, just in time.
    JustInTime,
    /// Eventual, by the timeline.
    Timeline,
    /// Partitioned strict.
    Partitioned,
    /// Global strict.
    Global,
    /// Weak.
    Weak,
}

impl Mode {
    /// The numbers of the model and the scheduler.
    pub(crate) fn numbers(self) -> (u32, u32) {
        match self {
            Mode::Eventual => (0, 0),
            Mode::JustInTime => (0, 1),
            Mode::Timeline => (0, 2),
            Mode::Partitioned => (1, 0),
            Mode::Global => (2, 0),
            Mode::Weak => (3, 0),
        }
    }
}

/// Why a script is refused, and where.
#[derive(Clone, Copy, Debug, PartialEq, Eq, Hash)]
pub struct Fault {
    /// What is wrong.
    pub kind: FaultKind,
    /// Where, of the kinds that have a place.
    pub spot: Option<Spot>,
}

/// A place in a script. Its numbers count from 1.
#[derive(Clone, Copy, Debug, PartialEq, Eq, Hash)]
pub struct Spot {
    /// The part of the script.
    pub part: Part,
    /// The number of the device, routine or window.
    pub outer: u32,
    /// The number in it, where the part is in one.
    pub inner: u32,
}

/// What is wrong with a script.
#[derive(Clone, Copy, Debug, PartialEq, Eq, Hash)]
#[allow(missing_docs)]
pub enum FaultKind {
    NotJson,
    Shape,
    UnknownName,
    DoubleName,
    BadName,
    BadState,
    BadTime,
    /// So many of what the limits count, and how many there may be.
    TooMany {
        count: u64,
        limit: u64,
    },
    BadFollow,
    BadVersion(u64),
    BadTurn,
    /// One that this crate does not know.
    Unknown(u32),
}

/// A part of a script.
#[derive(Clone, Copy, Debug, PartialEq, Eq, Hash)]
#[allow(missing_docs)]
pub enum Part {
    Top,
    Device,
    Down,
    Routine,
    Command,
    Window,
    Turn,
    Run,
}

impl From<ToldFault> for Fault {
    fn from(told: ToldFault) -> Fault {
        let part = [Part::Top, Part::Device, Part::Down, Part::Routine, Part::Command, Part::Window, Part::Turn, Part::Run]
            .get((told.part as usize).wrapping_sub(1))
            .copied();
        Fault {
            kind: match told.kind {
                2 => FaultKind::NotJson,
                3 => FaultKind::Shape,
                4 => FaultKind::UnknownName,
                5 => FaultKind::DoubleName,
                6 => FaultKind::BadName,
                7 => FaultKind::BadState,
                8 => FaultKind::BadTime,
                9 => FaultKind::TooMany { count: told.count, limit: told.limit },
                10 => FaultKind::BadFollow,
                11 => FaultKind::BadVersion(told.count),
                12 => FaultKind::BadTurn,
                other => FaultKind::Unknown(other),
            },
            spot: part.map(|part| Spot { part, outer: told.outer, inner: told.inner }),
        }
    }
}

/// An entry of a window's history. Runs count from 1, commands, devices and places from 0; moments are ms from the window's
/// beginning.
#[derive(Clone, Copy, Debug, PartialEq, Eq, Hash)]
#[allow(missing_docs)]
pub enum Entry {
    Arrived {
        run: u32,
        moment: u64,
    },
    Placed {
        run: u32,
        place: u32,
        moment: u64,
    },
    Did {
        run: u32,
        command: u32,
        answer: Given,
    },
    /// An undo drove the device, or was dropped.
    Undid {
        run: u32,
        device: u32,
        drove: bool,
    },
    /// The device failed.
    Fell {
        device: u32,
    },
    /// The device came back.
    Rose {
        device: u32,
    },
    /// The run will be aborted.
    Doomed {
        run: u32,
        cause: Cause,
    },
    Ended {
        run: u32,
        end: What,
    },
    /// One that this crate does not know.
    Unknown(u32),
}

/// How a command was answered.
#[derive(Clone, Copy, Debug, PartialEq, Eq, Hash)]
#[allow(missing_docs)]
pub enum Given {
    Fine,
    Found(u32),
    Down,
    /// The guard of the command did not hold.
    Skipped,
}

/// How a run ended.
#[derive(Clone, Copy, Debug, PartialEq, Eq, Hash)]
#[allow(missing_docs)]
pub enum What {
    Committed,
    Aborted(Cause),
}

/// Why a run is aborted.
#[derive(Clone, Copy, Debug, PartialEq, Eq, Hash)]
pub enum Cause {
    /// A must command whose device was down.
    MustDown {
        /** From 0. */
        command: u32,
    },
    /// A must check that found this value.
    Refuted {
        /** From 0. */
        command: u32,
        /** The value found. */
        value: u32,
    },
    /// The device failed between the run's first and last command on it.
    Lost {
        /** From 0. */
        device: u32,
    },
    /// Its lease of the device was over when the lender asked.
    Revoked {
        /** A run. */
        lender: u32,
        /** From 0. */
        device: u32,
        /** In ms. */
        deadline: u64,
        /** In ms. */
        moment: u64,
    },
    /// A strict model aborts a run whose device is down at its end.
    DownAtEnd {
        /** From 0. */
        device: u32,
    },
    /// One that this crate does not know.
    Unknown(u32),
}

fn cause_of(told: &ToldEntry) -> Cause {
    match told.cause {
        1 => Cause::MustDown { command: told.command },
        2 => Cause::Refuted { command: told.command, value: told.value },
        3 => Cause::Lost { device: told.device },
        4 => Cause::Revoked { lender: told.lender, device: told.device, deadline: told.deadline, moment: told.moment },
        5 => Cause::DownAtEnd { device: told.device },
        other => Cause::Unknown(other),
    }
}

impl From<&ToldEntry> for Entry {
    fn from(told: &ToldEntry) -> Entry {
        let run = told.run;
        match told.kind {
            1 => Entry::Arrived { run, moment: told.moment },
            2 => Entry::Placed { run, place: told.place, moment: told.moment },
            3 => {
                let answer = match told.answer {
                    1 => Given::Fine,
                    2 => Given::Found(told.value),
                    3 => Given::Down,
                    _ => Given::Skipped,
                };
                Entry::Did { run, command: told.command, answer }
            }
            4 => Entry::Undid { run, device: told.device, drove: told.drove == 1 },
            5 => Entry::Fell { device: told.device },
            6 => Entry::Rose { device: told.device },
            7 => Entry::Doomed { run, cause: cause_of(told) },
            8 => Entry::Ended { run, end: What::Committed },
            9 => Entry::Ended { run, end: What::Aborted(cause_of(told)) },
            other => Entry::Unknown(other),
        }
    }
}

/// The entries of a step, in their order: at most three.
#[derive(Clone, Copy, Debug, PartialEq, Eq, Hash)]
pub struct Made {
    entries: [Entry; 3],
    count: usize,
}

impl Made {
    /// The entries.
    pub fn entries(&self) -> &[Entry] {
        &self.entries[..self.count]
    }
}

impl From<&ToldMade> for Made {
    fn from(told: &ToldMade) -> Made {
        let [a, b, c] = &told.entries;
        Made { entries: [a.into(), b.into(), c.into()], count: told.count.min(3) as usize }
    }
}

/// What the step of a run did.
#[derive(Clone, Copy, Debug, PartialEq, Eq, Hash)]
pub enum Turn {
    /// It made entries.
    Moved(Made),
    /// It waits.
    Waits(Why),
    /// A device is out: make its call, and give the answer with the ticket.
    Go(Go),
    /// It has ended: with entries where it ended in this step.
    Over(Entry, Made),
    /// The window has no such run.
    NoRun,
}

/// For what a run waits.
#[derive(Clone, Copy, Debug, PartialEq, Eq, Hash)]
#[allow(missing_docs)]
pub enum Why {
    /// Until the run ends that it follows.
    Follows { run: u32 },
    /// The scheduler denies it the device. Ends by time alone, or by a step.
    Denied { device: u32, run: u32 },
    /// A run before it holds the device. Ends by time alone, or by a step.
    Behind { device: u32, run: u32 },
    /// It would read what a run before it may still take back.
    Dirty { device: u32, run: u32 },
    /// A strict model lets that run end first.
    Strict { run: u32 },
    /// The device is out.
    Busy { device: u32 },
    /// One that this crate does not know.
    Unknown(u32),
}

/// A device that is out.
#[derive(Clone, Copy, Debug, PartialEq, Eq, Hash)]
pub struct Go {
    /// From 0.
    pub device: u32,
    /// With which the answer has to come: no other call of the hub has it, in whatever window.
    pub ticket: u64,
    /// The run for which it is out, 0 for a probe.
    pub run: u32,
    /// What it is to do.
    pub task: Task,
    /// The value at which it stands for the hub.
    pub stood: u32,
}

/// What a device is to do.
#[derive(Clone, Copy, Debug, PartialEq, Eq, Hash)]
pub enum Task {
    /// To be driven to the value: [`Answer::Worked`] or [`Answer::Dead`].
    Drive(u32),
    /// To be sensed: [`Answer::Found`] with the value at which it stood, or [`Answer::Dead`].
    Sense,
    /// To be probed: [`Answer::Worked`] or [`Answer::Dead`].
    Probe,
    /// To be probed, and where it answers driven to the value: [`Answer::Worked`] where both did, else [`Answer::Dead`].
    Restore(u32),
}

impl From<&ToldTurn> for Go {
    fn from(told: &ToldTurn) -> Go {
        let task = match told.task {
            1 => Task::Drive(told.value),
            2 => Task::Sense,
            3 => Task::Probe,
            _ => Task::Restore(told.value),
        };
        Go { device: told.device, ticket: told.ticket, run: told.run, task, stood: told.stood }
    }
}

impl From<&ToldTurn> for Turn {
    fn from(told: &ToldTurn) -> Turn {
        let (device, run) = (told.device, told.run);
        match told.kind {
            1 => Turn::Moved((&told.made).into()),
            2 => Turn::Waits(match told.why {
                1 => Why::Follows { run },
                2 => Why::Denied { device, run },
                3 => Why::Behind { device, run },
                4 => Why::Dirty { device, run },
                5 => Why::Strict { run },
                6 => Why::Busy { device },
                other => Why::Unknown(other),
            }),
            3 => Turn::Go(told.into()),
            4 => Turn::Over((&told.end).into(), (&told.made).into()),
            _ => Turn::NoRun,
        }
    }
}

/// What a device told.
#[derive(Clone, Copy, Debug, PartialEq, Eq, Hash)]
pub enum Answer {
    /// It did what it was to do.
    Worked,
    /// It was sensed, and stands at this value.
    Found(u32),
    /// It did not answer, or not in time.
    Dead,
}

impl Answer {
    /// The numbers of the answer and of the value.
    pub(crate) fn numbers(self) -> (u32, u32) {
        match self {
            Answer::Worked => (1, 0),
            Answer::Found(value) => (2, value),
            Answer::Dead => (3, 0),
        }
    }
}

/// What is left to do in a window.
#[derive(Clone, Copy, Debug, PartialEq, Eq, Hash)]
pub enum Left {
    /// This run has not ended, and none before it.
    Run(u32),
    /// All runs have ended, and this device is out.
    Device(u32),
}

/// An item of a window's order. Runs count from 1, devices from 0, failures and restarts of a device in the window from 1.
#[derive(Clone, Copy, Debug, PartialEq, Eq, Hash)]
pub enum Item {
    /// The run, done whole.
    Ran(u32),
    /// A failure of the device.
    Failed {
        /** From 0. */
        device: u32,
        /** From 1. */
        number: u32,
    },
    /// A restart of the device.
    Back {
        /** From 0. */
        device: u32,
        /** From 1. */
        number: u32,
    },
    /// One that this crate does not know.
    Unknown(u32),
}

impl From<ToldItem> for Item {
    fn from(told: ToldItem) -> Item {
        match told.kind {
            1 => Item::Ran(told.run),
            2 => Item::Failed { device: told.device, number: told.number },
            3 => Item::Back { device: told.device, number: told.number },
            other => Item::Unknown(other),
        }
    }
}

/// Where a device stands between two windows, and whether it is up.
#[derive(Clone, Copy, Debug, PartialEq, Eq, Hash)]
#[allow(missing_docs)]
pub struct Stand {
    pub value: u32,
    pub up: bool,
}

/// How many devices, routines and windows a script has, with the windows that were begun.
#[derive(Clone, Copy, Debug, PartialEq, Eq, Hash)]
#[allow(missing_docs)]
pub struct Counts {
    pub devices: u64,
    pub routines: u64,
    pub windows: u64,
}
