//! A home behind the library's handle.
#![forbid(unsafe_code)]

use crate::calls::{self, Handle, ToldCounts, ToldEntry, ToldFault, ToldItem, ToldLeft, ToldMade, ToldStand, ToldTurn};
use crate::told::{done, Answer, Counts, Entry, Go, Item, Left, Made, Mode, Refused, Stand, Status, Turn};
use std::fmt;

const LONGEST_NAME: usize = 32;

/// A home, opened from the text of a script. Where a call answers [`Refused`], the home is as it was.
///
/// Dropping it frees all that is behind it, whatever is open or out. It may go to another thread.
pub struct Hub {
    pub(crate) handle: Handle,
}

impl fmt::Debug for Hub {
    fn fmt(&self, f: &mut fmt::Formatter<'_>) -> fmt::Result {
        f.debug_struct("Hub").finish_non_exhaustive()
    }
}

impl Drop for Hub {
    fn drop(&mut self) {
        // An open handle is ended, and answers that it is done.
        let _ = calls::end(&mut self.handle);
    }
}

impl Hub {
    /// Reads the script and opens its home: every device up at its start, and no window open.
    ///
    /// [`Status::Refused`], [`Status::NoMemory`].
    pub fn open(script: &[u8], mode: Mode) -> Result<Hub, Refused> {
        let mut hub = Hub { handle: Handle::closed() };
        let mut fault = ToldFault::default();
        let (model, scheduler) = mode.numbers();
        match calls::open(&mut hub.handle, script, model, scheduler, &mut fault) {
            3 => Err(Refused(Status::Refused(fault.into()))),
            status => done(status).map(|()| hub),
        }
    }

    /// Opens the home of the script and makes the calls of the log on it: it is the home on which they were made, also in
    /// the middle of a window. The log has 24 bytes for each call that changed the home, as the project's page on a log of
    /// calls says, and is read up to the first that is cut off or of no call; answers also how many bytes that are.
    ///
    /// [`Status::Refused`], [`Status::NoCall`], [`Status::NoMemory`].
    pub fn reopen(script: &[u8], log: &[u8], mode: Mode) -> Result<(Hub, u64), Refused> {
        let mut hub = Hub { handle: Handle::closed() };
        let (mut fault, mut good) = (ToldFault::default(), 0);
        match calls::reopen(&mut hub.handle, script, log, mode.numbers(), &mut fault, &mut good) {
            3 => Err(Refused(Status::Refused(fault.into()))),
            19 => Err(Refused(Status::NoCall(good))),
            status => done(status).map(|()| (hub, good)),
        }
    }

    // A window.

    /// Opens the script's window of this number, from 0.
    ///
    /// [`Status::InWindow`], [`Status::Absent`], [`Status::TooMany`], [`Status::NoMemory`].
    pub fn window(&mut self, number: u32) -> Result<(), Refused> {
        done(calls::window(&mut self.handle, number))
    }

    /// Makes the step of the run at this moment, in ms from the window's beginning. [`Status::NoWindow`].
    pub fn take(&mut self, run: u32, now: u64) -> Result<Turn, Refused> {
        let mut turn = ToldTurn::default();
        done(calls::take(&mut self.handle, run, now, &mut turn))?;
        Ok((&turn).into())
    }

    /// Hands in what the device told to the call with this ticket, and answers the entries that it makes.
    ///
    /// [`Status::NoWindow`], [`Status::NotOut`], [`Status::Wrong`], [`Status::Differs`]: the device stays out.
    pub fn give(&mut self, device: u32, ticket: u64, answer: Answer, now: u64) -> Result<Made, Refused> {
        let mut made = ToldMade::default();
        let (told, value) = answer.numbers();
        done(calls::give(&mut self.handle, device, ticket, told, value, now, &mut made))?;
        Ok((&made).into())
    }

    /// Sends a probe to the device. [`Status::NoWindow`], [`Status::NoProbe`].
    pub fn probe(&mut self, device: u32) -> Result<Go, Refused> {
        let mut turn = ToldTurn::default();
        done(calls::probe(&mut self.handle, device, &mut turn))?;
        Ok((&turn).into())
    }

    /// Whether the run need not be taken: it waits, at every moment, until another step. [`Status::NoWindow`].
    pub fn is_blocked(&mut self, run: u32) -> Result<bool, Refused> {
        let mut yes = 0;
        done(calls::blocked(&mut self.handle, run, &mut yes))?;
        Ok(yes == 1)
    }

    /// The runs that need not be taken, as [`Hub::is_blocked`] tells it, the run `r` as the bit `r - 1`. [`Status::NoWindow`].
    pub fn blocked_runs(&mut self) -> Result<u64, Refused> {
        let mut runs = 0;
        done(calls::blocked_runs(&mut self.handle, &mut runs))?;
        Ok(runs)
    }

    /// With what the device is out, as [`Hub::take`] or [`Hub::probe`] told it.
    ///
    /// [`Status::NoWindow`], [`Status::Absent`], [`Status::NotOut`].
    pub fn out(&mut self, device: u32) -> Result<Go, Refused> {
        let mut turn = ToldTurn::default();
        done(calls::out(&mut self.handle, device, &mut turn))?;
        Ok((&turn).into())
    }

    /// How many items of the window's order are final: those before the first run that is live, all where none is. They
    /// stay in their order, whatever comes, and but under the weak model the order of the record begins with them.
    /// [`Status::NoWindow`].
    pub fn sealed(&mut self) -> Result<u32, Refused> {
        let mut count = 0;
        done(calls::sealed(&mut self.handle, &mut count))?;
        Ok(count)
    }

    /// The final item at this place of the order, from 0. [`Status::NoWindow`], [`Status::Absent`] from [`Hub::sealed`] on.
    pub fn final_item(&mut self, at: u32) -> Result<Item, Refused> {
        let mut item = ToldItem::default();
        done(calls::final_item(&mut self.handle, at, &mut item))?;
        Ok(item.into())
    }

    /// What is left to do in the window. [`Status::NoWindow`].
    pub fn left(&mut self) -> Result<Option<Left>, Refused> {
        let mut left = ToldLeft::default();
        done(calls::quiet(&mut self.handle, &mut left))?;
        Ok(match left.kind {
            1 => Some(Left::Run(left.number)),
            2 => Some(Left::Device(left.number)),
            _ => None,
        })
    }

    /// Closes the window. [`Status::NoWindow`], [`Status::NotQuiet`].
    pub fn close_window(&mut self) -> Result<(), Refused> {
        done(calls::close_window(&mut self.handle))
    }

    // Texts and entries.

    /// The text of the window closed last, as a record has it. [`Status::NoRecord`], [`Status::NoMemory`].
    pub fn record(&mut self, trace: bool) -> Result<String, Refused> {
        let mut len = 0;
        done(calls::record(&mut self.handle, trace.into(), &mut len))?;
        self.text(len)
    }

    /// The two lines above the windows of a record. [`Status::NoMemory`].
    pub fn head(&mut self) -> Result<String, Refused> {
        let mut len = 0;
        done(calls::head(&mut self.handle, &mut len))?;
        self.text(len)
    }

    /// The line of the entry at this place, as a trace has it: of the open window, or of the one closed last.
    /// [`Status::Absent`], [`Status::NoMemory`].
    pub fn entry_text(&mut self, at: u64) -> Result<String, Refused> {
        let mut len = 0;
        done(calls::entry_text(&mut self.handle, at, &mut len))?;
        self.text(len)
    }

    /// The text made last, which is so long.
    fn text(&mut self, len: usize) -> Result<String, Refused> {
        let mut room = vec![0; len];
        let mut got = 0;
        done(calls::read(&mut self.handle, 0, &mut room, &mut got))?;
        room.truncate(got);
        Ok(String::from_utf8_lossy(&room).into_owned())
    }

    /// How many entries the open window has so far, or the one closed last.
    pub fn entry_count(&mut self) -> Result<u64, Refused> {
        let mut count = 0;
        done(calls::entry_count(&mut self.handle, &mut count))?;
        Ok(count)
    }

    /// The entry at this place, and its maker: the run that made the step, 0 for a probe. [`Status::Absent`].
    pub fn entry(&mut self, at: u64) -> Result<(Entry, u32), Refused> {
        let (mut entry, mut maker) = (ToldEntry::default(), 0);
        done(calls::entry_at(&mut self.handle, at, &mut entry, &mut maker))?;
        Ok(((&entry).into(), maker))
    }

    // Windows of the moment.

    /// Appends a window without runs at this time, `2021-04-26T07:00:00`, later than that of the window before, and answers
    /// its number. Where the script has the 288 windows of a day, they are dropped, and this one is number 0.
    ///
    /// [`Status::InWindow`], [`Status::BadTime`], [`Status::TooMany`], [`Status::NoMemory`].
    pub fn begin_window(&mut self, at: &str, probes: u32) -> Result<u32, Refused> {
        let mut number = 0;
        done(calls::begin_window(&mut self.handle, at.as_bytes(), probes, &mut number))?;
        Ok(number)
    }

    /// Appends a run of the routine to the window that was begun, or to the one that is open, where it is the script's last
    /// one, and answers its number; it waits for the end of the run that it follows. A run that joins an open window has not
    /// arrived, and nothing else of the window changes; who sleeps by [`Hub::is_blocked`] asks again.
    ///
    /// [`Status::NoWindow`], [`Status::Absent`], [`Status::TooMany`] (64 runs), [`Status::BadFollow`], [`Status::NoMemory`].
    pub fn add_run(&mut self, routine: u32, follows: Option<u32>) -> Result<u32, Refused> {
        let mut run = 0;
        if follows == Some(0) {
            return Err(Refused(Status::BadFollow));
        }
        done(calls::add_run(&mut self.handle, routine, follows.unwrap_or(0), &mut run))?;
        Ok(run)
    }

    /// Tells the home, between two windows, that the device was found up at this value.
    ///
    /// [`Status::InWindow`], [`Status::Absent`], [`Status::NoValue`].
    pub fn restand(&mut self, device: u32, value: u32) -> Result<(), Refused> {
        done(calls::restand(&mut self.handle, device, value))
    }

    /// Tells the home, between two windows, that the device is lost: the next window begins with it down, and a probe
    /// finds it. Its value stays, and so does one that is down.
    ///
    /// [`Status::InWindow`], [`Status::Absent`].
    pub fn lose(&mut self, device: u32) -> Result<(), Refused> {
        done(calls::lose(&mut self.handle, device))
    }

    // The home and its script.

    /// How the device stands between two windows. [`Status::InWindow`], [`Status::Absent`].
    pub fn stand(&mut self, device: u32) -> Result<Stand, Refused> {
        let mut stand = ToldStand::default();
        done(calls::stand(&mut self.handle, device, &mut stand))?;
        Ok(Stand { value: stand.value, up: stand.up == 1 })
    }

    /// How many devices, routines and windows there are.
    pub fn counts(&mut self) -> Result<Counts, Refused> {
        let mut counts = ToldCounts::default();
        done(calls::counts(&mut self.handle, &mut counts))?;
        Ok(Counts { devices: counts.devices, routines: counts.routines, windows: counts.windows })
    }

    /// How many runs the script's window has, 0 where there is none.
    pub fn run_count(&mut self, window: u32) -> Result<u64, Refused> {
        let mut count = 0;
        done(calls::run_count(&mut self.handle, window, &mut count))?;
        Ok(count)
    }

    /// The name of the device, empty where there is none.
    pub fn device_name(&mut self, device: u32) -> Result<String, Refused> {
        self.name(|handle, room, len| calls::device_name(handle, device, room, len))
    }

    /// The name of the routine, empty where there is none.
    pub fn routine_name(&mut self, routine: u32) -> Result<String, Refused> {
        self.name(|handle, room, len| calls::routine_name(handle, routine, room, len))
    }

    /// The name of the device's value, empty where it has none.
    pub fn value_name(&mut self, device: u32, value: u32) -> Result<String, Refused> {
        self.name(|handle, room, len| calls::value_name(handle, device, value, room, len))
    }

    fn name(&mut self, call: impl FnOnce(&mut Handle, &mut [u8], &mut usize) -> i32) -> Result<String, Refused> {
        let (mut room, mut len) = ([0; LONGEST_NAME], 0);
        done(call(&mut self.handle, &mut room, &mut len))?;
        Ok(String::from_utf8_lossy(&room[..len.min(LONGEST_NAME)]).into_owned())
    }
}

/// The version of the library, as the three numbers of its file VERSION.
pub fn version() -> (u32, u32, u32) {
    let number = calls::version().unsigned_abs();
    (number / 1_000_000, number / 1000 % 1000, number % 1000)
}
