//! The exports of the library: lazbendix.h in Rust, and the lock of a file. Here alone is code that is not safe.
//!
//! Each call below is sound for the same reasons. The handle is one of zeros, or one that the library wrote, since its
//! fields are private, it is neither `Clone` nor `Copy`, and nothing but the library writes into it. Each pointer is made
//! of a reference or of a slice, so it is aligned, points to what its type says, is not null, and lies over no other. A
//! call has the handle for itself alone, since it takes `&mut`.

use std::ffi::c_void;
use std::fs::File;
use std::os::unix::io::AsRawFd;
use std::ptr;

/// The handle of a home.
#[repr(C)]
pub(crate) struct Handle {
    mark: u64,
    at: *mut c_void,
}

// SAFETY: the library's own type is proved to be `Send`, and a value of Rust reaches another thread only by what orders the
// two.
unsafe impl Send for Handle {}

impl Handle {
    /// A handle that is closed.
    pub(crate) const fn closed() -> Handle {
        Handle { mark: 0, at: ptr::null_mut() }
    }
}

#[repr(C)]
#[derive(Clone, Copy, Default)]
pub(crate) struct ToldFault {
    pub(crate) count: u64,
    pub(crate) limit: u64,
    pub(crate) kind: u32,
    pub(crate) counted: u32,
    pub(crate) part: u32,
    pub(crate) outer: u32,
    pub(crate) inner: u32,
    zero: u32,
}

#[repr(C)]
#[derive(Clone, Copy, Default)]
pub(crate) struct ToldEntry {
    pub(crate) moment: u64,
    pub(crate) deadline: u64,
    pub(crate) kind: u32,
    pub(crate) run: u32,
    pub(crate) command: u32,
    pub(crate) device: u32,
    pub(crate) place: u32,
    pub(crate) answer: u32,
    pub(crate) value: u32,
    pub(crate) drove: u32,
    pub(crate) cause: u32,
    pub(crate) lender: u32,
}

#[repr(C)]
#[derive(Clone, Copy, Default)]
pub(crate) struct ToldMade {
    pub(crate) entries: [ToldEntry; 3],
    pub(crate) count: u64,
}

#[repr(C)]
#[derive(Clone, Copy, Default)]
pub(crate) struct ToldTurn {
    pub(crate) ticket: u64,
    pub(crate) made: ToldMade,
    pub(crate) end: ToldEntry,
    pub(crate) kind: u32,
    pub(crate) why: u32,
    pub(crate) device: u32,
    pub(crate) run: u32,
    pub(crate) task: u32,
    pub(crate) value: u32,
    pub(crate) stood: u32,
    zero: u32,
}

#[repr(C)]
#[derive(Clone, Copy, Default)]
pub(crate) struct ToldLeft {
    pub(crate) kind: u32,
    pub(crate) number: u32,
}

#[repr(C)]
#[derive(Clone, Copy, Default)]
pub(crate) struct ToldItem {
    pub(crate) kind: u32,
    pub(crate) run: u32,
    pub(crate) device: u32,
    pub(crate) number: u32,
}

#[repr(C)]
#[derive(Clone, Copy, Default)]
pub(crate) struct ToldStand {
    pub(crate) value: u32,
    pub(crate) up: u32,
}

#[repr(C)]
#[derive(Clone, Copy, Default)]
pub(crate) struct ToldCounts {
    pub(crate) devices: u64,
    pub(crate) routines: u64,
    pub(crate) windows: u64,
}

/// The numbers of a call for a log.
#[repr(C)]
#[derive(Clone, Copy, Default)]
pub(crate) struct ToldCall {
    pub(crate) first: u64,
    pub(crate) second: u64,
    pub(crate) kind: u32,
    pub(crate) sort: u32,
    pub(crate) device: u32,
    pub(crate) value: u32,
}

// As large as in C.
const _: () = assert!(size_of::<Handle>() == 16 && size_of::<ToldFault>() == 40 && size_of::<ToldEntry>() == 56);
const _: () = assert!(size_of::<ToldMade>() == 176 && size_of::<ToldTurn>() == 272 && size_of::<ToldLeft>() == 8);
const _: () = assert!(size_of::<ToldStand>() == 8 && size_of::<ToldCounts>() == 24 && size_of::<ToldItem>() == 16);
const _: () = assert!(size_of::<ToldCall>() == 32);

const fn size_of<T>() -> usize {
    std::mem::size_of::<T>()
}

/// Declares exports whose arguments are numbers and structures, and for each the safe call of its name.
macro_rules! exports {
    ($($export:ident as $name:ident($($word:ident: $kind:ty),*);)*) => {
        extern "C" {
            $(fn $export(h: *mut Handle $(, $word: $kind)*) -> i32;)*
        }
        $(pub(crate) fn $name(h: &mut Handle $(, $word: $kind)*) -> i32 {
            // SAFETY: as this module says.
            unsafe { $export(h $(, $word)*) }
        })*
    };
}

exports! {
    lazbendix_end as end();
    lazbendix_window as window(number: u32);
    lazbendix_take as take(run: u32, now: u64, turn: &mut ToldTurn);
    lazbendix_give as give(device: u32, ticket: u64, answer: u32, value: u32, now: u64, made: &mut ToldMade);
    lazbendix_probe as probe(device: u32, turn: &mut ToldTurn);
    lazbendix_blocked as blocked(run: u32, yes: &mut u32);
    lazbendix_blocked_runs as blocked_runs(runs: &mut u64);
    lazbendix_out as out(device: u32, turn: &mut ToldTurn);
    lazbendix_sealed as sealed(count: &mut u32);
    lazbendix_final_item as final_item(at: u32, item: &mut ToldItem);
    lazbendix_quiet as quiet(left: &mut ToldLeft);
    lazbendix_close_window as close_window();
    lazbendix_record as record(trace: u32, len: &mut usize);
    lazbendix_head as head(len: &mut usize);
    lazbendix_entry_text as entry_text(at: u64, len: &mut usize);
    lazbendix_entry_count as entry_count(count: &mut u64);
    lazbendix_entry_at as entry_at(at: u64, entry: &mut ToldEntry, maker: &mut u32);
    lazbendix_add_run as add_run(routine: u32, follows: u32, run: &mut u32);
    lazbendix_restand as restand(device: u32, value: u32);
    lazbendix_lose as lose(device: u32);
    lazbendix_stand as stand(device: u32, stand: &mut ToldStand);
    lazbendix_counts as counts(counts: &mut ToldCounts);
    lazbendix_run_count as run_count(window: u32, count: &mut u64);
}

extern "C" {
    fn lazbendix_open(
        h: *mut Handle,
        script: *const u8,
        len: usize,
        model: u32,
        scheduler: u32,
        fault: *mut ToldFault,
    ) -> i32;
    fn lazbendix_reopen(
        h: *mut Handle,
        script: *const u8,
        len: usize,
        log: *const u8,
        log_len: usize,
        model: u32,
        scheduler: u32,
        fault: *mut ToldFault,
        good: *mut u64,
    ) -> i32;
    fn lazbendix_begin_window(h: *mut Handle, at: *const u8, at_len: usize, probes: u32, number: *mut u32) -> i32;
    fn lazbendix_read(h: *mut Handle, from: usize, room: *mut u8, room_len: usize, got: *mut usize) -> i32;
    fn lazbendix_device_name(h: *mut Handle, device: u32, room: *mut u8, room_len: usize, len: *mut usize) -> i32;
    fn lazbendix_routine_name(h: *mut Handle, routine: u32, room: *mut u8, room_len: usize, len: *mut usize) -> i32;
    fn lazbendix_value_name(h: *mut Handle, device: u32, value: u32, room: *mut u8, room_len: usize, len: *mut usize)
        -> i32;
    fn lazbendix_log(call: *const ToldCall, room: *mut u8, room_len: usize) -> i32;
    fn lazbendix_version() -> i32;
}

/// Writes the bytes of a call.
pub(crate) fn log(call: &ToldCall, room: &mut [u8]) -> i32 {
    // SAFETY: as this module says.
    unsafe { lazbendix_log(call, room.as_mut_ptr(), room.len()) }
}

/// The number of the version of the library.
pub(crate) fn version() -> i32 {
    // SAFETY: it asks for nothing.
    unsafe { lazbendix_version() }
}

pub(crate) fn open(h: &mut Handle, script: &[u8], model: u32, scheduler: u32, fault: &mut ToldFault) -> i32 {
    // SAFETY: as this module says.
    unsafe { lazbendix_open(h, script.as_ptr(), script.len(), model, scheduler, fault) }
}

pub(crate) fn reopen(
    h: &mut Handle,
    script: &[u8],
    log: &[u8],
    mode: (u32, u32),
    fault: &mut ToldFault,
    good: &mut u64,
) -> i32 {
    // SAFETY: as this module says.
    unsafe { lazbendix_reopen(h, script.as_ptr(), script.len(), log.as_ptr(), log.len(), mode.0, mode.1, fault, good) }
}

pub(crate) fn begin_window(h: &mut Handle, at: &[u8], probes: u32, number: &mut u32) -> i32 {
    // SAFETY: as this module says.
    unsafe { lazbendix_begin_window(h, at.as_ptr(), at.len(), probes, number) }
}

pub(crate) fn read(h: &mut Handle, from: usize, room: &mut [u8], got: &mut usize) -> i32 {
    // SAFETY: as this module says.
    unsafe { lazbendix_read(h, from, room.as_mut_ptr(), room.len(), got) }
}

pub(crate) fn device_name(h: &mut Handle, device: u32, room: &mut [u8], len: &mut usize) -> i32 {
    // SAFETY: as this module says.
    unsafe { lazbendix_device_name(h, device, room.as_mut_ptr(), room.len(), len) }
}

pub(crate) fn routine_name(h: &mut Handle, routine: u32, room: &mut [u8], len: &mut usize) -> i32 {
    // SAFETY: as this module says.
    unsafe { lazbendix_routine_name(h, routine, room.as_mut_ptr(), room.len(), len) }
}

pub(crate) fn value_name(h: &mut Handle, device: u32, value: u32, room: &mut [u8], len: &mut usize) -> i32 {
    // SAFETY: as this module says.
    unsafe { lazbendix_value_name(h, device, value, room.as_mut_ptr(), room.len(), len) }
}

extern "C" {
    fn flock(file: i32, operation: i32) -> i32;
}

/// Holds the lock of the file until it is dropped; false where another one holds it.
pub(crate) fn hold(file: &File) -> bool {
    const EXCLUSIVE: i32 = 2;
    const AT_ONCE: i32 = 4;
    // SAFETY: it asks for nothing but numbers.
    unsafe { flock(file.as_raw_fd(), EXCLUSIVE | AT_ONCE) == 0 }
}
