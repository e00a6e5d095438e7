//! A home is made again of its log: at drawn points, from each cut of it, and from logs of the package for Python.

use lazbendix::{Answer, Entry, Go, Hub, LogError, LogFault, LoggedHub, Mode, Refused, Report, Status, Task, Turn, What};
use std::fs;
use std::path::{Path, PathBuf};

const SCRIPT: &[u8] = br#"{"safehome": 1,
    "devices": [{"name": "lamp", "low": 0, "high": 9, "start": 0}, {"name": "heat", "low": 0, "high": 9, "start": 0},
                {"name": "door", "states": ["shut", "open"], "start": "shut"}],
    "routines": [{"name": "both", "commands": [{"on": "lamp", "do": "set", "to": 5}, {"on": "heat", "do": "set", "to": 5}]},
                 {"name": "twice", "commands": [{"on": "lamp", "do": "set", "to": 4}, {"on": "lamp", "do": "set", "to": 0}]},
                 {"name": "ask", "commands": [{"on": "door", "do": "check", "to": "shut"},
                                              {"on": "heat", "do": "set", "to": 2, "must": false}]}],
    "windows": []}"#;
const MODES: [Mode; 6] = [Mode::Eventual, Mode::JustInTime, Mode::Timeline, Mode::Partitioned, Mode::Global, Mode::Weak];
const AT: &str = "2026-12-01T09:05:00";
const LAMP: u32 = 0;
const HEAT: u32 = 1;
const BOTH: u32 = 0;
const TWICE: u32 = 1;
const HEAD: usize = 64;
const RECORD: usize = 32;

/// A folder that is gone when the test is over.
struct Folder(PathBuf);

impl Folder {
    fn new(name: &str) -> Folder {
        let path = std::env::temp_dir().join(format!("lazbendix-{name}-{}", std::process::id()));
        let _ = fs::remove_dir_all(&path);
        fs::create_dir_all(&path).unwrap();
        Folder(path)
    }

    fn path(&self, name: &str) -> PathBuf {
        self.0.join(name)
    }
}

impl Drop for Folder {
    fn drop(&mut self) {
        let _ = fs::remove_dir_all(&self.0);
    }
}

/// A child that another test starts has the locks of this process until it runs.
fn open(path: &Path) -> LoggedHub {
    for _ in 0..10_000 {
        match LoggedHub::open(path, SCRIPT, Mode::default()) {
            Err(LogError::Log(LogFault::InUse)) => std::thread::sleep(std::time::Duration::from_millis(1)),
            opened => return opened.unwrap(),
        }
    }
    panic!("the log is in use");
}

fn fault(opened: Result<LoggedHub, LogError>) -> LogFault {
    match opened.unwrap_err() {
        LogError::Log(fault) => fault,
        LogError::Refused(refused) => panic!("{refused}"),
    }
}

/// Opens a window with one run, which a trigger asked for.
fn begin(hub: &mut LoggedHub, routine: u32) {
    let trigger = hub.trigger(routine).unwrap();
    let number = hub.begin_window(AT, 1).unwrap();
    hub.add_run_of(trigger, None).unwrap();
    hub.window(number).unwrap();
}

/// Takes run 1 until a device goes out, or the run has ended.
fn step(hub: &mut LoggedHub) -> Option<Go> {
    loop {
        match hub.take(1, hub.moment() + 1).unwrap() {
            Turn::Go(go) => return Some(go),
            Turn::Over(..) => return None,
            _ => {}
        }
    }
}

fn work(hub: &mut LoggedHub, go: Go) {
    hub.give(go.device, go.ticket, Answer::Worked, hub.moment()).unwrap();
}

/// The record of a window that was played to its end, with its log at the path.
fn played(path: &Path) {
    let mut hub = open(path);
    begin(&mut hub, BOTH);
    while let Some(go) = step(&mut hub) {
        hub.let_out().unwrap();
        work(&mut hub, go);
    }
    hub.close_window().unwrap();
    hub.let_out().unwrap();
}

/// All that a home shows, but for the moment of a step that waited and the marks of runs that need not be taken.
fn view(hub: &mut LoggedHub) -> String {
    let counts = hub.counts().unwrap();
    let stands: Vec<_> = (0..counts.devices as u32).map(|device| (hub.stand(device), hub.out(device))).collect();
    let entries: String = (0..hub.entry_count().unwrap()).map(|at| hub.entry_text(at).unwrap()).collect();
    let items: Vec<_> = (0..hub.sealed().unwrap_or(0)).map(|at| hub.final_item(at)).collect();
    let (record, left) = (hub.record(true), hub.left());
    let own = (hub.queue().clone(), hub.down().clone(), hub.opened(), hub.begun(), hub.last_time().map(str::to_owned));
    format!("{counts:?} {stands:?} {entries} {items:?} {record:?} {left:?} {own:?}")
}

/// Numbers that are drawn.
#[derive(Clone)]
struct Draws(u64);

impl Draws {
    fn below(&mut self, bound: u32) -> u32 {
        self.0 = self.0.wrapping_mul(6_364_136_223_846_793_005).wrapping_add(1_442_695_040_888_963_407);
        ((self.0 >> 33) % u64::from(bound)) as u32
    }
}

/// The next call of a play, and what it answers.
#[derive(Clone)]
struct Play {
    draw: Draws,
    clock: u64,
    second: u32,
}

impl Play {
    fn step(&mut self, hub: &mut LoggedHub) -> String {
        if self.draw.below(12) == 0 {
            return format!("{:?}", hub.trigger(self.draw.below(4)));
        }
        match (hub.opened(), hub.begun()) {
            (Some(window), _) => self.in_window(hub, window),
            (None, Some(begun)) if self.draw.below(4) == 0 => format!("{:?}", hub.window(begun)),
            (None, Some(_)) => self.add(hub),
            (None, None) => self.between(hub),
        }
    }

    fn between(&mut self, hub: &mut LoggedHub) -> String {
        self.clock = 0;
        let device = self.draw.below(3);
        match self.draw.below(6) {
            0 => format!("{:?}", hub.restand(device, self.draw.below(2))),
            1 => format!("{:?}", hub.lose(device)),
            _ => {
                self.second += 1;
                let (minute, second) = (self.second / 60 % 60, self.second % 60);
                format!("{:?}", hub.begin_window(&format!("2031-01-01T00:{minute:02}:{second:02}"), 3))
            }
        }
    }

    fn add(&mut self, hub: &mut LoggedHub) -> String {
        let follows = Some(self.draw.below(4)).filter(|leader| *leader > 0);
        let trigger = hub.queue().keys().next().copied();
        match trigger.filter(|_| self.draw.below(2) == 0) {
            Some(trigger) => format!("{:?}", hub.add_run_of(trigger, follows)),
            None => format!("{:?}", hub.add_run(self.draw.below(3), follows)),
        }
    }

    fn in_window(&mut self, hub: &mut LoggedHub, window: u32) -> String {
        self.clock += [0, 0, 1, 40, 3000][self.draw.below(5) as usize];
        let outs: Vec<Go> = (0..3).filter_map(|device| hub.out(device).ok()).collect();
        match self.draw.below(40) {
            0 => self.add(hub),
            1..=12 if !outs.is_empty() => {
                let go = outs[self.draw.below(outs.len() as u32) as usize];
                let answer = match (self.draw.below(8), go.task) {
                    (0, _) => Answer::Dead,
                    (1, _) => Answer::Found(self.draw.below(2)),
                    (_, Task::Sense) => Answer::Found(go.stood),
                    _ => Answer::Worked,
                };
                format!("{:?}", hub.give(go.device, go.ticket, answer, self.clock))
            }
            13..=16 => format!("{:?}", hub.probe(self.draw.below(3))),
            17 => format!("{:?}", hub.close_window()),
            _ if hub.left() == Ok(None) => format!("{:?}", hub.close_window()),
            _ => {
                let runs = hub.run_count(window).unwrap() as u32;
                format!("{:?}", hub.take(self.draw.below(runs + 1) + 1, self.clock))
            }
        }
    }
}

#[test]
fn at_drawn_points_the_home_that_is_made_again_goes_on_alike() {
    let folder = Folder::new("points");
    for (seed, mode) in MODES.iter().copied().enumerate() {
        let path = folder.path(&format!("{seed}"));
        let mut hub = LoggedHub::open(&path, SCRIPT, mode).unwrap();
        let mut play = Play { draw: Draws(seed as u64), clock: 0, second: 0 };
        for point in 0..12 {
            for _ in 0..20 + play.draw.below(40) {
                play.step(&mut hub);
            }
            if play.draw.below(3) == 0 {
                hub.let_out().unwrap();
            }
            if point % 3 == 2 && hub.opened().is_none() && hub.begun().is_none() {
                hub.let_out().unwrap();
                hub.begin_anew().unwrap();
            }
            hub.sync().unwrap();
            let copy = folder.path(&format!("{seed}-{point}"));
            fs::copy(&path, &copy).unwrap();
            let mut again = LoggedHub::open(&copy, SCRIPT, mode).unwrap();
            assert_eq!(view(&mut again), view(&mut hub));
            let mut other = play.clone();
            for _ in 0..25 {
                assert_eq!(other.step(&mut again), play.step(&mut hub));
            }
            assert_eq!(view(&mut again), view(&mut hub));
            let (once_more, reports) = (again.let_out().unwrap().reports, hub.let_out().unwrap().reports);
            assert!(once_more.ends_with(&reports));
        }
    }
}

#[test]
fn logs_of_the_package_for_python_are_read() {
    let Some(folder) = std::env::var_os("LAZBENDIX_LOGS").map(PathBuf::from) else { return };
    let mut count = 0;
    for number in (0..).take_while(|number| folder.join(format!("{number}.calls")).exists()) {
        let text = fs::read_to_string(folder.join(format!("{number}.text"))).unwrap();
        let script = fs::read(folder.join(format!("{number}.script"))).unwrap();
        let mode = MODES[text.lines().next().unwrap()["mode ".len()..].parse::<usize>().unwrap()];
        let mut hub = LoggedHub::open(&folder.join(format!("{number}.calls")), &script, mode).unwrap();
        let mut lines = vec![text.lines().next().unwrap().to_owned()];
        lines.extend(hub.queue().iter().map(|(trigger, routine)| format!("trigger {trigger} {routine}")));
        lines.extend(hub.down().iter().map(|device| format!("down {device}")));
        lines.extend(hub.former().iter().map(|go| format!("out {} {} {} {}", go.device, go.ticket, go.run, go.stood)));
        let entries: String = (0..hub.entry_count().unwrap()).map(|at| hub.entry_text(at).unwrap()).collect();
        lines.extend(entries.lines().map(str::to_owned));
        assert_eq!(lines, text.lines().collect::<Vec<_>>());
        count += 1;
    }
    assert!(count > 0);
}

#[test]
fn the_records_are_those_of_the_page() {
    let folder = Folder::new("format");
    played(&folder.path("calls"));
    let data = fs::read(folder.path("calls")).unwrap();
    let number = |at: usize, bytes: usize| data[at..at + bytes].iter().rev().fold(0u64, |n, byte| n << 8 | u64::from(*byte));
    let calls: Vec<_> = (HEAD..data.len())
        .step_by(RECORD)
        .map(|at| (data[at], data[at + 1], number(at + 2, 2), number(at + 4, 4), number(at + 8, 8), number(at + 16, 8)))
        .filter(|call| call.0 < 128)
        .collect();
    let (lamp, heat) = (u64::from(LAMP), u64::from(HEAT));
    let mut wanted = vec![(1, 0, 0, 1, 20_261_201_090_500, 0), (2, 0, 0, 0, 0, 0), (3, 0, 0, 0, 0, 0)];
    wanted.extend((1..=3).map(|moment| (4, 0, 0, 1, 0, moment)));
    wanted.extend([
        (5, 1, lamp, 0, 1, 3),
        (4, 0, 0, 1, 0, 4),
        (5, 1, heat, 0, 2, 4),
        (4, 0, 0, 1, 0, 5),
        (7, 0, 0, 0, 0, 0),
    ]);
    assert_eq!(calls, wanted);
    assert_eq!((&data[..8], data.len() % RECORD), (&b"lazcall1"[..], 0));
}

#[test]
fn a_torn_end_is_cut_and_damage_is_refused() {
    let folder = Folder::new("torn");
    let path = folder.path("calls");
    played(&path);
    let data = fs::read(&path).unwrap();
    for place in 0..6 {
        let mut spoilt = data.clone();
        spoilt[HEAD + RECORD * place + 9] ^= 4;
        fs::write(&path, &spoilt).unwrap();
        assert_eq!(fault(LoggedHub::open(&path, SCRIPT, Mode::default())), LogFault::Damaged(place as u64));
        assert_eq!(fs::read(&path).unwrap(), spoilt);
    }
    fs::write(&path, &data[..data.len() - 5]).unwrap();
    assert_eq!(open(&path).records(), ((data.len() - HEAD) / RECORD) as u64); // one is lost, and one says that it started
    assert_eq!(fs::read(&path).unwrap().len(), data.len() - RECORD);
}

#[test]
fn logs_of_others_are_left_as_they_are() {
    let folder = Folder::new("foreign");
    let path = folder.path("calls");
    played(&path);
    let data = fs::read(&path).unwrap();
    let other = [SCRIPT, b" "].concat();
    assert_eq!(fault(LoggedHub::open(&path, &other, Mode::default())), LogFault::OtherScript);
    assert_eq!(fault(LoggedHub::open(&path, SCRIPT, Mode::Timeline)), LogFault::OtherMode);
    let hub = open(&path);
    assert_eq!(fault(LoggedHub::open(&path, SCRIPT, Mode::default())), LogFault::InUse);
    drop(hub);
    assert_eq!(fs::read(&path).unwrap(), data);
    for bytes in [&b""[..], &data[1..], &[0; 100]] {
        fs::write(&path, bytes).unwrap();
        assert_eq!(fault(LoggedHub::open(&path, SCRIPT, Mode::default())), LogFault::NotALog);
    }
}

#[test]
fn what_leaves_the_home_is_on_the_disk() {
    let folder = Folder::new("leaves");
    let (path, left) = (folder.path("calls"), folder.path("left"));
    let mut hub = open(&path);
    begin(&mut hub, BOTH);
    assert_eq!(hub.let_out().unwrap().reports, [(1, Report::Triggered { trigger: 1, routine: BOTH })]);
    let go = step(&mut hub).unwrap();
    fs::copy(&path, &left).unwrap();
    assert_eq!(open(&left).former(), []); // it was not let out yet
    assert_eq!(hub.let_out().unwrap().calls, [go]);
    for (not_twice, calls, down) in [(&[][..], vec![go], 0), (&[HEAT][..], vec![go], 0), (&[LAMP][..], vec![], 1)] {
        fs::copy(&path, &left).unwrap();
        let mut again = open(&left);
        assert_eq!(again.former(), [go]);
        again.call_again(not_twice).unwrap();
        assert_eq!((again.let_out().unwrap().calls, again.down().len()), (calls, down));
    }
    work(&mut hub, go);
    while let Some(go) = step(&mut hub) {
        hub.let_out().unwrap();
        work(&mut hub, go);
    }
    let (number, ended) = hub.let_out().unwrap().reports.remove(0);
    assert_eq!((number, &ended), (2, &Report::Ended { trigger: Some(1), run: 1, end: What::Committed }));
    fs::copy(&path, &left).unwrap();
    assert_eq!(open(&left).let_out().unwrap().reports, [(2, ended)]);
}

#[test]
fn tickets_triggers_and_reports_go_on_in_a_log_that_is_begun_anew() {
    let folder = Folder::new("anew");
    let path = folder.path("calls");
    let mut hub = open(&path);
    begin(&mut hub, BOTH);
    assert_eq!(hub.begin_anew(), Err(LogError::Refused(Refused(Status::InWindow))));
    let mut last = 0;
    while let Some(go) = step(&mut hub) {
        last = go.ticket;
        work(&mut hub, go);
    }
    hub.close_window().unwrap();
    hub.lose(HEAT).unwrap();
    assert_eq!(hub.begin_anew(), Err(LogError::Refused(Refused(Status::NotQuiet))));
    let numbers: Vec<u64> = hub.let_out().unwrap().reports.iter().map(|(number, _)| *number).collect();
    assert_eq!(numbers, [1, 2, 3, 4]);
    let stands: Vec<_> = (0..3).map(|device| hub.stand(device)).collect();
    hub.begin_anew().unwrap();
    for _ in 0..2 {
        assert_eq!((0..3).map(|device| hub.stand(device)).collect::<Vec<_>>(), stands);
        assert_eq!((hub.last_time(), hub.records() < 8), (Some(AT), true));
        drop(hub);
        hub = open(&path);
    }
    begin(&mut hub, TWICE);
    assert!(step(&mut hub).unwrap().ticket > last);
    assert_eq!(hub.let_out().unwrap().reports, [(5, Report::Triggered { trigger: 2, routine: TWICE })]);
}

#[test]
fn a_log_that_can_not_be_begun_anew_goes_on() {
    let folder = Folder::new("refused");
    fs::create_dir(folder.path("own")).unwrap();
    let mut hub = open(&folder.path("own/calls"));
    hub.let_out().unwrap();
    fs::rename(folder.path("own"), folder.path("other")).unwrap();
    assert!(matches!(hub.begin_anew(), Err(LogError::Log(LogFault::Failed(_)))));
    begin(&mut hub, BOTH);
    hub.let_out().unwrap();
    drop(hub);
    assert_eq!(open(&folder.path("other/calls")).opened(), Some(0));
}

/// The other half of the next test: a process whose files may not become longer.
#[test]
#[ignore = "the next test calls it"]
fn a_life_on_a_full_disk() {
    let Some(path) = std::env::var_os("LAZBENDIX_FULL").map(PathBuf::from) else { return };
    let mut hub = open(&path);
    begin(&mut hub, BOTH);
    let mut kept = 0;
    let fault = loop {
        hub.trigger(BOTH).unwrap();
        match hub.let_out() {
            Ok(_) => kept += 1,
            Err(error) => break error,
        }
    };
    assert!(matches!(fault, LogError::Log(LogFault::Failed(_))), "{fault}");
    assert_eq!(hub.trigger(BOTH), Err(fault));
    assert_eq!(hub.take(1, 9), Err(fault));
    assert_eq!(hub.let_out(), Err(fault));
    fs::write(path.with_extension("kept"), kept.to_string()).unwrap();
}

#[test]
fn on_a_full_disk_nothing_is_let_out_any_more() {
    let folder = Folder::new("full");
    let path = folder.path("calls");
    let ran = std::process::Command::new("sh")
        .args(["-c", "trap '' XFSZ; ulimit -f 2; exec \"$0\" --exact --ignored a_life_on_a_full_disk"])
        .arg(std::env::current_exe().unwrap())
        .env("LAZBENDIX_FULL", &path)
        .output()
        .unwrap();
    assert!(ran.status.success(), "{}", String::from_utf8_lossy(&ran.stdout));
    let kept: usize = fs::read_to_string(path.with_extension("kept")).unwrap().parse().unwrap();
    let mut hub = open(&path);
    assert!(kept > 2 && hub.queue().len() >= kept);
    assert!(step(&mut hub).is_some());
    assert_eq!(hub.let_out().unwrap().calls.len(), 1);
}

/// A sync that the system itself refuses.
#[cfg(target_os = "linux")]
mod unsynced {
    use super::*;
    use std::io::{self, ErrorKind};
    use std::os::unix::io::AsRawFd;

    /// A home of which a trigger was reported, and whose next trigger and first drive are held back, since the log is not synced.
    fn held_back(path: &Path) -> (LoggedHub, Go) {
        let mut hub = open(path);
        begin(&mut hub, BOTH);
        assert_eq!(hub.let_out().unwrap().reports, [(1, Report::Triggered { trigger: 1, routine: BOTH })]);
        assert_eq!(hub.trigger(TWICE), Ok(2));
        let go = step(&mut hub).unwrap();
        (hub, go)
    }

    /// Nothing is let out, and no call is made any more.
    fn gives_up(hub: &mut LoggedHub, kind: ErrorKind, go: Go) {
        let failed = LogError::Log(LogFault::Failed(kind));
        for _ in 0..2 {
            assert_eq!(hub.let_out(), Err(failed));
        }
        assert_eq!(hub.sync(), Err(failed));
        assert_eq!(hub.trigger(BOTH), Err(failed));
        assert_eq!(hub.take(1, 9), Err(failed));
        assert_eq!(hub.give(go.device, go.ticket, Answer::Worked, 9), Err(failed));
        assert_eq!(hub.begin_anew(), Err(failed));
    }

    /// Puts a device in the place of the open file, which takes all that is written, and which can not be synced.
    fn put_null_under(path: &Path) {
        extern "C" {
            fn dup2(from: i32, to: i32) -> i32;
        }
        let path = fs::canonicalize(path).unwrap();
        let mut files = fs::read_dir("/proc/self/fd").unwrap().map(|file| file.unwrap().path());
        let file = files.find(|file| fs::read_link(file).is_ok_and(|name| name == path)).unwrap();
        let number = file.file_name().unwrap().to_str().unwrap().parse().unwrap();
        let null = fs::OpenOptions::new().write(true).open("/dev/null").unwrap();
        // SAFETY: both are open, and the log keeps its number.
        assert_eq!(unsafe { dup2(null.as_raw_fd(), number) }, number);
    }

    #[test]
    fn where_a_sync_fails_nothing_is_let_out_and_what_was_synced_stays() {
        let folder = Folder::new("unsynced");
        let path = folder.path("calls");
        let (mut hub, go) = held_back(&path);
        let synced = fs::read(&path).unwrap();
        put_null_under(&path);
        gives_up(&mut hub, ErrorKind::InvalidInput, go);
        drop(hub);
        assert_eq!(fs::read(&path).unwrap(), synced);
        let mut again = open(&path);
        assert_eq!((again.former(), again.queue().len(), again.opened()), (&[][..], 0, Some(0)));
        assert_eq!(again.let_out().unwrap().reports, [(1, Report::Triggered { trigger: 1, routine: BOTH })]);
        assert_eq!((again.trigger(TWICE), step(&mut again)), (Ok(2), Some(go)));
        assert_eq!(again.let_out().unwrap().calls, [go]);
    }

    /// From now on the system makes no sync of this thread, and answers an error of the disk.
    fn refuse_syncs() {
        #[repr(C)]
        struct Step(u16, u8, u8, u32); // what, how many steps to leave out if so and if not, a number
        #[repr(C)]
        struct Program(u16, *const Step);
        extern "C" {
            fn prctl(option: i32, ...) -> i32;
        }
        const NO_NEW_PRIVILEGES: i32 = 38;
        const SECCOMP: i32 = 22;
        const FDATASYNC: u32 = if cfg!(target_arch = "aarch64") { 83 } else { 75 };
        const INPUT_OUTPUT_ERROR: u32 = 5;
        let call = Step(0x20, 0, 0, 0);
        let is_sync = Step(0x15, 0, 1, FDATASYNC);
        let steps = [call, is_sync, Step(6, 0, 0, 0x0005_0000 | INPUT_OUTPUT_ERROR), Step(6, 0, 0, 0x7fff_0000)];
        let program = Program(4, steps.as_ptr());
        // SAFETY: the program and its steps are there during the calls, which read them alone.
        assert_eq!(unsafe { prctl(NO_NEW_PRIVILEGES, 1usize, 0usize, 0usize, 0usize) }, 0);
        assert_eq!(unsafe { prctl(SECCOMP, 2usize, &program as *const Program) }, 0);
    }

    #[test]
    fn what_a_sync_that_failed_has_written_is_synced_in_the_next_life() {
        let folder = Folder::new("written");
        let path = folder.path("calls");
        let (mut hub, go) = held_back(&path);
        let synced = fs::read(&path).unwrap();
        let unsynced = |hub: &mut LoggedHub| {
            refuse_syncs();
            let failed = hub.let_out().unwrap_err();
            let LogError::Log(LogFault::Failed(kind)) = failed else { panic!("{failed}") };
            assert_eq!(io::Error::from_raw_os_error(5).kind(), kind);
            gives_up(hub, kind, go);
            fault(LoggedHub::open(&path.with_extension("new"), SCRIPT, Mode::default()))
        };
        let begun = std::thread::scope(|life| life.spawn(|| unsynced(&mut hub)).join().unwrap());
        assert!(matches!(begun, LogFault::Failed(_)), "{begun:?}");
        drop(hub);
        let written = fs::read(&path).unwrap();
        assert!(written.len() > synced.len() && written.starts_with(&synced));
        let mut again = open(&path);
        assert_eq!((again.former(), again.queue().get(&2)), (&[go][..], Some(&TWICE)));
        assert!(again.let_out().unwrap().reports.contains(&(2, Report::Triggered { trigger: 2, routine: TWICE })));
        again.call_again(&[]).unwrap();
        assert_eq!(again.let_out().unwrap().calls, [go]);
    }
}

#[test]
fn a_window_at_a_time_of_any_form_is_made_again() {
    let folder = Folder::new("times");
    let forms = [
        ("2012-12-01T09:05", "2012-12-01T09:05:00"),
        ("2012-12-02", "2012-12-02T00:00:00"),
        ("20121202 070530,25", "2012-12-02T07:05:30"),
        ("2012-12-03T07:05:60", "2012-12-03T07:05:59"),
        ("+002012-12-03T08+02:30:15", "2012-12-03T08:00:00"),
        ("2012-12-03T09:05:00[+02]", "2012-12-03T09:05:00"),
        ("2012-12-03t10:00:00.123456789-0230[!Etc/GMT-2][u-ca=iso8601]", "2012-12-03T10:00:00"),
    ];
    let path = folder.path("calls");
    let mut hub = open(&path);
    for (at, plain) in forms {
        let number = hub.begin_window(at, 0).unwrap();
        hub.add_run(BOTH, None).unwrap();
        assert_eq!(hub.last_time(), Some(plain));
        hub.sync().unwrap();
        drop(hub);
        hub = open(&path);
        assert_eq!((hub.last_time(), hub.begun()), (Some(plain), Some(number)));
        hub.window(number).unwrap();
        while let Some(go) = step(&mut hub) {
            work(&mut hub, go);
        }
        hub.close_window().unwrap();
        assert!(hub.record(false).unwrap().starts_with(&format!("window {} {plain}\n", number + 1)));
        hub.let_out().unwrap();
    }
    for at in ["2012-12-04T", "2012-12-04T09:05:61", "2012-12-04T09:05Z", "2012-12-03T10:00:00", ""] {
        assert_eq!(hub.begin_window(at, 0), Err(LogError::Refused(Refused(Status::BadTime))));
    }
}

#[test]
fn a_hub_without_a_log_is_as_it_was() {
    let mut hub = Hub::open(SCRIPT, Mode::default()).unwrap();
    let number = hub.begin_window(AT, 0).unwrap();
    hub.add_run(BOTH, None).unwrap();
    hub.window(number).unwrap();
    let Turn::Moved(made) = hub.take(1, 3).unwrap() else { panic!("the run arrives") };
    assert_eq!(made.entries(), [Entry::Arrived { run: 1, moment: 3 }]);
}

/// A home of 64 devices and 64 routines, each of which sets 64 devices that are drawn.
fn large_script() -> String {
    let mut draw = Draws(3);
    let devices: Vec<String> = (0..64).map(|d| format!(r#"{{"name": "d{d}", "low": 0, "high": 9, "start": 0}}"#)).collect();
    let mut command = || format!(r#"{{"on": "d{}", "do": "set", "to": {}}}"#, draw.below(64), draw.below(10));
    let mut routine = |r| {
        let commands: Vec<String> = (0..64).map(|_| command()).collect();
        format!(r#"{{"name": "r{r}", "commands": [{}]}}"#, commands.join(", "))
    };
    let routines: Vec<String> = (0..64).map(&mut routine).collect();
    format!(
        r#"{{"safehome": 1, "devices": [{}], "routines": [{}], "windows": []}}"#,
        devices.join(", "),
        routines.join(", ")
    )
}

/// `cargo test --release --test logged -- --ignored --nocapture` says how long a home takes that is made again near the end of
/// a window of 64 runs of 64 commands.
#[test]
#[ignore = "it measures"]
fn how_long_a_home_takes_that_is_made_again() {
    let (folder, script) = (Folder::new("time"), large_script());
    let path = folder.path("calls");
    let mut hub = LoggedHub::open(&path, script.as_bytes(), Mode::default()).unwrap();
    let number = hub.begin_window(AT, 0).unwrap();
    for routine in 0..64 {
        hub.add_run(routine, None).unwrap();
    }
    hub.window(number).unwrap();
    let mut outs = Vec::new();
    while hub.records() < 8400 {
        let mut has_moved = false;
        for run in 1..=64 {
            match hub.take(run, hub.moment() + 1).unwrap() {
                Turn::Go(go) => outs.push(go),
                turn => has_moved |= matches!(turn, Turn::Moved(_)),
            }
        }
        if !has_moved {
            outs.drain(..).for_each(|go| work(&mut hub, go));
        }
    }
    hub.sync().unwrap();
    let took = (0..40).map(|number| {
        let copy = folder.path(&format!("{number}"));
        fs::copy(&path, &copy).unwrap();
        let begun = std::time::Instant::now();
        assert!(LoggedHub::open(&copy, script.as_bytes(), Mode::default()).unwrap().opened().is_some());
        begun.elapsed()
    });
    println!("{} records: the least of 40 times {:?}", hub.records(), took.min().unwrap());
}
