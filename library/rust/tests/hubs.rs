//! What the crate adds to the library: typed statuses, the end of a hub, and its way between threads.

use lazbendix::{
    version, Answer, Cause, Counts, Entry, Fault, FaultKind, Go, Hub, Item, Left, Mode, Part, Refused, Spot, Stand, Status,
    Task, Turn, What, Why,
};
use std::sync::{Arc, Mutex};
use std::thread;

const LEAVING: &[u8] = include_bytes!("../../../examples/leaving.json");
const LAMP: u32 = 0;
const HEAT: u32 = 1;
const WINDOW: u32 = 2;
const SHUT: u32 = 0;
const OPEN: u32 = 1;
const LEAVE: u32 = 0;
const READ: u32 = 1;

fn open() -> Hub {
    Hub::open(LEAVING, Mode::default()).unwrap()
}

fn refused<T>(status: Status) -> Result<T, Refused> {
    Err(Refused(status))
}

/// Every device works; a sense of the window finds this value.
fn play(hub: &mut Hub, number: u32, window: u32) {
    hub.window(number).unwrap();
    play_on(hub, number, window);
}

/// The same, in the window that is open.
fn play_on(hub: &mut Hub, number: u32, window: u32) {
    step(hub, number, window);
    hub.close_window().unwrap();
}

/// The same, and the window stays open.
fn step(hub: &mut Hub, number: u32, window: u32) {
    while hub.left().unwrap().is_some() {
        for run in 1..=hub.run_count(number).unwrap() as u32 {
            if let Turn::Go(go) = hub.take(run, 0).unwrap() {
                let answer = if go.task == Task::Sense { Answer::Found(window) } else { Answer::Worked };
                hub.give(go.device, go.ticket, answer, 0).unwrap();
            }
        }
    }
}

#[test]
fn names_and_numbers() {
    let mut hub = open();
    assert_eq!(hub.counts(), Ok(Counts { devices: 4, routines: 2, windows: 1 }));
    let names: Vec<String> = (0..5).map(|d| hub.device_name(d).unwrap()).collect();
    assert_eq!(names, ["lamp", "heat", "window", "alarm", ""]);
    assert_eq!(hub.routine_name(READ).unwrap(), "read");
    assert_eq!(hub.value_name(WINDOW, OPEN).unwrap(), "open");
    assert_eq!(hub.value_name(HEAT, 21).unwrap(), "");
    assert_eq!(hub.stand(HEAT), Ok(Stand { value: 21, up: true }));
    assert_eq!((hub.run_count(0), hub.run_count(1)), (Ok(2), Ok(0)));
}

/// A call as a log has it, of kind, sort, device, value, and two words.
fn logged(kind: u8, sort: u8, device: u16, value: u32, first: u64, second: u64) -> Vec<u8> {
    let mut bytes = vec![kind, sort];
    bytes.extend(device.to_le_bytes());
    bytes.extend(value.to_le_bytes());
    bytes.extend(first.to_le_bytes());
    bytes.extend(second.to_le_bytes());
    bytes
}

#[test]
fn a_home_is_opened_again_in_mid_window() {
    let mut hub = open();
    let mut log = logged(3, 0, 0, 0, 0, 0);
    hub.window(0).unwrap();
    let go = loop {
        let turn = hub.take(1, 5).unwrap();
        log.extend(logged(4, 0, 0, 1, 0, 5));
        if let Turn::Go(go) = turn {
            break go;
        }
    };
    let (mut again, good) = Hub::reopen(LEAVING, &log, Mode::default()).unwrap();
    assert_eq!(good, log.len() as u64);
    assert_eq!(again.out(go.device).unwrap(), go);
    let count = hub.entry_count().unwrap();
    assert_eq!(again.entry_count(), Ok(count));
    for at in 0..count {
        assert_eq!(again.entry(at), hub.entry(at));
    }
    for home in [&mut hub, &mut again] {
        home.give(go.device, go.ticket, Answer::Worked, 6).unwrap();
        play_on(home, 0, OPEN);
    }
    assert_eq!(again.record(true).unwrap(), hub.record(true).unwrap());
    let before = log.len() as u64;
    log.extend(logged(7, 0, 0, 0, 0, 0));
    let no_call = Hub::reopen(LEAVING, &log, Mode::default()).map(|_| ());
    assert_eq!(no_call, refused(Status::NoCall(before)));
}

#[test]
fn a_script_is_refused_with_its_fault() {
    let script = br#"{"safehome": 1, "devices": [], "routines": [], "windows": [{"at": "noon", "runs": []}]}"#;
    let spot = Some(Spot { part: Part::Window, outer: 1, inner: 0 });
    let fault = Fault { kind: FaultKind::BadTime, spot };
    assert_eq!(Hub::open(script, Mode::Weak).err(), Some(Refused(Status::Refused(fault))));
    let fault = Fault { kind: FaultKind::NotJson, spot: None };
    assert_eq!(Hub::open(b"", Mode::Weak).err(), Some(Refused(Status::Refused(fault))));
}

#[test]
fn a_window_of_the_script() {
    let mut hub = open();
    assert_eq!(hub.record(true), refused(Status::NoRecord));
    play(&mut hub, 0, OPEN);
    let text = hub.record(false).unwrap();
    assert!(text.contains("\nrun 1 leave aborted refuted 3 found open\nrun 2 read committed ."));
    let entries: Vec<Entry> = (0..hub.entry_count().unwrap()).map(|at| hub.entry(at).unwrap().0).collect();
    assert_eq!(entries[0], Entry::Arrived { run: 1, moment: 0 });
    let cause = Cause::Refuted { command: 2, value: OPEN };
    assert!(entries.contains(&Entry::Doomed { run: 1, cause }));
    assert!(entries.contains(&Entry::Ended { run: 2, end: What::Committed }));
    assert!(hub.entry_text(0).unwrap().starts_with("# arrived 1 at 0"));
    assert_eq!(hub.head().unwrap(), "safehome day\nmodel ev fcfs\n");
}

#[test]
fn the_steps_of_a_run() {
    let mut hub = open();
    hub.window(0).unwrap();
    assert_eq!(hub.window(0), refused(Status::InWindow));
    assert_eq!(hub.left(), Ok(Some(Left::Run(1))));
    assert_eq!(hub.take(3, 0), Ok(Turn::NoRun));
    assert!(matches!(hub.take(1, 5), Ok(Turn::Moved(made)) if made.entries() == [Entry::Arrived { run: 1, moment: 5 }]));
    assert!(matches!(hub.take(1, 5), Ok(Turn::Moved(_))));
    let go = Go { device: HEAT, ticket: 1, run: 1, task: Task::Drive(15), stood: 21 };
    assert_eq!(hub.take(1, 5), Ok(Turn::Go(go)));
    assert_eq!(hub.take(1, 5), Ok(Turn::Waits(Why::Busy { device: HEAT })));
    assert_eq!(hub.is_blocked(1), Ok(false)); // it has a device out
    assert_eq!(hub.give(HEAT, 2, Answer::Worked, 5), refused(Status::NotOut));
    assert_eq!(hub.give(HEAT, 1, Answer::Found(15), 5), refused(Status::Wrong));
    let made = hub.give(HEAT, 1, Answer::Dead, 5).unwrap();
    let cause = Cause::MustDown { command: 0 };
    assert_eq!(made.entries().last(), Some(&Entry::Doomed { run: 1, cause }));
    assert!(matches!(hub.take(1, 5), Ok(Turn::Over(Entry::Ended { run: 1, end: What::Aborted(_) }, _))));
    assert_eq!(hub.close_window(), refused(Status::NotQuiet));
    assert_eq!(hub.probe(LAMP), refused(Status::NoProbe));
}

#[test]
fn runs_that_join() {
    let mut hub = open();
    hub.restand(WINDOW, SHUT).unwrap();
    let number = hub.begin_window("2021-04-27T08:10:00", 100).unwrap();
    hub.window(number).unwrap();
    assert_eq!(hub.left(), Ok(None));
    assert_eq!(hub.add_run(READ, Some(1)), refused(Status::BadFollow));
    assert_eq!(hub.add_run(LEAVE, None), Ok(1));
    let go = loop {
        if let Turn::Go(go) = hub.take(1, 0).unwrap() {
            break go;
        }
    };
    assert_eq!(hub.add_run(LEAVE, None), Ok(2));
    while !matches!(hub.take(2, 0), Ok(Turn::Waits(_))) {}
    assert_eq!(hub.blocked_runs(), Ok(2));
    assert_eq!(hub.add_run(READ, Some(1)), Ok(3));
    assert_eq!((hub.blocked_runs(), hub.out(HEAT), hub.run_count(number)), (Ok(0), Ok(go), Ok(3)));
    hub.give(HEAT, go.ticket, Answer::Worked, 0).unwrap();
    step(&mut hub, number, SHUT);
    for run in 4..=64 {
        assert_eq!(hub.add_run(READ, Some(1)), Ok(run));
    }
    assert_eq!(hub.add_run(READ, Some(65)), refused(Status::TooMany));
    play_on(&mut hub, number, SHUT);
    assert_eq!(hub.record(false).unwrap().matches(" committed").count(), 64);
}

#[test]
fn a_window_of_the_moment() {
    let mut hub = open();
    hub.restand(WINDOW, SHUT).unwrap();
    let number = hub.begin_window("2021-04-27T08:10:00", 0).unwrap();
    assert_eq!(hub.add_run(LEAVE, None), Ok(1));
    assert_eq!(hub.add_run(READ, Some(1)), Ok(2));
    assert_eq!(hub.add_run(READ, Some(3)), refused(Status::BadFollow));
    play(&mut hub, number, SHUT);
    assert!(hub.record(false).unwrap().ends_with("\norder 1 2\nhome lamp=on heat=15 window=shut alarm=on\n"));
    assert_eq!(hub.begin_window("2021-04-27T08:10:00", 0), refused(Status::BadTime));
    assert_eq!(hub.add_run(LEAVE, None), refused(Status::NoWindow));
    assert_eq!(hub.restand(HEAT, 31), refused(Status::NoValue));
}

#[test]
fn a_device_that_is_lost() {
    let mut hub = open();
    assert_eq!(hub.lose(4), refused(Status::Absent));
    for _ in 0..2 {
        hub.lose(HEAT).unwrap();
        assert_eq!(hub.stand(HEAT), Ok(Stand { value: 21, up: false }));
    }
    let number = hub.begin_window("2021-04-27T08:10:00", 1).unwrap();
    assert_eq!(hub.add_run(LEAVE, None), Ok(1));
    hub.window(number).unwrap();
    assert_eq!(hub.lose(HEAT), refused(Status::InWindow));
    let cause = Cause::MustDown { command: 0 };
    let end = loop {
        match hub.take(1, 0).unwrap() {
            Turn::Moved(_) => {}
            other => break other,
        }
    };
    assert!(matches!(end, Turn::Over(Entry::Ended { run: 1, end: What::Aborted(why) }, _) if why == cause));
    let go = hub.probe(HEAT).unwrap();
    assert_eq!(go.task, Task::Restore(21));
    let made = hub.give(HEAT, go.ticket, Answer::Worked, 0).unwrap();
    assert_eq!(made.entries(), [Entry::Rose { device: HEAT }]);
}

#[test]
fn what_is_asked_of_a_window() {
    let mut hub = open();
    assert_eq!(hub.blocked_runs(), refused(Status::NoWindow));
    assert_eq!(hub.out(HEAT), refused(Status::NoWindow));
    assert_eq!(hub.sealed(), refused(Status::NoWindow));
    assert_eq!(hub.final_item(0), refused(Status::NoWindow));
    let number = hub.begin_window("2021-04-27T08:10:00", 0).unwrap();
    for _ in 0..2 {
        hub.add_run(LEAVE, None).unwrap();
    }
    hub.window(number).unwrap();
    let go = loop {
        if let Turn::Go(go) = hub.take(1, 0).unwrap() {
            break go;
        }
    };
    assert_eq!(hub.out(HEAT), Ok(go));
    assert_eq!(hub.out(LAMP), refused(Status::NotOut));
    assert_eq!(hub.out(4), refused(Status::Absent));
    while !matches!(hub.take(2, 0), Ok(Turn::Waits(_))) {}
    assert_eq!(hub.blocked_runs(), Ok(2));
    assert_eq!((hub.is_blocked(1), hub.is_blocked(2)), (Ok(false), Ok(true)));
    assert_eq!(hub.sealed(), Ok(0));
    assert_eq!(hub.final_item(0), refused(Status::Absent));
    hub.give(HEAT, go.ticket, Answer::Dead, 0).unwrap();
    assert_eq!(hub.out(HEAT), refused(Status::NotOut));
    for run in 1..=2 {
        while !matches!(hub.take(run, 0), Ok(Turn::Over(_, _))) {}
    }
    assert_eq!(hub.sealed(), Ok(1));
    assert_eq!(hub.final_item(0), Ok(Item::Failed { device: HEAT, number: 1 }));
    assert_eq!(hub.final_item(1), refused(Status::Absent));
    hub.close_window().unwrap();
    assert!(hub.record(false).unwrap().contains("\norder fail(heat)\n"));
    play(&mut hub, 0, SHUT);
}

#[test]
fn a_final_run_is_told() {
    let mut hub = open();
    hub.window(0).unwrap();
    while !matches!(hub.take(2, 0), Ok(Turn::Over(_, _))) {
        if let Ok(go) = hub.out(LAMP) {
            hub.give(LAMP, go.ticket, Answer::Worked, 0).unwrap();
        }
    }
    assert_eq!((hub.sealed(), hub.final_item(0)), (Ok(1), Ok(Item::Ran(2))));
}

#[test]
fn the_version_is_that_of_the_file() {
    let (first, second, third) = version();
    assert_eq!(format!("{first}.{second}.{third}"), include_str!("../../../VERSION").trim());
}

#[test]
fn an_answer_of_an_earlier_window_is_late() {
    let mut hub = open();
    hub.window(0).unwrap();
    let early = loop {
        if let Turn::Go(go) = hub.take(1, 0).unwrap() {
            break go;
        }
    };
    hub.give(early.device, early.ticket, Answer::Dead, 0).unwrap();
    play_on(&mut hub, 0, SHUT);
    let number = hub.begin_window("2021-04-27T08:10:00", 1).unwrap();
    hub.window(number).unwrap();
    let go = hub.probe(early.device).unwrap();
    assert!(go.ticket > early.ticket);
    assert_eq!(hub.give(early.device, early.ticket, Answer::Worked, 0), refused(Status::NotOut));
    let made = hub.give(go.device, go.ticket, Answer::Worked, 0).unwrap();
    assert_eq!(made.entries(), [Entry::Rose { device: early.device }]);
}

#[test]
fn a_hub_is_dropped_with_a_device_out() {
    let mut hub = open();
    hub.window(0).unwrap();
    while !matches!(hub.take(1, 0), Ok(Turn::Go(_))) {}
    drop(hub);
}

#[test]
fn threads_step_one_hub() {
    let mut hub = open();
    let number = hub.begin_window("2021-04-27T08:10:00", 0).unwrap();
    for _ in 0..16 {
        hub.add_run(READ, None).unwrap();
    }
    hub.window(number).unwrap();
    let hub = Arc::new(Mutex::new(hub));
    let threads: Vec<_> = (0..4)
        .map(|_| {
            let hub = Arc::clone(&hub);
            thread::spawn(move || {
                while hub.lock().unwrap().left().unwrap().is_some() {
                    for run in 1..=16 {
                        let turn = hub.lock().unwrap().take(run, 0).unwrap();
                        if let Turn::Go(go) = turn {
                            hub.lock().unwrap().give(go.device, go.ticket, Answer::Worked, 0).unwrap();
                        }
                    }
                }
            })
        })
        .collect();
    for thread in threads {
        thread.join().unwrap();
    }
    let mut hub = hub.lock().unwrap();
    hub.close_window().unwrap();
    assert_eq!(hub.record(false).unwrap().matches("committed").count(), 16);
}
