//! Each day's record is that of the reference, byte for byte, also where runs join at drawn moments. The days stand in the
//! files that LAZBENDIX_CASES and LAZBENDIX_COMING name, or in cases and coming of library/out; `python3
//! library/tests/cases.py` writes the first, and with --coming the second.

use lazbendix::{Answer, Entry, Go, Hub, Mode, Refused, Status, Task, Turn, What};
use std::{env, fs};

const DETECTOR: usize = 0;

/// The words and texts of the cases.
struct Cases<'a> {
    rest: &'a [u8],
}

impl<'a> Cases<'a> {
    fn word(&mut self) -> Option<&'a str> {
        let begin = self.rest.iter().position(|byte| !byte.is_ascii_whitespace())?;
        let rest = &self.rest[begin..];
        let end = rest.iter().position(u8::is_ascii_whitespace).unwrap_or(rest.len());
        self.rest = &rest[end..];
        Some(std::str::from_utf8(&rest[..end]).expect("words are ASCII"))
    }

    fn number(&mut self) -> u64 {
        self.word().expect("a number").parse().expect("a number")
    }

    fn head(&mut self, word: &str) -> u64 {
        assert_eq!(self.word(), Some(word));
        self.number()
    }

    fn numbers(&mut self) -> Vec<u64> {
        (0..self.number()).map(|_| self.number()).collect()
    }

    fn text(&mut self, word: &str) -> &'a [u8] {
        let len = self.head(word) as usize;
        let (text, rest) = self.rest[1..].split_at(len);
        self.rest = rest;
        text
    }

    fn day(&mut self) -> Option<Day<'a>> {
        assert_eq!(self.word()?, "case");
        Some(Day {
            name: self.word().expect("a name"),
            mode: mode(self.number(), self.number()),
            downs: (0..self.head("devices")).map(|_| self.numbers()).collect(),
            takes: (0..self.head("routines")).map(|_| self.numbers()).collect(),
            windows: (0..self.head("windows"))
                .map(|_| Window {
                    at: self.word().expect("a time"),
                    seed: self.number(),
                    probes: self.number(),
                    routines: self.numbers(),
                    follows: self.numbers(),
                    turns: self.numbers(),
                })
                .collect(),
            script: self.text("script"),
            home: self.text("home"),
            record: std::str::from_utf8(self.text("record")).expect("a record is ASCII"),
        })
    }
}

struct Day<'a> {
    name: &'a str,
    mode: Mode,
    /// Of each device: from which call on and before which one it does not answer, pair by pair.
    downs: Vec<Vec<u64>>,
    /// Of each routine: the ms of its commands.
    takes: Vec<Vec<u64>>,
    windows: Vec<Window<'a>>,
    script: &'a [u8],
    /// The script without its windows.
    home: &'a [u8],
    record: &'a str,
}

struct Window<'a> {
    at: &'a str,
    seed: u64,
    probes: u64,
    routines: Vec<u64>,
    /// Of each run the one that it follows, 0 for none.
    follows: Vec<u64>,
    turns: Vec<u64>,
}

fn mode(model: u64, scheduler: u64) -> Mode {
    match (model, scheduler) {
        (0, 0) => Mode::Eventual,
        (0, 1) => Mode::JustInTime,
        (0, 2) => Mode::Timeline,
        (1, _) => Mode::Partitioned,
        (2, _) => Mode::Global,
        _ => Mode::Weak,
    }
}

struct Device<'a> {
    downs: &'a [u64],
    calls: u64,
    stands: u32,
}

impl Device<'_> {
    fn answers(&mut self) -> bool {
        self.calls += 1;
        !self.downs.chunks(2).any(|pair| pair[0] <= self.calls && self.calls < pair[1])
    }

    fn call(&mut self, go: &Go) -> Answer {
        if !self.answers() || (matches!(go.task, Task::Restore(_)) && !self.answers()) {
            return Answer::Dead;
        }
        match go.task {
            Task::Drive(value) | Task::Restore(value) => self.stands = value,
            Task::Sense => return Answer::Found(self.stands),
            Task::Probe => {}
        }
        Answer::Worked
    }
}

#[derive(Clone, Default)]
struct Actor {
    out: Option<Go>,
    is_undo: bool,
    is_doomed: bool,
    has_ended: bool,
    did: usize,
}

/// Steps the actors of a window: the detector, and its runs.
struct Player<'a> {
    hub: &'a mut Hub,
    day: &'a Day<'a>,
    window: &'a Window<'a>,
    actors: Vec<Actor>,
    moment: u64,
    probed: u64,
    draws: u64,
    told: Vec<Entry>,
    /// The runs that the window has, and what draws when others join.
    come: usize,
    joins: u64,
}

impl Player<'_> {
    fn note(&mut self, made: &[Entry]) {
        for entry in made {
            match *entry {
                Entry::Did { run, .. } => self.actors[run as usize].did += 1,
                Entry::Doomed { run, .. } => self.actors[run as usize].is_doomed = true,
                Entry::Ended { run, .. } => self.actors[run as usize].has_ended = true,
                _ => {}
            }
        }
        self.told.extend_from_slice(made);
    }

    fn has_ended(&self, actor: usize) -> bool {
        if actor == DETECTOR {
            self.probed == self.window.probes * self.day.downs.len() as u64 && self.actors[DETECTOR].out.is_none()
        } else {
            self.actors[actor].has_ended
        }
    }

    fn join(&mut self) -> Result<(), Refused> {
        let follows = self.window.follows[self.come] as u32;
        let run = self.hub.add_run(self.window.routines[self.come] as u32, (follows > 0).then_some(follows))?;
        self.come += 1;
        assert_eq!(run as usize, self.come);
        Ok(())
    }

    /// Before a step of the actor it has joined, and perhaps others have.
    fn let_join(&mut self, actor: usize) -> Result<(), Refused> {
        while self.come < actor || (self.come < self.window.routines.len() && drawn_below(&mut self.joins, 10) == 0) {
            self.join()?;
        }
        Ok(())
    }

    /// Opens a window of the moment with some of its runs.
    fn open(&mut self) -> Result<(), Refused> {
        let number = self.hub.begin_window(self.window.at, self.window.probes as u32)?;
        for _ in 0..drawn_below(&mut self.joins, self.window.routines.len().min(2) + 1) {
            self.join()?;
        }
        self.hub.window(number)
    }

    /// The actor's next step, and whether it does not wait.
    fn pick(&mut self, wall: &mut [Device], actor: usize) -> Result<bool, Refused> {
        self.let_join(actor)?;
        if self.has_ended(actor) {
            return Ok(true);
        }
        if let Some(go) = self.actors[actor].out.take() {
            return self.give(wall, actor, go).map(|()| true);
        }
        if actor == DETECTOR {
            return self.probe().map(|()| true);
        }
        let turn = self.hub.take(actor as u32, self.moment)?;
        match turn {
            Turn::Go(go) => {
                let it = &mut self.actors[actor];
                it.out = Some(go);
                it.is_undo = it.is_doomed;
            }
            Turn::Moved(made) | Turn::Over(_, made) => self.note(made.entries()),
            Turn::Waits(_) | Turn::NoRun => {}
        }
        Ok(!matches!(turn, Turn::Waits(_)))
    }

    fn probe(&mut self) -> Result<(), Refused> {
        let device = self.probed % self.day.downs.len() as u64;
        self.probed += 1;
        match self.hub.probe(device as u32) {
            Ok(go) => self.actors[DETECTOR].out = Some(go),
            Err(Refused(Status::NoProbe)) => {}
            Err(other) => return Err(other),
        }
        Ok(())
    }

    fn give(&mut self, wall: &mut [Device], actor: usize, go: Go) -> Result<(), Refused> {
        if actor != DETECTOR && !self.actors[actor].is_undo {
            self.moment += self.day.takes[self.window.routines[actor - 1] as usize][self.actors[actor].did];
        }
        let answer = wall[go.device as usize].call(&go);
        assert_eq!(self.hub.give(go.device, go.ticket + 1000, answer, self.moment), Err(Refused(Status::NotOut)));
        let made = self.hub.give(go.device, go.ticket, answer, self.moment)?;
        assert_eq!(self.hub.give(go.device, go.ticket, answer, self.moment), Err(Refused(Status::NotOut)));
        self.note(made.entries());
        Ok(())
    }

    fn finish(&mut self, wall: &mut [Device]) -> Result<(), Refused> {
        loop {
            let actors: Vec<usize> = (0..self.actors.len()).filter(|&actor| !self.has_ended(actor)).collect();
            if actors.is_empty() {
                return Ok(());
            }
            let first = drawn_below(&mut self.draws, actors.len());
            let mut moved = false;
            for at in 0..actors.len() {
                moved = self.pick(wall, actors[(first + at) % actors.len()])?;
                if moved {
                    break;
                }
            }
            assert!(moved, "every actor waits");
        }
    }
}

fn drawn_below(draws: &mut u64, bound: usize) -> usize {
    *draws = draws.wrapping_mul(6364136223846793005).wrapping_add(1442695040888963407);
    ((*draws >> 33) % bound as u64) as usize
}

/// The record of the day, with its trace. Its windows are the script's, or of the moment, and then runs join them.
fn play(day: &Day, joins: Option<u64>) -> Result<String, Refused> {
    let mut hub = Hub::open(if joins.is_some() { day.home } else { day.script }, day.mode)?;
    let mut text = hub.head()?;
    let mut wall = Vec::new();
    for (d, downs) in day.downs.iter().enumerate() {
        wall.push(Device { downs, calls: 0, stands: hub.stand(d as u32)?.value });
    }
    let (mut runs, mut committed) = (0, 0);
    for (number, window) in day.windows.iter().enumerate() {
        let told = play_window(&mut hub, day, window, number, joins, &mut wall)?;
        hub.close_window()?;
        assert_eq!(hub.entry_count()?, told.len() as u64);
        for (at, entry) in told.iter().enumerate() {
            assert_eq!(hub.entry(at as u64)?.0, *entry);
        }
        text += &hub.record(true)?;
        runs += window.routines.len();
        committed += told.iter().filter(|entry| matches!(entry, Entry::Ended { end: What::Committed, .. })).count();
    }
    let windows = day.windows.len();
    Ok(format!("{text}total windows {windows} runs {runs} committed {committed} aborted {}\n", runs - committed))
}

/// The entries of the window, which is not closed then.
fn play_window(
    hub: &mut Hub,
    day: &Day,
    window: &Window,
    number: usize,
    joins: Option<u64>,
    wall: &mut [Device],
) -> Result<Vec<Entry>, Refused> {
    let actors = vec![Actor::default(); window.routines.len() + 1];
    let (moment, probed, draws, told) = (0, 0, window.seed, Vec::new());
    let (come, seed) = (if joins.is_some() { 0 } else { window.routines.len() }, joins.unwrap_or(0) + number as u64);
    let mut player = Player { hub, day, window, actors, moment, probed, draws, told, come, joins: seed };
    match joins {
        Some(_) => player.open()?,
        None => player.hub.window(number as u32)?,
    }
    for &actor in &window.turns {
        player.pick(wall, actor as usize)?;
    }
    player.finish(wall)?;
    Ok(player.told)
}

/// Plays the days of the file that the variable names, and compares the records.
fn compare(variable: &str, file: &str, joins: bool) {
    let path = env::var(variable).unwrap_or_else(|_| format!("{}/../out/{file}", env!("CARGO_MANIFEST_DIR")));
    let bytes = fs::read(&path).unwrap_or_else(|_| panic!("python3 library/tests/cases.py > {path}"));
    let mut cases = Cases { rest: &bytes };
    let mut days = 0;
    while let Some(day) = cases.day() {
        days += 1;
        let joins = joins.then_some(days * 1000);
        assert_eq!(play(&day, joins).unwrap(), day.record, "{} in {:?}", day.name, day.mode);
    }
    assert!(days > 0);
    println!("{days} days");
}

#[test]
fn each_record_is_that_of_the_reference() {
    compare("LAZBENDIX_CASES", "cases", false);
}

#[test]
fn runs_that_join_leave_the_same_record() {
    compare("LAZBENDIX_COMING", "coming", true);
}
