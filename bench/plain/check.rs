//! The check of a record: the order of each window is executed, one item after another.
use crate::script::{Command, Device, Job, Routine, Script, Window};

/// A device of the home: its value, and whether it is up.
type Stand = (u32, bool);

/// What is read of a record.
struct Checker<'a> {
    script: &'a Script<'a>,
    lines: std::str::Split<'a, char>,
    home: Vec<Stand>,
    /// The answers of each run of the window that committed.
    answers: Vec<Option<&'a str>>,
    committed: usize,
}

/// What stands before the first such byte, and behind it.
fn cut(text: &str, byte: u8) -> Option<(&str, &str)> {
    let at = text.bytes().position(|other| other == byte)?;
    Some((&text[..at], &text[at + 1..]))
}

/// What is left of a line, cut into words.
struct Words<'a>(Option<&'a str>);

impl<'a> Iterator for Words<'a> {
    type Item = &'a str;

    fn next(&mut self) -> Option<&'a str> {
        let left = self.0?;
        let (word, rest) = match cut(left, b' ') {
            Some((word, rest)) => (word, Some(rest)),
            None => (left, None),
        };
        self.0 = rest;
        Some(word)
    }
}

/// The number that the word writes.
fn number(word: &str) -> Option<u64> {
    let digits = word.as_bytes();
    let is_numeral = digits.iter().all(u8::is_ascii_digit)
        && (digits.len() == 1 || digits.first() != Some(&b'0'));
    if is_numeral { word.parse().ok() } else { None }
}

fn value(device: &Device, word: &str) -> Option<u32> {
    let value = u32::try_from(number(word)?).ok()?;
    (device.low..=device.high).contains(&value).then_some(value)
}

fn device_named(script: &Script, name: &str) -> Option<usize> {
    script.devices.iter().position(|device| device.name == name)
}

/// Whether the words have the form of a cause.
fn is_cause(script: &Script, routine: &Routine, runs: usize, words: &str) -> Option<()> {
    let words: Vec<&str> = Words(Some(words)).collect();
    let command = |word: &str| {
        routine
            .commands
            .get(usize::try_from(number(word)?).ok()?.checked_sub(1)?)
    };
    match words[..] {
        ["must", c] => _ = command(c)?,
        ["refuted", c, "found", found] => _ = value(&script.devices[command(c)?.device], found)?,
        ["lost" | "downatend", name] => _ = device_named(script, name)?,
        [
            "revoked",
            name,
            "by",
            lender,
            "deadline",
            deadline,
            "at",
            moment,
        ] => {
            device_named(script, name)?;
            (1..=runs as u64).contains(&number(lender)?).then_some(())?;
            (number(deadline)?, number(moment)?);
        }
        _ => return None,
    }
    Some(())
}

impl<'a> Checker<'a> {
    /// The next line that is none of a trace.
    fn line(&mut self) -> Option<&'a str> {
        self.lines.find(|line| !line.starts_with("# "))
    }

    fn head(&mut self) -> Option<()> {
        (self.line()? == "safehome day").then_some(())?;
        let model = self.line()?.strip_prefix("model ")?;
        ["gsv fcfs", "psv fcfs", "ev fcfs", "ev jit", "ev timeline"]
            .contains(&model)
            .then_some(())
    }

    fn run_line(&mut self, runs: usize, r: usize, routine: &Routine) -> Option<()> {
        let (run, rest) = cut(self.line()?.strip_prefix("run ")?, b' ')?;
        let (name, rest) = cut(rest, b' ')?;
        (number(run)? == r as u64 + 1 && name == routine.name).then_some(())?;
        self.answers.push(match rest.strip_prefix("committed ") {
            Some(answers) => Some(answers),
            None => {
                is_cause(self.script, routine, runs, rest.strip_prefix("aborted ")?)?;
                None
            }
        });
        Some(())
    }

    /// Executes a run, and compares its answers.
    fn run(&mut self, routine: &Routine, answers: &str) -> Option<()> {
        let mut register = 0;
        let mut words = Words(Some(answers));
        for Command {
            device: d,
            job,
            value: to,
            must,
            ..
        } in &routine.commands
        {
            let (word, device) = (words.next()?, &self.script.devices[*d]);
            let (stand, up) = &mut self.home[*d];
            if !*up {
                (word == "-" && !must).then_some(())?;
                continue;
            }
            if matches!(job, Job::Check | Job::Load) {
                let found = value(device, word)?;
                (found == *stand && !(*must && *job == Job::Check && found != *to)).then_some(())?;
            } else {
                (word == ".").then_some(())?;
            }
            match job {
                Job::Set => *stand = *to,
                Job::Store => *stand = device.nearest(register),
                Job::Load => register = *stand,
                Job::Check => {}
            }
        }
        words.next().is_none().then_some(())
    }

    /// A failure or a restart of a device that was up or down.
    fn event(&mut self, word: &str) -> Option<()> {
        let (kind, name) = cut(word.strip_suffix(')')?, b'(')?;
        let is_failure = match kind {
            "fail" => true,
            "back" => false,
            _ => return None,
        };
        let (_, up) = &mut self.home[device_named(self.script, name)?];
        (*up == is_failure).then_some(())?;
        *up = !is_failure;
        Some(())
    }

    fn order(&mut self, window: &Window) -> Option<()> {
        let items = self.line()?.strip_prefix("order ")?;
        let mut left = (0..window.runs.len())
            .filter(|r| self.answers[*r].is_some())
            .count();
        self.committed += left;
        for word in Words(Some(items).filter(|items| *items != "none")) {
            let Some(run) = number(word) else {
                self.event(word)?;
                continue;
            };
            let r = usize::try_from(run).ok()?.checked_sub(1)?;
            // each run once
            let answers = self.answers.get_mut(r)?.take()?;
            let script = self.script;
            self.run(&script.routines[window.runs[r]], answers)?;
            left -= 1;
        }
        (left == 0).then_some(())
    }

    fn home_line(&mut self) -> Option<()> {
        let line = self.line()?.strip_prefix("home ")?;
        let is_none = line == "none" && self.home.is_empty();
        let mut words = Words(Some(line).filter(|_| !is_none));
        for (device, (stand, up)) in self.script.devices.iter().zip(&self.home) {
            let (name, told) = cut(words.next()?, b'=')?;
            let told = if *up { told } else { told.strip_suffix('!')? };
            (name == device.name && value(device, told)? == *stand).then_some(())?;
        }
        words.next().is_none().then_some(())
    }

    fn window(&mut self, k: usize, window: &Window) -> Option<()> {
        let (word, at) = cut(self.line()?.strip_prefix("window ")?, b' ')?;
        (number(word)? == k as u64 + 1 && at == window.at).then_some(())?;
        self.answers.clear();
        for (r, routine) in window.runs.iter().enumerate() {
            self.run_line(window.runs.len(), r, &self.script.routines[*routine])?;
        }
        self.order(window)?;
        self.home_line()
    }

    fn total(&mut self) -> Option<()> {
        let windows = &self.script.windows;
        let runs: usize = windows.iter().map(|window| window.runs.len()).sum();
        let (committed, aborted) = (self.committed, runs - self.committed);
        let total = format!(
            "total windows {} runs {runs} committed {committed} aborted {aborted}",
            windows.len()
        );
        (self.line()? == total
            && self
                .lines
                .all(|line| line.is_empty() || line.starts_with("# ")))
        .then_some(())
    }
}

/// Checks a record: the error is the number of the window that is not as it should be, 0 for the head, the last for the total.
#[inline(never)]
pub fn check_record(script: &Script, text: &str) -> Result<(), usize> {
    let mut checker = Checker {
        script,
        lines: text.split('\n'),
        home: script
            .devices
            .iter()
            .map(|device| (device.start, true))
            .collect(),
        answers: Vec::new(),
        committed: 0,
    };
    checker.head().ok_or(0usize)?;
    for (k, window) in script.windows.iter().enumerate() {
        checker.window(k, window).ok_or(k + 1)?;
    }
    checker.total().ok_or(script.windows.len())
}
