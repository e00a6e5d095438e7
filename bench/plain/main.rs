//! A plain program by the rules of the hub, without proofs: what a replay and a run of the same day, its check and a trial cost
//! at the least.
//!
//!     plain replay [--model gsv|psv|ev] [--scheduler jit|timeline] < SCRIPT
//!     plain run [--model gsv|psv|ev] < SCRIPT
//!     plain check < SCRIPT-AND-RECORD
//!     plain trial WINDOWS
//!
//! It knows what the days of dense_day.py need: `set` and `check` commands that must not fail, aborted runs, devices that
//! fail, probes, and in a replay both other schedulers, with leases and their ends; and, where no device fails, what trials
//! need: loads, stores, and checks that may fail. Runs that follow others, turns, guards and traces it does not know. It reads
//! the members of a script in the order in which dense_day.py writes them, and panics at a script of another form. Its record
//! is that of the program, byte for byte.
mod check;
mod devices;
mod hub;
mod record;
mod replay;
mod run;
mod script;
mod timeline;
mod trial;

use check::check_record;
use hub::{Hub, Model, Scheduler};
use record::push_window;
use replay::replay_window;
use run::run_window;
use script::{Script, Window, read_script};
use std::io::{Read, Write};
use trial::{Names, trial_script};

/// Plays the day, and writes its record. How many runs there are, and how many of them were aborted.
#[inline(never)]
fn play_day(
    script: &Script,
    (model, scheduler_name): (&str, &str),
    play: fn(&mut Hub, &Window),
    sink: &mut dyn Write,
) -> (usize, usize) {
    let visibility = match model {
        "ev" => Model::Eventual,
        "psv" => Model::Partitioned,
        "gsv" => Model::Global,
        other => panic!("no model {other}"),
    };
    let scheduler = match scheduler_name {
        "fcfs" => Scheduler::Fcfs,
        "jit" => Scheduler::Jit,
        "timeline" => Scheduler::Timeline,
        other => panic!("no scheduler {other}"),
    };
    let mut hub = Hub::new(script, visibility, scheduler);
    let mut record = format!("safehome day\nmodel {model} {scheduler_name}\n");
    let (mut runs, mut aborted) = (0, 0);
    for (number, window) in script.windows.iter().enumerate() {
        hub.open(script, window);
        play(&mut hub, window);
        runs += hub.runs.len();
        aborted += hub.runs.iter().filter(|run| run.doom.is_some()).count();
        push_window(&mut record, script, &hub, number, window.at);
        sink.write_all(record.as_bytes()).unwrap();
        record.clear();
    }
    let windows = script.windows.len();
    let committed = runs - aborted;
    writeln!(
        sink,
        "{record}total windows {windows} runs {runs} committed {committed} aborted {aborted}"
    )
    .unwrap();
    (runs, aborted)
}

/// Plays the trial of so many windows, and checks its record.
fn play_trial(windows: usize) {
    let names = Names::new(windows);
    let script = trial_script(&names);
    let mut record = Vec::new();
    let (runs, aborted) = play_day(&script, ("ev", "fcfs"), replay_window, &mut record);
    let agree = match check_record(&script, std::str::from_utf8(&record).unwrap()) {
        Ok(()) => windows,
        Err(window) => window.saturating_sub(1),
    };
    let committed = runs - aborted;
    println!(
        "trial {windows} windows {windows} runs {runs} committed {committed} aborted {aborted} agree {agree}"
    );
}

/// Checks the record behind the line `%%`.
fn check(text: &str) {
    let (script, record) = text.split_once("\n%%\n").unwrap();
    if let Err(window) = check_record(&read_script(script), record) {
        panic!("window {window} does not agree");
    }
    println!("agrees");
}

fn main() {
    let words: Vec<String> = std::env::args().skip(1).collect();
    let words: Vec<&str> = words.iter().map(String::as_str).collect();
    let (play, mode): (fn(&mut Hub, &Window), _) = match words[..] {
        ["trial", windows] => return play_trial(windows.parse().unwrap()),
        ["check"] => (replay_window, ("", "")),
        ["replay"] => (replay_window, ("ev", "fcfs")),
        ["replay", "--model", model] => (replay_window, (model, "fcfs")),
        ["replay", "--scheduler", scheduler] => (replay_window, ("ev", scheduler)),
        ["run"] => (run_window, ("ev", "fcfs")),
        ["run", "--model", model] => (run_window, (model, "fcfs")),
        _ => panic!("no such call"),
    };
    let mut text = String::new();
    std::io::stdin().read_to_string(&mut text).unwrap();
    match words[0] {
        "check" => check(&text),
        _ => _ = play_day(&read_script(&text), mode, play, &mut std::io::stdout()),
    }
}
