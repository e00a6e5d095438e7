//! The script of a trial, drawn from its number.
use crate::replay::Draws;
use crate::script::{Command, Device, Job, Routine, Script, Window, devices_of};

/// The names of a trial's devices, routines and windows.
pub struct Names {
    devices: Vec<String>,
    routines: Vec<String>,
    times: Vec<String>,
}

impl Names {
    pub fn new(windows: usize) -> Names {
        let time = |k| format!("2021-04-26T{:02}:{:02}:00", 5 * k / 60, 5 * k % 60);
        Names {
            devices: (0..32).map(|d| format!("d{d:02}")).collect(),
            routines: (0..64).map(|r| format!("r{r:02}")).collect(),
            times: (0..windows).map(time).collect(),
        }
    }
}

fn draw_command(draws: &mut Draws) -> Command {
    let device = draws.below(32);
    let job = [Job::Set, Job::Check, Job::Load, Job::Store][draws.below(4)];
    let value = if matches!(job, Job::Set | Job::Check) {
        draws.below(1000) as u32
    } else {
        0
    };
    Command {
        device,
        job,
        value,
        must: job != Job::Check,
        estimate: 100,
        takes: 100,
    }
}

pub fn trial_script(names: &Names) -> Script<'_> {
    let mut draws = Draws(names.times.len() as u64);
    let device = |name| Device {
        name,
        low: 0,
        high: 999,
        start: 0,
        downs: Vec::new(),
    };
    let mut routine = |name| {
        let commands: Vec<Command> = (0..4).map(|_| draw_command(&mut draws)).collect();
        Routine {
            name,
            devices: devices_of(&commands, 32),
            commands,
            bits: [0; 4],
            places: Vec::new(),
            reads_first: false,
        }
    };
    let devices = names.devices.iter().map(|name| device(name)).collect();
    let routines = names.routines.iter().map(|name| routine(name)).collect();
    let mut window = |(k, at)| Window {
        at,
        seed: k as u64 + 1,
        probes: 0,
        runs: (0..64).map(|_| draws.below(64)).collect(),
    };
    let windows = names
        .times
        .iter()
        .map(String::as_str)
        .enumerate()
        .map(&mut window)
        .collect();
    Script {
        devices,
        routines,
        windows,
    }
}
