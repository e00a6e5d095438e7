//! The script, of the form in which dense_day.py writes it.
use crate::timeline::bits;
use std::collections::HashMap;

pub struct Device<'a> {
    pub name: &'a str,
    pub low: u32,
    pub high: u32,
    pub start: u32,
    pub downs: Vec<(u64, u64)>,
}

impl Device<'_> {
    pub fn nearest(&self, value: u32) -> u32 {
        value.clamp(self.low, self.high)
    }
}

#[derive(Clone, Copy, PartialEq)]
pub enum Job {
    Set,
    Check,
    Load,
    Store,
}

pub struct Command {
    pub device: usize,
    pub job: Job,
    /// What a set drives, or a check compares with.
    pub value: u32,
    pub must: bool,
    /// What it is estimated to take, and takes, in ms.
    pub estimate: u32,
    pub takes: u32,
}

/// What a routine has to do on a device.
pub struct Use {
    pub device: usize,
    /// How many of its commands are on it, and the number of the last one.
    pub count: u32,
    pub last: usize,
    /// What its commands are estimated to take up to the last one there, in ms.
    pub span: u64,
    /// Whether the first of them reads, and whether one writes.
    pub reads_first: bool,
    pub writes: bool,
}

pub struct Routine<'a> {
    pub name: &'a str,
    pub commands: Vec<Command>,
    /// Its devices, ascending, and a bit for each.
    pub devices: Vec<Use>,
    pub bits: [u64; 4],
    /// For each device its place among them.
    pub places: Vec<u8>,
    /// Whether it begins on some device with a read.
    pub reads_first: bool,
}

pub struct Window<'a> {
    pub at: &'a str,
    pub seed: u64,
    pub probes: usize,
    /// The routine of each run.
    pub runs: Vec<usize>,
}

#[derive(Default)]
pub struct Script<'a> {
    pub devices: Vec<Device<'a>>,
    pub routines: Vec<Routine<'a>>,
    pub windows: Vec<Window<'a>>,
}

struct Reader<'a> {
    text: &'a str,
    at: usize,
}

impl<'a> Reader<'a> {
    /// The next byte that is no blank.
    fn peek(&mut self) -> u8 {
        let bytes = self.text.as_bytes();
        while bytes[self.at].is_ascii_whitespace() {
            self.at += 1;
        }
        bytes[self.at]
    }

    fn take(&mut self, byte: u8) -> bool {
        let there = self.peek() == byte;
        self.at += there as usize;
        there
    }

    fn need(&mut self, byte: u8) {
        assert!(self.take(byte), "no {:?} at byte {}", byte as char, self.at);
    }

    fn text(&mut self) -> &'a str {
        self.need(b'"');
        let rest = &self.text[self.at..];
        let text = &rest[..rest.bytes().position(|byte| byte == b'"').unwrap()];
        assert!(!text.contains('\\'));
        self.at += text.len() + 1;
        text
    }

    fn number(&mut self) -> u64 {
        assert!(self.peek().is_ascii_digit());
        let mut number = 0;
        while let digit @ b'0'..=b'9' = self.text.as_bytes()[self.at] {
            number = number * 10 + u64::from(digit - b'0');
            self.at += 1;
        }
        number
    }

    fn pair(&mut self) -> (u64, u64) {
        self.need(b'[');
        let first = self.number();
        self.need(b',');
        let pair = (first, self.number());
        self.need(b']');
        pair
    }

    fn list<T>(&mut self, mut item: impl FnMut(&mut Self) -> T) -> Vec<T> {
        let mut items = Vec::new();
        self.need(b'[');
        while !self.take(b']') {
            items.push(item(self));
            self.take(b',');
        }
        items
    }

    fn members(&mut self, mut member: impl FnMut(&mut Self, &'a str)) {
        self.need(b'{');
        while !self.take(b'}') {
            let name = self.text();
            self.need(b':');
            member(self, name);
            self.take(b',');
        }
    }
}

fn read_device<'a>(reader: &mut Reader<'a>) -> Device<'a> {
    let mut device = Device {
        name: "",
        low: 0,
        high: 0,
        start: 0,
        downs: Vec::new(),
    };
    reader.members(|reader, member| match member {
        "name" => device.name = reader.text(),
        "start" => device.start = reader.number() as u32,
        "down" => device.downs = reader.list(Reader::pair),
        "low" => device.low = reader.number() as u32,
        "high" => device.high = reader.number() as u32,
        other => panic!("unknown member {other}"),
    });
    device
}

fn read_command<'a>(reader: &mut Reader<'a>, numbers: &HashMap<&str, usize>) -> Command {
    let mut command = Command {
        device: 0,
        job: Job::Set,
        value: 0,
        must: true,
        estimate: 100,
        takes: 100,
    };
    reader.members(|reader, member| match member {
        "on" => command.device = numbers[reader.text()],
        "do" => {
            command.job = match reader.text() {
                "set" => Job::Set,
                "check" => Job::Check,
                other => panic!("unknown job {other}"),
            }
        }
        "to" => command.value = reader.number() as u32,
        "takes" => command.takes = reader.number() as u32,
        other => panic!("unknown member {other}"),
    });
    command
}

/// The devices of the commands, ascending, of so many.
pub fn devices_of(commands: &[Command], devices: usize) -> Vec<Use> {
    let mut uses: Vec<Option<Use>> = (0..devices).map(|_| None).collect();
    let mut span = 0;
    for (c, command) in commands.iter().enumerate() {
        span += u64::from(command.estimate);
        let used = uses[command.device].get_or_insert(Use {
            device: command.device,
            count: 0,
            last: 0,
            span,
            reads_first: matches!(command.job, Job::Check | Job::Load),
            writes: false,
        });
        used.writes |= matches!(command.job, Job::Set | Job::Store);
        used.count += 1;
        used.span = span;
        used.last = c;
    }
    uses.into_iter().flatten().collect()
}

fn read_routine<'a>(reader: &mut Reader<'a>, numbers: &HashMap<&str, usize>) -> Routine<'a> {
    let mut routine = Routine {
        name: "",
        commands: Vec::new(),
        devices: Vec::new(),
        bits: [0; 4],
        places: Vec::new(),
        reads_first: false,
    };
    reader.members(|reader, member| match member {
        "name" => routine.name = reader.text(),
        "commands" => routine.commands = reader.list(|reader| read_command(reader, numbers)),
        other => panic!("unknown member {other}"),
    });
    assert!(numbers.len() <= 256);
    routine.devices = devices_of(&routine.commands, numbers.len());
    routine.bits = bits(&routine.devices);
    routine.places = vec![0; numbers.len()];
    for (at, used) in routine.devices.iter().enumerate() {
        routine.places[used.device] = at as u8;
    }
    routine.reads_first = routine.devices.iter().any(|used| used.reads_first);
    routine
}

fn read_window<'a>(reader: &mut Reader<'a>, numbers: &HashMap<&str, usize>) -> Window<'a> {
    let mut window = Window {
        at: "",
        seed: 1,
        probes: 0,
        runs: Vec::new(),
    };
    reader.members(|reader, member| match member {
        "at" => window.at = reader.text(),
        "seed" => window.seed = reader.number(),
        "probes" => window.probes = reader.number() as usize,
        "runs" => {
            window.runs = reader.list(|reader| {
                let mut routine = None;
                reader.members(|reader, member| match member {
                    "routine" => routine = Some(numbers[reader.text()]),
                    other => panic!("unknown member {other}"),
                });
                routine.unwrap()
            })
        }
        other => panic!("unknown member {other}"),
    });
    assert!(window.runs.len() <= 64 && window.at.len() == 19);
    window
}

fn numbers<'a>(names: impl Iterator<Item = &'a str>) -> HashMap<&'a str, usize> {
    names
        .enumerate()
        .map(|(number, name)| (name, number))
        .collect()
}

pub fn read_script(text: &str) -> Script<'_> {
    let mut script = Script::default();
    let mut reader = Reader { text, at: 0 };
    reader.members(|reader, member| match member {
        "safehome" => assert!(reader.number() == 1),
        "devices" => script.devices = reader.list(read_device),
        "routines" => {
            let devices = numbers(script.devices.iter().map(|device| device.name));
            script.routines = reader.list(|reader| read_routine(reader, &devices));
        }
        "windows" => {
            let routines = numbers(script.routines.iter().map(|routine| routine.name));
            script.windows = reader.list(|reader| read_window(reader, &routines));
        }
        other => panic!("unknown member {other}"),
    });
    script
}
