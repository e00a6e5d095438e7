//! The home and its hub.
use crate::devices::{Grip, Sim, Task};
use crate::script::{Command, Device, Job, Routine, Script, Use, Window};

/// What a live run has to do and has done on a device.
pub struct Access {
    pub run: usize,
    pub left: u32,
    touched: bool,
    wrote: Option<u32>,
}

/// From and to when a run is planned to use a device, in ms.
#[derive(Clone, Copy)]
pub struct Span {
    pub from: u64,
    pub to: u64,
}

/// A device of the home, with the accesses of live runs in line order.
pub struct Lineage<'a> {
    pub accesses: Vec<Access>,
    /// The last run of the line whose write here is not undone.
    writer: Option<usize>,
    pub committed: u32,
    pub up: bool,
    home: Option<Box<Sim<'a>>>,
    /// The runs that wait for it.
    waiting: u64,
    /// The runs that have touched it in this window.
    touched: u64,
}

#[derive(Clone, Copy)]
pub enum Cause {
    Must(usize),
    Refuted(usize, u32),
    Lost(usize),
    Revoked {
        device: usize,
        lender: usize,
        deadline: u64,
        moment: u64,
    },
    DownAtEnd(usize),
}

#[derive(Clone, Copy, PartialEq)]
pub enum Stage {
    Away,
    Arrived,
    Placed,
    Ended,
}

pub struct Run<'a> {
    pub routine: &'a Routine<'a>,
    pub stage: Stage,
    pub doom: Option<Cause>,
    /// What its reads found; `None` for a write.
    pub answers: Vec<Option<u32>>,
    register: u32,
    /// When it is planned to use each of its devices: under a scheduler that plans.
    pub spans: Vec<Span>,
    /// How many commands its device died in, or before.
    pub died: usize,
    /// When it arrived, in ms, and how many runs were placed before it.
    arrived: u64,
    placed: usize,
}

#[derive(Clone, Copy, PartialEq)]
pub enum Item {
    Ran(usize),
    Failed(usize),
    Back(usize),
}

#[derive(Clone, Copy, PartialEq)]
pub enum Model {
    Eventual,
    Partitioned,
    Global,
}

#[derive(Clone, Copy, PartialEq)]
pub enum Scheduler {
    Fcfs,
    Jit,
    Timeline,
}

/// How long a run that is denied a device waits for a better place than the end of the line, in ms.
const PATIENCE: u64 = 10_000;

pub enum Turn<'a> {
    Go(Grip<'a>),
    Moved,
    /// For this device, or for the end of another run.
    Waits(Option<usize>),
    /// Time may end its wait.
    Restless,
    Over,
}

pub struct Hub<'a> {
    model: Model,
    scheduler: Scheduler,
    devices: &'a [Device<'a>],
    pub lineages: Vec<Lineage<'a>>,
    pub runs: Vec<Run<'a>>,
    /// Runs that were placed and have not ended, in line order.
    pub live: Vec<usize>,
    pub line: Vec<Item>,
    /// A bit for each run that is doomed.
    doomed: u64,
    /// Those that wait for no device but until another one ends, and those that may wait no more.
    waiting: u64,
    pub freed: u64,
    /// In ms, since the window opened.
    pub moment: u64,
    placed: usize,
}

impl Lineage<'_> {
    fn last_writer(&self) -> Option<usize> {
        self.accesses
            .iter()
            .rev()
            .find(|access| access.wrote.is_some())
            .map(|access| access.run)
    }

    fn standing(&self) -> u32 {
        self.accesses
            .iter()
            .rev()
            .find_map(|access| access.wrote)
            .unwrap_or(self.committed)
    }
}

impl<'a> Hub<'a> {
    pub fn new(script: &'a Script, model: Model, scheduler: Scheduler) -> Hub<'a> {
        let lineage = |device: &'a Device| Lineage {
            accesses: Vec::new(),
            writer: None,
            committed: device.start,
            up: true,
            home: Some(Box::new(Sim {
                value: device.start,
                calls: 0,
                downs: &device.downs,
            })),
            waiting: 0,
            touched: 0,
        };
        let lineages = script.devices.iter().map(lineage).collect();
        Hub {
            model,
            scheduler,
            devices: &script.devices,
            lineages,
            runs: Vec::new(),
            live: Vec::new(),
            line: Vec::new(),
            doomed: 0,
            waiting: 0,
            freed: 0,
            moment: 0,
            placed: 0,
        }
    }

    pub fn open(&mut self, script: &'a Script, window: &Window) {
        self.line.clear();
        self.doomed = 0;
        self.moment = 0;
        self.placed = 0;
        for lineage in &mut self.lineages {
            lineage.touched = 0;
        }
        self.runs.clear();
        self.runs.extend(window.runs.iter().map(|routine| {
            let routine = &script.routines[*routine];
            Run {
                routine,
                stage: Stage::Away,
                doom: None,
                answers: Vec::with_capacity(routine.commands.len()),
                register: 0,
                spans: Vec::new(),
                died: 0,
                arrived: 0,
                placed: 0,
            }
        }));
    }

    pub fn is_doomed(&self, r: usize) -> bool {
        self.doomed >> r & 1 == 1
    }

    fn go(&mut self, d: usize, task: Task) -> Turn<'a> {
        let sim = self.lineages[d].home.take().unwrap();
        Turn::Go(Grip {
            device: d,
            sim,
            task,
            worked: false,
        })
    }

    /// The step of a run that holds no grip.
    pub fn take(&mut self, r: usize) -> Turn<'a> {
        let run = &mut self.runs[r];
        match run.stage {
            Stage::Ended => return Turn::Over,
            Stage::Away => {
                run.stage = Stage::Arrived;
                run.arrived = self.moment;
                return Turn::Moved;
            }
            Stage::Arrived => {
                if self.scheduler == Scheduler::Timeline {
                    let (set, spans) = self.gap(r);
                    let place = self.rearrange(&set);
                    self.runs[r].spans = spans;
                    self.place(r, place);
                    return Turn::Moved;
                }
                let Some(place) = self.admit(r) else {
                    return Turn::Restless;
                };
                if self.scheduler == Scheduler::Jit {
                    self.plan_alone(r);
                }
                self.place(r, place);
                return Turn::Moved;
            }
            Stage::Placed => {}
        }
        if run.doom.is_some() {
            self.undo(r)
        } else if run.answers.len() == run.routine.commands.len() {
            self.commit(r)
        } else {
            self.command(r)
        }
    }

    /// Where the run is placed in the line: `None` where it is denied a device.
    fn admit(&self, r: usize) -> Option<usize> {
        let run = &self.runs[r];
        if self.scheduler == Scheduler::Fcfs {
            return Some(self.line.len());
        }
        let place = self.first_place(run.routine);
        let before = self.runs_of(&self.line[..place]);
        let is_denied = run.routine.devices.iter().any(|used| {
            let lineage = &self.lineages[used.device];
            let holder = lineage
                .accesses
                .iter()
                .find(|access| self.holds(lineage, access));
            holder.is_some_and(|access| before >> access.run & 1 == 1)
                || used.reads_first && lineage.writer.is_some()
        });
        let is_patient = self.moment - run.arrived < PATIENCE;
        match is_denied {
            false => Some(place),
            true => (!is_patient).then_some(self.line.len()),
        }
    }

    /// The place behind what has touched a device of the routine, and all that stands before the first live run.
    fn first_place(&self, routine: &Routine) -> usize {
        let touched = self.touching(routine);
        let binds = |item: &Item| match item {
            Item::Ran(x) => touched >> x & 1 == 1,
            Item::Failed(d) | Item::Back(d) => routine
                .devices
                .binary_search_by_key(d, |used| used.device)
                .is_ok(),
        };
        let floor = self.line.iter().rposition(binds).map_or(0, |at| at + 1);
        floor.max(self.front())
    }

    /// The runs that have touched a device of the routine, a bit for each.
    pub fn touching(&self, routine: &Routine) -> u64 {
        let uses = routine.devices.iter();
        uses.fold(0, |runs, used| runs | self.lineages[used.device].touched)
    }

    /// How many items stand before the first live run.
    pub fn front(&self) -> usize {
        let live = self.live.iter().fold(0u64, |runs, x| runs | 1 << x);
        let is_live = |item: &Item| matches!(item, Item::Ran(x) if live >> *x & 1 == 1);
        let first = self.line.iter().position(is_live);
        first.unwrap_or(self.line.len())
    }

    /// The items of the set come first, in their order.
    fn rearrange(&mut self, set: &[bool]) -> usize {
        let (mut before, mut behind) = (Vec::new(), Vec::new());
        for (item, flag) in self.line.iter().zip(set) {
            (if *flag { &mut before } else { &mut behind }).push(*item);
        }
        let place = before.len();
        before.append(&mut behind);
        self.line = before;
        place
    }

    /// The runs among the items, a bit for each.
    fn runs_of(&self, items: &[Item]) -> u64 {
        items.iter().fold(0, |runs, item| match item {
            Item::Ran(x) => runs | 1 << x,
            _ => runs,
        })
    }

    fn holds(&self, lineage: &Lineage, access: &Access) -> bool {
        if self.is_doomed(access.run) {
            lineage.writer == Some(access.run)
        } else {
            access.left > 0
        }
    }

    /// Plans its commands one after another from now on.
    fn plan_alone(&mut self, r: usize) {
        let from = self.moment;
        let span = |used: &Use| Span {
            from,
            to: from + used.span,
        };
        self.runs[r].spans = self.runs[r].routine.devices.iter().map(span).collect();
    }

    /// When the run is planned to use the device, and what it has to do there.
    pub fn planned(&self, x: usize, d: usize) -> (Span, &Use) {
        let run = &self.runs[x];
        let at = usize::from(run.routine.places[d]);
        (run.spans[at], &run.routine.devices[at])
    }

    fn place(&mut self, r: usize, place: usize) {
        let behind = self.runs_of(&self.line[place..]);
        let run = &mut self.runs[r];
        run.stage = Stage::Placed;
        run.placed = self.placed;
        self.placed += 1;
        for used in &run.routine.devices {
            let accesses = &mut self.lineages[used.device].accesses;
            let access = Access {
                run: r,
                left: used.count,
                touched: false,
                wrote: None,
            };
            if behind == 0 {
                accesses.push(access);
                continue;
            }
            let at = accesses
                .iter()
                .position(|other| behind >> other.run & 1 == 1);
            accesses.insert(at.unwrap_or(accesses.len()), access);
        }
        self.live.push(r);
        self.line.insert(place, Item::Ran(r));
        if behind != 0 {
            self.free_of(r);
        }
    }

    /// The first run before this one whose lease of the device from it has ended at this moment, and when.
    fn borrower(&self, r: usize, d: usize, moment: u64) -> Option<(usize, u64)> {
        let placed = self.runs[r].placed;
        let accesses = self.lineages[d].accesses.iter();
        let mut before = accesses.take_while(|access| access.run != r);
        before.find_map(|access| {
            let x = access.run;
            if self.runs[x].placed <= placed || access.left == 0 || self.is_doomed(x) {
                return None;
            }
            let (span, used) = self.planned(x, d);
            let deadline = span.to + used.span.div_ceil(10);
            (deadline < moment).then_some((x, deadline))
        })
    }

    /// The lease on the device that is overdue for the run is revoked.
    fn revokes(&mut self, lender: usize, device: usize) -> bool {
        let moment = self.moment;
        let Some((x, deadline)) = self.borrower(lender, device, moment) else {
            return false;
        };
        self.doom(
            x,
            Cause::Revoked {
                device,
                lender,
                deadline,
                moment,
            },
        );
        true
    }

    /// The run waits for the device, or for the end of another run.
    fn waits_for(&self, r: usize, d: usize, device: Option<usize>) -> Turn<'a> {
        if self.plans() && self.borrower(r, d, u64::MAX).is_some() {
            Turn::Restless
        } else {
            Turn::Waits(device)
        }
    }

    /// Whether the scheduler plans when runs use their devices.
    pub fn plans(&self) -> bool {
        self.scheduler != Scheduler::Fcfs
    }

    fn command(&mut self, r: usize) -> Turn<'a> {
        let run = &self.runs[r];
        let c = run.answers.len();
        let Command {
            device: d,
            job,
            value,
            ..
        } = run.routine.commands[c];
        let reads = matches!(job, Job::Check | Job::Load);
        if self.plans() && self.revokes(r, d) {
            return Turn::Moved;
        }
        let run = &self.runs[r];
        let lineage = &self.lineages[d];
        for access in &lineage.accesses {
            if access.run == r {
                if reads && access.wrote.is_none() && self.reads_dirty(r, d) {
                    return self.waits_for(r, d, Some(d));
                }
                break;
            }
            if self.holds(lineage, access) {
                return self.waits_for(r, d, Some(d));
            }
        }
        if self.waits_strictly(r) {
            return self.waits_for(r, d, None);
        }
        if lineage.home.is_none() {
            return self.waits_for(r, d, Some(d));
        }
        self.lineages[d].touched |= 1 << r;
        if !self.lineages[d].up {
            self.runs[r].died = 1;
            self.doom(r, Cause::Must(c));
            return Turn::Moved;
        }
        let task = match job {
            Job::Set => Task::Drive(value),
            Job::Store => Task::Drive(self.devices[d].nearest(run.register)),
            Job::Check | Job::Load => Task::Sense,
        };
        self.go(d, task)
    }

    /// Whether a live run before it has written what stands on the device.
    fn reads_dirty(&self, r: usize, d: usize) -> bool {
        let accesses = &self.lineages[d].accesses;
        let own = accesses.iter().position(|access| access.run == r).unwrap();
        let last = accesses.iter().rposition(|access| access.wrote.is_some());
        last.is_some_and(|last| last < own)
    }

    fn waits_strictly(&self, r: usize) -> bool {
        let shares = |x: usize| {
            let others = &self.runs[x].routine.devices;
            self.runs[r].routine.devices.iter().any(|used| {
                others
                    .binary_search_by_key(&used.device, |other| other.device)
                    .is_ok()
            })
        };
        match self.model {
            Model::Eventual => false,
            Model::Global => self.live[0] != r,
            Model::Partitioned => self
                .live
                .iter()
                .take_while(|x| **x != r)
                .any(|x| shares(*x)),
        }
    }

    fn doom(&mut self, r: usize, cause: Cause) {
        if self.runs[r].doom.is_none() {
            self.runs[r].doom = Some(cause);
            self.doomed |= 1 << r;
            self.free_of(r);
        }
    }

    fn undo(&mut self, r: usize) -> Turn<'a> {
        for Use { device: d, .. } in &self.runs[r].routine.devices {
            let lineage = &mut self.lineages[*d];
            if lineage.writer == Some(r) {
                if lineage.home.is_none() {
                    return Turn::Waits(Some(*d));
                }
                lineage
                    .accesses
                    .iter_mut()
                    .find(|access| access.run == r)
                    .unwrap()
                    .wrote = None;
                lineage.writer = lineage.last_writer();
                if !lineage.up {
                    self.free_at(*d);
                    return Turn::Moved;
                }
                let value = lineage.standing();
                return self.go(*d, Task::Undo(value));
            }
        }
        for Use { device: d, .. } in &self.runs[r].routine.devices {
            self.lineages[*d].accesses.retain(|access| access.run != r);
        }
        self.line.retain(|item| *item != Item::Ran(r));
        self.end(r);
        Turn::Moved
    }

    fn commit(&mut self, r: usize) -> Turn<'a> {
        for Use { device: d, .. } in &self.runs[r].routine.devices {
            if self.model != Model::Eventual && !self.lineages[*d].up {
                self.doom(r, Cause::DownAtEnd(*d));
                return Turn::Moved;
            }
        }
        for Use { device: d, .. } in &self.runs[r].routine.devices {
            let lineage = &mut self.lineages[*d];
            if let Some(at) = lineage.accesses.iter().position(|access| access.run == r) {
                match lineage.accesses[at].wrote {
                    Some(value) => {
                        lineage.committed = value;
                        lineage.accesses.drain(..=at);
                        lineage.writer = lineage.writer.filter(|x| *x != r);
                    }
                    None => _ = lineage.accesses.remove(at),
                }
            }
        }
        self.end(r);
        Turn::Moved
    }

    fn end(&mut self, r: usize) {
        self.runs[r].stage = Stage::Ended;
        self.live.retain(|x| *x != r);
        self.free_of(r);
        self.freed |= std::mem::take(&mut self.waiting);
    }

    /// The event goes before the first run that is open on the device and has no answer there.
    fn event(&mut self, d: usize, item: Item) {
        self.lineages[d].up = matches!(item, Item::Back(_));
        let next =
            |access: &&Access| !access.touched && access.left > 0 && !self.is_doomed(access.run);
        let place = match self.lineages[d].accesses.iter().find(next) {
            Some(access) => self
                .line
                .iter()
                .position(|item| *item == Item::Ran(access.run))
                .unwrap(),
            None => self.line.len(),
        };
        self.line.insert(place, item);
    }

    /// A run's grip comes back.
    #[inline]
    pub fn give(&mut self, r: usize, grip: Grip<'a>) {
        if self.plans() && matches!(grip.task, Task::Drive(_) | Task::Sense) {
            let run = &self.runs[r];
            self.moment += u64::from(run.routine.commands[run.answers.len()].takes);
        }
        let (d, found) = (grip.device, grip.sim.value);
        self.lineages[d].home = Some(grip.sim);
        match grip.task {
            Task::Drive(value) => self.answer(r, d, grip.worked, None, value),
            Task::Sense => self.answer(r, d, grip.worked, Some(found), 0),
            _ => {
                self.free_at(d);
                if !grip.worked {
                    self.event(d, Item::Failed(d));
                }
            }
        }
    }

    fn answer(&mut self, r: usize, d: usize, worked: bool, found: Option<u32>, value: u32) {
        let c = self.runs[r].answers.len();
        if !worked {
            self.event(d, Item::Failed(d));
        }
        let lineage = &mut self.lineages[d];
        let access = lineage
            .accesses
            .iter_mut()
            .find(|access| access.run == r)
            .unwrap();
        access.left -= 1;
        let is_last = access.left == 0;
        let was_touched = std::mem::replace(&mut access.touched, true);
        if !worked {
            self.runs[r].died = 1;
            self.free_at(d);
            self.doom(
                r,
                if was_touched {
                    Cause::Lost(d)
                } else {
                    Cause::Must(c)
                },
            );
            return;
        }
        if found.is_none() {
            access.wrote = Some(value);
            lineage.writer = if lineage.writer.is_none() {
                Some(r)
            } else {
                lineage.last_writer()
            };
        }
        if is_last || self.is_doomed(r) {
            self.free_at(d);
        }
        let run = &mut self.runs[r];
        run.answers.push(found);
        let command = &run.routine.commands[c];
        match (found, command.job) {
            (Some(found), Job::Load) => run.register = found,
            (Some(found), _) if command.must && found != command.value => {
                self.doom(r, Cause::Refuted(c, found))
            }
            _ => {}
        }
    }

    pub fn take_probe(&mut self, d: usize) -> Option<Grip<'a>> {
        let restored = if self.lineages[d].up {
            None
        } else {
            Some(self.lineages[d].standing())
        };
        let sim = self.lineages[d].home.take()?;
        Some(Grip {
            device: d,
            sim,
            task: Task::Probe(restored),
            worked: false,
        })
    }

    pub fn give_probe(&mut self, grip: Grip<'a>) {
        let d = grip.device;
        self.lineages[d].home = Some(grip.sim);
        self.free_at(d);
        match (self.lineages[d].up, grip.worked) {
            (false, true) => self.event(d, Item::Back(d)),
            (true, false) => {
                self.event(d, Item::Failed(d));
                let lost = |access: &&Access| {
                    access.touched && access.left > 0 && !self.is_doomed(access.run)
                };
                if let Some(run) = self.lineages[d]
                    .accesses
                    .iter()
                    .find(lost)
                    .map(|access| access.run)
                {
                    self.doom(run, Cause::Lost(d));
                }
            }
            _ => {}
        }
    }

    pub fn wait(&mut self, r: usize, device: Option<usize>) {
        *device.map_or(&mut self.waiting, |d| &mut self.lineages[d].waiting) |= 1 << r;
    }

    /// Those that wait for the device may go on: it is done with by a run, or home again.
    fn free_at(&mut self, d: usize) {
        self.freed |= std::mem::take(&mut self.lineages[d].waiting);
    }

    /// Those that wait for a device of the run may go on: it is doomed, or ends.
    fn free_of(&mut self, r: usize) {
        for Use { device: d, .. } in &self.runs[r].routine.devices {
            self.free_at(*d);
        }
    }
}
