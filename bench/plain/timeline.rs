//! The timeline: the least set of items behind which a run is placed so that its plan ends earliest.
use crate::hub::{Hub, Item, Span};
use crate::script::{Routine, Use};

/// A bit for each device of some items.
type Devices = [u64; 4];

pub fn bits(uses: &[Use]) -> Devices {
    let mut devices = [0; 4];
    uses.iter()
        .for_each(|used| devices[used.device / 64] |= 1 << (used.device % 64));
    devices
}

fn has(devices: &Devices, d: usize) -> bool {
    devices[d / 64] >> (d % 64) & 1 == 1
}

fn meet(a: &Devices, b: &Devices) -> bool {
    a.iter().zip(b).any(|(a, b)| a & b != 0)
}

/// The devices that both have, ascending.
fn shared(a: &Devices, b: &Devices) -> impl Iterator<Item = usize> {
    let words = [a[0] & b[0], a[1] & b[1], a[2] & b[2], a[3] & b[3]];
    words.into_iter().enumerate().flat_map(|(at, word)| {
        let mut left = word;
        std::iter::from_fn(move || {
            let d = left.trailing_zeros() as usize;
            left &= left.wrapping_sub(1);
            (d < 64).then_some(64 * at + d)
        })
    })
}

/// A run that is to be placed: for each of its devices when that is free, and from and to when the run is planned to use it.
struct Plan<'a> {
    routine: &'a Routine<'a>,
    free: Vec<u64>,
    spans: Vec<Span>,
}

impl<'a> Hub<'a> {
    /// For each item of the line whether it comes to stand before the run, and when the run is planned to use its devices.
    pub fn gap(&self, r: usize) -> (Vec<bool>, Vec<Span>) {
        let mut plan = Plan {
            routine: self.runs[r].routine,
            free: Vec::new(),
            spans: Vec::new(),
        };
        let mut set = self.base(plan.routine);
        loop {
            self.close(&mut set);
            self.plan(&mut plan, &set);
            if !self.take_misfits(&plan, &mut set) {
                return (set, plan.spans);
            }
        }
    }

    fn is_live(&self, x: usize) -> bool {
        self.live.contains(&x)
    }

    /// The items that must stand before a run of the routine wherever it is placed.
    fn base(&self, routine: &Routine) -> Vec<bool> {
        let touched = self.touching(routine);
        let front = self.front();
        let is_needed = |(at, item): (usize, &Item)| match item {
            _ if at < front => true,
            Item::Ran(x) => {
                let run = &self.runs[*x];
                let next = run.routine.commands.get(run.answers.len() + run.died);
                touched >> x & 1 == 1
                    || self.is_live(*x) && next.is_some_and(|next| has(&routine.bits, next.device))
            }
            Item::Failed(d) | Item::Back(d) => has(&routine.bits, *d),
        };
        self.line.iter().enumerate().map(is_needed).collect()
    }

    /// With each item those before it with which it shares a device.
    fn close(&self, set: &mut [bool]) {
        let mut gathered = [0; 4];
        for (item, flag) in self.line.iter().zip(set).rev() {
            let mut devices = [0; 4];
            match item {
                Item::Ran(x) => devices = self.runs[*x].routine.bits,
                Item::Failed(d) | Item::Back(d) => devices[d / 64] |= 1 << (d % 64),
            }
            *flag |= meet(&devices, &gathered);
            if *flag {
                gathered
                    .iter_mut()
                    .zip(devices)
                    .for_each(|(all, one)| *all |= one);
            }
        }
    }

    /// Plans the run behind the items of the set.
    fn plan(&self, plan: &mut Plan, set: &[bool]) {
        let uses = &plan.routine.devices;
        plan.free.clear();
        plan.free.resize(uses.len(), 0);
        for (item, _) in self.line.iter().zip(set).filter(|(_, flag)| **flag) {
            let Item::Ran(x) = item else { continue };
            if self.is_live(*x) {
                self.pass(plan, *x);
            }
        }
        plan.spans.clear();
        plan.spans.resize(
            uses.len(),
            Span {
                from: u64::MAX,
                to: 0,
            },
        );
        let mut clock = self.moment;
        for command in &plan.routine.commands {
            let at = usize::from(plan.routine.places[command.device]);
            let start = clock.max(plan.free[at]);
            clock = start + u64::from(command.estimate);
            plan.spans[at].from = plan.spans[at].from.min(start);
            plan.spans[at].to = clock;
        }
    }

    /// A live run stands before the one that is planned.
    fn pass(&self, plan: &mut Plan, x: usize) {
        let (run, routine) = (&self.runs[x], plan.routine);
        let answered = run.answers.len() + run.died;
        let is_doomed = self.is_doomed(x);
        for d in shared(&run.routine.bits, &routine.bits).filter(|_| !is_doomed) {
            let (span, used) = self.planned(x, d);
            if used.last >= answered {
                let free = &mut plan.free[usize::from(routine.places[d])];
                *free = span.to.max(*free);
            }
        }
        if !routine.reads_first {
            return;
        }
        // what a committed run behind it has written counts no more
        let is_kept = |used: &Use| {
            let mut accesses = self.lineages[used.device].accesses.iter();
            accesses.any(|access| access.run == x)
        };
        let uses = run.routine.devices.iter();
        let kept = uses.zip(&run.spans).filter(|(used, _)| is_kept(used));
        let whole = kept.map(|(_, span)| span.to).max().unwrap_or(0);
        for d in shared(&run.routine.bits, &routine.bits) {
            let at = usize::from(routine.places[d]);
            if self.planned(x, d).1.writes && routine.devices[at].reads_first {
                plan.free[at] = plan.free[at].max(whole);
            }
        }
    }

    /// Puts the live runs in that are planned to start on a device before the run, planned so, is off it.
    fn take_misfits(&self, plan: &Plan, set: &mut [bool]) -> bool {
        let mut some = false;
        for (item, flag) in self.line.iter().zip(set) {
            let Item::Ran(x) = item else { continue };
            if *flag || !self.is_live(*x) {
                continue;
            }
            let routine = plan.routine;
            *flag = shared(&self.runs[*x].routine.bits, &routine.bits).any(|d| {
                self.planned(*x, d).0.from < plan.spans[usize::from(routine.places[d])].to
            });
            some |= *flag;
        }
        some
    }
}
