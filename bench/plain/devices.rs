//! Devices, and the grips with which they go out.

/// A device, which dies in the calls of its plan.
pub struct Sim<'a> {
    pub value: u32,
    pub calls: u64,
    pub downs: &'a [(u64, u64)],
}

impl Sim<'_> {
    /// Whether the next call works.
    fn call(&mut self) -> bool {
        self.calls += 1;
        !self
            .downs
            .iter()
            .any(|(from, to)| *from <= self.calls && self.calls < *to)
    }

    fn drive(&mut self, value: u32) -> bool {
        let works = self.call();
        if works {
            self.value = value;
        }
        works
    }
}

#[derive(Clone, Copy)]
pub enum Task {
    Drive(u32),
    Sense,
    Undo(u32),
    Probe(Option<u32>),
}

/// A device that is out, and what came of its call.
pub struct Grip<'a> {
    pub device: usize,
    pub sim: Box<Sim<'a>>,
    pub task: Task,
    pub worked: bool,
}

impl Grip<'_> {
    pub fn act(&mut self) {
        self.worked = match self.task {
            Task::Drive(value) | Task::Undo(value) => self.sim.drive(value),
            Task::Sense => self.sim.call(),
            Task::Probe(restored) => {
                self.sim.call() && restored.is_none_or(|value| self.sim.drive(value))
            }
        };
    }
}
