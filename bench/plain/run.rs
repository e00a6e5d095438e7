//! A run: a thread for each run of a window, one lock, and a bell for each run.
use crate::hub::{Hub, Turn};
use crate::script::Window;
use std::sync::{Condvar, Mutex, MutexGuard};

struct Door<'a, 'h> {
    hub: Mutex<&'h mut Hub<'a>>,
    bells: Vec<Condvar>,
}

impl<'a, 'h> Door<'a, 'h> {
    /// Leaves the lock, and rings those whom the step has freed.
    fn leave(&self, mut hub: MutexGuard<&'h mut Hub<'a>>) {
        let mut freed = std::mem::take(&mut hub.freed);
        drop(hub);
        while freed != 0 {
            if let Some(bell) = self.bells.get(freed.trailing_zeros() as usize) {
                bell.notify_one();
            }
            freed &= freed - 1;
        }
    }

    fn work(&self, r: usize) {
        loop {
            let mut hub = self.hub.lock().unwrap();
            match hub.take(r) {
                Turn::Go(mut grip) => {
                    self.leave(hub);
                    grip.act();
                    let mut hub = self.hub.lock().unwrap();
                    hub.give(r, grip);
                    self.leave(hub);
                }
                Turn::Moved => self.leave(hub),
                Turn::Waits(device) => {
                    hub.wait(r, device);
                    drop(self.bells[r].wait(hub).unwrap());
                }
                Turn::Restless => unreachable!(),
                Turn::Over => return,
            }
        }
    }

    fn probe(&self, d: usize) {
        let taken = self.hub.lock().unwrap().take_probe(d);
        if let Some(mut grip) = taken {
            grip.act();
            let mut hub = self.hub.lock().unwrap();
            hub.give_probe(grip);
            self.leave(hub);
        }
    }
}

pub fn run_window(hub: &mut Hub, window: &Window) {
    let devices = hub.lineages.len();
    let door = Door {
        bells: window.runs.iter().map(|_| Condvar::new()).collect(),
        hub: Mutex::new(hub),
    };
    std::thread::scope(|scope| {
        for r in 0..window.runs.len() {
            let door = &door;
            scope.spawn(move || door.work(r));
        }
        for _ in 0..window.probes {
            (0..devices).for_each(|d| door.probe(d));
        }
    });
}
