//! A replay: the generator picks who goes on.
use crate::devices::Grip;
use crate::hub::{Hub, Stage, Turn};
use crate::script::Window;

/// The generator of picks.
pub struct Draws(pub u64);

impl Draws {
    pub fn below(&mut self, k: usize) -> usize {
        self.0 = self
            .0
            .wrapping_mul(6364136223846793005)
            .wrapping_add(1442695040888963407);
        ((self.0 >> 33) % k as u64) as usize
    }
}

struct Player<'a, 'h> {
    hub: &'h mut Hub<'a>,
    grips: Vec<Option<Grip<'a>>>,
    /// A bit for each run that waits.
    waiting: u64,
    probed: usize,
    probes: usize,
}

impl Player<'_, '_> {
    /// Steps the actor, the detector as 0, and tells whether it moved.
    fn pick(&mut self, actor: usize) -> bool {
        if let Some(mut grip) = self.grips[actor].take() {
            grip.act();
            if actor == 0 {
                self.hub.give_probe(grip)
            } else {
                self.hub.give(actor - 1, grip)
            }
            return true;
        }
        if actor == 0 {
            self.grips[0] = self.hub.take_probe(self.probed % self.hub.lineages.len());
            self.probed += 1;
            return true;
        }
        match self.hub.take(actor - 1) {
            Turn::Go(grip) => self.grips[actor] = Some(grip),
            Turn::Waits(device) => {
                self.hub.wait(actor - 1, device);
                // the next undo of a doomed run may become one of another device
                self.waiting |= u64::from(!self.hub.is_doomed(actor - 1)) << (actor - 1);
                return false;
            }
            Turn::Restless => return false,
            _ => {}
        }
        true
    }

    fn waits(&self, actor: usize) -> bool {
        actor > 0 && self.waiting >> (actor - 1) & 1 == 1
    }

    fn has_ended(&self, actor: usize) -> bool {
        if actor == 0 {
            return self.probed == self.probes && self.grips[0].is_none();
        }
        self.hub.runs[actor - 1].stage == Stage::Ended
    }

    fn play(&mut self, seed: u64) {
        let mut draws = Draws(seed);
        let mut actors: Vec<usize> = (0..self.grips.len())
            .filter(|actor| !self.has_ended(*actor))
            .collect();
        while !actors.is_empty() {
            let mut at = draws.below(actors.len());
            while self.waits(actors[at]) || !self.pick(actors[at]) {
                at = if at + 1 == actors.len() { 0 } else { at + 1 };
            }
            self.waiting &= !std::mem::take(&mut self.hub.freed);
            if self.has_ended(actors[at]) {
                actors.remove(at);
            }
        }
    }
}

pub fn replay_window(hub: &mut Hub, window: &Window) {
    let probes = window.probes * hub.lineages.len();
    let grips = (0..=window.runs.len()).map(|_| None).collect();
    Player {
        hub,
        grips,
        waiting: 0,
        probed: 0,
        probes,
    }
    .play(window.seed);
}
