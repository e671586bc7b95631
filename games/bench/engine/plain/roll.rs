//! The frames that were run on the best prediction, and the snapshots to roll back to.

use crate::machine::{Game, Machine, Row};

/// A power of two above the longest window.
const ROOM: usize = 16;
const MARK_STEP: usize = 32;
const MARKS: usize = 16;

pub type Mark = [u8; 8];

/// The machine before a frame, and the row that was run from it.
#[derive(Clone, Copy)]
struct Snapshot {
    machine: Machine,
    row: Row,
}

/// The lists of inputs of both players.
pub type Lists = [Vec<u16>; 2];

pub struct Roll<'g> {
    game: &'g Game,
    /// The number of confirmed frames, and of frames that were run.
    first: usize,
    ticks: usize,
    shown: Machine,
    /// The snapshot of an unconfirmed frame is at the frame modulo `ROOM`.
    snapshots: Box<[Snapshot; ROOM]>,
    /// The mark after `MARK_STEP` * k confirmed frames is at k modulo `MARKS`; only the last `MARKS` are kept.
    marks: [Mark; MARKS],
}

fn best(lists: &Lists, frame: usize) -> Row {
    let [one, two] = lists;
    [one, two].map(|list| *list.get(frame).or(list.last()).unwrap_or(&0))
}

impl<'g> Roll<'g> {
    pub fn new(game: &'g Game) -> Roll<'g> {
        let shown = Machine::start(game);
        let snapshots = Box::new([Snapshot { machine: shown, row: [0; 2] }; ROOM]);
        Roll { game, first: 0, ticks: 0, shown, snapshots, marks: [shown.mark(); MARKS] }
    }

    pub fn shown(&self) -> &Machine {
        &self.shown
    }

    /// Returns the mark after `frames` confirmed frames, if it is kept.
    pub fn mark(&self, frames: usize) -> Option<&Mark> {
        let (newest, number) = (self.first / MARK_STEP, frames / MARK_STEP);
        let is_kept = frames % MARK_STEP == 0 && number <= newest && newest < number + MARKS;
        is_kept.then(|| &self.marks[number % MARKS])
    }

    /// Rolls back to the first frame whose row is no longer the best prediction.
    pub fn go_back(&mut self, lists: &Lists) {
        let wrong = |frame: &usize| self.snapshots[frame % ROOM].row != best(lists, *frame);
        if let Some(frame) = (self.first..self.ticks).find(wrong) {
            self.shown = self.snapshots[frame % ROOM].machine;
            self.ticks = frame;
        }
    }

    /// Confirms frames up to `confirmed`, and runs frames up to `ticks`. A frame that is confirmed when it runs needs no snapshot.
    pub fn go_on(&mut self, lists: &Lists, confirmed: usize, ticks: usize) {
        for frame in self.first..confirmed {
            if frame == self.ticks {
                self.shown.frame(self.game, self.game.joined(&best(lists, frame)));
                self.ticks += 1;
            }
            self.first += 1;
            if self.first % MARK_STEP == 0 {
                self.marks[self.first / MARK_STEP % MARKS] = self.base().mark();
            }
        }
        for frame in self.ticks..ticks {
            let row = best(lists, frame);
            let snapshot = &mut self.snapshots[frame % ROOM];
            snapshot.machine = self.shown;
            snapshot.row = row;
            self.shown.frame(self.game, self.game.joined(&row));
        }
        self.ticks = self.ticks.max(ticks);
    }

    /// Returns the machine after the confirmed frames.
    fn base(&self) -> &Machine {
        if self.first == self.ticks { &self.shown } else { &self.snapshots[self.first % ROOM].machine }
    }
}
