//! A plain Rust session for two players, to compare with `Roll`: the machine of docs/MACHINE.md (`machine`), a ring of
//! snapshots, and a mark of the confirmed machine at each multiple of 32 frames.

mod machine;
mod sha256;

use machine::{Game, Machine, Row};
use std::collections::VecDeque;
use std::io::Read;
use std::time::Instant;

/// The machine before a frame, and the row that was run from it.
#[derive(Clone)]
struct Snapshot {
    row: Row,
    machine: Machine,
}

/// The inputs of both, and the frames that were run on them; the own player is the first.
struct Session<'g> {
    game: &'g Game,
    inputs: [Vec<u16>; 2],
    /// How many frames are confirmed, and how many were run.
    first: usize,
    ticks: usize,
    shown: Machine,
    /// The snapshot of a frame that is run and not confirmed stands at the frame modulo the length.
    snapshots: Vec<Snapshot>,
    marks: VecDeque<[u8; 8]>,
}

impl<'g> Session<'g> {
    fn new(game: &'g Game) -> Session<'g> {
        let shown = Machine::start(game);
        Session {
            game,
            inputs: [Vec::with_capacity(1 << 18), Vec::with_capacity(1 << 18)],
            first: 0,
            ticks: 0,
            shown,
            snapshots: vec![Snapshot { row: [0; 2], machine: shown }; game.window + 1],
            marks: VecDeque::from([shown.mark()]),
        }
    }

    fn best(&self, frame: usize) -> Row {
        let [one, two] = &self.inputs;
        [one, two].map(|held| *held.get(frame).or(held.last()).unwrap_or(&0))
    }

    fn tick(&mut self, keys: u16) {
        self.inputs[0].push(keys);
        self.settle();
    }

    fn hear(&mut self, keys: &[u16]) {
        self.inputs[1].extend(keys);
    }

    /// The machine after the confirmed frames.
    fn base(&self) -> &Machine {
        let room = self.snapshots.len();
        if self.first == self.ticks { &self.shown } else { &self.snapshots[self.first % room].machine }
    }

    /// Rolls back to the first frame whose row is no longer the best prediction, and resimulates from there.
    #[inline(never)]
    fn settle(&mut self) -> Option<usize> {
        let room = self.snapshots.len();
        let oldest =
            (self.first..self.ticks).find(|frame| self.snapshots[frame % room].row != self.best(*frame));
        if let Some(frame) = oldest {
            self.shown = self.snapshots[frame % room].machine;
            self.ticks = frame;
        }
        for frame in self.first..self.inputs[0].len().min(self.inputs[1].len()) {
            if frame == self.ticks {
                let keys = self.game.joined(&self.best(frame));
                self.shown.frame(self.game, keys);
                self.ticks += 1;
            }
            self.first += 1;
            if self.first % 32 == 0 {
                let mark = self.base().mark();
                self.marks.truncate(15);
                self.marks.push_front(mark);
            }
        }
        for frame in self.ticks..self.inputs[0].len() {
            let row = self.best(frame);
            let snapshot = &mut self.snapshots[frame % room];
            snapshot.row = row;
            snapshot.machine = self.shown;
            self.shown.frame(self.game, self.game.joined(&row));
            self.ticks += 1;
        }
        oldest
    }
}

/// What the calls of one kind cost, in nanoseconds: the least, and the mean.
struct Times {
    name: &'static str,
    least: u64,
    total: u64,
    count: u64,
}

impl Times {
    fn new(name: &'static str) -> Times {
        Times { name, least: u64::MAX, total: 0, count: 0 }
    }

    fn add(&mut self, start: Instant) {
        let nanos = start.elapsed().as_nanos() as u64;
        self.least = self.least.min(nanos);
        self.total += nanos;
        self.count += 1;
    }

    fn print(&self) {
        println!("{} {} {}", self.name, self.least, self.total / self.count.max(1));
    }
}

/// What is timed where a guess was wrong.
#[inline(never)]
fn rollback(session: &mut Session) -> Option<usize> {
    session.settle()
}

/// A hundred calls with nothing new.
#[inline(never)]
fn settle_often(session: &mut Session) {
    for _ in 0..100 {
        session.settle();
    }
}

/// Twelve frames of a wrong guess, and then `keys`, all at once or in a call each; `rounds` times over.
fn late(session: &mut Session, rounds: u32, at_once: bool) {
    let (mut plain, mut marked, mut back) = (Times::new("settle"), Times::new("settle_and_mark"), 0);
    for round in 0..rounds {
        let ticks = if at_once || round == 0 { 12 } else { 1 };
        for _ in 0..ticks {
            session.tick((round % 4) as u16);
        }
        let keys = if round % 2 == 0 { 0x0010 } else { 0x0020 };
        session.hear(&[keys; 12][..if at_once { 12 } else { 1 }]);
        let (before, ticks) = (session.first, session.ticks);
        let start = Instant::now();
        let oldest = rollback(session);
        let times = if before / 32 == session.first / 32 { &mut plain } else { &mut marked };
        times.add(start);
        back += ticks - oldest.unwrap_or(ticks);
    }
    println!("frames {back}");
    plain.print();
    marked.print();
}

/// Frames whose guess is right, each a tick and an input; then calls with nothing new.
fn calm(session: &mut Session, frames: u32) {
    let (mut tick, mut hear, mut none) = (Times::new("tick"), Times::new("hear"), Times::new("none"));
    for frame in 0..frames + 12 {
        let start = Instant::now();
        session.tick((frame % 4) as u16);
        if frame >= 12 {
            tick.add(start);
            session.hear(&[0]);
            let start = Instant::now();
            session.settle();
            hear.add(start);
        }
    }
    for _ in 0..1000 {
        let start = Instant::now();
        settle_often(session);
        none.add(start);
    }
    tick.print();
    hear.print();
    none.print();
}

fn main() {
    let mut text = String::new();
    std::io::stdin().read_to_string(&mut text).unwrap();
    let game = Game::read(&text);
    let mut args = std::env::args().skip(1);
    let (mode, count) = (args.next().unwrap(), args.next().unwrap().parse().unwrap());
    let mut session = Session::new(&game);
    match mode.as_str() {
        "late" => late(&mut session, count, true),
        "steady" => late(&mut session, count, false),
        _ => calm(&mut session, count),
    }
    let mark = u64::from_be_bytes(session.shown.mark());
    println!("confirmed {} of {}, mark {mark:016x}", session.first, session.ticks);
}
