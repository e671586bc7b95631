//! A plain Rust opening of a journal in a file, to compare with `Log::open` and `replay`. It reads the slots and records of
//! docs/FORMATS.md, 32 slots a call, and checks them in place. With the word `twice` it makes the reads of a defined
//! opening: it first finds the end, as `Log::open` does, and then reads the records, as `replay` does. Without it, it does
//! both at once.

use std::fs::File;
use std::io::{self, Read};
use std::os::unix::fs::FileExt;
use std::time::Instant;

const ROOM: u64 = 0x0102030405060708;

const OPEN_GATE: u8 = 0xa5;
const CLOSED_GATE: u8 = 0;

const SLOT: usize = 144;
const BLOCK: usize = 32 * SLOT;
const BODY: usize = SLOT - 1;
const LONGEST_RUN: usize = 64;
const ZEROS: [u8; BODY] = [0; BODY];

/// The rules of a game, as far as they are read here.
#[derive(Default)]
struct Game {
    players: u8,
    frames: usize,
    delay: usize,
    window: usize,
    id: [u8; 32],
}

impl Game {
    fn read(text: &str, id: &str) -> Game {
        let mut game = Game::default();
        for line in text.lines() {
            let Some((name, value)) = line.split_once(' ') else { continue };
            match name {
                "players" => game.players = value.parse().unwrap(),
                "frames" => game.frames = value.parse().unwrap(),
                "delay" => game.delay = value.parse().unwrap(),
                "window" => game.window = value.parse().unwrap(),
                _ => {}
            }
        }
        for (byte, digits) in game.id.iter_mut().zip(id.as_bytes().chunks(2)) {
            *byte = u8::from_str_radix(str::from_utf8(digits).unwrap(), 16).unwrap();
        }
        game
    }
}

/// What is known of one player.
struct Table {
    inputs: Vec<u16>,
    frozen: bool,
    leaving: bool,
    cut: Option<usize>,
}

impl Table {
    /// The least frame whose input is not settled, or `ticks` if each is.
    fn reach(&self, ticks: usize) -> usize {
        match self.cut {
            Some(length) if length <= self.inputs.len() => ticks,
            _ => self.inputs.len(),
        }
    }
}

#[derive(Debug)]
enum Refusal {
    WrongGame,
    WrongPlayer,
    /// The first record that is not taken is none, or is not allowed there.
    BadRecord,
    Disk,
}

impl From<io::Error> for Refusal {
    fn from(_: io::Error) -> Refusal {
        Refusal::Disk
    }
}

/// What player `me` knows by the records so far.
struct Known<'g> {
    game: &'g Game,
    me: u8,
    limit: usize,
    records: usize,
    epoch: u32,
    ticks: usize,
    tables: Vec<Table>,
}

fn u16_at(body: &[u8; BODY], at: usize) -> u16 {
    u16::from_be_bytes([body[at], body[at + 1]])
}

fn u32_at(body: &[u8; BODY], at: usize) -> u32 {
    u32::from_be_bytes([body[at], body[at + 1], body[at + 2], body[at + 3]])
}

impl<'g> Known<'g> {
    fn new(game: &'g Game, me: u8) -> Known<'g> {
        let limit = game.frames + game.delay;
        let tables = (0..game.players).map(|_| {
            let mut inputs = Vec::with_capacity(limit);
            inputs.resize(game.delay, 0);
            Table { inputs, frozen: false, leaving: false, cut: None }
        });
        Known { game, me, limit, records: 0, epoch: 0, ticks: 0, tables: tables.collect() }
    }

    /// Whether the next tick is less than a window ahead of the confirmed frames.
    fn is_within_window(&self) -> bool {
        self.tables.iter().all(|table| self.ticks < table.reach(self.ticks) + self.game.window)
    }

    /// Takes the next body.
    fn take(&mut self, body: &[u8; BODY]) -> Result<(), Refusal> {
        let (kind, player) = (body[0], body[1]);
        let (number, start) = (u32_at(body, 2), u32_at(body, 6) as usize);
        let count = u16_at(body, 10) as usize;
        let bad = Err(Refusal::BadRecord);
        if player == 0 || player > 4 || count > LONGEST_RUN {
            return bad;
        }
        let (run, rest) = body[12..].split_at(2 * count);
        if rest != &ZEROS[..rest.len()] {
            return bad;
        }
        if self.records == 0 {
            self.take_head(kind, player, number, start, run)?;
        } else if player > self.game.players || !self.follow(kind, player, number, start, run) {
            return bad;
        }
        self.records += 1;
        Ok(())
    }

    fn take_head(&mut self, kind: u8, player: u8, number: u32, start: usize, run: &[u8]) -> Result<(), Refusal> {
        if (kind, number, start, run.len()) != (1, 1, 0, 40) {
            return Err(Refusal::BadRecord);
        }
        let (id, room) = run.split_at(32);
        if *id != self.game.id || *room != ROOM.to_be_bytes() {
            return Err(Refusal::WrongGame);
        }
        if player != self.me {
            return Err(Refusal::WrongPlayer);
        }
        self.epoch = 1;
        Ok(())
    }

    /// Takes a record after others. Returns whether it is allowed there.
    fn follow(&mut self, kind: u8, player: u8, number: u32, start: usize, run: &[u8]) -> bool {
        let (me, place, count) = (self.me, player as usize - 1, run.len() / 2);
        let is_dropped = me != 1 && self.tables[me as usize - 1].leaving;
        let table = &self.tables[place];
        let held = table.inputs.len();
        let is_next = start == held && held + count <= self.limit && table.cut.is_none();
        match kind {
            2 if player == me && number > self.epoch && (start, count) == (0, 0) => self.epoch = number,
            _ if is_dropped => return false,
            3 if player == me
                && (number, start, count) == (0, held, 1)
                && self.ticks < self.game.frames
                && self.is_within_window()
                && !table.leaving =>
            {
                self.ticks += 1
            }
            4 if player != me && number == 0 && count > 0 && is_next => {}
            5 if player != me && player != 1 && me != 1 && (number, start, count) == (0, 0, 0) && !table.frozen => {
                self.tables[place].frozen = true
            }
            6 if player != 1 && (me == 1 || player == me) && (number, start, count) == (0, 0, 0) && !table.leaving => {
                self.tables[place].leaving = true
            }
            7 if player != me
                && player != 1
                && number as usize == held + count
                && is_next
                && (if me == 1 { table.leaving } else { table.frozen }) =>
            {
                self.tables[place].cut = Some(number as usize)
            }
            _ => return false,
        }
        let inputs = &mut self.tables[place].inputs;
        for word in run.as_chunks().0 {
            inputs.push(u16::from_be_bytes(*word));
        }
        true
    }
}

/// Reads the slots of a file, a block at a time, and hands each body to `take` until a gate is not open. The number of
/// bodies, and whether the gate after them is closed.
fn read_slots(file: &File, mut take: impl FnMut(&[u8; BODY]) -> Result<(), Refusal>) -> Result<(usize, bool), Refusal> {
    let length = file.metadata()?.len() as usize;
    let mut block = [0; BLOCK];
    let mut count = 0;
    for at in (0..length).step_by(BLOCK) {
        let part = &mut block[..BLOCK.min(length - at)];
        file.read_exact_at(part, at as u64)?;
        let (slots, rest) = part.as_chunks::<SLOT>();
        for [gate, body @ ..] in slots {
            if *gate != OPEN_GATE {
                return Ok((count, true));
            }
            take(body)?;
            count += 1;
        }
        if rest.first().is_some_and(|gate| *gate != OPEN_GATE) {
            return Ok((count, true));
        }
    }
    Ok((count, false))
}

/// Closes the gate after the last record, if it is missing or open.
fn close_gate(file: &File, (count, is_closed): (usize, bool)) -> Result<(), Refusal> {
    if !is_closed {
        file.write_all_at(&[CLOSED_GATE], (SLOT * count) as u64)?;
        file.sync_data()?;
    }
    Ok(())
}

/// Opens the journal that a file keeps, and reads it into `known`, at once.
#[inline(never)]
fn open(file: &File, known: &mut Known) -> Result<(), Refusal> {
    file.sync_data()?;
    let end = read_slots(file, |body| known.take(body))?;
    close_gate(file, end)
}

/// The same, one after the other.
#[inline(never)]
fn open_twice(file: &File, known: &mut Known) -> Result<(), Refusal> {
    file.sync_data()?;
    let end = read_slots(file, |_| Ok(()))?;
    close_gate(file, end)?;
    read_slots(file, |body| known.take(body))?;
    Ok(())
}

fn main() {
    let mut text = String::new();
    io::stdin().read_to_string(&mut text).unwrap();
    let mut args = std::env::args().skip(1);
    let (path, id) = (args.next().unwrap(), args.next().unwrap());
    let game = Game::read(&text, &id);
    let mut known = Known::new(&game, 1);
    let is_twice = args.next().as_deref() == Some("twice");
    let file = File::options().read(true).write(true).open(path).unwrap();
    let start = Instant::now();
    if is_twice {
        open_twice(&file, &mut known).unwrap();
    } else {
        open(&file, &mut known).unwrap();
    }
    println!("{} {}", if is_twice { "plain_twice" } else { "plain" }, start.elapsed().as_nanos());
    println!("records {}", known.records);
    for (place, table) in known.tables.iter().enumerate() {
        let sum = table.inputs.iter().fold(0u64, |sum, input| sum.wrapping_mul(31).wrapping_add(u64::from(*input)));
        println!("inputs {} {} {sum:016x}", place + 1, table.inputs.len());
    }
}
