//! What the records of a journal make known (docs/FORMATS.md).

use crate::rules::Rules;

const SLOT: usize = 144;
const BODY: usize = SLOT - 1;
const OPEN_GATE: u8 = 0xa5;
const LONGEST_RUN: usize = 64;
const ZEROS: [u8; BODY] = [0; BODY];

/// Returns the bodies in the bytes of a file.
pub fn slots(image: &[u8]) -> impl Iterator<Item = &[u8; BODY]> {
    let whole = image.as_chunks::<SLOT>().0.iter();
    whole.map_while(|[gate, body @ ..]| (*gate == OPEN_GATE).then_some(body))
}

/// The fields of a body.
struct Record<'a> {
    kind: u8,
    place: usize,
    number: usize,
    start: usize,
    words: &'a [[u8; 2]],
}

impl Record<'_> {
    /// Reads the fields. Returns `None` if they show that the body is no record.
    fn read(body: &[u8; BODY]) -> Option<Record<'_>> {
        let [kind, player, n0, n1, n2, n3, s0, s1, s2, s3, c0, c1, run @ ..] = body;
        let count = usize::from(u16::from_be_bytes([*c0, *c1]));
        if !(1..=4).contains(player) || count > LONGEST_RUN {
            return None;
        }
        let (words, rest) = run.split_at(2 * count);
        if rest != &ZEROS[..rest.len()] {
            return None;
        }
        Some(Record {
            kind: *kind,
            place: usize::from(player - 1),
            number: u32::from_be_bytes([*n0, *n1, *n2, *n3]) as usize,
            start: u32::from_be_bytes([*s0, *s1, *s2, *s3]) as usize,
            words: words.as_chunks().0,
        })
    }
}

fn is_form(form: usize) -> bool {
    form == 0 || form == 2
}

/// The first record of a journal.
pub struct Head {
    pub player: u8,
    form: usize,
    pub id: [u8; 32],
    pub room: u64,
}

impl Head {
    pub fn read(body: &[u8; BODY]) -> Option<Head> {
        let Record { kind, place, number, start, words } = Record::read(body)?;
        if (kind, number, words.len()) != (1, 1, 20) || !is_form(start) {
            return None;
        }
        let (id, room) = words.as_flattened().split_first_chunk()?;
        let room = u64::from_be_bytes(room.try_into().unwrap());
        Some(Head { player: place as u8 + 1, form: start, id: *id, room })
    }
}

/// What is known of one player.
struct Table {
    inputs: Vec<u16>,
    is_frozen: bool,
    is_leaving: bool,
    cut: Option<usize>,
}

/// What the journal of a player makes known.
pub struct Known {
    me: usize,
    epoch: usize,
    openings: usize,
    form: usize,
    ticks: usize,
    tables: Vec<Table>,
}

impl Known {
    /// Returns what a HEAD makes known.
    pub fn new(rules: &Rules, head: &Head) -> Known {
        let tables = (0..rules.players).map(|_| {
            let mut inputs = Vec::with_capacity(rules.limit());
            inputs.resize(rules.delay, 0);
            Table { inputs, is_frozen: false, is_leaving: false, cut: None }
        });
        let me = usize::from(head.player - 1);
        Known { me, epoch: 1, openings: 1, form: head.form, ticks: 0, tables: tables.collect() }
    }

    pub fn me(&self) -> usize {
        self.me
    }

    pub fn ticks(&self) -> usize {
        self.ticks
    }

    pub fn openings(&self) -> usize {
        self.openings
    }

    pub fn inputs(&self, place: usize) -> &[u16] {
        &self.tables[place].inputs
    }

    pub fn is_leaving(&self, place: usize) -> bool {
        self.tables.get(place).is_some_and(|table| table.is_leaving)
    }

    pub fn cut(&self, place: usize) -> Option<usize> {
        self.tables.get(place)?.cut
    }

    pub fn confirmed(&self) -> usize {
        let reach = |table: &Table| match table.cut {
            Some(length) if length <= table.inputs.len() => self.ticks,
            _ => table.inputs.len(),
        };
        self.tables.iter().map(reach).fold(self.ticks, usize::min)
    }

    /// Returns a player's input in a confirmed frame.
    pub fn input(&self, place: usize, frame: usize) -> u16 {
        self.tables.get(place).and_then(|table| table.inputs.get(frame)).copied().unwrap_or(0)
    }

    /// Returns the inputs of a confirmed frame.
    pub fn row(&self, frame: usize) -> [u16; 4] {
        [0, 1, 2, 3].map(|place| self.input(place, frame))
    }

    /// Takes the record of a body after others. Returns whether it is allowed there.
    pub fn take(&mut self, rules: &Rules, body: &[u8; BODY]) -> bool {
        let Some(Record { kind, place, number, start, words }) = Record::read(body) else { return false };
        let (me, count) = (self.me, words.len());
        let is_dropped = me != 0 && self.tables[me].is_leaving;
        let Some(table) = self.tables.get(place) else { return false };
        let held = table.inputs.len();
        let is_empty = (number, start, count) == (0, 0, 0);
        let is_next = start == held && held + count <= rules.limit() && table.cut.is_none();
        match kind {
            2 => {
                let is_epoch = place == me && number > self.epoch && count == 0;
                if !is_epoch || !is_form(start) || (self.form == 2 && start == 0) {
                    return false;
                }
                (self.epoch, self.form) = (number, start);
                self.openings += 1;
            }
            _ if is_dropped => return false,
            3 if place == me
                && (number, start, count) == (0, held, 1)
                && self.ticks < rules.frames
                && self.ticks < self.confirmed() + rules.window
                && !table.is_leaving =>
            {
                self.ticks += 1
            }
            4 if place != me && number == 0 && count > 0 && is_next => {}
            5 if place != me && place != 0 && me != 0 && is_empty && !table.is_frozen => {
                self.tables[place].is_frozen = true
            }
            6 if place != 0 && (me == 0 || place == me) && is_empty && !table.is_leaving => {
                self.tables[place].is_leaving = true
            }
            7 if place != me
                && place != 0
                && number == held + count
                && is_next
                && (if me == 0 { table.is_leaving } else { table.is_frozen }) =>
            {
                self.tables[place].cut = Some(number)
            }
            _ => return false,
        }
        self.tables[place].inputs.extend(words.iter().map(|word| u16::from_be_bytes(*word)));
        true
    }
}
