//! A plain Rust peer (docs/PROTOCOL.md) of player 1 in a match of two. It drops nobody, so it refuses each FREEZE, FROZEN and CUT. It
//! has all other rows of the table in "What a delivery does".

use crate::datagram::{self, Data, Fault, Header, Message};
use crate::journal::{Full, Journal};
use crate::machine::{Game, Machine};
use crate::roll::{Lists, Roll};
use crate::rules::Rules;

const ME: usize = 0;
const OTHER: usize = 1;

/// The peer's own epoch: it opens once.
const EPOCH: u32 = 1;

/// The room of a journal for other records than inputs, in slots.
const SPARE_SLOTS: usize = 1 << 16;
const SLOT: usize = 144;

#[derive(Debug, PartialEq)]
pub enum Heard {
    Nothing,
    Kept,
}

#[derive(Debug, PartialEq)]
pub enum Refused {
    Datagram(Fault),
    NotOpen,
    Stale,
    Ahead,
    NotMine,
    Session,
    Gap,
    Differs,
    RunFull,
    BadAck,
    NotChair,
    WrongLeaver,
    Desync,
    Disk,
    Down,
    OtherWire,
    End,
    Threshold,
}

impl From<Fault> for Refused {
    fn from(fault: Fault) -> Refused {
        Refused::Datagram(fault)
    }
}

impl From<Full> for Refused {
    fn from(_: Full) -> Refused {
        Refused::Disk
    }
}

/// What is known of the other peer.
struct Link {
    epoch: u32,
    is_open: bool,
}

pub struct Peer<'g> {
    rules: &'g Rules,
    session: u64,
    journal: Journal,
    lists: Lists,
    ticks: usize,
    link: Link,
    /// The number of own inputs that the other player has acknowledged.
    acked: usize,
    /// The number of rows that each watcher has acknowledged.
    seen: [usize; 2],
    has_alarm: bool,
    roll: Roll<'g>,
}

impl<'g> Peer<'g> {
    pub fn open(rules: &'g Rules, game: &'g Game, room: u64) -> Peer<'g> {
        let slots = rules.limit() * usize::from(rules.players) + SPARE_SLOTS;
        let mut journal = Journal::new(SLOT * slots);
        journal.head(1, &rules.id(), room).unwrap();
        let list = || {
            let mut list = Vec::with_capacity(rules.limit());
            list.resize(rules.delay, 0);
            list
        };
        Peer {
            rules,
            session: rules.session(room),
            journal,
            lists: [list(), list()],
            ticks: 0,
            link: Link { epoch: 0, is_open: false },
            acked: rules.delay,
            seen: [0; 2],
            has_alarm: false,
            roll: Roll::new(game),
        }
    }

    pub fn journal(&self) -> &[u8] {
        self.journal.bytes()
    }

    pub fn shown(&self) -> &Machine {
        self.roll.shown()
    }

    pub fn has_alarm(&self) -> bool {
        self.has_alarm
    }

    pub fn acked(&self) -> usize {
        self.acked
    }

    pub fn confirmed(&self) -> usize {
        self.lists.iter().map(Vec::len).fold(self.ticks, usize::min)
    }

    /// Enters the own player's next input.
    pub fn tick(&mut self, keys: u16) -> Result<(), Refused> {
        if self.journal.is_down() {
            return Err(Refused::Down);
        }
        if self.ticks >= self.rules.frames {
            return Err(Refused::End);
        }
        if self.ticks >= self.confirmed() + self.rules.window {
            return Err(Refused::Threshold);
        }
        self.journal.own(ME as u8 + 1, self.lists[ME].len(), keys)?;
        self.lists[ME].push(keys);
        self.ticks += 1;
        // own inputs are never predicted, so no row has changed
        self.roll.go_on(&self.lists, self.confirmed(), self.ticks);
        Ok(())
    }

    /// Processes a received packet.
    pub fn deliver(&mut self, bytes: &[u8]) -> Result<Heard, Refused> {
        if self.journal.is_down() {
            return Err(Refused::Down);
        }
        let (header, message) = datagram::read(bytes)?;
        if header.version != self.rules.wire {
            return Err(Refused::OtherWire);
        }
        self.admit(&header, &message)?;
        match message {
            Message::Hello => {
                if header.sender_epoch > self.link.epoch {
                    self.link = Link { epoch: header.sender_epoch, is_open: false };
                }
                Ok(Heard::Nothing)
            }
            Message::Welcome { ack } => {
                self.check_ack(ack)?;
                self.link = Link { epoch: header.sender_epoch, is_open: true };
                self.acked = self.acked.max(ack as usize);
                Ok(Heard::Nothing)
            }
            Message::Data(data) => self.hear(&data),
            Message::Seen { ack } => {
                if ack as usize > self.confirmed() {
                    return Err(Refused::BadAck);
                }
                self.seen[usize::from(header.from - 5)] = ack as usize;
                Ok(Heard::Nothing)
            }
            Message::Freeze | Message::Cut => Err(Refused::NotChair),
            Message::Frozen => Err(Refused::WrongLeaver),
            Message::Show => Err(Refused::NotMine),
        }
    }

    /// Checks a header by the link.
    fn admit(&self, header: &Header, message: &Message) -> Result<(), Refused> {
        if header.session != self.session {
            return Err(Refused::Session);
        }
        if let Message::Seen { .. } = message {
            return Ok(());
        }
        if usize::from(header.to) != ME + 1 || usize::from(header.from) != OTHER + 1 {
            return Err(Refused::NotMine);
        }
        let (known, b, a) = (self.link.epoch, header.sender_epoch, header.addressee_epoch);
        let (is_stale, is_ahead, is_missing) = match message {
            Message::Hello => (b == 0 || b < known, a > EPOCH, false),
            Message::Welcome { .. } => (b == 0 || b < known || a < EPOCH, a > EPOCH, false),
            _ => (b < known || a < EPOCH, b > known || a > EPOCH, !self.link.is_open),
        };
        if is_stale {
            Err(Refused::Stale)
        } else if is_ahead {
            Err(Refused::Ahead)
        } else if is_missing {
            Err(Refused::NotOpen)
        } else {
            Ok(())
        }
    }

    fn check_ack(&self, ack: u32) -> Result<(), Refused> {
        if ack as usize > self.lists[ME].len() { Err(Refused::BadAck) } else { Ok(()) }
    }

    /// Processes an admitted DATA.
    fn hear(&mut self, data: &Data) -> Result<Heard, Refused> {
        self.check_ack(data.ack)?;
        let list = &mut self.lists[OTHER];
        let (start, count) = (data.start as usize, list.len());
        if start + data.run.len() > self.rules.limit() {
            return Err(Refused::RunFull);
        }
        if start > count {
            return Err(Refused::Gap);
        }
        let mut inputs = data.run.inputs();
        if !list[start..].iter().zip(&mut inputs).all(|(held, input)| *held == input) {
            return Err(Refused::Differs);
        }
        if self.roll.mark(data.mark_frame as usize).is_some_and(|mark| *mark != data.mark) {
            self.has_alarm = true;
            return Err(Refused::Desync);
        }
        let fresh = (start + data.run.len()).saturating_sub(count);
        if fresh > 0 {
            self.journal.got(OTHER as u8 + 1, count, fresh, inputs.clone())?;
            list.extend(inputs);
            self.roll.go_back(&self.lists);
            self.roll.go_on(&self.lists, self.confirmed(), self.ticks);
        }
        self.acked = self.acked.max(data.ack as usize);
        Ok(if fresh > 0 { Heard::Kept } else { Heard::Nothing })
    }
}
