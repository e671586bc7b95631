//! A journal in memory (docs/FORMATS.md).

const SLOT: usize = 144;
const BODY: usize = SLOT - 1;
const CLOSED_GATE: u8 = 0;
const OPEN_GATE: u8 = 0xa5;

const HEAD: u8 = 1;
const OWN: u8 = 3;
const GOT: u8 = 4;

/// The form of the records.
const FORM: u32 = 2;

pub struct Journal {
    bytes: Vec<u8>,
    count: usize,
    capacity: usize,
    is_down: bool,
}

/// The journal has no room for another slot.
#[derive(Debug)]
pub struct Full;

impl Journal {
    /// Creates an empty journal, with memory for its whole capacity.
    pub fn new(capacity: usize) -> Journal {
        let mut bytes = Vec::with_capacity(capacity);
        bytes.push(CLOSED_GATE);
        Journal { bytes, count: 0, capacity, is_down: false }
    }

    pub fn is_down(&self) -> bool {
        self.is_down
    }

    pub fn bytes(&self) -> &[u8] {
        &self.bytes
    }

    /// Appends the HEAD of a player.
    pub fn head(&mut self, player: u8, id: &[u8; 32], room: u64) -> Result<(), Full> {
        let words = [&id[..], &room.to_be_bytes()].concat();
        let mut body = body_of(HEAD, player, 1, FORM, words.len() / 2);
        body[12..12 + words.len()].copy_from_slice(&words);
        self.append(&body)
    }

    /// Appends an input of the own player.
    pub fn own(&mut self, player: u8, start: usize, keys: u16) -> Result<(), Full> {
        let mut body = body_of(OWN, player, 0, start as u32, 1);
        body[12..14].copy_from_slice(&keys.to_be_bytes());
        self.append(&body)
    }

    /// Appends at most 64 inputs of another player.
    pub fn got(&mut self, player: u8, start: usize, count: usize, inputs: impl Iterator<Item = u16>) -> Result<(), Full> {
        let mut body = body_of(GOT, player, 0, start as u32, count);
        for (word, input) in body[12..140].as_chunks_mut().0.iter_mut().zip(inputs) {
            *word = input.to_be_bytes();
        }
        self.append(&body)
    }

    /// Writes the body and the closed gate of the next slot, then opens the gate of the body. With a file, a sync would follow
    /// each write.
    fn append(&mut self, body: &[u8; BODY]) -> Result<(), Full> {
        let gate = SLOT * self.count;
        if gate + SLOT + 1 > self.capacity {
            self.is_down = true;
            return Err(Full);
        }
        self.bytes.extend_from_slice(body);
        self.bytes.push(CLOSED_GATE);
        self.bytes[gate] = OPEN_GATE;
        self.count += 1;
        Ok(())
    }
}

/// Returns the body with these fields and no words.
fn body_of(kind: u8, player: u8, number: u32, start: u32, count: usize) -> [u8; BODY] {
    let mut body = [0; BODY];
    body[0] = kind;
    body[1] = player;
    body[2..6].copy_from_slice(&number.to_be_bytes());
    body[6..10].copy_from_slice(&start.to_be_bytes());
    body[10..12].copy_from_slice(&(count as u16).to_be_bytes());
    body
}
