//! Reads datagrams (docs/FORMATS.md) in place.

/// Why bytes are no datagram.
#[derive(Clone, Copy, Debug, PartialEq)]
pub enum Fault {
    Short,
    Magic,
    Version,
    Kind,
    Length,
    Player,
    Reserved,
    Count,
    Pairs,
    Beyond,
}

const HEADER: usize = 24;
const LONGEST_RUN: usize = 64;
const LONGEST_PAIRS: usize = 126;
const MOST_ROWS: usize = 16;
const ROW: usize = 8;
const MOST_FRAMES: u32 = 262_144;
const MOST_INPUTS: u32 = 262_148;

pub struct Header {
    pub version: u8,
    pub session: u64,
    pub from: u8,
    pub to: u8,
    pub sender_epoch: u32,
    pub addressee_epoch: u32,
}

pub struct Data<'a> {
    pub ack: u32,
    pub mark_frame: u32,
    pub mark: [u8; 8],
    pub start: u32,
    pub run: Run<'a>,
}

pub enum Message<'a> {
    Hello,
    Welcome { ack: u32 },
    Data(Data<'a>),
    Freeze,
    Frozen,
    Cut,
    Show,
    Seen { ack: u32 },
}

/// Inputs as a datagram spells them.
#[derive(Clone, Copy)]
pub struct Run<'a> {
    bytes: &'a [u8],
    count: usize,
    has_pairs: bool,
}

impl<'a> Run<'a> {
    pub fn len(&self) -> usize {
        self.count
    }

    pub fn inputs(&self) -> Inputs<'a> {
        if self.has_pairs { Inputs::Pairs { rest: self.bytes, times: 0, keys: 0 } } else { Inputs::Words(self.bytes) }
    }
}

#[derive(Clone)]
pub enum Inputs<'a> {
    Words(&'a [u8]),
    Pairs { rest: &'a [u8], times: u8, keys: u16 },
}

impl Iterator for Inputs<'_> {
    type Item = u16;

    fn next(&mut self) -> Option<u16> {
        match self {
            Inputs::Words(words) => {
                let (word, others) = words.split_first_chunk()?;
                *words = others;
                Some(u16::from_be_bytes(*word))
            }
            Inputs::Pairs { rest, times, keys } => {
                if *times == 0 {
                    let [first, high, low, others @ ..] = rest else { return None };
                    (*times, *keys, *rest) = (*first, u16::from_be_bytes([*high, *low]), others);
                }
                *times -= 1;
                Some(*keys)
            }
        }
    }
}

fn u16_at(bytes: &[u8], at: usize) -> usize {
    usize::from(u16::from_be_bytes([bytes[at], bytes[at + 1]]))
}

fn u32_at(bytes: &[u8], at: usize) -> u32 {
    u32::from_be_bytes([bytes[at], bytes[at + 1], bytes[at + 2], bytes[at + 3]])
}

fn u64_at(bytes: &[u8], at: usize) -> u64 {
    u64::from(u32_at(bytes, at)) << 32 | u64::from(u32_at(bytes, at + 4))
}

/// Reads a datagram. The error is the first fault of the bytes.
pub fn read(bytes: &[u8]) -> Result<(Header, Message<'_>), Fault> {
    let Some((head, body)) = bytes.split_first_chunk::<HEADER>() else { return Err(Fault::Short) };
    if head[..2] != [0x43, 0x38] {
        return Err(Fault::Magic);
    }
    let (version, kind) = (head[2], head[3]);
    if version != 1 && version != 2 {
        return Err(Fault::Version);
    }
    // the length of the body's fixed part, and whether more may follow
    let (fixed, has_more) = match kind {
        1 => (0, false),
        2 | 8 => (4, false),
        3 => (22, true),
        4 => (6, false),
        5 | 6 => (12, true),
        7 => (6, true),
        _ => return Err(Fault::Kind),
    };
    if body.len() != u16_at(head, 14) || body.len() < fixed || (!has_more && body.len() != fixed) {
        return Err(Fault::Length);
    }
    let (from, to) = (head[12], head[13]);
    let are_seats = match kind {
        7 => from == 1 && (5..=6).contains(&to),
        8 => (5..=6).contains(&from) && to == 1,
        _ => (1..=4).contains(&from) && (1..=4).contains(&to) && from != to,
    };
    let has_leaver = (4..=6).contains(&kind);
    if !are_seats || (has_leaver && !(2..=4).contains(&body[0])) {
        return Err(Fault::Player);
    }
    if has_leaver && body[1] != 0 {
        return Err(Fault::Reserved);
    }
    let (fields, rest) = body.split_at(fixed);
    let header = Header {
        version,
        session: u64_at(head, 4),
        from,
        to,
        sender_epoch: u32_at(head, 16),
        addressee_epoch: u32_at(head, 20),
    };
    Ok((header, message_of(kind, version, fields, rest)?))
}

/// Reads a body that has its fixed part.
fn message_of<'a>(kind: u8, version: u8, fields: &[u8], rest: &'a [u8]) -> Result<Message<'a>, Fault> {
    let within = |number: u32, bound: u32| if number > bound { Err(Fault::Beyond) } else { Ok(number) };
    match kind {
        1 => Ok(Message::Hello),
        2 => Ok(Message::Welcome { ack: within(u32_at(fields, 0), MOST_INPUTS)? }),
        3 => {
            let run = run_of(version, u16_at(fields, 20), rest)?;
            let start = u32_at(fields, 16);
            let ack = within(u32_at(fields, 0), MOST_INPUTS)?;
            let mark_frame = within(u32_at(fields, 4), MOST_INPUTS)?;
            within(start.saturating_add(run.count as u32), MOST_INPUTS)?;
            let mark = u64_at(fields, 8).to_be_bytes();
            Ok(Message::Data(Data { ack, mark_frame, mark, start, run }))
        }
        4 => within(u32_at(fields, 2), MOST_INPUTS).map(|_| Message::Freeze),
        5 | 6 => {
            let run = run_of(version, u16_at(fields, 10), rest)?;
            let length = within(u32_at(fields, 2), MOST_INPUTS)?;
            within(u32_at(fields, 6).saturating_add(run.count as u32), length)?;
            Ok(if kind == 5 { Message::Frozen } else { Message::Cut })
        }
        7 => {
            let count = u16_at(fields, 4);
            if count > MOST_ROWS || rest.len() != ROW * count {
                return Err(Fault::Count);
            }
            within(u32_at(fields, 0).saturating_add(count as u32), MOST_FRAMES).map(|_| Message::Show)
        }
        _ => Ok(Message::Seen { ack: within(u32_at(fields, 0), MOST_FRAMES)? }),
    }
}

fn run_of(version: u8, count: usize, bytes: &[u8]) -> Result<Run<'_>, Fault> {
    let has_pairs = version == 2;
    let is_long = if has_pairs { bytes.len() % 3 != 0 || bytes.len() > LONGEST_PAIRS } else { bytes.len() != 2 * count };
    if count > LONGEST_RUN || is_long {
        return Err(Fault::Count);
    }
    if has_pairs {
        let (mut sum, mut last) = (0, None);
        for pair in bytes.chunks_exact(3) {
            let keys = u16_at(pair, 1);
            if pair[0] == 0 || last == Some(keys) {
                return Err(Fault::Pairs);
            }
            sum += usize::from(pair[0]);
            last = Some(keys);
        }
        if sum != count {
            return Err(Fault::Pairs);
        }
    }
    Ok(Run { bytes, count, has_pairs })
}
