//! The same reading in plain Rust: one pass that checks the table of refusals, and an iterator over the run.
use std::hint::black_box;
use std::time::Instant;

#[derive(Debug)]
enum Refusal {
    Short,
    Magic,
    Version,
    Kind,
    Length,
    Player,
    Reserved,
    Count,
    Pairs,
    Beyond,
}

const MOST: u32 = 262_148;

fn u16_at(bytes: &[u8], at: usize) -> u16 {
    u16::from_be_bytes([bytes[at], bytes[at + 1]])
}

fn u32_at(bytes: &[u8], at: usize) -> u32 {
    u32::from_be_bytes([bytes[at], bytes[at + 1], bytes[at + 2], bytes[at + 3]])
}

/// The kind of a datagram, the version and the bytes of its run.
fn view(bytes: &[u8]) -> Result<(u8, u8, &[u8]), Refusal> {
    if bytes.len() < 24 {
        return Err(Refusal::Short);
    }
    if bytes[..2] != [0x43, 0x38] {
        return Err(Refusal::Magic);
    }
    let version = bytes[2];
    if version != 1 && version != 2 {
        return Err(Refusal::Version);
    }
    let kind = bytes[3];
    let (fixed, has_run, names_leaver) = match kind {
        1 => (0, false, false),
        2 => (4, false, false),
        3 => (22, true, false),
        4 => (6, false, true),
        5 | 6 => (12, true, true),
        _ => return Err(Refusal::Kind),
    };
    let size = usize::from(u16_at(bytes, 14));
    if bytes.len() - 24 != size || size < fixed || (!has_run && size != fixed) {
        return Err(Refusal::Length);
    }
    let (from, to) = (bytes[12], bytes[13]);
    if !(1..=4).contains(&from) || !(1..=4).contains(&to) || from == to {
        return Err(Refusal::Player);
    }
    if names_leaver && !(2..=4).contains(&bytes[24]) {
        return Err(Refusal::Player);
    }
    if names_leaver && bytes[25] != 0 {
        return Err(Refusal::Reserved);
    }
    let (body, run) = bytes[24..].split_at(fixed);
    let mut end = 0;
    if has_run {
        let count = usize::from(u16_at(body, fixed - 2));
        if count > 64 {
            return Err(Refusal::Count);
        }
        if version == 1 {
            if run.len() != 2 * count {
                return Err(Refusal::Count);
            }
        } else {
            if run.len() % 3 != 0 || run.len() > 126 {
                return Err(Refusal::Count);
            }
            let (mut sum, mut last) = (0, None);
            for pair in run.chunks_exact(3) {
                let keys = u16_at(pair, 1);
                if pair[0] == 0 || last == Some(keys) {
                    return Err(Refusal::Pairs);
                }
                sum += usize::from(pair[0]);
                last = Some(keys);
            }
            if sum != count {
                return Err(Refusal::Pairs);
            }
        }
        end = u64::from(u32_at(body, fixed - 6)) + count as u64;
    }
    let beyond = match kind {
        2 => u32_at(body, 0) > MOST,
        3 => u32_at(body, 0) > MOST || u32_at(body, 4) > MOST || end > u64::from(MOST),
        4 => u32_at(body, 2) > MOST,
        5 | 6 => u32_at(body, 2) > MOST || end > u64::from(u32_at(body, 2)),
        _ => false,
    };
    if beyond {
        return Err(Refusal::Beyond);
    }
    Ok((kind, version, run))
}

/// The inputs of a run in pairs.
struct Pairs<'a> {
    rest: &'a [u8],
    times: u8,
    keys: u16,
}

impl Iterator for Pairs<'_> {
    type Item = u16;

    fn next(&mut self) -> Option<u16> {
        if self.times == 0 {
            let [first, high, low, others @ ..] = self.rest else {
                return None;
            };
            self.times = *first;
            self.keys = u16::from_be_bytes([*high, *low]);
            self.rest = others;
        }
        self.times -= 1;
        Some(self.keys)
    }
}

fn sum_over(inputs: impl Iterator<Item = u16>) -> u64 {
    let mut sum = 0u64;
    for input in inputs {
        sum = sum.wrapping_add(u64::from(input));
    }
    sum
}

#[inline(never)]
fn sum_of(bytes: &[u8]) -> u64 {
    match view(bytes) {
        Ok((3, 1, run)) => sum_over(run.chunks_exact(2).map(|word| u16_at(word, 0))),
        Ok((3, 2, run)) => sum_over(Pairs { rest: run, times: 0, keys: 0 }),
        _ => 0,
    }
}

fn main() {
    let args: Vec<String> = std::env::args().collect();
    let digits = args[1].as_bytes();
    let digit = |d: u8| (d as char).to_digit(16).expect("no digits") as u8;
    let bytes: Vec<u8> = digits.chunks(2).map(|d| 16 * digit(d[0]) + digit(d[1])).collect();
    let times: u64 = args[2].parse().expect("no count");
    let start = Instant::now();
    let mut sum = 0u64;
    for _ in 0..times {
        sum = sum.wrapping_add(sum_of(black_box(&bytes)));
    }
    println!("sum {sum}\nnanos {}", start.elapsed().as_nanos());
}
