//! Plays player 1 of a match of two with a plain Rust peer. It reads what `engine record` wrote (../main.c): a game's text and the
//! datagrams of player 2. Each DATA has one input that differs from the prediction. Player 1 is always a whole window ahead.
//!
//! plain FILE [JOURNAL]: prints the least nanoseconds of a delivery and a tick, and the end of the match. Writes the journal to the
//! file JOURNAL.

mod datagram;
mod journal;
#[path = "../../roll/plain/machine.rs"]
mod machine;
mod peer;
mod roll;
mod rules;
#[path = "../../roll/plain/sha256.rs"]
mod sha256;

use machine::Game;
use peer::{Heard, Peer};
use rules::Rules;
use std::fs;
use std::time::Instant;

const ROOM: u64 = 1;
const ROUNDS: usize = 5;

/// Returns the parts of a file. The length of each part stands before it, in two bytes.
fn parts_of(mut file: &[u8]) -> Vec<&[u8]> {
    let mut parts = Vec::new();
    while let Some((length, rest)) = file.split_first_chunk() {
        let (part, others) = rest.split_at(usize::from(u16::from_be_bytes(*length)));
        parts.push(part);
        file = others;
    }
    parts
}

/// Returns player 1's input in a frame.
fn input(frame: usize) -> u16 {
    (frame as u32 + 1).wrapping_mul(7919) as u16
}

/// What is timed: delivers each DATA, and ticks after it.
#[inline(never)]
fn play_on(peer: &mut Peer, data: &[&[u8]], ahead: usize) {
    for (frame, bytes) in data.iter().enumerate() {
        let heard = peer.deliver(bytes);
        debug_assert_eq!(heard, Ok(Heard::Kept));
        let _ = peer.tick(input(frame + ahead));
    }
}

fn main() {
    let mut args = std::env::args().skip(1);
    let file = fs::read(args.next().expect("no file")).unwrap();
    let parts = parts_of(&file);
    let [text, hello, welcome, data @ ..] = &parts[..] else { panic!("no datagrams") };
    let text = str::from_utf8(text).unwrap();
    let (rules, game) = (Rules::read(text), Game::read(text));
    let journal = args.next();
    let mut least = f64::INFINITY;
    for round in 1..=ROUNDS {
        let mut peer = Peer::open(&rules, &game, ROOM);
        for bytes in [hello, welcome] {
            assert_eq!(peer.deliver(bytes), Ok(Heard::Nothing));
        }
        for frame in 0..rules.window {
            assert_eq!(peer.tick(input(frame)), Ok(()));
        }
        let start = Instant::now();
        play_on(&mut peer, data, rules.window);
        least = least.min(start.elapsed().as_nanos() as f64 / data.len() as f64);
        assert!(!peer.has_alarm() && peer.acked() == peer.confirmed() + rules.window - 1);
        if round == ROUNDS {
            println!("nanos {least:.1}");
            println!("confirmed {}", peer.confirmed());
            println!("mark {:016x}", u64::from_be_bytes(peer.shown().mark()));
            if let Some(path) = &journal {
                fs::write(path, peer.journal()).unwrap();
            }
        }
    }
}
