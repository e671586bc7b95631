//! A player that starts again.

use c8play_session::{Event, Journal, Rules, Session};
use std::fs;
use std::path::PathBuf;

const ROOM: u64 = 5;

fn rules() -> String {
    Rules { players: 2, frames: 100, delay: 1, window: 8, id: [3; 32] }.text().unwrap()
}

/// Makes turns of both players.
fn play(one: &mut Session, two: &mut Session, turns: u32) {
    for _ in 0..turns {
        for seat in [1, 2] {
            let session = if seat == 1 { &mut *one } else { &mut *two };
            let _ = session.tick(seat);
            session.turn().unwrap();
            let packets: Vec<_> = session.packets().collect();
            for packet in packets {
                let _ = if packet.to() == 1 { one.deliver(&packet) } else { two.deliver(&packet) };
            }
        }
    }
}

#[test]
fn the_other_is_told_once() {
    let folder = PathBuf::from(env!("CARGO_TARGET_TMPDIR")).join("restarts");
    let _ = fs::remove_dir_all(&folder);
    fs::create_dir_all(&folder).unwrap();
    let mut one = Session::open(rules(), 1, ROOM, 0).unwrap();
    for opening in 0..3 {
        let journal = Journal::open(folder.join("journal")).unwrap();
        let mut two = Session::open_journal(rules(), 2, ROOM, 0, journal).unwrap();
        play(&mut one, &mut two, 5);
        let told: Vec<_> = std::iter::from_fn(|| one.event()).collect();
        let again = [Event::Restarted(2), Event::Linked(2)];
        assert_eq!(told, if opening == 0 { &again[1..] } else { &again[..] });
    }
    let _ = fs::remove_dir_all(&folder);
}
