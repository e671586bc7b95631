//! A watcher.

use c8play_session::{Heard, Refusal, Rules, Session, Steps};

const FRAMES: u32 = 100;
const ROOM: u64 = 5;
const SECRET: [u8; 32] = [1; 32];
const WATCHERS: [u8; 32] = [2; 32];

fn rules() -> String {
    Rules { players: 2, frames: FRAMES, delay: 1, window: 8, id: [3; 32] }.text().unwrap()
}

/// Makes turns of the sessions in these seats. What is for others is lost.
fn play(sessions: &mut [(u8, &mut Session)], turns: u32) {
    for _ in 0..turns {
        for place in 0..sessions.len() {
            let (seat, session) = &mut sessions[place];
            let _ = session.tick(u16::from(*seat));
            session.turn().unwrap();
            let packets: Vec<_> = session.packets().collect();
            for packet in packets {
                if let Some((_, session)) = sessions.iter_mut().find(|(seat, _)| *seat == packet.to()) {
                    let _ = session.deliver(&packet);
                }
            }
        }
    }
}

/// The rows that a session gives now.
fn rows(session: &mut Session) -> Vec<(u32, [u16; 4])> {
    let mut rows = vec![];
    session.run(&mut Steps::new(3), |frame, row| rows.push((frame, row)));
    rows
}

#[test]
fn a_watcher_has_each_row_once() {
    let (mut one, mut two) = (Session::open(rules(), 1, ROOM, 0).unwrap(), Session::open(rules(), 2, ROOM, 0).unwrap());
    let mut watcher = Session::watch(rules(), 6, ROOM, 1000).unwrap();
    one.secret(&SECRET, Some(&WATCHERS)).unwrap();
    two.secret(&SECRET, None).unwrap();
    assert_eq!(watcher.secret(&WATCHERS, Some(&SECRET)), Err(Refusal::BadSecret));
    watcher.secret(&WATCHERS, None).unwrap();
    assert_eq!(watcher.secret(&WATCHERS, None), Err(Refusal::SealedAlready));
    one.show_to(6).unwrap();
    let mut shown = vec![];
    for _ in 0..300 {
        play(&mut [(1, &mut one), (2, &mut two), (6, &mut watcher)], 1);
        shown.extend(rows(&mut watcher));
        assert_eq!((watcher.ticked(), watcher.confirmed()), (shown.len() as u32, shown.len() as u32));
    }
    assert!(watcher.is_over() && !watcher.is_lost());
    assert_eq!(watcher.sender().map(|sender| sender.seat), Some(1));
    assert_eq!(shown, rows(&mut one));
    assert_eq!((watcher.state(), watcher.mark(), watcher.tone()), (one.state(), one.mark(), one.tone()));
    assert_eq!((watcher.epoch(), watcher.wait(), watcher.event()), (0, 0, None));
}

#[test]
fn a_watcher_plays_nothing() {
    let mut watcher = Session::watch(rules(), 5, ROOM, 0).unwrap();
    assert_eq!(watcher.tick(1), Err(Refusal::Watcher));
    assert_eq!(watcher.leave(2), Err(Refusal::Watcher));
    assert_eq!(watcher.decide(2), Err(Refusal::Watcher));
    assert_eq!(watcher.checkpoint(), Err(Refusal::Watcher));
    assert_eq!(watcher.show_to(5), Err(Refusal::Watcher));
    assert_eq!(watcher.player(1), Err(Refusal::Watcher));
    assert!(!watcher.is_over());
    for seat in [0, 1, 4, 7] {
        assert_eq!(Session::watch(rules(), seat, ROOM, 0).err(), Some(Refusal::NoPlayer));
    }
    assert_eq!(Session::watch("players 2\n", 5, ROOM, 0).err(), Some(Refusal::GameMissing));
}

#[test]
fn what_a_watcher_refuses() {
    let mut one = Session::open(rules(), 1, ROOM, 0).unwrap();
    let mut two = Session::open(rules(), 2, ROOM, 0).unwrap();
    one.show_to(5).unwrap();
    one.show_to(6).unwrap();
    play(&mut [(1, &mut one), (2, &mut two)], 5);
    let show = |one: &mut Session, seat| {
        one.turn().unwrap();
        let packets: Vec<_> = one.packets().collect();
        packets.into_iter().find(|packet| packet.to() == seat).unwrap()
    };
    let (for_five, for_six) = (show(&mut one, 5), show(&mut one, 6));
    let mut watcher = Session::watch(rules(), 5, ROOM, 0).unwrap();
    assert_eq!(watcher.deliver(&for_six), Err(Refusal::ShownNotMine));
    assert_eq!(watcher.deliver(&for_five[..20]), Err(Refusal::WireShort));
    assert_eq!(Session::watch(rules(), 5, ROOM + 1, 0).unwrap().deliver(&for_five), Err(Refusal::ShownSession));
    assert_eq!(watcher.deliver(&for_five), Ok(Heard::Kept));
    assert_eq!(watcher.deliver(&for_five), Ok(Heard::Nothing));
    let mut other = for_five.to_vec();
    *other.last_mut().unwrap() ^= 1;
    assert_eq!(watcher.deliver(&other), Err(Refusal::ShownAbsent));
    let place = other.len() - 8;
    other = for_five.to_vec();
    other[place] ^= 1;
    assert_eq!(watcher.deliver(&other), Err(Refusal::ShownDiffers));
    watcher.turn().unwrap();
    let seen: Vec<_> = watcher.packets().collect();
    assert_eq!(seen.iter().map(|packet| (packet.to(), packet.len())).collect::<Vec<_>>(), [(1, 28)]);
    assert_eq!(one.deliver(&seen[0]), Ok(Heard::Nothing));
    play(&mut [(1, &mut one), (2, &mut two)], 5);
    let later = show(&mut one, 5);
    assert_eq!(Session::watch(rules(), 5, ROOM, 0).unwrap().deliver(&later), Err(Refusal::ShownGap));
    assert_eq!(watcher.deliver(&later), Ok(Heard::Kept));
}
