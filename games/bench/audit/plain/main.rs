//! A plain Rust audit of the journals of a match, to compare with `c8play audit`. It prints and refuses the same, but it refuses
//! journals with checkpoints.
//!
//! plain once GAME JOURNAL..: reads each file once.
//! plain twice GAME JOURNAL..: reads all files and then all once more, as `c8play audit` does.

mod known;
#[path = "../../roll/plain/machine.rs"]
#[allow(dead_code)]
mod machine;
#[path = "../../engine/plain/rules.rs"]
#[allow(dead_code)]
mod rules;
#[path = "../../roll/plain/sha256.rs"]
mod sha256;

use known::{Head, Known, slots};
use machine::Machine;
use rules::Rules;
use std::fs;
use std::process::exit;

/// A player's journal.
struct Journal {
    room: u64,
    records: usize,
    epochs: usize,
    /// What the first reading makes known, and the second one if there is one.
    first: Known,
    later: Option<Known>,
}

impl Journal {
    /// Returns what the last reading makes known.
    fn later(&self) -> &Known {
        self.later.as_ref().unwrap_or(&self.first)
    }
}

/// By place, player 1's at place 0.
type Journals = [Option<Journal>; 4];

/// A frame, and the places of two players.
type Fault = (usize, usize, usize);

fn refuse(words: &str) -> ! {
    eprintln!("refused: {words}");
    exit(1)
}

fn read_files(paths: &[String]) -> Vec<Vec<u8>> {
    paths.iter().map(|path| fs::read(path).unwrap_or_else(|_| refuse("disk 1 Failed"))).collect()
}

/// Reads a journal of the game. Returns `None` if it has no record.
fn read_journal(rules: &Rules, id: &[u8; 32], image: &[u8]) -> Option<Journal> {
    let mut bodies = slots(image);
    let Some(head) = Head::read(bodies.next()?) else { refuse("open 3 BadRecord") };
    if head.id != *id {
        refuse("open 1 WrongGame");
    }
    if head.player > rules.players {
        refuse("open 3 BadRecord");
    }
    let mut known = Known::new(rules, &head);
    let mut records = 1;
    for body in bodies {
        if !known.take(rules, body) {
            refuse("open 3 BadRecord");
        }
        records += 1;
    }
    Some(Journal { room: head.room, records, epochs: known.openings(), first: known, later: None })
}

/// Returns whether the records of the second reading begin with those of the first.
fn goes_on(first: &[u8], later: &[u8]) -> bool {
    let mut bodies = slots(later);
    slots(first).all(|body| bodies.next() == Some(body))
}

/// Returns the journals in files, and the number of files without a record. `laters` has the second readings, if there are any.
fn gather(rules: &Rules, firsts: &[Vec<u8>], laters: &[Vec<u8>]) -> (Journals, usize) {
    let (id, mut journals, mut empty, mut is_mixed, mut room) = (rules.id(), Journals::default(), 0, false, None);
    for (place, first) in firsts.iter().enumerate() {
        let Some(mut journal) = read_journal(rules, &id, first) else {
            empty += 1;
            continue;
        };
        if let Some(later) = laters.get(place) {
            if !goes_on(first, later) {
                refuse("disk 1 Failed");
            }
            journal.later = read_journal(rules, &id, later).map(|again| again.first);
        }
        is_mixed |= room.is_some_and(|other| other != journal.room);
        room = Some(journal.room);
        let taken = &mut journals[journal.first.me()];
        is_mixed |= taken.is_some();
        taken.get_or_insert(journal);
    }
    if is_mixed || journals[0].is_none() {
        refuse("audit 4 Journals");
    }
    (journals, empty)
}

/// Returns the first confirmed frame of `by` whose input player q did not enter. After the cut an empty input is right too.
fn first_never(by: &Known, own: &Known, q: usize, cut: Option<usize>) -> Option<usize> {
    let held = own.inputs(q);
    (0..by.confirmed()).find(|&frame| {
        let input = by.input(q, frame);
        held.get(frame) != Some(&input) && !(input == 0 && cut.is_some_and(|length| length <= frame))
    })
}

fn first_different(one: &Known, other: &Known) -> Option<usize> {
    (0..one.confirmed().min(other.confirmed())).find(|&frame| one.row(frame) != other.row(frame))
}

/// Returns the least fault of all pairs of journals, ordered by frame, then by the places.
fn least(journals: &Journals, first: impl Fn(usize, &Journal, usize, &Journal) -> Option<usize>) -> Option<Fault> {
    let given = || journals.iter().enumerate().filter_map(|(place, journal)| Some((place, journal.as_ref()?)));
    given()
        .flat_map(|one| given().map(move |other| (one, other)))
        .filter_map(|((p, a), (q, b))| Some((first(p, a, q, b)?, p, q)))
        .min()
}

fn main() {
    let args: Vec<String> = std::env::args().skip(1).collect();
    let [how, game, paths @ ..] = &args[..] else { panic!("usage: plain once|twice GAME JOURNAL..") };
    let text = fs::read_to_string(game).unwrap_or_else(|_| refuse("disk 1 Failed"));
    let firsts = read_files(paths);
    let rules = Rules::read(&text);
    let laters = if how == "twice" { read_files(paths) } else { Vec::new() };
    let (journals, empty) = gather(&rules, &firsts, &laters);
    let one = journals[0].as_ref().unwrap();
    let is_dropped = |place: usize| one.later().is_leaving(place);
    let cut = |place: usize| one.later().cut(place);
    // The files come in the order of their players. Short answers are left out: the journals that are measured agree.
    for (place, journal) in journals.iter().enumerate().take(usize::from(rules.players)) {
        if let Some(Journal { records, epochs, first, .. }) = journal {
            let (ticks, confirmed, file) = (first.ticks(), first.confirmed(), &paths[place]);
            println!("player {} records {records} epochs {epochs} now {ticks} confirmed {confirmed} file {file}", place + 1);
        } else {
            println!("unchecked {}", place + 1);
        }
    }
    if empty > 0 {
        println!("empty {empty}");
    }
    for place in (0..usize::from(rules.players)).filter(|&place| is_dropped(place)) {
        match cut(place) {
            Some(length) => println!("dropped {} at {length}", place + 1),
            None => println!("dropped {}", place + 1),
        }
    }
    let unentered = least(&journals, |q, own, _, by| first_never(&by.first, own.later(), q, cut(q)));
    let difference = least(&journals, |p, a, q, b| {
        let are_judged = p < q && !is_dropped(p) && !is_dropped(q);
        if are_judged { first_different(&a.first, &b.first) } else { None }
    });
    let stayers = journals.iter().enumerate().filter(|(place, _)| !is_dropped(*place));
    let count = stayers.filter_map(|(_, journal)| Some(journal.as_ref()?.first.confirmed())).min().unwrap();
    match unentered {
        Some((frame, q, p)) => println!("entered no {} {frame} {}", q + 1, p + 1),
        None => println!("entered yes"),
    }
    println!("checks yes");
    match difference {
        Some((frame, p, q)) => println!("agree no {frame} {} {}", p + 1, q + 1),
        None => println!("agree yes {count}"),
    }
    if unentered.is_some() {
        refuse("audit 1 Entered");
    }
    if difference.is_some() {
        refuse("audit 3 Disagree");
    }
    let game = machine::Game::read(&text);
    let mut machine = Machine::start(&game);
    for frame in 0..count {
        let keys = one.first.row(frame).iter().zip(rules.masks).fold(0, |keys, (set, mask)| keys | set & mask);
        machine.frame(&game, keys);
    }
    let digest: String = machine.digest().iter().map(|byte| format!("{byte:02x}")).collect();
    println!("result {count} {digest}");
    println!("the journals agree");
}
