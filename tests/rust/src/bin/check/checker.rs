//! The plain table and the checkers, tried on histories made by hand.
use dezhavin::ages::oldest;
use dezhavin::linear::{Verdict, explain};
use dezhavin::play::{Ask, Event};
use dezhavin::table::{Answer, Piece, Table};

use super::{Options, Outcome};

const A: u32 = 0x0a01_0203;

pub fn found(len: u8, tells: u32) -> Answer {
    Answer::Found { len, tells }
}

pub fn find(cpu: u32, address: u32) -> Event {
    Event::Asked(cpu, Ask::Find(address))
}

pub fn change(cpu: u32, pieces: &[Piece]) -> Event {
    Event::Asked(cpu, Ask::Change(pieces.len() as u32, pieces.to_vec()))
}

pub fn told(cpu: u32, answer: Answer) -> Event {
    Event::Told(cpu, answer)
}

fn put(tells: u32) -> Piece {
    Piece::put(8, 0x0a00_0000, tells)
}

fn put_longer(tells: u32) -> Piece {
    Piece::put(16, 0x0a01_0000, tells)
}

pub fn table_rules(_: &Options) -> Outcome {
    let none = Table::default();
    let two = none.changed(2, &[put(17), put_longer(18)]).map_err(|n| format!("turned away by {n}"))?;
    let again = two.changed(2, &[Piece::take(16, 0x0a01_0000), put_longer(19)]);
    let ends = none.changed(2, &[Piece::put(0, 0, 1), Piece::put(32, u32::MAX, 2)]).map_err(|n| format!("turned away by {n}"))?;
    let rows = [
        ("no routes", none.find(A) == Answer::Nothing),
        ("the longer", two.find(A) == found(16, 18)),
        ("the shorter", two.find(0x0a02_0203) == found(8, 17)),
        ("none fits", two.find(0x0b00_0000) == Answer::Nothing),
        ("taken and put", again.is_ok_and(|t| t.find(A) == found(16, 19) && t.len() == 2)),
        ("taken that is not there", two.changed(2, &[Piece::put(0, 0, 5), Piece::take(8, 0x0c00_0000)]) == Err(3)),
        ("unclean", two.changed(1, &[Piece::put(8, 0x0a00_0001, 1)]) == Err(2)),
        ("unclean, before absent", two.changed(1, &[Piece::take(33, 0)]) == Err(2)),
        ("absent, before unclean", two.changed(2, &[Piece::take(9, 0), Piece::put(33, 0, 0)]) == Err(3)),
        ("taken twice", two.changed(2, &[Piece::take(8, 0x0a00_0000), Piece::take(8, 0x0a00_0000)]) == Err(3)),
        ("no piece", two.changed(0, &[]) == Err(1)),
        ("nine pieces, though unclean", two.changed(9, &[Piece::put(33, 0, 0); 8]) == Err(1)),
        ("all bits", ends.find(u32::MAX) == found(32, 2)),
        ("no bits", ends.find(u32::MAX - 1) == found(0, 1)),
    ];
    match rows.iter().find(|row| !row.1) {
        Some(row) => Err(row.0.to_string()),
        None => Ok(format!("{} rows", rows.len())),
    }
}

fn verdicts(histories: &[(&str, Vec<Event>)], yes: bool) -> Outcome {
    for (name, events) in histories {
        let verdict = explain(256, events);
        if matches!(verdict, Verdict::Explained(_)) != yes || verdict == Verdict::TooWide {
            return Err(format!("{name}: {verdict:?}"));
        }
    }
    Ok(format!("{} histories", histories.len()))
}

pub fn says_yes(_: &Options) -> Outcome {
    let c = |tells| change(0, &[put(tells)]);
    let d = told(0, Answer::Done);
    let f = find(1, A);
    verdicts(
        &[
            ("nothing at all", vec![]),
            ("found after", vec![c(1), d.clone(), f.clone(), told(1, found(8, 1))]),
            ("found before it is told", vec![c(1), f.clone(), told(1, found(8, 1)), d.clone()]),
            ("not found yet", vec![c(1), f.clone(), told(1, Answer::Nothing), d.clone()]),
            ("the old one while it changes", vec![c(1), d.clone(), f.clone(), c(2), d.clone(), told(1, found(8, 1))]),
            ("of a change that is never told", vec![c(1), f.clone(), told(1, found(8, 1))]),
            ("and not of it", vec![c(1), f.clone(), told(1, Answer::Nothing)]),
            ("two changes in the other order", vec![c(1), change(2, &[put(2)]), d.clone(), told(2, Answer::Done), f.clone(), told(1, found(8, 1))]),
            ("taken before it was told that it is there", vec![c(1), change(2, &[Piece::take(8, 0x0a00_0000)]), told(2, Answer::Done), d.clone()]),
            ("or not", vec![c(1), change(2, &[Piece::take(8, 0x0a00_0000)]), told(2, Answer::No(3)), d]),
        ],
        true,
    )
}

pub fn says_no(_: &Options) -> Outcome {
    let c = |tells| change(0, &[put(tells)]);
    let both = |tells| change(0, &[put(tells), Piece::put(8, 0x0b00_0000, tells)]);
    let d = told(0, Answer::Done);
    let f = find(1, A);
    let other = find(1, 0x0b00_0000);
    verdicts(
        &[
            ("lost", vec![c(1), d.clone(), f.clone(), told(1, Answer::Nothing)]),
            ("out of thin air", vec![f.clone(), told(1, found(8, 1))]),
            ("stale", vec![c(1), d.clone(), c(2), d.clone(), f.clone(), told(1, found(8, 1))]),
            ("before it was asked", vec![f.clone(), told(1, found(8, 1)), c(1), d.clone()]),
            ("back again", vec![c(1), d.clone(), c(2), f.clone(), told(1, found(8, 2)), f.clone(), told(1, found(8, 1)), d.clone()]),
            ("half", vec![both(1), f.clone(), told(1, found(8, 1)), other.clone(), told(1, Answer::Nothing), d.clone()]),
            ("the other half", vec![both(1), other, told(1, found(8, 1)), f.clone(), told(1, Answer::Nothing), d.clone()]),
            ("the shorter one", vec![c(1), d.clone(), change(0, &[put_longer(2)]), d.clone(), f.clone(), told(1, found(8, 1))]),
            ("turned away, yet there", vec![c(1), told(0, Answer::No(3)), f.clone(), told(1, found(8, 1))]),
            ("done, though it takes what is not there", vec![change(0, &[Piece::take(8, 0x0a00_0000)]), d.clone()]),
            ("no 3, though it is there", vec![c(1), d.clone(), change(0, &[Piece::take(8, 0x0a00_0000)]), told(0, Answer::No(3))]),
            ("no 2, though it is clean", vec![c(1), told(0, Answer::No(2))]),
            ("full with room", vec![c(1), told(0, Answer::Full)]),
            (
                "taken twice",
                vec![c(1), d.clone(), change(0, &[Piece::take(8, 0x0a00_0000)]), change(2, &[Piece::take(8, 0x0a00_0000)]), d, told(2, Answer::Done)],
            ),
        ],
        false,
    )
}

pub fn counts_turns(_: &Options) -> Outcome {
    let turned = Event::Turned;
    let c = |cpu| change(cpu, &[put(1)]);
    let alone = oldest(&[c(0), turned(0), turned(0), turned(0)]);
    let behind = oldest(&[c(0), c(1), turned(0), turned(1), turned(1), turned(1)]);
    let after = oldest(&[c(0), c(1), turned(0), turned(1), told(0, Answer::Done), turned(1), turned(1)]);
    let waiting = oldest(&[find(1, A), c(0), turned(0), turned(0), turned(0)]);
    let ever_new = oldest(&[find(1, A), c(0), turned(0), told(1, Answer::Nothing), find(1, A), turned(0), turned(0)]);
    let seen = [alone.change, behind.change, after.change, waiting.change, ever_new.change, waiting.question];
    if seen != [3, 1, 2, 1, 2, 0] {
        return Err(format!("{seen:?}"));
    }
    Ok("5 histories".to_string())
}
