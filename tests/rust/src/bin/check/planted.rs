//! Wrong answers planted into histories that were played: the checker must refuse every one.
use dezhavin::linear::{Verdict, explain};
use dezhavin::play::{Ask, Event, Moves, Pool};
use dezhavin::random::Random;
use dezhavin::table::{Answer, Piece};

use super::{Options, Outcome};

const KEYS: [(u8, u32); 4] = [(8, 0x0a00_0000), (8, 0x0b00_0000), (12, 0x0a10_0000), (32, 0x0b00_0001)];
const BLOCKS: u32 = 2000;

/// All keys are put again and again in one change, each time with the next number; three processors ask all the time.
fn history(seed: u64) -> Result<Vec<Event>, String> {
    let mut random = Random::new(seed);
    let mut moves = Moves::new();
    for version in 1..12 {
        let pieces = KEYS.map(|(len, bits)| Piece::put(len, bits, version));
        moves.change(0, &pieces);
        for _ in 0..60 {
            let cpu = 1 + random.below(3) as u32;
            moves.find(cpu, random.pick(&KEYS).1);
            moves.go(random.below(4) as u32, random.scale(5));
            moves.go(0, random.scale(7));
            moves.arrive(0, random.scale(4));
        }
        moves.go(0, 5000);
    }
    let mut pool = Pool::new(4, BLOCKS, 64, 1_000_000, 100_000);
    let played = pool.play(&moves).map_err(|e| format!("{e:?}"))?;
    let events = pool.events_without_turns(&played);
    match explain(BLOCKS, &events) {
        Verdict::Explained(_) => Ok(events),
        verdict => Err(format!("as it was played: {verdict:?}")),
    }
}

/// The latest version that was told done before an event.
fn version_before(events: &[Event], at: usize) -> u32 {
    events[..at].iter().filter(|e| matches!(e, Event::Told(0, Answer::Done))).count() as u32
}

/// The questions that were told: where each was asked, where it was told, and its address.
fn questions(events: &[Event]) -> Vec<(usize, usize, u32)> {
    let mut asked = [None; 16];
    let mut told = Vec::new();
    for (i, event) in events.iter().enumerate() {
        match event {
            Event::Asked(cpu, Ask::Find(address)) => asked[*cpu as usize] = Some((i, *address)),
            Event::Told(cpu, _) => {
                if let Some((from, address)) = asked[*cpu as usize].take() {
                    told.push((from, i, address));
                }
            }
            _ => {}
        }
    }
    told
}

fn cpu_of(event: &Event) -> u32 {
    match event {
        Event::Asked(cpu, _) | Event::Told(cpu, _) | Event::Turned(cpu) => *cpu,
    }
}

fn len_of(address: u32) -> u8 {
    KEYS.iter().filter(|k| k.1 == address).map(|k| k.0).max().expect("a key's address")
}

/// Plants by the given function as often as it finds a place; each history must be refused.
fn plant(options: &Options, change: impl Fn(&[Event], &mut Random) -> Option<Vec<Event>>) -> Outcome {
    let mut refused = 0;
    for i in 0..20 {
        let events = history(options.seed * 1000 + i)?;
        let mut random = Random::new(i);
        for _ in 0..20 {
            let Some(planted) = change(&events, &mut random) else {
                continue;
            };
            match explain(BLOCKS, &planted) {
                Verdict::Refused(_) => refused += 1,
                verdict => return Err(format!("history {i}: {verdict:?}")),
            }
        }
    }
    if refused < 100 {
        return Err(format!("only {refused} places to plant"));
    }
    Ok(format!("{refused} of {refused} refused"))
}

/// An answer of a version before the one that was told done before it was asked.
pub fn stale_answers(options: &Options) -> Outcome {
    plant(options, |events, random| {
        let (from, to, address) = random.pick(&questions(events));
        let version = version_before(events, from);
        if version < 2 {
            return None;
        }
        let tells = 1 + random.below(u64::from(version) - 1) as u32;
        let mut planted = events.to_vec();
        planted[to] = Event::Told(cpu_of(&events[to]), Answer::Found { len: len_of(address), tells });
        Some(planted)
    })
}

/// While a change is under way, one question sees it, and a later one of another key does not.
pub fn half_changes(options: &Options) -> Outcome {
    plant(options, |events, random| {
        let asked = questions(events);
        let (_, first_end, first) = random.pick(&asked);
        let version = version_before(events, first_end);
        let later = asked.iter().find(|q| q.0 > first_end && q.2 != first && version_before(events, q.1) == version)?;
        if version < 1 || !events[..first_end].contains(&newest(version + 1)) {
            return None;
        }
        let mut planted = events.to_vec();
        planted[first_end] = Event::Told(cpu_of(&events[first_end]), Answer::Found { len: len_of(first), tells: version + 1 });
        planted[later.1] = Event::Told(cpu_of(&events[later.1]), Answer::Found { len: len_of(later.2), tells: version });
        Some(planted)
    })
}

fn newest(version: u32) -> Event {
    Event::Asked(0, Ask::Change(4, KEYS.map(|(len, bits)| Piece::put(len, bits, version)).to_vec()))
}

/// Nothing is told for a key that was put in before and never taken out.
pub fn lost_routes(options: &Options) -> Outcome {
    plant(options, |events, random| {
        let (from, to, _) = random.pick(&questions(events));
        if version_before(events, from) < 1 {
            return None;
        }
        let mut planted = events.to_vec();
        planted[to] = Event::Told(cpu_of(&events[to]), Answer::Nothing);
        Some(planted)
    })
}

/// A change at the end is told full, though the pool has room for it by the rule.
pub fn full_with_room(options: &Options) -> Outcome {
    plant(options, |events, _| {
        let mut planted = events.to_vec();
        planted.push(newest(99));
        planted.push(Event::Told(0, Answer::Full));
        Some(planted)
    })
}

/// A change is told done though it must be turned away, or turned away though it must be done.
pub fn wrong_changes(options: &Options) -> Outcome {
    plant(options, |events, random| {
        let mut planted = events.to_vec();
        let (piece, answer) = random.pick(&[
            (Piece::take(9, 0), Answer::Done),
            (Piece::take(8, 0x0a00_0000), Answer::No(3)),
            (Piece::put(8, 1, 1), Answer::Done),
            (Piece::put(8, 1, 1), Answer::No(3)),
            (Piece::put(8, 0, 1), Answer::No(2)),
        ]);
        planted.push(Event::Asked(0, Ask::Change(1, vec![piece])));
        planted.push(Event::Told(0, answer));
        Some(planted)
    })
}
