//! Damaged calls: each is refused by its number, and nothing is touched.
use dezhavin::ffi::{self, ActWords, OWN_WORDS, PIECE_WORDS, Played, REGISTERS, Refused, ToldWords};
use dezhavin::play::{Moves, Pool};
use dezhavin::random::Random;
use dezhavin::table::Piece;
use dezhavin::tso::{answer_of, piece_words};

use super::{Options, Outcome};

type Damage = (&'static str, u32, fn(&mut Pool, &mut Vec<u64>));

const DAMAGED_PLAYS: [Damage; 21] = [
    ("no processor", 1, |p, _| p.cpus = 0),
    ("17 processors", 1, |p, _| p.cpus = 17),
    ("255 blocks", 2, |p, _| p.blocks = 255),
    ("1,048,577 blocks", 2, |p, _| p.blocks = 1_048_577),
    ("a word less", 3, |p, _| p.words.truncate(p.words.len() - 1)),
    ("a word more", 3, |p, _| p.words.push(7)),
    ("a mark less", 4, |p, _| p.held.truncate(p.held.len() - 1)),
    ("a mark more", 4, |p, _| p.held.push(true)),
    ("a free place less", 5, |p, _| p.free.truncate(p.free.len() - 1)),
    ("a free place more", 5, |p, _| p.free.push(7)),
    ("no late places", 6, |p, _| p.late.clear()),
    ("late places that are no multiple of 16", 6, |p, _| p.late.truncate(p.late.len() - 1)),
    ("an own word less", 7, |p, _| p.own.truncate(p.own.len() - 1)),
    ("own words of another processor", 7, |p, _| p.own.extend([0; OWN_WORDS])),
    ("a move of kind 4", 8, |_, m| m.push(4)),
    ("a move of kind 15", 8, |_, m| m.push(15)),
    ("a move of processor 3", 8, |_, m| m.push(16 * 3)),
    ("an address of 33 bits", 8, |_, m| m.push(2 + 256 * (1 << 32))),
    ("a change cut short", 8, |_, m| m.extend([3 + 256 * 2, 1, 0, 1])),
    ("a change without pieces behind it", 8, |_, m| m.push(3 + 256 * 9)),
    ("a length of 9 bits", 8, |_, m| m.extend([3 + 256, 2 * 256, 0])),
];

fn play_refused(damage: &Damage, random: &mut Random) -> Result<(), String> {
    let mut pool = Pool::new(3, 256, 4, 1000, 1000);
    pool.fill(random);
    let mut moves = Moves::new();
    moves.change(0, &[Piece::put(8, 0, 1)]);
    moves.go(0, 1000);
    let mut words = moves.words().to_vec();
    (damage.2)(&mut pool, &mut words);
    let before = (pool.words.clone(), pool.held.clone(), pool.free.clone(), pool.late.clone(), pool.own.clone(), pool.kinds.clone(), pool.notes.clone());
    let (cpus, blocks) = (pool.cpus, pool.blocks);
    let marked = Played { moves: 1, turns: 2, events: 3, notes: 4, passed: 5, held: 6, spare: 7 };
    let mut played = marked;
    let result = ffi::play(cpus, blocks, &mut pool.lent(), &words, &mut played);
    let after = (pool.words, pool.held, pool.free, pool.late, pool.own, pool.kinds, pool.notes);
    if result != Err(Refused(damage.1)) {
        return Err(format!("{}: {result:?}, not {}", damage.0, damage.1));
    }
    if before != after || played != marked {
        return Err(format!("{}: something was touched", damage.0));
    }
    Ok(())
}

pub fn play(options: &Options) -> Outcome {
    let mut random = Random::new(options.seed);
    for damage in &DAMAGED_PLAYS {
        play_refused(damage, &mut random)?;
    }
    Ok(format!("{} calls, numbers 1 to 8, nothing touched", DAMAGED_PLAYS.len()))
}

/// A journal that fills up ends the play, and what it has is the beginning of the whole.
pub fn journal_full(options: &Options) -> Outcome {
    let mut random = Random::new(options.seed);
    let mut moves = Moves::new();
    for i in 0..10 {
        moves.change(i % 3, &[Piece::put(8, i << 24, i), Piece::put(4, 0, i)]);
        moves.go(i % 3, 1000);
        moves.find(i % 3, random.word());
        moves.go(i % 3, 13);
    }
    let mut whole = Pool::new(3, 256, 4, 100_000, 1000);
    let all = whole.play(&moves).map_err(|e| format!("{e:?}"))?;
    let all_events = whole.events(&all);
    let mut ends = 0;
    for events in (0..all.events as usize).step_by(97).chain(0..20) {
        for notes in [events / 50, 1000] {
            let mut pool = Pool::new(3, 256, 4, events, notes);
            let played = pool.play(&moves).map_err(|e| format!("{e:?}"))?;
            let seen = pool.events(&played);
            if played.events as usize > events || played.notes as usize > notes || seen != all_events[..seen.len()] {
                return Err(format!("with room for {events} events and {notes} notes: {played:?}"));
            }
            ends += 1;
        }
    }
    Ok(format!("{ends} plays that ended early"))
}

fn started() -> [u64; REGISTERS] {
    let mut registers = [0; REGISTERS];
    ffi::start(&mut registers).expect("registers of the right length");
    registers
}

fn looking_up() -> [u64; REGISTERS] {
    let mut registers = started();
    ffi::begin_lookup(&mut registers, 0x0a01_0203).expect("nothing is under way");
    registers
}

/// Refused by the number, and the registers and own words are as before.
fn refused(name: &str, number: u32, registers: &[u64], own: &[u64], call: impl Fn(&mut [u64], &mut [u64]) -> Result<(), Refused>) -> Result<(), String> {
    let (mut r, mut o) = (registers.to_vec(), own.to_vec());
    let result = call(&mut r, &mut o);
    if result != Err(Refused(number)) {
        return Err(format!("{name}: {result:?}, not {number}"));
    }
    if r != registers || o != own {
        return Err(format!("{name}: something was touched"));
    }
    Ok(())
}

pub fn beginnings(options: &Options) -> Outcome {
    let mut random = Random::new(options.seed);
    let own: Vec<u64> = (0..OWN_WORDS).map(|_| random.draw()).collect();
    let (idle, busy) = (started(), looking_up());
    let damaged = [u64::MAX; REGISTERS];
    let good = piece_words(&[Piece::put(8, 0, 1)]);
    let lookup = |r: &mut [u64], _: &mut [u64]| ffi::begin_lookup(r, 5);
    let update = |r: &mut [u64], o: &mut [u64]| ffi::begin_update(r, o, 1, &good);
    refused("start: 15 registers", 2, &idle[..15], &own, |r, _| ffi::start(r))?;
    refused("start: 17 registers", 2, &[7; 17], &own, |r, _| ffi::start(r))?;
    refused("lookup: 15 registers", 2, &idle[..15], &own, lookup)?;
    refused("lookup: damaged", 3, &damaged, &own, lookup)?;
    refused("lookup: under way", 5, &busy, &own, lookup)?;
    refused("update: 15 registers", 2, &idle[..15], &own, update)?;
    refused("update: 4,095 own words", 2, &idle, &own[1..], update)?;
    refused("update: 31 piece words", 2, &idle, &own, |r, o| ffi::begin_update(r, o, 1, &good[1..]))?;
    refused("update: damaged", 3, &damaged, &own, update)?;
    refused("update: under way", 5, &busy, &own, update)?;
    for (place, x) in [(0, 2), (1, 256), (2, 1 << 32), (3, 1 << 32), (28, 2), (31, u64::MAX)] {
        let mut bad = good;
        bad[place] = x;
        refused("update: impossible piece", 4, &idle, &own, |r, o| ffi::begin_update(r, o, 8, &bad))?;
    }
    Ok("16 calls".to_string())
}

pub fn act(options: &Options) -> Outcome {
    let mut random = Random::new(options.seed);
    let own: Vec<u64> = (0..OWN_WORDS).map(|_| random.draw()).collect();
    let marked = ActWords { kind: 9, block: 9, word: 9, spare: 9, x: 9, new: 9 };
    let ask = |cpu: u32, r: &[u64], o: &[u64]| {
        let mut out = marked;
        let result = ffi::act(cpu, r, o, &mut out);
        assert!(result.is_ok() || out == marked, "what was lent for the act was touched");
        result
    };
    let busy = looking_up();
    refused("processor 16", 1, &busy, &own, |r, o| ask(16, r, o))?;
    refused("processor 2^32 - 1", 1, &busy, &own, |r, o| ask(u32::MAX, r, o))?;
    refused("15 registers", 2, &busy[..15], &own, |r, o| ask(0, r, o))?;
    refused("4,097 own words", 2, &busy, &[0; OWN_WORDS + 1], |r, o| ask(0, r, o))?;
    refused("damaged", 3, &[u64::MAX; REGISTERS], &own, |r, o| ask(0, r, o))?;
    ask(15, &busy, &own).map_err(|e| format!("what is right: {e:?}"))?;
    Ok("5 calls".to_string())
}

pub fn after(options: &Options) -> Outcome {
    let mut random = Random::new(options.seed);
    let own: Vec<u64> = (0..OWN_WORDS).map(|_| random.draw()).collect();
    let marked = ToldWords { kind: 9, len: 9, tells: 9, spare: 9 };
    let end = |cpu: u32, cpus: u32, r: &mut [u64], o: &mut [u64], reply: u64| {
        let mut out = marked;
        let result = ffi::after(cpu, cpus, r, o, reply, &mut out);
        assert!(result.is_ok() || out == marked, "what was lent for the answer was touched");
        result
    };
    let busy = looking_up();
    refused("no processors", 1, &busy, &own, |r, o| end(0, 0, r, o, 0))?;
    refused("17 processors", 1, &busy, &own, |r, o| end(0, 17, r, o, 0))?;
    refused("processor 4 of 4", 1, &busy, &own, |r, o| end(4, 4, r, o, 0))?;
    refused("15 registers", 2, &busy[..15], &own, |r, o| end(0, 4, r, o, 0))?;
    refused("4,095 own words", 2, &busy, &own[1..], |r, o| end(0, 4, r, o, 0))?;
    refused("damaged", 3, &[u64::MAX; REGISTERS], &own, |r, o| end(0, 4, r, o, 0))?;
    let (mut r, mut o) = obtaining(&own)?;
    refused("a block that no pool has", 4, &r.clone(), &o.clone(), |r, o| end(0, 4, r, o, 1_048_577))?;
    end(0, 4, &mut r, &mut o, 1_048_576).map_err(|e| format!("the last block of the largest pool: {e:?}"))?;
    Ok("7 calls".to_string())
}

/// Registers and own words of an update that asks for a block next.
fn obtaining(own: &[u64]) -> Result<(Vec<u64>, Vec<u64>), String> {
    let (mut r, mut o) = (started().to_vec(), own.to_vec());
    ffi::begin_update(&mut r, &mut o, 1, &piece_words(&[Piece::put(8, 0, 1)])).map_err(|e| format!("{e:?}"))?;
    for _ in 0..10 {
        let (mut act, mut told) = (ActWords::default(), ToldWords::default());
        ffi::act(0, &r, &o, &mut act).map_err(|e| format!("{e:?}"))?;
        if act.kind == 5 {
            return Ok((r, o));
        }
        ffi::after(0, 4, &mut r, &mut o, 0, &mut told).map_err(|e| format!("{e:?}"))?;
    }
    Err("it never asks for a block".to_string())
}

/// Registers, own words and replies changed at random at every turn: each call comes back, and one that is refused has touched nothing.
pub fn damaged_at_random(options: &Options) -> Outcome {
    let mut random = Random::new(options.seed);
    let (mut fine, mut counts) = (0u64, [0u64; 6]);
    for _ in 0..2000 {
        let mut r = started().to_vec();
        let mut o: Vec<u64> = (0..OWN_WORDS).map(|_| random.draw() >> random.below(64)).collect();
        let pieces: [u64; PIECE_WORDS] = piece_words(&[Piece::put(32, random.word(), 1); 8]);
        ffi::begin_update(&mut r, &mut o, 1 + random.below(8) as u32, &pieces).map_err(|e| format!("{e:?}"))?;
        let (mut good, mut good_own) = (r.clone(), o.clone());
        for _ in 0..200 {
            if random.one_in(10) {
                let place = random.below(REGISTERS as u64) as usize;
                let others = [r[place] ^ (1 << random.below(64)), random.draw(), random.below(100)];
                r[place] = random.pick(&others);
            }
            if random.one_in(10) {
                o[random.below(480) as usize] = random.draw() >> random.below(64);
            }
            match damaged_turn(&mut r, &mut o, &mut random)? {
                0 => {
                    fine += 1;
                    (good, good_own) = (r.clone(), o.clone());
                }
                number => {
                    counts[number as usize] += 1;
                    (r, o) = (good.clone(), good_own.clone());
                }
            }
        }
    }
    Ok(format!("{fine} turns taken; refused by 1 to 5: {:?}", &counts[1..]))
}

fn damaged_turn(r: &mut Vec<u64>, o: &mut Vec<u64>, random: &mut Random) -> Result<u32, String> {
    let (mut act, mut told) = (ActWords::default(), ToldWords::default());
    let cpu = random.below(18) as u32;
    let (before, own_before) = (r.clone(), o.clone());
    let asked = ffi::act(cpu, r, o, &mut act);
    if asked.is_err_and(|e| !(1..=5).contains(&e.0) || act != ActWords::default()) {
        return Err(format!("act: {asked:?}, {act:?}"));
    }
    let replies = [0, 1, random.below(1 << 20), random.draw(), act.x];
    let reply = random.pick(&replies);
    if let Err(Refused(number)) = ffi::after(cpu, random.below(18) as u32, r, o, reply, &mut told) {
        if !(1..=5).contains(&number) || told != ToldWords::default() || *r != before || *o != own_before {
            return Err(format!("after: refused by {number}, and something was touched"));
        }
        return Ok(number);
    }
    if answer_of(&told).is_some() {
        let address = random.word();
        ffi::begin_lookup(r, address).map_err(|e| format!("after it was told nothing may be under way: {e:?}"))?;
    }
    Ok(0)
}
