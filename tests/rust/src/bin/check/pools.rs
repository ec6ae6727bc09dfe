//! Pools of all sizes, many routes, and pools that fill up. One thing at a time, compared with a table by prefix.
use std::collections::HashMap;

use dezhavin::ffi::Played;
use dezhavin::play::{Ask, Event, Moves, Pool};
use dezhavin::random::Random;
use dezhavin::scripts::prefixes;
use dezhavin::table::{Answer, Piece, may_be_full, prefix_of};

use super::histories::judge;
use super::{Options, Outcome};

/// After all routes are taken out the header and an empty root are held.
const HELD_WHEN_EMPTY: u32 = 2;

/// Routes by length and bits: quick where there are many.
#[derive(Default)]
struct Routes(HashMap<(u8, u32), u32>);

impl Routes {
    fn find(&self, address: u32) -> Answer {
        let found = (0..=32).rev().find_map(|len| self.0.get(&(len, prefix_of(address, len))).map(|&tells| (len, tells)));
        found.map_or(Answer::Nothing, |(len, tells)| Answer::Found { len, tells })
    }

    /// Puts and takes of routes that are there.
    fn change(&mut self, pieces: &[Piece]) {
        for p in pieces {
            match p.puts {
                true => drop(self.0.insert((p.len, p.bits), p.tells)),
                false => assert!(self.0.remove(&(p.len, p.bits)).is_some()),
            }
        }
    }

    /// How many there would be; None where a take has nothing to take out.
    fn after(&self, pieces: &[Piece]) -> Option<usize> {
        let has = |p: &Piece| self.0.contains_key(&(p.len, p.bits));
        if pieces.iter().any(|p| !p.puts && !has(p)) {
            return None;
        }
        let new = pieces.iter().filter(|p| p.puts && !has(p)).count();
        Some(self.0.len() + new - pieces.iter().filter(|p| !p.puts).count())
    }

    /// Is this told rightly for a change.
    fn allows(&self, blocks: u32, pieces: &[Piece], answer: Answer) -> bool {
        match self.after(pieces) {
            None => answer == Answer::No(3),
            Some(after) => answer == Answer::Done || answer == Answer::Full && may_be_full(blocks, self.0.len(), after),
        }
    }
}

#[derive(Default)]
struct Told {
    questions: u64,
    done: u64,
    full: u64,
    /// Takes of what is not there.
    absent: u64,
}

/// Compares a history in which nothing overlaps, with routes that all differ within one change.
fn compare(blocks: u32, events: &[Event], routes: &mut Routes) -> Result<Told, String> {
    let mut told = Told::default();
    for pair in events.chunks(2) {
        let [Event::Asked(cpu, ask), Event::Told(by, answer)] = pair else {
            return Err(format!("{pair:?} is no question with its answer"));
        };
        let right = cpu == by
            && match ask {
                Ask::Find(address) => routes.find(*address) == *answer,
                Ask::Change(_, pieces) => routes.allows(blocks, pieces, *answer),
            };
        if !right {
            return Err(format!("{ask:?} is told {answer:?} with {} routes", routes.0.len()));
        }
        match (ask, answer) {
            (Ask::Find(_), _) => told.questions += 1,
            (_, Answer::Full) => told.full += 1,
            (Ask::Change(_, pieces), Answer::Done) => {
                told.done += 1;
                routes.change(pieces);
            }
            _ => told.absent += 1,
        }
    }
    Ok(told)
}

/// More turns than any change takes by itself.
const ENOUGH: u64 = 40_000;

struct Script {
    moves: Moves,
    cpus: u32,
    next: u32,
}

impl Script {
    fn new(cpus: u32) -> Script {
        Script { moves: Moves::new(), cpus, next: 0 }
    }

    /// The processors in turn.
    fn cpu(&mut self) -> u32 {
        self.next = (self.next + 1) % self.cpus;
        self.next
    }

    fn change(&mut self, pieces: &[Piece]) {
        let cpu = self.cpu();
        self.moves.change(cpu, pieces);
        self.moves.go(cpu, ENOUGH);
    }

    fn put_all(&mut self, prefixes: &[(u8, u32)], tells: u32) {
        for eight in prefixes.chunks(8) {
            let pieces: Vec<Piece> = eight.iter().map(|&(len, bits)| Piece::put(len, bits, tells ^ bits)).collect();
            self.change(&pieces);
        }
    }

    fn take_all(&mut self, prefixes: &[(u8, u32)]) {
        for eight in prefixes.chunks(8) {
            let pieces: Vec<Piece> = eight.iter().map(|&(len, bits)| Piece::take(len, bits)).collect();
            self.change(&pieces);
        }
    }

    fn find(&mut self, address: u32) {
        let cpu = self.cpu();
        self.moves.find(cpu, address);
        self.moves.go(cpu, 13);
    }

    fn find_all(&mut self, prefixes: &[(u8, u32)], random: &mut Random) {
        for &(len, bits) in prefixes {
            let behind = if len == 32 { 0 } else { random.word() >> len };
            self.find(bits | behind);
        }
    }
}

fn played(pool: &mut Pool, moves: &Moves) -> Result<(Played, Vec<Event>), String> {
    let played = pool.play(moves).map_err(|e| format!("{e:?}"))?;
    if played.moves as usize != moves.words().len() || played.passed != 0 {
        return Err(format!("ended early, or something was passed over: {played:?}"));
    }
    let events = pool.events_without_turns(&played);
    Ok((played, events))
}

pub fn every_size(options: &Options) -> Outcome {
    let sizes = [256, 257, 511, 512, 513, 1000, 4096, 10_000, 65_535, 65_536, 262_144, 1_048_575, 1_048_576];
    let mut random = Random::new(options.seed);
    for blocks in sizes {
        let cpus = 1 + random.below(16) as u32;
        let keys = prefixes(6, &mut random);
        let mut script = Script::new(cpus);
        script.put_all(&keys, 1);
        script.find_all(&keys, &mut random);
        script.put_all(&keys, 2);
        script.find_all(&keys, &mut random);
        script.take_all(&keys);
        script.find_all(&keys, &mut random);
        let mut pool = Pool::new(cpus, blocks, 16, 100_000, 10_000);
        let (played, events) = played(&mut pool, &script.moves)?;
        compare(blocks, &events, &mut Routes::default()).map_err(|why| format!("{blocks} blocks: {why}"))?;
        if played.held != HELD_WHEN_EMPTY {
            return Err(format!("{blocks} blocks: {} held at the end", played.held));
        }
    }
    Ok(format!("{} sizes from {} to {} blocks, {HELD_WHEN_EMPTY} held at each end", sizes.len(), sizes[0], sizes[sizes.len() - 1]))
}

/// Routes are put in by eights until full is told, and on; all are found. Takes, one at a time, make room; then more can be put in again.
pub fn fills_up(options: &Options) -> Outcome {
    let mut random = Random::new(options.seed);
    let mut said = Vec::new();
    for blocks in [256, 300, 1000, 20_000] {
        let keys: Vec<(u8, u32)> = (0..blocks / 2).map(|_| (32, random.word())).collect();
        let mut script = Script::new(3);
        script.put_all(&keys, 1);
        script.find_all(&keys, &mut random);
        keys.iter().step_by(2).for_each(|key| script.take_all(&[*key]));
        script.find_all(&keys, &mut random);
        script.put_all(&keys, 2);
        script.find_all(&keys, &mut random);
        keys.iter().for_each(|key| script.take_all(&[*key]));
        script.find_all(&keys, &mut random);
        said.push(filled(blocks, &script)?);
    }
    Ok(said.join("; "))
}

fn filled(blocks: u32, script: &Script) -> Outcome {
    let mut pool = Pool::new(3, blocks, 64, blocks as usize * 8000, 1_000_000);
    let (played, events) = played(&mut pool, &script.moves)?;
    let mut routes = Routes::default();
    let told = compare(blocks, &events, &mut routes)?;
    if told.full == 0 || played.held != HELD_WHEN_EMPTY || !routes.0.is_empty() {
        return Err(format!("{blocks} blocks: {} full, {} held, {} routes at the end", told.full, played.held, routes.0.len()));
    }
    Ok(format!("{blocks} blocks: full {} times, {} changes done, {} held when empty", told.full, told.done, played.held))
}

/// Routes of 32 bits put in one by one: a take copies nine nodes, so where fewer than nine blocks are left a take is told full too. Nothing is lost.
pub fn fills_up_to_the_last_blocks(options: &Options) -> Outcome {
    let mut random = Random::new(options.seed);
    let keys: Vec<(u8, u32)> = (0..100).map(|_| (32, random.word())).collect();
    let mut script = Script::new(3);
    for key in &keys {
        script.put_all(&[*key], 1);
    }
    keys.iter().for_each(|key| script.take_all(&[*key]));
    script.find_all(&keys, &mut random);
    let mut pool = Pool::new(3, 256, 64, 1_000_000, 100_000);
    let (played, events) = played(&mut pool, &script.moves)?;
    let mut routes = Routes::default();
    let told = compare(256, &events, &mut routes)?;
    if told.full == 0 {
        return Err("it never filled up".to_string());
    }
    Ok(format!("{} changes done, full {} times, {} routes and {} blocks held at the end", told.done, told.full, routes.0.len(), played.held))
}

/// 500 times another route of 32 bits is put in and taken out, in turn by all processors, in the smallest pool.
pub fn in_turn(options: &Options) -> Outcome {
    let mut random = Random::new(options.seed);
    let mut script = Script::new(16);
    for _ in 0..500 {
        let key = (32, random.word());
        script.put_all(&[key], 1);
        script.find(key.1);
        script.take_all(&[key]);
        script.find(key.1);
    }
    let mut pool = Pool::new(16, 256, 64, 4_000_000, 100_000);
    let (played, events) = played(&mut pool, &script.moves)?;
    let told = compare(256, &events, &mut Routes::default())?;
    judge(256, &pool.events(&played))?;
    if told.full != 0 || played.held != HELD_WHEN_EMPTY {
        return Err(format!("{} full, {} held", told.full, played.held));
    }
    Ok(format!("{} changes done, none full, {} turns", told.done, played.turns))
}

pub fn hundred_thousand(options: &Options) -> Outcome {
    let mut random = Random::new(options.seed);
    let keys = prefixes(100_000, &mut random);
    let mut script = Script::new(4);
    script.put_all(&keys, 1);
    script.find_all(&keys, &mut random);
    let full_table = script.moves.clone();
    script.put_all(&keys[..20_000], 2);
    script.find_all(&keys, &mut random);
    script.take_all(&keys);
    script.find_all(&keys[..1000], &mut random);
    let mut pool = Pool::new(4, 1_048_576, 16, 400_000_000, 4_000_000);
    let (most, _) = played(&mut pool, &full_table)?;
    let (last, events) = played(&mut pool, &script.moves)?;
    let mut routes = Routes::default();
    let told = compare(1_048_576, &events, &mut routes)?;
    if told.full != 0 || last.held != HELD_WHEN_EMPTY || !routes.0.is_empty() {
        return Err(format!("{} full, {} held, {} routes at the end", told.full, last.held, routes.0.len()));
    }
    Ok(format!(
        "{} changes done, {} questions, {} turns; {} blocks held with all routes in, {} when empty",
        told.done, told.questions, last.turns, most.held, last.held
    ))
}
