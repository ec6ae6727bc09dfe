//! Benchmarks: the same lookups and changes in several ways, side by side in one run.
use std::sync::atomic::{AtomicBool, AtomicU64, Ordering};
use std::sync::{Arc, Mutex, RwLock};
use std::time::{Duration, Instant};

use crate::memory::SharedMemory;
use crate::plain;
use crate::random::Random;
use crate::runner::{Processor, Unwatched};
use crate::scripts::prefixes;
use crate::table::{Answer, Piece};

/// One way to look up and to change on a memory that threads share.
pub trait Scheme: Sync {
    fn name(&self) -> &'static str;

    /// Looks all addresses up as processor `cpu`; the sum of what is told.
    fn lookups(&self, memory: &Arc<SharedMemory>, cpu: u32, addresses: &[u32]) -> u64;

    /// Puts the routes in, each by a change of its own, as processor `cpu`. False where this way knows no changes.
    fn puts(&self, memory: &Arc<SharedMemory>, cpu: u32, pieces: &[Piece]) -> bool;
}

/// Looks all addresses up; the sum of what is told.
pub fn sum(addresses: &[u32], lookup: impl FnMut(&u32) -> Answer) -> u64 {
    let told = addresses.iter().map(lookup).map(|answer| match answer {
        Answer::Found { tells, .. } => u64::from(tells),
        _ => 0,
    });
    told.fold(0, u64::wrapping_add)
}

/// The proved steps, a turn at a time through the functions of the static library.
pub struct Steps {
    pub cpus: u32,
}

impl Scheme for Steps {
    fn name(&self) -> &'static str {
        "proved steps"
    }

    fn lookups(&self, memory: &Arc<SharedMemory>, cpu: u32, addresses: &[u32]) -> u64 {
        let mut processor = Processor::new(cpu, self.cpus, memory, &Unwatched);
        sum(addresses, |&a| processor.lookup(a))
    }

    fn puts(&self, memory: &Arc<SharedMemory>, cpu: u32, pieces: &[Piece]) -> bool {
        let mut processor = Processor::new(cpu, self.cpus, memory, &Unwatched);
        for piece in pieces {
            assert_eq!(processor.update(&[*piece]), Answer::Done);
        }
        true
    }
}

/// The walk as one plain function, with the same announcement and leaving.
pub struct Announced;

impl Scheme for Announced {
    fn name(&self) -> &'static str {
        "announced walk"
    }

    fn lookups(&self, memory: &Arc<SharedMemory>, cpu: u32, addresses: &[u32]) -> u64 {
        sum(addresses, |&a| plain::announced_walk(memory, cpu, a))
    }

    fn puts(&self, _: &Arc<SharedMemory>, _: u32, _: &[Piece]) -> bool {
        false
    }
}

/// The walk alone, without any protection.
pub struct Unprotected;

impl Scheme for Unprotected {
    fn name(&self) -> &'static str {
        "unprotected walk"
    }

    fn lookups(&self, memory: &Arc<SharedMemory>, _: u32, addresses: &[u32]) -> u64 {
        sum(addresses, |&a| plain::walk(memory, a))
    }

    fn puts(&self, _: &Arc<SharedMemory>, _: u32, _: &[Piece]) -> bool {
        false
    }
}

/// The walk under a lock of readers and writers.
#[derive(Default)]
pub struct Locked(RwLock<()>);

impl Scheme for Locked {
    fn name(&self) -> &'static str {
        "RwLock"
    }

    fn lookups(&self, memory: &Arc<SharedMemory>, _: u32, addresses: &[u32]) -> u64 {
        sum(addresses, |&a| {
            let _read = self.0.read().expect("nobody panics with the lock");
            plain::walk(memory, a)
        })
    }

    fn puts(&self, memory: &Arc<SharedMemory>, _: u32, pieces: &[Piece]) -> bool {
        for piece in pieces {
            let _write = self.0.write().expect("nobody panics with the lock");
            plain::put(memory, piece).into_iter().for_each(|block| memory.release(block));
        }
        true
    }
}

/// A memory with so many routes, and addresses that they fit.
pub struct Filled {
    pub memory: Arc<SharedMemory>,
    pub routes: Vec<(u8, u32)>,
    pub addresses: Vec<u32>,
}

impl Filled {
    pub fn new(routes: usize, addresses: usize) -> Filled {
        let mut random = Random::new(routes as u64);
        let blocks = (192 + 10 * routes as u32).clamp(4096, 1_048_576);
        let memory = Arc::new(SharedMemory::new(blocks));
        let routes = prefixes(routes, &mut random);
        let mut office = Processor::new(0, 1, &memory, &Unwatched);
        for eight in routes.chunks(8) {
            let pieces: Vec<Piece> = eight.iter().map(|&(len, bits)| Piece::put(len, bits, random.word())).collect();
            assert_eq!(office.update(&pieces), Answer::Done);
        }
        let some_address = |_| {
            let (len, bits) = random.pick(&routes);
            bits | (u64::from(random.word()) >> len) as u32
        };
        let addresses = (0..addresses).map(some_address).collect();
        Filled { memory, routes, addresses }
    }

    /// Changes of routes that are there.
    pub fn pieces(&self, many: usize, random: &mut Random) -> Vec<Piece> {
        let piece = |_| {
            let (len, bits) = random.pick(&self.routes);
            Piece::put(len, bits, random.word())
        };
        (0..many).map(piece).collect()
    }
}

pub fn median(mut of: Vec<f64>) -> f64 {
    of.sort_by(f64::total_cmp);
    of[of.len() / 2]
}

/// Lookups a second of one thread, by each scheme, in rounds that take turns.
pub fn alone(filled: &Filled, schemes: &[&dyn Scheme], rounds: usize) -> Vec<f64> {
    let mut seen = vec![Vec::new(); schemes.len()];
    let mut sums = Vec::new();
    for round in 0..=rounds {
        for (scheme, seen) in schemes.iter().zip(&mut seen) {
            let started = Instant::now();
            sums.push(scheme.lookups(&filled.memory, 0, &filled.addresses));
            if round > 0 {
                seen.push(filled.addresses.len() as f64 / started.elapsed().as_secs_f64());
            }
        }
    }
    assert!(sums.iter().all(|s| *s == sums[0]), "two ways tell different answers");
    seen.into_iter().map(median).collect()
}

/// How many turns a lookup takes by the steps, on average.
pub fn turns_of_a_lookup(filled: &Filled) -> f64 {
    let mut processor = Processor::new(0, 1, &filled.memory, &Unwatched);
    sum(&filled.addresses, |&a| processor.lookup(a));
    processor.turns as f64 / filled.addresses.len() as f64
}

/// Changes a second and turns of each, with so many pieces; one thread, nobody else on the memory.
pub struct Changes {
    pub each_second: f64,
    pub turns: f64,
}

pub fn changes(filled: &Filled, pieces: usize, time: Duration) -> Changes {
    let mut random = Random::new(pieces as u64);
    let mut office = Processor::new(0, 1, &filled.memory, &Unwatched);
    let (mut done, started) = (0u64, Instant::now());
    while started.elapsed() < time {
        let pieces = filled.pieces(pieces, &mut random);
        assert_eq!(office.update(&pieces), Answer::Done);
        done += 1;
    }
    Changes { each_second: done as f64 / started.elapsed().as_secs_f64(), turns: office.turns as f64 / done as f64 }
}

/// Lookups and changes a second of a hall.
#[derive(Clone, Copy, Default)]
pub struct Rates {
    pub lookups: f64,
    pub changes: f64,
}

/// So many belts look up, while one office changes routes without pause if `office` says so.
pub fn hall(filled: &Filled, scheme: &dyn Scheme, belts: u32, office: bool, time: Duration) -> Rates {
    let stop = AtomicBool::new(false);
    let (lookups, changes) = (AtomicU64::new(0), AtomicU64::new(0));
    let sums = Mutex::new(0u64);
    let started = Instant::now();
    std::thread::scope(|threads| {
        let (stop, lookups, changes, sums) = (&stop, &lookups, &changes, &sums);
        for belt in 0..belts {
            threads.spawn(move || {
                for some in filled.addresses.chunks(1000).cycle().skip(belt as usize * 7) {
                    let told = scheme.lookups(&filled.memory, belt, some);
                    lookups.fetch_add(some.len() as u64, Ordering::Relaxed);
                    if stop.load(Ordering::Relaxed) {
                        *sums.lock().expect("nobody panics with this lock") ^= told;
                        return;
                    }
                }
            });
        }
        if office {
            threads.spawn(move || {
                let mut random = Random::new(9);
                while !stop.load(Ordering::Relaxed) {
                    let pieces = filled.pieces(10, &mut random);
                    assert!(scheme.puts(&filled.memory, belts, &pieces), "this way knows no changes");
                    changes.fetch_add(pieces.len() as u64, Ordering::Relaxed);
                }
            });
        }
        std::thread::sleep(time);
        stop.store(true, Ordering::Relaxed);
    });
    let seconds = started.elapsed().as_secs_f64();
    Rates { lookups: lookups.into_inner() as f64 / seconds, changes: changes.into_inner() as f64 / seconds }
}
