//! Random lists of moves: questions and changes that overlap, over prefixes that collide.
use std::collections::HashSet;

use crate::play::Moves;
use crate::random::Random;
use crate::table::{Piece, prefix_of};

#[derive(Clone, Debug)]
pub struct Plan {
    pub cpus: u32,
    pub blocks: u32,
    /// Places for late stores of each processor.
    pub room: usize,
    pub moves: u64,
    /// Processors below this number ask for changes.
    pub changers: u32,
    /// A `go` has at most 2^this turns.
    pub longest_go: u64,
    /// One move in so many lets stores arrive.
    pub arrivals: u64,
    /// One thing asked in so many is a question, on a processor that asks for both.
    pub questions: u64,
    /// One piece in so many takes a route out.
    pub takes: u64,
    bases: Vec<u32>,
    lengths: Vec<u8>,
}

impl Plan {
    pub fn random(random: &mut Random, blocks: u32) -> Plan {
        let cpus = 1 + random.below(16) as u32;
        let most_lengths = 1 + random.below(9);
        let bases = 1 + random.below(3);
        Plan {
            cpus,
            blocks,
            room: random.pick(&[1, 2, 3, 8, 64, 512, 2400]),
            moves: 100 + random.below(700),
            changers: 1 + random.below(u64::from(cpus.min(6))) as u32,
            longest_go: random.pick(&[1, 3, 6, 9, 11, 12]),
            arrivals: random.pick(&[2, 5, 20, 1000]),
            questions: random.pick(&[2, 3, 10]),
            takes: random.pick(&[2, 4, 8]),
            bases: (0..bases).map(|_| random.word()).collect(),
            lengths: (0..most_lengths).map(|_| random.below(33) as u8).collect(),
        }
    }

    /// Every change is of the same few deep routes, by all processors.
    pub fn all_change(random: &mut Random, blocks: u32) -> Plan {
        let cpus = 16;
        Plan { cpus, changers: cpus, moves: 300, longest_go: 12, questions: 4, ..Plan::random(random, blocks) }
    }

    /// Many long routes, and few takes.
    pub fn filling_up(random: &mut Random, blocks: u32) -> Plan {
        let plan = Plan::random(random, blocks);
        let bases = (0..60).map(|_| random.word()).collect();
        Plan { moves: 600, longest_go: 12, takes: 8, bases, lengths: vec![24, 28, 32], ..plan }
    }

    pub fn address(&self, random: &mut Random) -> u32 {
        let base = random.pick(&self.bases);
        match random.below(4) {
            0 => base,
            1 => base ^ (1 << random.below(32)),
            _ => base ^ (random.word() >> random.below(32)),
        }
    }

    fn prefix(&self, random: &mut Random) -> (u8, u32) {
        let len = if random.one_in(8) { random.below(33) as u8 } else { random.pick(&self.lengths) };
        let base = random.pick(&self.bases);
        let near = if random.one_in(3) { base ^ (1 << random.below(32)) } else { base };
        (len, prefix_of(near, len))
    }

    fn piece(&self, random: &mut Random, tells: u32) -> Piece {
        let (len, bits) = self.prefix(random);
        match random.below(80) {
            0 => Piece { puts: random.one_in(2), len: 33 + random.below(223) as u8, bits, tells },
            1 => Piece { puts: random.one_in(2), len, bits: bits | 1, tells },
            _ if random.one_in(self.takes) => Piece::take(len, bits),
            _ => Piece::put(len, bits, tells),
        }
    }

    fn change(&self, random: &mut Random, moves: &mut Moves, cpu: u32, tells: u32) {
        let size = match random.below(40) {
            0 => 0,
            1 => 9,
            2 => random.word().max(9),
            n if n < 20 => 1,
            _ => 1 + random.below(8) as u32,
        };
        let pieces: Vec<Piece> = (0..size.min(8)).map(|_| self.piece(random, tells)).collect();
        moves.change_of(cpu, size, &pieces);
    }

    /// The moves; what is still under way at their end goes on for a while, where `finish` says so.
    pub fn moves(&self, random: &mut Random, finish: bool) -> Moves {
        let mut moves = Moves::new();
        for tells in 0..self.moves as u32 {
            let cpu = random.below(u64::from(self.cpus)) as u32;
            if random.one_in(self.arrivals) {
                moves.arrive(cpu, random.scale(6));
            } else if random.one_in(3) {
                if cpu < self.changers && !random.one_in(self.questions) {
                    self.change(random, &mut moves, cpu, tells);
                } else {
                    moves.find(cpu, self.address(random));
                }
            } else {
                moves.go(cpu, random.scale(self.longest_go));
            }
        }
        if finish {
            self.finish(&mut moves);
        }
        moves
    }

    fn finish(&self, moves: &mut Moves) {
        for cpu in self.changers..self.cpus {
            moves.go(cpu, 32);
        }
        for _ in 0..self.changers {
            for cpu in 0..self.changers {
                moves.go(cpu, 5000);
            }
        }
        for cpu in 0..self.cpus {
            moves.find(cpu, self.bases[cpu as usize % self.bases.len()]);
            moves.go(cpu, 32);
        }
    }
}

/// So many prefixes that all differ, with lengths as a table of routes has them, and some of all lengths.
pub fn prefixes(number: usize, random: &mut Random) -> Vec<(u8, u32)> {
    let mut all = HashSet::new();
    while all.len() < number {
        let len = random.pick(&[16, 19, 20, 22, 23, 24, 24, 24, 24, 28, 32, 33]);
        let len = if len == 33 { random.below(33) as u8 } else { len };
        all.insert((len, prefix_of(random.word(), len)));
    }
    let mut list: Vec<(u8, u32)> = all.into_iter().collect();
    list.sort_unstable();
    for i in (1..list.len()).rev() {
        list.swap(i, random.below(i as u64 + 1) as usize);
    }
    list
}
