//! The steps on a memory in plain Rust whose stores arrive late. Whatever a processor asks is checked: it may touch only what is held, and give back only what no store is under way to.
use std::collections::VecDeque;

use crate::ffi::{self, ActWords, BLOCK_WORDS, OWN_WORDS, PIECE_WORDS, REGISTERS, ToldWords};
use crate::play::{Ask, Event, Move, Moves, read_moves};
use crate::random::Random;
use crate::table::{Answer, Piece};

#[derive(Clone, Copy)]
struct Late {
    block: u32,
    word: u32,
    x: u64,
}

/// What this memory does wrongly on purpose, to see that it is noticed.
#[derive(Clone, Copy, Debug, PartialEq, Eq)]
pub enum Fault {
    None,
    /// Lookups' announcements are forgotten.
    NoAnnouncement,
    /// One store in a hundred never arrives.
    LostStore,
    /// Of two late stores the newest arrives first.
    NewestFirst,
    /// One block in ten is handed out while it is still held.
    HandedOutTwice,
}

struct Memory {
    fault: Fault,
    /// Late stores of one processor at most.
    room: usize,
    words: Vec<u64>,
    held: Vec<bool>,
    free: Vec<u32>,
    rows: Vec<VecDeque<Late>>,
    rubbish: Random,
}

fn place(block: u32, word: u32) -> usize {
    BLOCK_WORDS * block as usize + word as usize
}

impl Memory {
    fn new(cpus: u32, blocks: u32, room: usize, seed: u64, fault: Fault) -> Memory {
        let mut held = vec![false; blocks as usize];
        held[0] = true;
        Memory {
            fault,
            room,
            words: vec![0; BLOCK_WORDS * blocks as usize],
            held,
            free: (1..blocks).collect(),
            rows: vec![VecDeque::new(); cpus as usize],
            rubbish: Random::new(seed),
        }
    }

    fn touch(&self, block: u32, word: u32) -> Result<usize, String> {
        if word as usize >= BLOCK_WORDS || !self.held.get(block as usize).copied().unwrap_or(false) {
            return Err(format!("word {word} of block {block} is touched, which is not held"));
        }
        Ok(place(block, word))
    }

    fn arrive(&mut self, cpu: u32, most: u64) {
        for _ in 0..most {
            let row = &mut self.rows[cpu as usize];
            let next = if self.fault == Fault::NewestFirst { row.pop_back() } else { row.pop_front() };
            let Some(late) = next else {
                return;
            };
            if self.fault != Fault::LostStore || !self.rubbish.one_in(100) {
                self.words[place(late.block, late.word)] = late.x;
            }
        }
    }

    fn load(&self, cpu: u32, block: u32, word: u32) -> Result<u64, String> {
        let at = self.touch(block, word)?;
        let own = self.rows[cpu as usize].iter().rev().find(|l| l.block == block && l.word == word);
        Ok(own.map_or(self.words[at], |l| l.x))
    }

    fn swap(&mut self, cpu: u32, act: &ActWords) -> Result<u64, String> {
        let at = self.touch(act.block, act.word)?;
        self.arrive(cpu, u64::MAX);
        if self.fault == Fault::NoAnnouncement && act.word >= 16 {
            return Ok(act.x);
        }
        let before = self.words[at];
        if before == act.x {
            self.words[at] = act.new;
        }
        Ok(before)
    }

    /// Any free block, which holds anything.
    fn obtain(&mut self) -> u64 {
        if self.free.is_empty() {
            return 0;
        }
        let place_in_pool = self.rubbish.below(self.free.len() as u64) as usize;
        let block = match self.fault {
            Fault::HandedOutTwice if self.rubbish.one_in(10) => self.free[place_in_pool],
            _ => self.free.swap_remove(place_in_pool),
        };
        self.held[block as usize] = true;
        for word in 0..BLOCK_WORDS as u32 {
            self.words[place(block, word)] = self.rubbish.draw();
        }
        u64::from(block) + 1
    }

    fn release(&mut self, block: u32) -> Result<(), String> {
        self.touch(block, 0)?;
        if block == 0 || self.rows.iter().flatten().any(|l| l.block == block) {
            return Err(format!("block {block} is given back, with a store to it under way or as the header"));
        }
        self.held[block as usize] = false;
        self.free.push(block);
        Ok(())
    }

    fn perform(&mut self, cpu: u32, act: &ActWords) -> Result<u64, String> {
        match act.kind {
            0 => {}
            1 => return self.load(cpu, act.block, act.word),
            2 => {
                self.touch(act.block, act.word)?;
                if self.rows[cpu as usize].len() == self.room {
                    self.arrive(cpu, 1);
                }
                self.rows[cpu as usize].push_back(Late { block: act.block, word: act.word, x: act.x });
            }
            3 => self.arrive(cpu, u64::MAX),
            4 => return self.swap(cpu, act),
            5 => return Ok(self.obtain()),
            6 => self.release(act.block)?,
            kind => return Err(format!("an act of kind {kind}")),
        }
        Ok(0)
    }
}

/// The eight pieces of an update as words.
pub fn piece_words(pieces: &[Piece]) -> [u64; PIECE_WORDS] {
    let mut words = [0; PIECE_WORDS];
    for (to, p) in words.chunks_mut(4).zip(pieces) {
        to.copy_from_slice(&[u64::from(p.puts), u64::from(p.len), u64::from(p.bits), u64::from(p.tells)]);
    }
    words
}

/// What was told, or None where nothing was yet.
pub fn answer_of(told: &ToldWords) -> Option<Answer> {
    Some(match told.kind {
        0 => return None,
        1 => Answer::Found { len: told.len as u8, tells: told.tells },
        2 => Answer::Nothing,
        3 => Answer::Done,
        4 => Answer::Full,
        5 => Answer::No(told.len as u8),
        kind => panic!("told by kind {kind}"),
    })
}

struct Cpu {
    registers: [u64; REGISTERS],
    own: Vec<u64>,
    busy: bool,
}

pub struct Machine {
    memory: Memory,
    cpus: Vec<Cpu>,
    pub events: Vec<Event>,
}

/// What a play of moves on this machine came to.
pub struct Outcome {
    pub events: Vec<Event>,
    pub held: usize,
}

impl Machine {
    /// `room`: late stores of each processor at most; one more lets the oldest arrive.
    pub fn new(cpus: u32, blocks: u32, room: usize, seed: u64, fault: Fault) -> Machine {
        let mut random = Random::new(seed ^ 1);
        let cpu = |_| {
            let mut registers = [0; REGISTERS];
            registers.fill_with(|| random.draw());
            ffi::start(&mut registers).expect("registers of the right length");
            let own = (0..OWN_WORDS).map(|_| random.draw()).collect();
            Cpu { registers, own, busy: false }
        };
        Machine { cpus: (0..cpus).map(cpu).collect(), memory: Memory::new(cpus, blocks, room, seed, fault), events: Vec::new() }
    }

    pub fn play(mut self, moves: &Moves) -> Result<Outcome, String> {
        for step in read_moves(moves) {
            match step {
                Move::Go(cpu, turns) => self.go(cpu, turns)?,
                Move::Arrive(cpu, stores) => self.memory.arrive(cpu, stores),
                Move::Ask(cpu, ask) => self.ask(cpu, ask)?,
            }
        }
        Ok(Outcome { events: self.events, held: self.memory.held.iter().filter(|&&h| h).count() })
    }

    fn ask(&mut self, number: u32, ask: Ask) -> Result<(), String> {
        let cpu = &mut self.cpus[number as usize];
        if cpu.busy {
            return Ok(());
        }
        match &ask {
            Ask::Find(address) => ffi::begin_lookup(&mut cpu.registers, *address),
            Ask::Change(size, pieces) => ffi::begin_update(&mut cpu.registers, &mut cpu.own, *size, &piece_words(pieces)),
        }
        .map_err(|e| format!("a beginning is refused: {e:?}"))?;
        cpu.busy = true;
        self.events.push(Event::Asked(number, ask));
        Ok(())
    }

    fn go(&mut self, number: u32, turns: u64) -> Result<(), String> {
        for _ in 0..turns {
            if !self.cpus[number as usize].busy {
                return Ok(());
            }
            self.turn(number)?;
        }
        Ok(())
    }

    fn turn(&mut self, number: u32) -> Result<(), String> {
        let many = self.cpus.len() as u32;
        let cpu = &mut self.cpus[number as usize];
        let (mut act, mut told) = (ActWords::default(), ToldWords::default());
        ffi::act(number, &cpu.registers, &cpu.own, &mut act).map_err(|e| format!("act is refused: {e:?}"))?;
        let reply = self.memory.perform(number, &act)?;
        ffi::after(number, many, &mut cpu.registers, &mut cpu.own, reply, &mut told).map_err(|e| format!("after {act:?} with {reply} is refused: {e:?}"))?;
        self.events.push(Event::Turned(number));
        if let Some(answer) = answer_of(&told) {
            cpu.busy = false;
            self.events.push(Event::Told(number, answer));
        }
        Ok(())
    }
}
