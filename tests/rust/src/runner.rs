//! The proved steps on real threads: each thread is one processor of a memory that all share.
use crate::ffi::{self, ActWords, OWN_WORDS, REGISTERS, ToldWords};
use crate::memory::SharedMemory;
use crate::table::{Answer, Piece};
use crate::tso::{answer_of, piece_words};

/// What looks on at every access, and may do one wrongly. `Unwatched` costs nothing.
pub trait Watch: Sync {
    /// A swap; what was there before.
    #[inline]
    fn swap(&self, memory: &SharedMemory, act: &ActWords) -> u64 {
        memory.swap(act.block, act.word, act.x, act.new)
    }

    #[inline]
    fn touched(&self, _block: u32, _word: u32, _x: u64) {}

    #[inline]
    fn obtained(&self, _memory: &SharedMemory, _block: Option<u32>) {}

    /// Called before the block goes to the pool.
    #[inline]
    fn released(&self, _memory: &SharedMemory, _block: u32) {}
}

pub struct Unwatched;

impl Watch for Unwatched {}

/// One processor, to be used by one thread at a time: no other has its number.
pub struct Processor<'m, W> {
    number: u32,
    cpus: u32,
    memory: &'m SharedMemory,
    watch: &'m W,
    registers: [u64; REGISTERS],
    own: Vec<u64>,
    pub turns: u64,
}

impl<'m, W: Watch> Processor<'m, W> {
    pub fn new(number: u32, cpus: u32, memory: &'m SharedMemory, watch: &'m W) -> Processor<'m, W> {
        let mut registers = [0; REGISTERS];
        ffi::start(&mut registers).expect("sixteen registers");
        Processor { number, cpus, memory, watch, registers, own: vec![0; OWN_WORDS], turns: 0 }
    }

    pub fn begin_lookup(&mut self, address: u32) {
        ffi::begin_lookup(&mut self.registers, address).expect("nothing is under way");
    }

    pub fn begin_update(&mut self, pieces: &[Piece]) {
        ffi::begin_update(&mut self.registers, &mut self.own, pieces.len() as u32, &piece_words(pieces)).expect("nothing is under way");
    }

    /// One turn: what it asked of the memory, and what is told if it was the last one.
    #[inline]
    pub fn turn(&mut self) -> (ActWords, Option<Answer>) {
        let mut act = ActWords::default();
        ffi::act(self.number, &self.registers, &self.own, &mut act).expect("the registers are in order");
        let reply = self.perform(&act);
        let mut told = ToldWords::default();
        ffi::after(self.number, self.cpus, &mut self.registers, &mut self.own, reply, &mut told).expect("the reply is the memory's");
        self.turns += 1;
        (act, answer_of(&told))
    }

    #[inline]
    fn perform(&mut self, act: &ActWords) -> u64 {
        let (memory, watch) = (self.memory, self.watch);
        match act.kind {
            0 => {}
            1 => {
                let x = memory.load(act.block, act.word);
                watch.touched(act.block, act.word, x);
                return x;
            }
            2 => {
                watch.touched(act.block, act.word, act.x);
                memory.store(act.block, act.word, act.x);
            }
            3 => memory.fence(),
            4 => return watch.swap(memory, act),
            5 => {
                let block = memory.obtain();
                watch.obtained(memory, block);
                return block.map_or(0, |b| u64::from(b) + 1);
            }
            6 => {
                watch.released(memory, act.block);
                memory.release(act.block);
            }
            kind => unreachable!("an act of kind {kind}"),
        }
        0
    }

    pub fn lookup(&mut self, address: u32) -> Answer {
        self.begin_lookup(address);
        loop {
            if let (_, Some(answer)) = self.turn() {
                return answer;
            }
        }
    }

    /// An update that asks for the same load or swap again waits: for the lock, or for a lookup where the pool is empty. Then others may run.
    pub fn update(&mut self, pieces: &[Piece]) -> Answer {
        self.begin_update(pieces);
        let mut last = ActWords::default();
        loop {
            let (act, told) = self.turn();
            if let Some(answer) = told {
                return answer;
            }
            if act == last && (act.kind == 1 || act.kind == 4) {
                std::thread::yield_now();
            }
            last = act;
        }
    }
}
