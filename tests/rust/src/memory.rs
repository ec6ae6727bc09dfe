//! One memory for real threads, on x86-64: a load is a `mov`, a store a `mov`, a swap a `lock cmpxchg`, a fence an `mfence`.
//!
//! Acquire loads and release stores are plain `mov`s there, and keep the compiler from moving them.
use std::sync::Mutex;
use std::sync::atomic::{AtomicU64, Ordering, fence};

use crate::ffi::BLOCK_WORDS;

#[cfg(not(target_arch = "x86_64"))]
compile_error!("the steps are proved for x86-TSO");

/// A word of the header, in a cache line of its own.
#[repr(align(64))]
struct Line(AtomicU64);

/// A node's block: six cache lines.
#[repr(align(64))]
struct Block([AtomicU64; BLOCK_WORDS]);

pub struct SharedMemory {
    header: Vec<Line>,
    /// Block b is at b - 1: the header is apart.
    nodes: Vec<Block>,
    /// The free blocks, the last given back on top. Its lock is the pool's own: lookups never take it.
    pool: Mutex<Vec<u32>>,
}

impl SharedMemory {
    /// As it starts: the header is noughts, and all other blocks are free.
    pub fn new(blocks: u32) -> SharedMemory {
        SharedMemory {
            header: (0..BLOCK_WORDS).map(|_| Line(AtomicU64::new(0))).collect(),
            nodes: (1..blocks).map(|_| Block([const { AtomicU64::new(0) }; BLOCK_WORDS])).collect(),
            pool: Mutex::new((1..blocks).rev().collect()),
        }
    }

    pub fn blocks(&self) -> u32 {
        self.nodes.len() as u32 + 1
    }

    #[inline]
    fn word(&self, block: u32, word: u32) -> &AtomicU64 {
        match block {
            0 => &self.header[word as usize].0,
            _ => &self.nodes[block as usize - 1].0[word as usize],
        }
    }

    #[inline]
    pub fn load(&self, block: u32, word: u32) -> u64 {
        self.word(block, word).load(Ordering::Acquire)
    }

    #[inline]
    pub fn store(&self, block: u32, word: u32, x: u64) {
        self.word(block, word).store(x, Ordering::Release);
    }

    /// What was there before.
    #[inline]
    pub fn swap(&self, block: u32, word: u32, old: u64, new: u64) -> u64 {
        let swapped = self.word(block, word).compare_exchange(old, new, Ordering::SeqCst, Ordering::SeqCst);
        swapped.unwrap_or_else(|other| other)
    }

    #[inline]
    pub fn fence(&self) {
        fence(Ordering::SeqCst);
    }

    pub fn obtain(&self) -> Option<u32> {
        self.pool.lock().expect("nobody panics with the pool's lock").pop()
    }

    pub fn release(&self, block: u32) {
        self.pool.lock().expect("nobody panics with the pool's lock").push(block);
    }

    /// A copy of the list of free blocks.
    pub fn free(&self) -> Vec<u32> {
        self.pool.lock().expect("nobody panics with the pool's lock").clone()
    }
}
