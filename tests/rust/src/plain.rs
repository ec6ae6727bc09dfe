//! The same tree in plain Rust functions, without the steps: to compare with. Nothing here is proved.
use crate::ffi::BLOCK_WORDS;
use crate::memory::SharedMemory;
use crate::table::{Answer, Piece};

const ROOT: u32 = 1;
const EPOCH: u32 = 2;
const ACTIVE: u32 = 16;
const USED_WORDS: usize = 31;

/// The four bits of an address that a node of this level decides on.
#[inline]
fn four_bits(level: u32, address: u32) -> u32 {
    if level == 8 { 0 } else { address >> (28 - 4 * level) & 15 }
}

#[inline]
fn child_of(slot: u64) -> u32 {
    (slot % (1 << 20)) as u32
}

/// The walk alone. Right only while nobody gives nodes back.
#[inline]
pub fn walk(memory: &SharedMemory, address: u32) -> Answer {
    let mut node = memory.load(0, ROOT) as u32;
    let mut best = Answer::Nothing;
    let mut level = 0;
    while node != 0 {
        let slot = memory.load(node, four_bits(level, address));
        if slot >> 54 & 1 == 1 {
            best = Answer::Found { len: (4 * level + (slot >> 52 & 3) as u32) as u8, tells: (slot >> 20) as u32 };
        }
        if level == 8 {
            break;
        }
        node = child_of(slot);
        level += 1;
    }
    best
}

/// The walk between the announcement and the leaving of a lookup: what the steps do, as one function.
#[inline]
pub fn announced_walk(memory: &SharedMemory, cpu: u32, address: u32) -> Answer {
    let announced = memory.load(0, EPOCH) + 1;
    memory.swap(0, ACTIVE + cpu, 0, announced);
    let answer = walk(memory, address);
    memory.swap(0, ACTIVE + cpu, announced, 0);
    answer
}

/// Puts a route in by a copy of the nodes on its way. The nodes that it replaces are handed back; somebody must keep them until nobody reads them.
/// One at a time: the caller has a lock.
pub fn put(memory: &SharedMemory, piece: &Piece) -> Vec<u32> {
    let deep = u32::from(piece.len) / 4;
    let blocks: Vec<u32> = (0..=deep).map(|_| memory.obtain().expect("the pool is large enough")).collect();
    let mut replaced = Vec::new();
    let mut old = memory.load(0, ROOT) as u32;
    for level in 0..=deep {
        let mut words = [0; USED_WORDS];
        if old != 0 {
            (0..USED_WORDS).for_each(|word| words[word] = memory.load(old, word as u32));
            replaced.push(old);
        }
        let slot = four_bits(level, piece.bits) as usize;
        if level < deep {
            old = child_of(words[slot]);
            words[slot] = words[slot] - u64::from(old) + u64::from(blocks[level as usize + 1]);
        } else {
            set_route(&mut words, piece);
        }
        (0..USED_WORDS).for_each(|word| memory.store(blocks[level as usize], word as u32, words[word]));
    }
    memory.store(0, ROOT, u64::from(blocks[0]));
    replaced
}

/// Sets the route in the words of its node, and makes the slots anew.
fn set_route(words: &mut [u64; USED_WORDS], piece: &Piece) {
    let (level, extra) = (u32::from(piece.len) / 4, u32::from(piece.len) % 4);
    let place = four_bits(level, piece.bits) >> (4 - extra);
    words[16 + (1 << extra) - 1 + place as usize] = 1 << 32 | u64::from(piece.tells);
    for slot in 0..16 {
        let child = u64::from(child_of(words[slot]));
        let candidate = |x: usize| words[16 + (1 << x) - 1 + (slot >> (4 - x))];
        let best = (0..4).rev().find(|&x| candidate(x) != 0);
        words[slot] = best.map_or(0, |x| 1 << 54 | (x as u64) << 52 | (candidate(x) as u32 as u64) << 20) | child;
    }
}

const _: () = assert!(USED_WORDS < BLOCK_WORDS);
