//! The shortest hall: one thread changes routes, another looks up, over words that both share.
use dezhavin::ffi::{self, ActWords, ToldWords};
use std::sync::Mutex;
use std::sync::atomic::{AtomicU64, Ordering::*, fence};

const BLOCKS: u32 = 256;
static WORDS: [AtomicU64; 48 * BLOCKS as usize] = [const { AtomicU64::new(0) }; _];
static POOL: Mutex<Vec<u32>> = Mutex::new(Vec::new());

fn perform(a: &ActWords) -> u64 {
    let word = &WORDS[(48 * a.block + a.word) as usize];
    match a.kind {
        1 => return word.load(Acquire),
        2 => word.store(a.x, Release),
        3 => fence(SeqCst),
        4 => return word.compare_exchange(a.x, a.new, SeqCst, SeqCst).unwrap_or_else(|there| there),
        5 => return POOL.lock().unwrap().pop().map_or(0, |block| u64::from(block) + 1),
        6 => POOL.lock().unwrap().push(a.block),
        _ => {}
    }
    0
}

/// Turns of processor `cpu` of two until it is told.
fn told(cpu: u32, registers: &mut [u64; 16], own: &mut [u64; 4096]) -> ToldWords {
    let (mut act, mut told) = (ActWords::default(), ToldWords::default());
    while told.kind == 0 {
        ffi::act(cpu, registers, own, &mut act).unwrap();
        ffi::after(cpu, 2, registers, own, perform(&act), &mut told).unwrap();
    }
    told
}

fn main() {
    POOL.lock().unwrap().extend(1..BLOCKS);
    let office = std::thread::spawn(|| {
        let (mut registers, mut own, mut pieces) = ([0; 16], [0; 4096], [0; 32]);
        ffi::start(&mut registers).unwrap();
        pieces[..4].copy_from_slice(&[1, 8, 0x0a00_0000, 17]); // put 0a000000/8, it tells 17
        ffi::begin_update(&mut registers, &mut own, 1, &pieces).unwrap();
        told(1, &mut registers, &mut own)
    });
    let (mut registers, mut own) = ([0; 16], [0; 4096]);
    ffi::start(&mut registers).unwrap();
    loop {
        ffi::begin_lookup(&mut registers, 0x0a01_0203).unwrap();
        let found = told(0, &mut registers, &mut own);
        if found.kind == 1 {
            println!("found by a route of length {} that tells {}", found.len, found.tells);
            break;
        }
    }
    println!("the update was told {}", office.join().unwrap().kind);
}
