//! The benchmarks, with the same tree under crossbeam-epoch beside: lookups are pinned, and replaced nodes go back to the pool when nobody is pinned any more who could read them.
use std::sync::{Arc, Mutex};

use crossbeam_epoch as epoch;
use dezhavin::bench::{Scheme, sum};
use dezhavin::memory::SharedMemory;
use dezhavin::plain;
use dezhavin::table::Piece;

#[derive(Default)]
struct Pinned {
    writer: Mutex<()>,
}

impl Scheme for Pinned {
    fn name(&self) -> &'static str {
        "crossbeam-epoch"
    }

    fn lookups(&self, memory: &Arc<SharedMemory>, _: u32, addresses: &[u32]) -> u64 {
        sum(addresses, |&a| {
            let _pinned = epoch::pin();
            plain::walk(memory, a)
        })
    }

    fn puts(&self, memory: &Arc<SharedMemory>, _: u32, pieces: &[Piece]) -> bool {
        for piece in pieces {
            let _writes = self.writer.lock().expect("nobody panics with the lock");
            let pinned = epoch::pin();
            let replaced = plain::put(memory, piece);
            let memory = Arc::clone(memory);
            pinned.defer(move || replaced.into_iter().for_each(|block| memory.release(block)));
        }
        true
    }
}

fn main() {
    dezhavin::report::main(Some(&Pinned::default()));
}
