//! The functions of the static library, and safe Rust over them. Nothing else in this project calls them.
//!
//! A slice is a pointer and then a length. Every function gives back 0, or a number that says why it refused; then it has touched nothing.

pub const REGISTERS: usize = 16;
pub const OWN_WORDS: usize = 4096;
pub const BLOCK_WORDS: usize = 48;
pub const PIECE_WORDS: usize = 32;
pub const MOST_CPUS: u32 = 16;

/// What a turn asks of the memory: kind 0 pause, 1 load, 2 store, 3 fence, 4 swap, 5 obtain, 6 release.
#[repr(C)]
#[derive(Clone, Copy, Debug, Default, PartialEq, Eq)]
pub struct ActWords {
    pub kind: u32,
    pub block: u32,
    pub word: u32,
    pub spare: u32,
    /// What is stored; of a swap what must be there.
    pub x: u64,
    /// Of a swap what comes there instead.
    pub new: u64,
}

/// What was told: kind 0 not yet, 1 found, 2 nothing, 3 done, 4 full, 5 no (by the number in `len`).
#[repr(C)]
#[derive(Clone, Copy, Debug, Default, PartialEq, Eq)]
pub struct ToldWords {
    pub kind: u32,
    pub len: u32,
    pub tells: u32,
    pub spare: u32,
}

/// A place for a store that has not arrived.
#[repr(C)]
#[derive(Clone, Copy, Debug, Default, PartialEq, Eq)]
pub struct LateStore {
    pub block: u32,
    pub word: u32,
    pub x: u64,
}

/// How far a play came.
#[repr(C)]
#[derive(Clone, Copy, Debug, Default, PartialEq, Eq)]
pub struct Played {
    /// Words of the list of moves that were read.
    pub moves: u64,
    pub turns: u64,
    pub events: u64,
    pub notes: u64,
    /// Questions and changes passed over, since their processor had something under way.
    pub passed: u64,
    /// Blocks held at the end.
    pub held: u32,
    pub spare: u32,
}

/// The number by which a call was refused.
#[derive(Clone, Copy, Debug, PartialEq, Eq)]
pub struct Refused(pub u32);

mod raw {
    use super::{ActWords, LateStore, Played, ToldWords};

    unsafe extern "C" {
        pub fn dezhavin_start(registers: *mut u64, n: usize) -> u32;
        pub fn dezhavin_begin_lookup(registers: *mut u64, n: usize, address: u32) -> u32;
        pub fn dezhavin_begin_update(registers: *mut u64, n: usize, own: *mut u64, m: usize, size: u32, pieces: *const u64, k: usize) -> u32;
        pub fn dezhavin_act(cpu: u32, registers: *const u64, n: usize, own: *const u64, m: usize, out: *mut ActWords) -> u32;
        pub fn dezhavin_after(cpu: u32, cpus: u32, registers: *mut u64, n: usize, own: *mut u64, m: usize, reply: u64, out: *mut ToldWords) -> u32;
        pub fn dezhavin_play(
            cpus: u32,
            blocks: u32,
            words: *mut u64,
            words_len: usize,
            held: *mut bool,
            held_len: usize,
            free: *mut u32,
            free_len: usize,
            late: *mut LateStore,
            late_len: usize,
            own: *mut u64,
            own_len: usize,
            moves: *const u64,
            moves_len: usize,
            kinds: *mut u8,
            kinds_len: usize,
            notes: *mut u64,
            notes_len: usize,
            out: *mut Played,
        ) -> u32;
    }
}

fn result(number: u32) -> Result<(), Refused> {
    if number == 0 { Ok(()) } else { Err(Refused(number)) }
}

/// Registers as a processor starts.
pub fn start(registers: &mut [u64]) -> Result<(), Refused> {
    // SAFETY: pointer and length are of one slice that is lent for the call; so in all functions here.
    result(unsafe { raw::dezhavin_start(registers.as_mut_ptr(), registers.len()) })
}

pub fn begin_lookup(registers: &mut [u64], address: u32) -> Result<(), Refused> {
    result(unsafe { raw::dezhavin_begin_lookup(registers.as_mut_ptr(), registers.len(), address) })
}

/// `pieces`: for each of eight whether it puts, its length, its bits, what it tells; the first `size` count.
pub fn begin_update(registers: &mut [u64], own: &mut [u64], size: u32, pieces: &[u64]) -> Result<(), Refused> {
    result(unsafe { raw::dezhavin_begin_update(registers.as_mut_ptr(), registers.len(), own.as_mut_ptr(), own.len(), size, pieces.as_ptr(), pieces.len()) })
}

/// What the next turn of a processor asks of the memory.
#[inline]
pub fn act(cpu: u32, registers: &[u64], own: &[u64], out: &mut ActWords) -> Result<(), Refused> {
    result(unsafe { raw::dezhavin_act(cpu, registers.as_ptr(), registers.len(), own.as_ptr(), own.len(), out) })
}

/// Ends the turn by what the memory replied.
#[inline]
pub fn after(cpu: u32, cpus: u32, registers: &mut [u64], own: &mut [u64], reply: u64, out: &mut ToldWords) -> Result<(), Refused> {
    result(unsafe { raw::dezhavin_after(cpu, cpus, registers.as_mut_ptr(), registers.len(), own.as_mut_ptr(), own.len(), reply, out) })
}

/// What is lent to a play.
pub struct Lent<'a> {
    pub words: &'a mut [u64],
    pub held: &'a mut [bool],
    pub free: &'a mut [u32],
    pub late: &'a mut [LateStore],
    pub own: &'a mut [u64],
    pub kinds: &'a mut [u8],
    pub notes: &'a mut [u64],
}

/// Plays a list of moves from a fresh start.
pub fn play(cpus: u32, blocks: u32, lent: &mut Lent<'_>, moves: &[u64], out: &mut Played) -> Result<(), Refused> {
    result(unsafe {
        raw::dezhavin_play(
            cpus,
            blocks,
            lent.words.as_mut_ptr(),
            lent.words.len(),
            lent.held.as_mut_ptr(),
            lent.held.len(),
            lent.free.as_mut_ptr(),
            lent.free.len(),
            lent.late.as_mut_ptr(),
            lent.late.len(),
            lent.own.as_mut_ptr(),
            lent.own.len(),
            moves.as_ptr(),
            moves.len(),
            lent.kinds.as_mut_ptr(),
            lent.kinds.len(),
            lent.notes.as_mut_ptr(),
            lent.notes.len(),
            out,
        )
    })
}
