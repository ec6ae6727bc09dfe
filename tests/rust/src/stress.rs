//! Belts look up without pause while offices change routes, all on one memory, and every answer is checked.
//!
//! Routes are in groups: eight prefixes of one address. A group has a version, and the version says which of its routes are there; all of them tell it. An update takes a
//! group to its next version in one moment, so an answer that tells version v has the longest length of v that fits, and v was the table's at one moment of the lookup.
use std::sync::Mutex;
use std::sync::atomic::{AtomicBool, AtomicU32, AtomicU64, Ordering};
use std::time::{Duration, Instant};

use crate::ffi::{ActWords, BLOCK_WORDS};
use crate::memory::SharedMemory;
use crate::random::Random;
use crate::runner::{Processor, Watch};
use crate::table::{Answer, Piece, prefix_of};

/// The first eight bits are the group's number, so that no two groups share a prefix.
const LENGTHS: [u8; 8] = [8, 10, 12, 15, 20, 23, 28, 32];

/// No word of a node is ever this: slots have 55 bits, routes 33, blocks 20, and epochs are far below.
const POISON: u64 = 0xdead_beef_dead_beef;

/// What is done wrongly on purpose, to see that it is noticed.
#[derive(Clone, Copy, Debug, PartialEq, Eq)]
pub enum Fault {
    None,
    /// Lookups do not announce themselves.
    NoAnnouncement,
    /// An update's pieces are made by two updates.
    TornUpdate,
    /// Now and then a belt gives the answer that it got before for the same address.
    StaleAnswer,
}

#[derive(Clone, Copy, Debug)]
pub struct Setting {
    pub blocks: u32,
    pub belts: u32,
    pub offices: u32,
    /// Groups of routes of each office.
    pub groups: u32,
    pub time: Duration,
    /// One lookup in so many stands still for a millisecond in its midst.
    pub stalls: u64,
    pub fault: Fault,
    pub seed: u64,
}

/// Which of the eight routes of a group are there in a version.
fn shape(group: usize, version: u32) -> u8 {
    if version == 0 {
        return 0;
    }
    let mixed = Random::new(((group as u64) << 32) + u64::from(version)).draw();
    (mixed >> 20) as u8
}

struct Group {
    address: u32,
    /// The latest version of an update that was told done.
    finished: AtomicU32,
    /// The latest version that an update has begun to make.
    started: AtomicU32,
    /// The latest version that a belt has seen.
    seen: AtomicU32,
}

impl Group {
    /// What is found for the group's address with other bits from `fits` on.
    fn expected(&self, number: usize, version: u32, fits: u8) -> Answer {
        let there = shape(number, version);
        let found = (0..8).rev().find(|&i| there & 1 << i != 0 && LENGTHS[i] <= fits);
        found.map_or(Answer::Nothing, |i| Answer::Found { len: LENGTHS[i], tells: version })
    }

    fn pieces(&self, number: usize, version: u32) -> Vec<Piece> {
        let (before, after) = (shape(number, version - 1), shape(number, version));
        let piece = |i: usize| {
            let (len, bits) = (LENGTHS[i], prefix_of(self.address, LENGTHS[i]));
            match (before & 1 << i != 0, after & 1 << i != 0) {
                (_, true) => Some(Piece::put(len, bits, version)),
                (true, false) => Some(Piece::take(len, bits)),
                (false, false) => None,
            }
        };
        (0..8).filter_map(piece).collect()
    }
}

/// Looks at every access: nobody touches a block that is in the pool, and a block goes there once.
struct Guard {
    held: Vec<AtomicBool>,
    fault: Fault,
    obtained: AtomicU64,
    empty: AtomicU64,
    released: AtomicU64,
    wrong: Mutex<Vec<String>>,
    stop: AtomicBool,
}

impl Guard {
    fn new(blocks: u32, fault: Fault) -> Guard {
        let held: Vec<AtomicBool> = (0..blocks).map(|b| AtomicBool::new(b == 0)).collect();
        let zero = || AtomicU64::new(0);
        Guard { held, fault, obtained: zero(), empty: zero(), released: zero(), wrong: Mutex::new(Vec::new()), stop: AtomicBool::new(false) }
    }

    fn says(&self, what: String) {
        self.wrong.lock().expect("nobody panics with this lock").push(what);
        self.stop.store(true, Ordering::SeqCst);
    }

    fn stopped(&self) -> bool {
        self.stop.load(Ordering::Relaxed)
    }
}

impl Watch for Guard {
    fn swap(&self, memory: &SharedMemory, act: &ActWords) -> u64 {
        if self.fault == Fault::NoAnnouncement && act.word >= 16 {
            return act.x;
        }
        memory.swap(act.block, act.word, act.x, act.new)
    }

    /// After a load: the block is still held, since whoever reads it has not left yet.
    fn touched(&self, block: u32, word: u32, x: u64) {
        if x == POISON || !self.held[block as usize].load(Ordering::SeqCst) {
            self.says(format!("word {word} of block {block} was touched, which is in the pool"));
        }
    }

    fn obtained(&self, _: &SharedMemory, block: Option<u32>) {
        match block {
            None => drop(self.empty.fetch_add(1, Ordering::Relaxed)),
            Some(block) => {
                self.obtained.fetch_add(1, Ordering::Relaxed);
                if self.held[block as usize].swap(true, Ordering::SeqCst) {
                    self.says(format!("block {block} was got, which is held"));
                }
            }
        }
    }

    fn released(&self, memory: &SharedMemory, block: u32) {
        self.released.fetch_add(1, Ordering::Relaxed);
        if block == 0 || !self.held[block as usize].swap(false, Ordering::SeqCst) {
            self.says(format!("block {block} was given back, which is not held"));
        }
        (0..BLOCK_WORDS as u32).for_each(|word| memory.store(block, word, POISON));
    }
}

#[derive(Clone, Debug, Default)]
pub struct Report {
    pub lookups: u64,
    /// Lookups whose answer could only be right because the table changed while they were under way, or was about to.
    pub overlapped: u64,
    pub updates: u64,
    pub full: u64,
    pub obtained: u64,
    pub released: u64,
    /// Nodes that went from limbo straight to another update, since the pool was empty.
    pub recycled: u64,
    pub most_turns: u64,
    pub wrong: Vec<String>,
}

struct Hall<'a> {
    setting: Setting,
    memory: &'a SharedMemory,
    guard: &'a Guard,
    groups: &'a [Group],
}

impl Hall<'_> {
    fn cpus(&self) -> u32 {
        self.setting.belts + self.setting.offices
    }

    /// A thread that panics may leave others waiting, so it ends the program; but where a fault is planted, and no other waits, it is noted.
    fn caught(&self, thread: impl FnOnce() -> Report) -> Report {
        std::panic::catch_unwind(std::panic::AssertUnwindSafe(thread)).unwrap_or_else(|_| {
            if self.setting.fault == Fault::None {
                println!("FAILED  a thread panicked: {:?}", self.setting);
                std::process::exit(1);
            }
            self.guard.says("a thread panicked".to_string());
            Report::default()
        })
    }

    fn belt(&self, number: u32, end: Instant) -> Report {
        let mut cpu = Processor::new(number, self.cpus(), self.memory, self.guard);
        let mut random = Random::new(self.setting.seed + u64::from(number));
        let mut report = Report::default();
        let mut before = vec![Answer::Nothing; self.groups.len()];
        while !self.guard.stopped() && (report.lookups % 64 != 0 || Instant::now() < end) {
            let group = random.below(self.groups.len() as u64) as usize;
            self.one_lookup(&mut cpu, group, &mut random, &mut before, &mut report);
        }
        report
    }

    /// One lookup of a group's address, or of one that differs from it behind some bit.
    fn one_lookup(&self, cpu: &mut Processor<Guard>, number: usize, random: &mut Random, before: &mut [Answer], report: &mut Report) {
        let group = &self.groups[number];
        let fits = if random.one_in(2) { 32 } else { 8 + random.below(24) as u8 };
        let address = if fits == 32 { group.address } else { group.address ^ (0x8000_0000 >> fits) };
        let oldest = group.finished.load(Ordering::SeqCst).max(group.seen.load(Ordering::SeqCst));
        let turns = cpu.turns;
        let mut answer = self.answered(cpu, address, random);
        report.most_turns = report.most_turns.max(cpu.turns - turns);
        let newest = group.started.load(Ordering::SeqCst);
        if fits == 32 {
            let kept = std::mem::replace(&mut before[number], answer);
            if self.setting.fault == Fault::StaleAnswer && random.one_in(1000) {
                answer = kept;
            }
        }
        report.lookups += 1;
        report.overlapped += u64::from(oldest < newest);
        let right = match answer {
            Answer::Found { tells, .. } => {
                group.seen.fetch_max(tells, Ordering::SeqCst);
                (oldest..=newest).contains(&tells) && group.expected(number, tells, fits) == answer
            }
            _ => (oldest..=newest).any(|version| group.expected(number, version, fits) == answer),
        };
        if !right {
            self.guard.says(format!("{address:08x} (group {number}, fits {fits}) was told {answer:?}, with versions {oldest} to {newest}"));
        }
    }

    /// A lookup; now and then it stands still after some of its turns.
    fn answered(&self, cpu: &mut Processor<Guard>, address: u32, random: &mut Random) -> Answer {
        let stands = if random.one_in(self.setting.stalls) { random.below(13) } else { 99 };
        cpu.begin_lookup(address);
        for turn in 0.. {
            if turn == stands {
                std::thread::sleep(Duration::from_millis(1));
            }
            if let (_, Some(answer)) = cpu.turn() {
                return answer;
            }
        }
        unreachable!("a lookup ends")
    }

    fn office(&self, office: u32, end: Instant) -> Report {
        let mut cpu = Processor::new(self.setting.belts + office, self.cpus(), self.memory, self.guard);
        let mut random = Random::new(self.setting.seed + 1000 + u64::from(office));
        let mut report = Report::default();
        while !self.guard.stopped() && Instant::now() < end {
            let number = (office * self.setting.groups) as u64 + random.below(u64::from(self.setting.groups));
            self.one_update(&mut cpu, number as usize, &mut report);
        }
        report
    }

    /// The group's next version.
    fn one_update(&self, cpu: &mut Processor<Guard>, number: usize, report: &mut Report) {
        let group = &self.groups[number];
        let version = group.finished.load(Ordering::SeqCst) + 1;
        let pieces = group.pieces(number, version);
        if pieces.is_empty() {
            group.started.store(version, Ordering::SeqCst);
            group.finished.store(version, Ordering::SeqCst);
            return;
        }
        group.started.store(version, Ordering::SeqCst);
        let answer = match self.setting.fault {
            Fault::TornUpdate if pieces.len() > 1 => {
                cpu.update(&pieces[..1]);
                cpu.update(&pieces[1..])
            }
            _ => cpu.update(&pieces),
        };
        match answer {
            Answer::Done => {
                report.updates += 1;
                group.finished.store(version, Ordering::SeqCst);
            }
            Answer::Full if self.may_fill_up() => {
                report.full += 1;
                group.started.store(version - 1, Ordering::SeqCst);
            }
            _ => self.guard.says(format!("an update of group {number} to version {version} was told {answer:?}")),
        }
    }

    /// By the rule for full, with as many routes as there may be at most.
    fn may_fill_up(&self) -> bool {
        192 + 10 * 8 * self.groups.len() > self.setting.blocks as usize
    }

    /// Every block is in one place: the header, the tree, limbo, or the pool.
    fn count_blocks(&self) {
        let mut places = vec![0u32; self.setting.blocks as usize];
        places[0] += 1;
        let mut nodes: Vec<u32> = vec![self.memory.load(0, 1) as u32];
        while let Some(node) = nodes.pop() {
            if node != 0 {
                places[node as usize] += 1;
                nodes.extend((0..16).map(|slot| (self.memory.load(node, slot) % (1 << 20)) as u32));
            }
        }
        let mut limbo = self.memory.load(0, 3) as u32;
        while limbo != 0 {
            places[limbo as usize] += 1;
            limbo = self.memory.load(limbo, 32) as u32;
        }
        self.memory.free().iter().for_each(|&block| places[block as usize] += 1);
        for (block, many) in places.iter().enumerate().filter(|(_, many)| **many != 1) {
            self.guard.says(format!("block {block} is in {many} places at the end"));
        }
    }

    /// All routes are taken out by one processor; then the header and an empty root are all that is held.
    fn empty(&self) {
        let mut cpu = Processor::new(0, self.cpus(), self.memory, self.guard);
        let mut routes: Vec<(u8, u32)> = Vec::new();
        for (number, group) in self.groups.iter().enumerate() {
            let there = shape(number, group.finished.load(Ordering::SeqCst));
            routes.extend((0..8).filter(|i| there & 1 << i != 0).map(|i| (LENGTHS[i], prefix_of(group.address, LENGTHS[i]))));
        }
        routes.sort_unstable();
        for (len, bits) in routes {
            let answer = cpu.update(&[Piece::take(len, bits)]);
            if answer != Answer::Done {
                self.guard.says(format!("a take at the end was told {answer:?}"));
            }
        }
        let held = self.setting.blocks as usize - self.memory.free().len();
        if held > 2 {
            self.guard.says(format!("{held} blocks are held when all routes are taken out"));
        }
    }
}

/// Runs a hall for its time.
pub fn run(setting: Setting) -> Report {
    let memory = SharedMemory::new(setting.blocks);
    let guard = Guard::new(setting.blocks, setting.fault);
    let mut random = Random::new(setting.seed);
    let zero = || AtomicU32::new(0);
    assert!(setting.offices * setting.groups <= 256, "at most 256 groups");
    let groups: Vec<Group> = (0..setting.offices * setting.groups)
        .map(|i| Group { address: i << 24 | random.word() >> 8, finished: zero(), started: zero(), seen: zero() })
        .collect();
    let hall = Hall { setting, memory: &memory, guard: &guard, groups: &groups };
    let end = Instant::now() + setting.time;
    let reports: Vec<Report> = std::thread::scope(|threads| {
        let hall = &hall;
        let offices = (0..setting.offices).map(|office| threads.spawn(move || hall.caught(|| hall.office(office, end))));
        let belts: Vec<_> = (0..setting.belts).map(|belt| threads.spawn(move || hall.caught(|| hall.belt(belt, end)))).collect();
        let all: Vec<_> = offices.chain(belts).collect();
        all.into_iter().map(|thread| thread.join().expect("panics are caught")).collect()
    });
    if !guard.stopped() {
        hall.count_blocks();
        hall.empty();
        hall.count_blocks();
    }
    sum(&reports, guard)
}

fn sum(reports: &[Report], guard: Guard) -> Report {
    let total = |of: fn(&Report) -> u64| reports.iter().map(of).sum();
    let full = total(|r| r.full);
    Report {
        lookups: total(|r| r.lookups),
        overlapped: total(|r| r.overlapped),
        updates: total(|r| r.updates),
        full,
        obtained: guard.obtained.into_inner(),
        released: guard.released.into_inner(),
        recycled: guard.empty.into_inner() - full,
        most_turns: reports.iter().map(|r| r.most_turns).max().unwrap_or(0),
        wrong: guard.wrong.into_inner().expect("nobody panics with this lock"),
    }
}
