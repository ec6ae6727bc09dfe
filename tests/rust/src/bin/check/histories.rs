//! Random plays, each checked against all orders of what overlapped, and played once more by the steps one at a time on a memory in plain Rust.
use dezhavin::ages::{Oldest, oldest};
use dezhavin::linear::{Verdict, explain, widest};
use dezhavin::play::{Event, Moves, Pool};
use dezhavin::random::Random;
use dezhavin::scripts::Plan;
use dezhavin::table::{Answer, Piece};
use dezhavin::tso::{Fault, Machine};

use super::{Options, Outcome};

/// A lookup takes at most so many turns, and a change at most so many that count.
pub const MOST_OF_A_QUESTION: u64 = 13;
pub const MOST_OF_A_CHANGE: u64 = 32_768;

#[derive(Default)]
struct Totals {
    histories: u64,
    turns: u64,
    questions: u64,
    done: u64,
    full: u64,
    turned_away: u64,
    passed: u64,
    points: usize,
    widest: usize,
    oldest: Oldest,
}

impl Totals {
    fn count(&mut self, events: &[Event], points: usize, ages: Oldest) {
        self.histories += 1;
        self.points = self.points.max(points);
        self.widest = self.widest.max(widest(events));
        self.oldest.question = self.oldest.question.max(ages.question);
        self.oldest.change = self.oldest.change.max(ages.change);
        for event in events {
            match event {
                Event::Turned(_) => self.turns += 1,
                Event::Told(_, Answer::Found { .. } | Answer::Nothing) => self.questions += 1,
                Event::Told(_, Answer::Done) => self.done += 1,
                Event::Told(_, Answer::Full) => self.full += 1,
                Event::Told(_, Answer::No(_)) => self.turned_away += 1,
                Event::Asked(..) => {}
            }
        }
    }

    fn said(&self) -> String {
        let t = self;
        format!(
            "{} histories, {} turns; told {} questions, {} changes done, {} full, {} turned away; up to {} at once, {} points of one search; oldest question {} turns, change {}",
            t.histories, t.turns, t.questions, t.done, t.full, t.turned_away, t.widest, t.points, t.oldest.question, t.oldest.change
        )
    }
}

/// Is the history right: one order explains it, and everything was told in time. The points of the search, and the ages.
pub fn judge(blocks: u32, events: &[Event]) -> Result<(usize, Oldest), String> {
    let points = match explain(blocks, events) {
        Verdict::Explained(points) => points,
        verdict => return Err(format!("{verdict:?}")),
    };
    let ages = oldest(events);
    if ages.question > MOST_OF_A_QUESTION || ages.change > MOST_OF_A_CHANGE {
        return Err(format!("told too late: {ages:?}"));
    }
    Ok((points, ages))
}

/// The same moves by the steps one at a time: everything is the same, event by event.
fn played_by_steps(plan: &Plan, moves: &Moves, seed: u64, events: &[Event], held: u32) -> Result<(), String> {
    let outcome = Machine::new(plan.cpus, plan.blocks, plan.room, seed, Fault::None).play(moves)?;
    if outcome.events != events || outcome.held != held as usize {
        return Err("the steps one at a time tell another history".to_string());
    }
    Ok(())
}

fn one_history(plan: &Plan, random: &mut Random, finish: bool, totals: &mut Totals) -> Result<(), String> {
    let moves = plan.moves(random, finish);
    let mut pool = Pool::new(plan.cpus, plan.blocks, plan.room, 4_000_000, 100_000);
    pool.fill(random);
    let played = pool.play(&moves).map_err(|e| format!("{e:?}"))?;
    let events = pool.events(&played);
    if played.moves as usize != moves.words().len() {
        return Err(format!("ended after {} words of {}", played.moves, moves.words().len()));
    }
    if played.turns as usize != events.iter().filter(|e| matches!(e, Event::Turned(_))).count() {
        return Err("turns are not as many as were noted".to_string());
    }
    let (points, ages) = judge(plan.blocks, &events)?;
    played_by_steps(plan, &moves, random.draw(), &events, played.held)?;
    totals.passed += played.passed;
    totals.count(&events, points, ages);
    Ok(())
}

fn many(options: &Options, name: u64, number: u64, finish: bool, plan: impl Fn(&mut Random) -> Plan) -> Outcome {
    let mut totals = Totals::default();
    for i in 0..number {
        let seed = options.seed * 1_000_003 + name * 100_000_007 + i;
        let mut random = Random::new(seed);
        let plan = plan(&mut random);
        one_history(&plan, &mut random, finish, &mut totals).map_err(|why| format!("history {i} (seed {seed}, {plan:?}): {why}"))?;
    }
    Ok(totals.said())
}

pub fn smallest_pools(options: &Options) -> Outcome {
    many(options, 1, options.histories, true, |r| Plan::random(r, 256))
}

pub fn small_pools(options: &Options) -> Outcome {
    many(options, 2, options.histories, true, |r| {
        let blocks = 257 + r.below(444) as u32;
        Plan::random(r, blocks)
    })
}

pub fn large_pools(options: &Options) -> Outcome {
    many(options, 3, options.histories / 2, true, |r| {
        let blocks = r.pick(&[1000, 4096, 10_000, 65_536]);
        Plan::random(r, blocks)
    })
}

pub fn all_change(options: &Options) -> Outcome {
    many(options, 4, options.histories / 2, true, |r| {
        let blocks = r.pick(&[256, 300, 1000]);
        Plan::all_change(r, blocks)
    })
}

pub fn filling_up(options: &Options) -> Outcome {
    many(options, 6, options.histories, true, |r| {
        let blocks = 256 + r.below(60) as u32;
        Plan::filling_up(r, blocks)
    })
}

pub fn cut_short(options: &Options) -> Outcome {
    many(options, 5, options.histories, false, |r| {
        let blocks = r.pick(&[256, 300, 1000]);
        Plan::random(r, blocks)
    })
}

/// On a memory that does something wrongly the same histories are refused: the random moves reach what matters.
pub fn wrong_memories(options: &Options) -> Outcome {
    let mut said = Vec::new();
    for fault in [Fault::NoAnnouncement, Fault::LostStore, Fault::NewestFirst, Fault::HandedOutTwice] {
        let noticed = (0..300).filter(|&i| {
            let mut random = Random::new(options.seed * 7_000_003 + i);
            let plan = Plan::random(&mut random, 256);
            let moves = plan.moves(&mut random, true);
            let played = Machine::new(plan.cpus, plan.blocks, plan.room, random.draw(), fault).play(&moves);
            played.and_then(|outcome| judge(plan.blocks, &outcome.events)).is_err()
        });
        let noticed = noticed.count();
        if noticed == 0 {
            return Err(format!("{fault:?} was never noticed"));
        }
        said.push(format!("{fault:?} in {noticed}"));
    }
    Ok(format!("of 300 histories noticed {}", said.join(", ")))
}

/// A question has loaded the root and stands still; changes go on until they wait for it; then it goes on.
pub fn standing_still(options: &Options) -> Outcome {
    let mut totals = Totals::default();
    for turns in 0..MOST_OF_A_QUESTION {
        let address = Random::new(options.seed + turns).word();
        let mut moves = Moves::new();
        moves.change(1, &[Piece::put(32, address, 1), Piece::put(8, address & 0xff00_0000, 2)]);
        moves.go(1, 40_000);
        moves.find(0, address);
        moves.go(0, turns);
        moves.change(1, &[Piece::take(32, address)]);
        moves.go(1, 40_000);
        for i in 0..100 {
            moves.change(1, &[Piece::put(8, i << 24, i), Piece::put(32, !address, i)]);
            moves.go(1, 40_000);
        }
        moves.go(0, 32);
        moves.go(1, 40_000);
        moves.find(0, address);
        moves.go(0, 32);
        let mut pool = Pool::new(2, 256, 64, 8_000_000, 100_000);
        let played = pool.play(&moves).map_err(|e| format!("{e:?}"))?;
        let events = pool.events(&played);
        let (points, ages) = judge(256, &events).map_err(|why| format!("after {turns} turns: {why}"))?;
        totals.count(&events, points, ages);
    }
    Ok(totals.said())
}

/// A question stands still until the pool is empty and everything replaced waits in limbo; when it is told the next changes recycle and give back as much as one may.
pub fn much_to_give_back(options: &Options) -> Outcome {
    let mut random = Random::new(options.seed);
    let blocks = 20_000;
    let mut moves = Moves::new();
    let mut change = |moves: &mut Moves, tells: u32| {
        let bits = [(); 8].map(|()| random.word() & 0xf);
        let pieces: Vec<Piece> = (0..8).map(|i| Piece::put(32, i << 29 | bits[i as usize], tells)).collect();
        moves.change(15, &pieces);
        moves.go(15, 20_000);
    };
    change(&mut moves, 0);
    moves.find(0, 1 << 29);
    moves.go(0, 4);
    for tells in 1..320 {
        change(&mut moves, tells);
    }
    moves.go(0, 13);
    moves.go(15, 40_000);
    for tells in 320..330 {
        change(&mut moves, tells);
        moves.find(1, 1 << 29);
        moves.go(1, 13);
    }
    let mut pool = Pool::new(16, blocks, 64, 8_000_000, 100_000);
    let played = pool.play(&moves).map_err(|e| format!("{e:?}"))?;
    let events = pool.events(&played);
    let (points, ages) = judge(blocks, &events)?;
    if ages.change < 12_000 {
        return Err(format!("no change took long: {ages:?}"));
    }
    let mut totals = Totals::default();
    totals.count(&events, points, ages);
    Ok(totals.said())
}
