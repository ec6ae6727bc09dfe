//! Checks what the plays tell against a plain table, and the functions of the static library on damaged calls.
//!
//!     check [--histories N] [--seed S] [--only WORD]
mod checker;
mod histories;
mod planted;
mod pools;
mod refusals;

use std::panic::catch_unwind;
use std::time::Instant;

/// What a test says for itself, or what went wrong.
pub type Outcome = Result<String, String>;

#[derive(Clone, Debug)]
pub struct Options {
    /// Random histories for each pool.
    histories: u64,
    seed: u64,
    /// Only the tests whose name has this in it.
    only: String,
}

struct Suite {
    options: Options,
    passed: u32,
    failed: u32,
}

impl Suite {
    fn test(&mut self, name: &str, body: fn(&Options) -> Outcome) {
        if !name.contains(&self.options.only) {
            return;
        }
        let started = Instant::now();
        let options = self.options.clone();
        let outcome = catch_unwind(|| body(&options)).unwrap_or_else(|_| Err("it panicked".to_string()));
        let seconds = started.elapsed().as_secs_f64();
        match outcome {
            Ok(said) => {
                self.passed += 1;
                println!("ok      {name} ({seconds:.1} s): {said}");
            }
            Err(why) => {
                self.failed += 1;
                println!("FAILED  {name} ({seconds:.1} s): {why}");
            }
        }
    }
}

fn options() -> Result<Options, String> {
    let mut options = Options { histories: 1000, seed: 1, only: String::new() };
    let mut words = std::env::args().skip(1);
    while let Some(name) = words.next() {
        let value = words.next().ok_or(format!("{name} wants a value"))?;
        match name.as_str() {
            "--histories" => options.histories = value.parse().map_err(|_| format!("{value} is no number"))?,
            "--seed" => options.seed = value.parse().map_err(|_| format!("{value} is no number"))?,
            "--only" => options.only = value,
            _ => return Err(format!("check [--histories N] [--seed S] [--only WORD], not {name}")),
        }
    }
    Ok(options)
}

fn main() {
    let options = options().unwrap_or_else(|why| {
        eprintln!("{why}");
        std::process::exit(2);
    });
    let mut suite = Suite { options, passed: 0, failed: 0 };
    suite.test("table: the rules", checker::table_rules);
    suite.test("checker: says yes", checker::says_yes);
    suite.test("checker: says no", checker::says_no);
    suite.test("checker: counts turns", checker::counts_turns);
    suite.test("planted: stale answer", planted::stale_answers);
    suite.test("planted: half a change", planted::half_changes);
    suite.test("planted: lost route", planted::lost_routes);
    suite.test("planted: full with room left", planted::full_with_room);
    suite.test("planted: change told wrongly", planted::wrong_changes);
    suite.test("planted: memories that are wrong", histories::wrong_memories);
    suite.test("histories: pools of 256", histories::smallest_pools);
    suite.test("histories: pools of 257 to 700", histories::small_pools);
    suite.test("histories: pools of 1,000 to 65,536", histories::large_pools);
    suite.test("histories: sixteen that change", histories::all_change);
    suite.test("histories: pools that fill up", histories::filling_up);
    suite.test("histories: cut short", histories::cut_short);
    suite.test("histories: a question stands still", histories::standing_still);
    suite.test("histories: much to give back", histories::much_to_give_back);
    suite.test("pools: every size", pools::every_size);
    suite.test("pools: fills up and has room again", pools::fills_up);
    suite.test("pools: fills up to the last blocks", pools::fills_up_to_the_last_blocks);
    suite.test("pools: 500 routes in turn", pools::in_turn);
    suite.test("pools: 100,000 routes", pools::hundred_thousand);
    suite.test("refusals: play", refusals::play);
    suite.test("refusals: journal full", refusals::journal_full);
    suite.test("refusals: beginnings", refusals::beginnings);
    suite.test("refusals: act", refusals::act);
    suite.test("refusals: after", refusals::after);
    suite.test("refusals: registers damaged at random", refusals::damaged_at_random);
    println!("{} passed, {} failed", suite.passed, suite.failed);
    if suite.failed > 0 {
        std::process::exit(1);
    }
}
