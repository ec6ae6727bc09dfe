//! The proved steps on real threads, every answer checked.
//!
//!     threads [--seconds N] [--seed S]
//!
//! Some seconds for each hall by default. First, faults are planted, to see that they are noticed.
use std::time::Duration;

use dezhavin::stress::{Fault, Report, Setting, run};

fn number(words: &mut impl Iterator<Item = String>, name: &str) -> u64 {
    let value = words.next().and_then(|word| word.parse().ok());
    value.unwrap_or_else(|| usage(&format!("{name} wants a number")))
}

fn usage(why: &str) -> ! {
    eprintln!("threads [--seconds N] [--seed S]: {why}");
    std::process::exit(2);
}

fn halls(time: Duration, seed: u64) -> Vec<(&'static str, Setting)> {
    let hall = |blocks, belts, offices, groups, stalls| Setting { blocks, belts, offices, groups, time, stalls, fault: Fault::None, seed };
    vec![
        ("one belt, one office", hall(4096, 1, 1, 8, u64::MAX)),
        ("large pool", hall(65_536, 3, 1, 200, 10_000)),
        ("lookups stand still", hall(1000, 4, 2, 5, 300)),
        ("pool that fills up", hall(256, 3, 2, 22, 3000)),
        ("sixteen processors", hall(4096, 12, 4, 8, 3000)),
    ]
}

fn said(report: &Report) -> String {
    let r = report;
    format!(
        "{} lookups ({} while an update was under way, at most {} turns), {} updates, {} full; {} blocks got, {} given back, {} recycled, none lost",
        r.lookups, r.overlapped, r.most_turns, r.updates, r.full, r.obtained, r.released, r.recycled
    )
}

/// Faults that are planted one after the other, each in a hall of its own.
fn faults(seed: u64) -> Vec<(&'static str, Setting)> {
    let faults =
        [("planted: no announcement", Fault::NoAnnouncement), ("planted: torn update", Fault::TornUpdate), ("planted: stale answer", Fault::StaleAnswer)];
    let setting = |fault| Setting { blocks: 512, belts: 3, offices: 1, groups: 2, time: Duration::from_secs(20), stalls: 100, fault, seed };
    faults.map(|(name, fault)| (name, setting(fault))).to_vec()
}

fn main() {
    let (mut seconds, mut seed) = (3, 1);
    let mut words = std::env::args().skip(1);
    while let Some(name) = words.next() {
        match name.as_str() {
            "--seconds" => seconds = number(&mut words, &name),
            "--seed" => seed = number(&mut words, &name),
            _ => usage(&format!("not {name}")),
        }
    }
    let (mut passed, mut failed) = (0, 0);
    let mut judge = |name: &str, wanted: bool, said: String| {
        *if wanted { &mut passed } else { &mut failed } += 1;
        println!("{}  {name}: {said}", if wanted { "ok    " } else { "FAILED" });
    };
    std::panic::set_hook(Box::new(|_| {}));
    for (name, setting) in faults(seed) {
        match run(setting).wrong.first() {
            Some(wrong) => judge(name, true, format!("noticed: {wrong}")),
            None => judge(name, false, "not noticed".to_string()),
        }
    }
    for (name, setting) in halls(Duration::from_secs(seconds), seed) {
        let report = run(setting);
        match report.wrong.first() {
            None => judge(name, true, said(&report)),
            Some(wrong) => judge(name, false, wrong.clone()),
        }
    }
    println!("{passed} passed, {failed} failed");
    if failed > 0 {
        std::process::exit(1);
    }
}
