//! Runs all benchmarks and prints them as tables; `--svg FILE` draws them.
use std::time::Duration;

use crate::bench::{Announced, Changes, Filled, Locked, Rates, Scheme, Steps, Unprotected, alone, changes, hall, median, turns_of_a_lookup};
use crate::svg::{Chart, picture};

const SIZES: [usize; 4] = [100, 1_000, 10_000, 100_000];
const PIECES: [usize; 4] = [1, 2, 4, 8];
const BELTS: [u32; 3] = [1, 2, 4];
const ADDRESSES: usize = 100_000;

pub struct Options {
    svg: Option<String>,
    /// How much of everything: 1 for a look, 5 for figures to keep.
    rounds: usize,
}

impl Options {
    pub fn from_words(mut words: impl Iterator<Item = String>) -> Result<Options, String> {
        let mut options = Options { svg: None, rounds: 5 };
        while let Some(name) = words.next() {
            let value = words.next().ok_or(format!("{name} wants a value"))?;
            match name.as_str() {
                "--svg" => options.svg = Some(value),
                "--rounds" => options.rounds = value.parse().map_err(|_| format!("{value} is no number"))?,
                _ => return Err(format!("bench [--rounds N] [--svg FILE], not {name}")),
            }
        }
        Ok(options)
    }
}

fn millions(x: f64) -> String {
    format!("{:.2}", x / 1e6)
}

fn row(cells: &[String]) {
    println!("| {} |", cells.join(" | "));
}

fn head(cells: &[String]) {
    row(cells);
    println!("|{}", "---|".repeat(cells.len()));
}

fn strings(cells: &[&str]) -> Vec<String> {
    cells.iter().map(|c| c.to_string()).collect()
}

fn routes(size: usize) -> String {
    format!("{size} routes")
}

/// One thread, no changes.
fn lookups_alone(schemes: &[&dyn Scheme], rounds: usize) -> Chart {
    println!("\n### Lookups of one thread, millions a second\n");
    let mut names = strings(&["routes"]);
    names.extend(schemes.iter().map(|s| s.name().to_string()));
    names.extend(strings(&["time, unprotected : announced : steps", "turns of a lookup by the steps", "ns a turn"]));
    head(&names);
    let mut rows: Vec<(String, Vec<f64>)> = schemes.iter().map(|s| (s.name().to_string(), Vec::new())).collect();
    for size in SIZES {
        let filled = Filled::new(size, ADDRESSES);
        let seen = alone(&filled, schemes, 4 * rounds);
        let turns = turns_of_a_lookup(&filled);
        let mut cells = vec![size.to_string()];
        cells.extend(seen.iter().map(|x| millions(*x)));
        cells.extend([format!("1 : {:.1} : {:.1}", seen[0] / seen[1], seen[0] / seen[2]), format!("{turns:.1}"), format!("{:.0}", 1e9 / seen[2] / turns)]);
        row(&cells);
        rows.iter_mut().zip(seen).for_each(|(r, x)| r.1.push(x));
    }
    Chart { title: "Lookups a second, one thread".to_string(), groups: SIZES.map(routes).to_vec(), rows }
}

/// One thread, no lookups.
fn changes_alone(rounds: usize) -> Chart {
    println!("\n### Changes of one thread by the proved steps: a second, and turns of each\n");
    let mut names = strings(&["routes"]);
    names.extend(PIECES.map(|p| format!("{p} piece{}", if p == 1 { "" } else { "s" })));
    head(&names);
    let mut rows: Vec<(String, Vec<f64>)> = SIZES.iter().map(|s| (routes(*s), Vec::new())).collect();
    for (size, kept) in SIZES.iter().zip(&mut rows) {
        let filled = Filled::new(*size, 1);
        let mut cells = vec![size.to_string()];
        for pieces in PIECES {
            let seen: Vec<Changes> = (0..rounds).map(|_| changes(&filled, pieces, Duration::from_millis(200))).collect();
            let each_second = median(seen.iter().map(|c| c.each_second).collect());
            let turns = median(seen.iter().map(|c| c.turns).collect());
            cells.push(format!("{each_second:.0} ({turns:.0} turns)"));
            kept.1.push(each_second);
        }
        row(&cells);
    }
    Chart { title: "Changes a second by the proved steps, one thread".to_string(), groups: PIECES.map(|p| format!("{p} in one change")).to_vec(), rows }
}

fn rates(filled: &Filled, scheme: &dyn Scheme, belts: u32, office: bool, rounds: usize) -> Rates {
    let seen: Vec<Rates> = (0..rounds).map(|_| hall(filled, scheme, belts, office, Duration::from_millis(600))).collect();
    Rates { lookups: median(seen.iter().map(|r| r.lookups).collect()), changes: median(seen.iter().map(|r| r.changes).collect()) }
}

/// Belts alone, and belts while an office changes routes without pause, in 10,000 routes.
fn scaling(schemes: &[&dyn Scheme], rounds: usize) -> Chart {
    println!("\n### Belts at the same time, 10,000 routes: millions of lookups a second in all, and changes a second\n");
    let mut names = strings(&["belts"]);
    for scheme in schemes {
        names.push(format!("{}, no changes", scheme.name()));
        names.push(format!("{}, changes go on", scheme.name()));
    }
    head(&names);
    let mut rows: Vec<(String, Vec<f64>)> = Vec::new();
    schemes.iter().for_each(|s| rows.extend([(s.name().to_string(), Vec::new()), (format!("{} + office", s.name()), Vec::new())]));
    for belts in BELTS {
        let mut cells = vec![belts.to_string()];
        for (i, scheme) in schemes.iter().enumerate() {
            let filled = Filled::new(10_000, ADDRESSES);
            let (quiet, busy) = (rates(&filled, *scheme, belts, false, rounds), rates(&filled, *scheme, belts, true, rounds));
            cells.extend([millions(quiet.lookups), format!("{} ({:.0})", millions(busy.lookups), busy.changes)]);
            rows[2 * i].1.push(quiet.lookups);
            rows[2 * i + 1].1.push(busy.lookups);
        }
        row(&cells);
    }
    let groups = BELTS.map(|b| format!("{b} belt{}", if b == 1 { "" } else { "s" })).to_vec();
    Chart { title: "Lookups a second of all belts, 10,000 routes".to_string(), groups, rows }
}

/// The benchmarks of this project, and of one way more where there is one.
pub fn run(options: &Options, more: Option<&dyn Scheme>) -> std::io::Result<()> {
    let (steps, locked) = (Steps { cpus: 5 }, Locked::default());
    let mut all: Vec<&dyn Scheme> = vec![&Unprotected, &Announced, &steps, &locked];
    let mut changing: Vec<&dyn Scheme> = vec![&steps, &locked];
    all.extend(more);
    changing.extend(more);
    let charts = [lookups_alone(&all, options.rounds), scaling(&changing, options.rounds), changes_alone(options.rounds)];
    match &options.svg {
        Some(file) => std::fs::write(file, picture(&charts)),
        None => Ok(()),
    }
}

/// The program, with one way more where there is one.
pub fn main(more: Option<&dyn Scheme>) {
    let options = Options::from_words(std::env::args().skip(1)).unwrap_or_else(|why| {
        eprintln!("{why}");
        std::process::exit(2);
    });
    if let Err(why) = run(&options, more) {
        eprintln!("the picture: {why}");
        std::process::exit(1);
    }
}
