//! Whether one table explains a history: every operation took effect in one moment between its asking and its being told.
//!
//! A search over all orders of what overlapped, after Wing and Gong, that never looks twice at the same point of the history with the same
//! operations taken and the same table.
use std::collections::HashSet;

use crate::play::{Ask, Event};
use crate::table::{Answer, Table, may_be_full};

#[derive(Clone, Debug, PartialEq, Eq)]
pub enum Verdict {
    /// One order explains everything; so many points were looked at.
    Explained(usize),
    /// No order does; the furthest event that could not be explained.
    Refused(usize),
    /// The search was given up.
    TooWide,
}

const MOST_POINTS: usize = 4_000_000;

struct Operation<'a> {
    ask: &'a Ask,
    /// None where the history ends before it is told.
    told: Option<(usize, Answer)>,
}

impl Operation<'_> {
    /// Changes the table when it takes effect: it was told done, or was not told and may have been.
    fn has_effect(&self) -> bool {
        matches!((self.ask, self.told), (Ask::Change(..), None | Some((_, Answer::Done))))
    }

    /// Of one that changes nothing: is its answer right for this table.
    fn is_right(&self, table: &Table, blocks: u32) -> bool {
        match (self.ask, self.told) {
            (Ask::Find(address), Some((_, answer))) => table.find(*address) == answer,
            (Ask::Change(size, pieces), Some((_, Answer::No(number)))) => table.changed(*size, pieces) == Err(number),
            (Ask::Change(size, pieces), Some((_, Answer::Full))) => {
                table.changed(*size, pieces).is_ok_and(|after| may_be_full(blocks, table.len(), after.len()))
            }
            _ => false,
        }
    }
}

/// A point of the search: the next event, the processors whose operation has taken effect, and the table.
#[derive(Clone, PartialEq, Eq, Hash)]
struct Point {
    event: usize,
    taken: u16,
    table: Table,
}

struct Search<'a> {
    blocks: u32,
    events: &'a [Event],
    operations: Vec<Operation<'a>>,
    /// For each event: which operation is under way on each processor before it.
    under_way: Vec<[Option<usize>; 16]>,
}

pub fn explain(blocks: u32, events: &[Event]) -> Verdict {
    let events: Vec<Event> = events.iter().filter(|e| !matches!(e, Event::Turned(_))).cloned().collect();
    Search::new(blocks, &events).run()
}

impl<'a> Search<'a> {
    fn new(blocks: u32, events: &'a [Event]) -> Search<'a> {
        let mut operations: Vec<Operation> = Vec::new();
        let mut now = [None; 16];
        let mut under_way = Vec::with_capacity(events.len());
        for (i, event) in events.iter().enumerate() {
            under_way.push(now);
            match event {
                Event::Asked(cpu, ask) => {
                    assert!(now[*cpu as usize].is_none(), "asked while something is under way");
                    now[*cpu as usize] = Some(operations.len());
                    operations.push(Operation { ask, told: None });
                }
                Event::Told(cpu, answer) => {
                    let number = now[*cpu as usize].take().expect("told while nothing is under way");
                    operations[number].told = Some((i, *answer));
                }
                Event::Turned(_) => unreachable!("turns were left out"),
            }
        }
        Search { blocks, events, operations, under_way }
    }

    fn run(&self) -> Verdict {
        let mut seen = HashSet::new();
        let mut stack = vec![Point { event: 0, taken: 0, table: Table::default() }];
        let mut furthest = 0;
        while let Some(point) = stack.pop() {
            let Some(point) = self.advance(point) else {
                return Verdict::Explained(seen.len());
            };
            furthest = furthest.max(point.event);
            if seen.len() > MOST_POINTS {
                return Verdict::TooWide;
            }
            if seen.insert(point.clone()) {
                self.push_choices(&point, &mut stack);
            }
        }
        Verdict::Refused(furthest)
    }

    /// On to the next answer that has not taken effect yet; None at the end of the history.
    fn advance(&self, mut point: Point) -> Option<Point> {
        loop {
            match self.events.get(point.event)? {
                Event::Told(cpu, _) => {
                    if point.taken & 1 << cpu == 0 {
                        return Some(point);
                    }
                    point.taken &= !(1 << cpu);
                    point.event += 1;
                }
                _ => {
                    point.event += 1;
                    self.settle(&mut point);
                }
            }
        }
    }

    /// What changes nothing takes effect as soon as it is right: that never stands in the way of another order.
    fn settle(&self, point: &mut Point) {
        let Some(under_way) = self.under_way.get(point.event) else {
            return;
        };
        for (cpu, number) in under_way.iter().enumerate() {
            let Some(number) = number else {
                continue;
            };
            if point.taken & 1 << cpu == 0 && self.operations[*number].is_right(&point.table, self.blocks) {
                point.taken |= 1 << cpu;
            }
        }
    }

    /// Every change under way that can take effect next; the one that is told first is looked at first.
    fn push_choices(&self, point: &Point, stack: &mut Vec<Point>) {
        let mut choices = Vec::new();
        for (cpu, number) in self.under_way[point.event].iter().enumerate() {
            let Some(number) = number else {
                continue;
            };
            let operation = &self.operations[*number];
            let Ask::Change(size, pieces) = operation.ask else {
                continue;
            };
            if point.taken & 1 << cpu != 0 || !operation.has_effect() {
                continue;
            }
            if let Ok(table) = point.table.changed(*size, pieces) {
                let mut next = Point { event: point.event, taken: point.taken | 1 << cpu, table };
                self.settle(&mut next);
                choices.push((operation.told.map_or(usize::MAX, |t| t.0), next));
            }
        }
        choices.sort_by_key(|choice| std::cmp::Reverse(choice.0));
        stack.extend(choices.into_iter().map(|choice| choice.1));
    }
}

/// The most operations that were under way at once.
pub fn widest(events: &[Event]) -> usize {
    let (mut now, mut most) = (0, 0);
    for event in events {
        match event {
            Event::Asked(..) => now += 1,
            Event::Told(..) => now -= 1,
            Event::Turned(_) => {}
        }
        most = most.max(now);
    }
    most
}
