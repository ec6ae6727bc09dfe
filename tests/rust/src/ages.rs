//! How many turns questions and changes take until they are told, by the rules of which turns count.
use crate::play::{Ask, Event};

/// The most turns of a question that was told or is under way, and the most that counted of a change.
#[derive(Clone, Copy, Debug, Default, PartialEq, Eq)]
pub struct Oldest {
    pub question: u64,
    pub change: u64,
}

#[derive(Clone, Copy, PartialEq, Eq)]
enum Now {
    Quiet,
    Question(u64),
    /// Waits for the lock, or has it.
    Change(u64),
    /// Is turned away in its first turn, without the lock.
    Refused(u64),
}

struct State {
    now: [Now; 16],
    /// The questions that a processor still waits for: those under way at its last turn that counted, and not told since.
    waits: [u16; 16],
    leader: Option<usize>,
}

/// One change at a time leads, from its first turn after the last leader was told until it is told itself. A change's turn counts if no other leads and
/// all questions have been told that were under way at its last turn that counted.
pub fn oldest(events: &[Event]) -> Oldest {
    let mut state = State { now: [Now::Quiet; 16], waits: [0; 16], leader: None };
    let mut oldest = Oldest::default();
    for event in events {
        match event {
            Event::Asked(cpu, ask) => state.now[*cpu as usize] = begun(ask),
            Event::Told(cpu, _) => state.told(*cpu as usize),
            Event::Turned(cpu) => match state.turned(*cpu as usize) {
                Now::Question(age) => oldest.question = oldest.question.max(age),
                Now::Change(age) | Now::Refused(age) => oldest.change = oldest.change.max(age),
                Now::Quiet => panic!("a turn of a processor that has nothing under way"),
            },
        }
    }
    oldest
}

fn begun(ask: &Ask) -> Now {
    match ask {
        Ask::Find(_) => Now::Question(0),
        Ask::Change(1..=8, _) => Now::Change(0),
        Ask::Change(..) => Now::Refused(0),
    }
}

impl State {
    fn asking(&self) -> u16 {
        let questions = self.now.iter().enumerate().filter(|(_, now)| matches!(now, Now::Question(_)));
        questions.map(|(cpu, _)| 1 << cpu).sum()
    }

    fn turned(&mut self, cpu: usize) -> Now {
        if self.leader.is_none() && matches!(self.now[cpu], Now::Change(_)) {
            self.leader = Some(cpu);
        }
        let counts = self.waits[cpu] == 0 && self.leader.is_none_or(|leader| leader == cpu);
        if counts {
            self.waits[cpu] = self.asking();
        }
        match &mut self.now[cpu] {
            Now::Question(age) => *age += 1,
            Now::Change(age) | Now::Refused(age) => *age += u64::from(counts),
            Now::Quiet => {}
        }
        self.now[cpu]
    }

    fn told(&mut self, cpu: usize) {
        self.now[cpu] = Now::Quiet;
        if self.leader == Some(cpu) {
            self.leader = None;
        }
        for waits in &mut self.waits {
            *waits &= !(1 << cpu);
        }
    }
}
