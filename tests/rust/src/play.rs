//! Lists of moves, the memory that is lent to a play, and what its journal says.
use crate::ffi::{self, BLOCK_WORDS, LateStore, Lent, OWN_WORDS, Played, Refused};
use crate::random::Random;
use crate::table::{Answer, Piece};

/// A list of moves, as words.
#[derive(Clone, Debug, Default)]
pub struct Moves(Vec<u64>);

impl Moves {
    pub fn new() -> Moves {
        Moves::default()
    }

    pub fn words(&self) -> &[u64] {
        &self.0
    }

    pub fn push_word(&mut self, word: u64) {
        self.0.push(word);
    }

    fn push(&mut self, kind: u64, cpu: u32, x: u64) {
        self.0.push(kind + 16 * u64::from(cpu) + 256 * x);
    }

    /// Up to so many turns of a processor, fewer when it is told before.
    pub fn go(&mut self, cpu: u32, turns: u64) {
        self.push(0, cpu, turns);
    }

    /// So many of the oldest stores of a processor arrive.
    pub fn arrive(&mut self, cpu: u32, stores: u64) {
        self.push(1, cpu, stores);
    }

    pub fn find(&mut self, cpu: u32, address: u32) {
        self.push(2, cpu, u64::from(address));
    }

    pub fn change(&mut self, cpu: u32, pieces: &[Piece]) {
        self.change_of(cpu, pieces.len() as u32, pieces);
    }

    /// A change of `size` pieces, of which the first eight are given.
    pub fn change_of(&mut self, cpu: u32, size: u32, pieces: &[Piece]) {
        assert_eq!(pieces.len(), size.min(8) as usize);
        self.push(3, cpu, u64::from(size));
        for p in pieces {
            self.0.push(u64::from(p.puts) + 2 * u64::from(p.len));
            self.0.push(u64::from(p.bits) + (u64::from(p.tells) << 32));
        }
    }
}

#[derive(Clone, Debug, PartialEq, Eq)]
pub enum Ask {
    Find(u32),
    /// So many pieces, of which the first eight are kept.
    Change(u32, Vec<Piece>),
}

#[derive(Clone, Debug, PartialEq, Eq)]
pub enum Event {
    Asked(u32, Ask),
    Told(u32, Answer),
    Turned(u32),
}

/// A move as it is read from a list.
#[derive(Clone, Debug, PartialEq, Eq)]
pub enum Move {
    Go(u32, u64),
    Arrive(u32, u64),
    Ask(u32, Ask),
}

/// The moves of a list that `Moves` made.
pub fn read_moves(moves: &Moves) -> Vec<Move> {
    let mut words = moves.words().iter().copied();
    let mut read = Vec::new();
    while let Some(word) = words.next() {
        let (cpu, x) = ((word / 16 % 16) as u32, word / 256);
        read.push(match word % 16 {
            0 => Move::Go(cpu, x),
            1 => Move::Arrive(cpu, x),
            2 => Move::Ask(cpu, Ask::Find(x as u32)),
            _ => {
                let mut pop = || words.next().expect("a change has its pieces");
                let pieces = (0..x.min(8)).map(|_| {
                    let (first, second) = (pop(), pop());
                    piece_of(first, second)
                });
                Move::Ask(cpu, Ask::Change(x as u32, pieces.collect()))
            }
        });
    }
    read
}

/// What is lent to plays, used again and again.
pub struct Pool {
    pub cpus: u32,
    pub blocks: u32,
    pub words: Vec<u64>,
    pub held: Vec<bool>,
    pub free: Vec<u32>,
    pub late: Vec<LateStore>,
    pub own: Vec<u64>,
    pub kinds: Vec<u8>,
    pub notes: Vec<u64>,
}

impl Pool {
    /// `room`: places for late stores of each processor. `events`, `notes`: places of the journal.
    pub fn new(cpus: u32, blocks: u32, room: usize, events: usize, notes: usize) -> Pool {
        Pool {
            cpus,
            blocks,
            words: vec![0; BLOCK_WORDS * blocks as usize],
            held: vec![false; blocks as usize],
            free: vec![0; blocks as usize],
            late: vec![LateStore::default(); 16 * room],
            own: vec![0; OWN_WORDS * cpus as usize],
            kinds: vec![0; events],
            notes: vec![0; notes],
        }
    }

    /// Everything that is lent holds anything.
    pub fn fill(&mut self, random: &mut Random) {
        self.words.fill_with(|| random.draw());
        self.held.fill_with(|| random.one_in(2));
        self.free.fill_with(|| random.word());
        self.late.fill_with(|| LateStore { block: random.word(), word: random.word(), x: random.draw() });
        self.own.fill_with(|| random.draw());
    }

    pub fn lent(&mut self) -> Lent<'_> {
        Lent {
            words: &mut self.words,
            held: &mut self.held,
            free: &mut self.free,
            late: &mut self.late,
            own: &mut self.own,
            kinds: &mut self.kinds,
            notes: &mut self.notes,
        }
    }

    pub fn play(&mut self, moves: &Moves) -> Result<Played, Refused> {
        let (cpus, blocks) = (self.cpus, self.blocks);
        let mut played = Played::default();
        ffi::play(cpus, blocks, &mut self.lent(), moves.words(), &mut played)?;
        Ok(played)
    }

    /// What the journal of the last play says, in the order in which it was.
    pub fn events(&self, played: &Played) -> Vec<Event> {
        self.read(played, |_| true)
    }

    /// All but the turns, for plays that are too long to keep them.
    pub fn events_without_turns(&self, played: &Played) -> Vec<Event> {
        self.read(played, |kind| kind >= 16)
    }

    /// A change's notes end with its size, so the journal is read from its end.
    fn read(&self, played: &Played, wanted: impl Fn(u8) -> bool) -> Vec<Event> {
        let mut notes = self.notes[..played.notes as usize].to_vec();
        let kinds = self.kinds[..played.events as usize].iter().rev();
        let mut events: Vec<Event> = kinds.filter(|&&kind| wanted(kind)).map(|&kind| event_of(kind, &mut notes)).collect();
        assert!(notes.is_empty(), "notes that belong to no event");
        events.reverse();
        events
    }
}

/// The latest event, whose notes are the last ones.
fn event_of(kind: u8, notes: &mut Vec<u64>) -> Event {
    let cpu = u32::from(kind % 16);
    let mut pop = || notes.pop().expect("an event has its notes");
    match kind / 16 {
        0 => Event::Turned(cpu),
        1 => Event::Told(cpu, answer_of(pop())),
        2 => Event::Asked(cpu, Ask::Find(u32::try_from(pop()).expect("an address has 32 bits"))),
        3 => {
            let size = u32::try_from(pop()).expect("a size has 32 bits");
            let pieces = (0..size.min(8)).map(|_| {
                let (first, second) = (pop(), pop());
                piece_of(first, second)
            });
            Event::Asked(cpu, Ask::Change(size, pieces.collect()))
        }
        _ => panic!("an event of kind {kind}"),
    }
}

fn piece_of(first: u64, second: u64) -> Piece {
    let len = u8::try_from(first / 2).expect("a length has 8 bits");
    Piece { puts: first % 2 == 1, len, bits: second as u32, tells: (second >> 32) as u32 }
}

fn answer_of(note: u64) -> Answer {
    match note % 8 {
        0 => Answer::Nothing,
        1 => Answer::Done,
        2 => Answer::Full,
        3 => Answer::Found { len: (note / 8 % 256) as u8, tells: u32::try_from(note / 2048).expect("32 bits are told") },
        4 => Answer::No(u8::try_from(note / 8).expect("a refusal has 8 bits")),
        _ => panic!("an answer's note {note}"),
    }
}
