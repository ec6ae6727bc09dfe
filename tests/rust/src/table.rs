//! The table of routes in plain Rust, straight from its rules: what every answer is compared with.

/// One piece of a change: a route is put in, or taken out.
#[derive(Clone, Copy, Debug, PartialEq, Eq)]
pub struct Piece {
    pub puts: bool,
    pub len: u8,
    pub bits: u32,
    pub tells: u32,
}

impl Piece {
    pub fn put(len: u8, bits: u32, tells: u32) -> Piece {
        Piece { puts: true, len, bits, tells }
    }

    pub fn take(len: u8, bits: u32) -> Piece {
        Piece { puts: false, len, bits, tells: 0 }
    }
}

#[derive(Clone, Copy, Debug, PartialEq, Eq)]
pub enum Answer {
    Found { len: u8, tells: u32 },
    Nothing,
    Done,
    Full,
    No(u8),
}

#[derive(Clone, Copy, Debug, PartialEq, Eq, Hash, PartialOrd, Ord)]
pub struct Route {
    pub len: u8,
    pub bits: u32,
    pub tells: u32,
}

/// The first `len` bits of an address, the others 0.
pub fn prefix_of(address: u32, len: u8) -> u32 {
    if len == 0 { 0 } else { address & (u32::MAX << (32 - len)) }
}

pub fn is_clean(len: u8, bits: u32) -> bool {
    len <= 32 && prefix_of(bits, len) == bits
}

/// Routes in the order of length and bits, so that two tables with the same routes are equal.
#[derive(Clone, Debug, Default, PartialEq, Eq, Hash)]
pub struct Table {
    routes: Vec<Route>,
}

impl Table {
    pub fn len(&self) -> usize {
        self.routes.len()
    }

    pub fn is_empty(&self) -> bool {
        self.routes.is_empty()
    }

    /// The longest route whose bits are the first ones of the address.
    pub fn find(&self, address: u32) -> Answer {
        let fitting = self.routes.iter().filter(|r| prefix_of(address, r.len) == r.bits);
        match fitting.max_by_key(|r| r.len) {
            Some(r) => Answer::Found { len: r.len, tells: r.tells },
            None => Answer::Nothing,
        }
    }

    /// The table after a change of `size` pieces, of which the first eight are given; or the number by which it is turned away.
    pub fn changed(&self, size: u32, pieces: &[Piece]) -> Result<Table, u8> {
        if size == 0 || size > 8 {
            return Err(1);
        }
        let mut table = self.clone();
        for piece in pieces {
            table.apply(piece)?;
        }
        Ok(table)
    }

    fn apply(&mut self, piece: &Piece) -> Result<(), u8> {
        if !is_clean(piece.len, piece.bits) {
            return Err(2);
        }
        let place = self.routes.binary_search_by_key(&(piece.len, piece.bits), |r| (r.len, r.bits));
        let route = Route { len: piece.len, bits: piece.bits, tells: piece.tells };
        match (piece.puts, place) {
            (true, Ok(i)) => self.routes[i] = route,
            (true, Err(i)) => self.routes.insert(i, route),
            (false, Ok(i)) => drop(self.routes.remove(i)),
            (false, Err(_)) => return Err(3),
        }
        Ok(())
    }
}

/// Whether full may be told: the routes before and after are more than the pool surely has room for.
pub fn may_be_full(blocks: u32, before: usize, after: usize) -> bool {
    192 + 5 * (before + after) > blocks as usize
}
