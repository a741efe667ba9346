//! Bit rows and chains.

/// The store is full.
pub struct Full;

pub trait RowStore {
    /// Adds a pair; whether it was new.
    fn put(&mut self, variable: usize, object: usize) -> Result<bool, Full>;
    fn has(&self, variable: usize, object: usize) -> bool;
    fn next(&self, variable: usize, from: usize) -> Option<usize>;
}

pub struct Bits {
    words: Vec<u32>,
}

impl Bits {
    pub fn new() -> Bits {
        Bits { words: vec![0; 2048] }
    }
}

impl RowStore for Bits {
    fn put(&mut self, variable: usize, object: usize) -> Result<bool, Full> {
        let word = &mut self.words[8 * variable + object / 32];
        let bit = 1 << (object % 32);
        let new = *word & bit == 0;
        *word |= bit;
        Ok(new)
    }

    fn has(&self, variable: usize, object: usize) -> bool {
        self.words[8 * variable + object / 32] >> (object % 32) & 1 == 1
    }

    fn next(&self, variable: usize, from: usize) -> Option<usize> {
        let row = &self.words[8 * variable..8 * variable + 8];
        let mut place = from / 32;
        let mut mask = u32::MAX << (from % 32);
        while place < 8 {
            let found = row[place] & mask;
            if found != 0 {
                return Some(32 * place + found.trailing_zeros() as usize);
            }
            mask = u32::MAX;
            place += 1;
        }
        None
    }
}

const NONE: u16 = u16::MAX;

#[derive(Clone, Copy)]
struct Cell {
    object: u16,
    link: u16,
}

/// Each row a chain of cells in rising order.
pub struct Chains {
    heads: [u16; 256],
    cells: Vec<Cell>,
    used: usize,
}

impl Chains {
    pub fn new(cells: usize) -> Chains {
        Chains { heads: [NONE; 256], cells: vec![Cell { object: 0, link: NONE }; cells], used: 0 }
    }

    /// The last cell of a row below an object, if any, and the first at or above it, if any.
    fn around(&self, variable: usize, object: usize) -> (u16, u16) {
        let mut before = NONE;
        let mut at = self.heads[variable];
        while at != NONE && usize::from(self.cells[usize::from(at)].object) < object {
            before = at;
            at = self.cells[usize::from(at)].link;
        }
        (before, at)
    }

    fn object(&self, cell: u16) -> Option<usize> {
        (cell != NONE).then(|| usize::from(self.cells[usize::from(cell)].object))
    }
}

impl RowStore for Chains {
    fn put(&mut self, variable: usize, object: usize) -> Result<bool, Full> {
        let (before, at) = self.around(variable, object);
        if self.object(at) == Some(object) {
            return Ok(false);
        }
        if self.used == self.cells.len() {
            return Err(Full);
        }
        let new = self.used as u16;
        self.used += 1;
        self.cells[usize::from(new)] = Cell { object: object as u16, link: at };
        match before {
            NONE => self.heads[variable] = new,
            cell => self.cells[usize::from(cell)].link = new,
        }
        Ok(true)
    }

    fn has(&self, variable: usize, object: usize) -> bool {
        self.next(variable, object) == Some(object)
    }

    fn next(&self, variable: usize, from: usize) -> Option<usize> {
        self.object(self.around(variable, from).1)
    }
}
