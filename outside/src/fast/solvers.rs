//! A plain worklist and difference propagation. Both take the words in one at a time, so that the word at
//! which the room ends is the fault's position.

use super::stores::{Full, RowStore};
use crate::list::{Kind, List, Word};

/// A set of places below 512, taken out lowest first.
struct Places([u64; 8]);

impl Places {
    fn insert(&mut self, place: usize) {
        self.0[place / 64] |= 1 << (place % 64);
    }

    fn take_first(&mut self) -> Option<usize> {
        let i = self.0.iter().position(|&w| w != 0)?;
        let bit = self.0[i].trailing_zeros() as usize;
        self.0[i] &= self.0[i] - 1;
        Some(64 * i + bit)
    }
}

/// Whether the rule of a word may read row v.
fn reads(word: Word, lengths: &[usize], v: usize) -> bool {
    let k = word.offset();
    match word.kind() {
        Kind::Address => false,
        Kind::Copy => word.right() == v,
        Kind::Load => word.right() == v || k <= v && k < lengths[v - k],
        Kind::Store => word.left() == v || word.right() == v,
    }
}

struct Worklist<'a, S> {
    words: &'a [Word],
    lengths: &'a [usize],
    store: &'a mut S,
    waiting: Places,
}

impl<S: RowStore> Worklist<'_, S> {
    fn add(&mut self, v: usize, o: usize) -> Result<(), Full> {
        if self.store.put(v, o)? {
            for (j, &word) in self.words.iter().enumerate() {
                if reads(word, self.lengths, v) {
                    self.waiting.insert(j);
                }
            }
        }
        Ok(())
    }

    fn include(&mut self, into: usize, from: usize) -> Result<(), Full> {
        let mut at = 0;
        while let Some(o) = self.store.next(from, at) {
            self.add(into, o)?;
            at = o + 1;
        }
        Ok(())
    }

    fn walk(&mut self, word: Word) -> Result<(), Full> {
        let (p, q, k) = (word.left(), word.right(), word.offset());
        let pointer = match word.kind() {
            Kind::Address => return self.add(p, q),
            Kind::Copy => return self.include(p, q),
            Kind::Load => q,
            Kind::Store => p,
        };
        let mut at = 0;
        while let Some(o) = self.store.next(pointer, at) {
            if self.lengths[o] > k {
                match word.kind() {
                    Kind::Load => self.include(p, o + k)?,
                    _ => self.include(o + k, q)?,
                }
            }
            at = o + 1;
        }
        Ok(())
    }
}

/// Fills the store, or answers the position at which the room ends.
pub fn worklist<S: RowStore>(list: &List, store: &mut S) -> Result<(), usize> {
    let lengths = list.lengths();
    let mut work = Worklist { words: &[], lengths: &lengths, store, waiting: Places([0; 8]) };
    for i in 0..list.words.len() {
        work.words = &list.words[..=i];
        work.waiting.insert(i);
        while let Some(j) = work.waiting.take_first() {
            work.walk(list.words[j]).map_err(|Full| i)?;
        }
    }
    Ok(())
}

/// Pairs that are in the store and not yet handed on.
struct Pending {
    rows: [[u64; 4]; 256],
    variables: [u64; 4],
}

impl Pending {
    fn insert(&mut self, v: usize, o: usize) {
        self.rows[v][o / 64] |= 1 << (o % 64);
        self.variables[v / 64] |= 1 << (v % 64);
    }

    fn holds(&self, v: usize, o: usize) -> bool {
        self.rows[v][o / 64] >> (o % 64) & 1 == 1
    }

    fn take_first(&mut self) -> Option<(usize, usize)> {
        let i = self.variables.iter().position(|&w| w != 0)?;
        let v = 64 * i + self.variables[i].trailing_zeros() as usize;
        let row = &mut self.rows[v];
        let j = row.iter().position(|&w| w != 0).expect("a waiting variable has a waiting object");
        let o = 64 * j + row[j].trailing_zeros() as usize;
        row[j] &= row[j] - 1;
        if *row == [0; 4] {
            self.variables[i] &= self.variables[i] - 1;
        }
        Some((v, o))
    }
}

struct Difference<'a, S> {
    lengths: &'a [usize],
    store: &'a mut S,
    pending: Pending,
}

impl<S: RowStore> Difference<'_, S> {
    fn add(&mut self, v: usize, o: usize) -> Result<(), Full> {
        if self.store.put(v, o)? {
            self.pending.insert(v, o);
        }
        Ok(())
    }

    /// Puts those objects of a row into another that have been handed on, all of them if `all`.
    fn include(&mut self, into: usize, from: usize, all: bool) -> Result<(), Full> {
        let mut at = 0;
        while let Some(o) = self.store.next(from, at) {
            if all || !self.pending.holds(from, o) {
                self.add(into, o)?;
            }
            at = o + 1;
        }
        Ok(())
    }

    /// Hands the pair (v, o) on through one word.
    fn spread(&mut self, word: Word, v: usize, o: usize) -> Result<(), Full> {
        let (p, q, k) = (word.left(), word.right(), word.offset());
        match word.kind() {
            Kind::Address => Ok(()),
            Kind::Copy if q == v => self.add(p, o),
            Kind::Copy => Ok(()),
            Kind::Load => {
                if q == v && self.lengths[o] > k {
                    self.include(p, o + k, false)?;
                }
                if k <= v && self.lengths[v - k] > k && self.store.has(q, v - k) && !self.pending.holds(q, v - k) {
                    self.add(p, o)?;
                }
                Ok(())
            }
            Kind::Store => {
                if p == v && self.lengths[o] > k {
                    self.include(o + k, q, false)?;
                }
                if q == v {
                    self.store_through(p, k, o)?;
                }
                Ok(())
            }
        }
    }

    /// Puts one object into the cell at k of every block that row p names.
    fn store_through(&mut self, p: usize, k: usize, object: usize) -> Result<(), Full> {
        let mut at = 0;
        while let Some(o) = self.store.next(p, at) {
            if self.lengths[o] > k && !self.pending.holds(p, o) {
                self.add(o + k, object)?;
            }
            at = o + 1;
        }
        Ok(())
    }

    /// Brings a new word up to the rows as they are.
    fn begin(&mut self, word: Word) -> Result<(), Full> {
        let (p, q, k) = (word.left(), word.right(), word.offset());
        let pointer = match word.kind() {
            Kind::Address => return self.add(p, q),
            Kind::Copy => return self.include(p, q, true),
            Kind::Load => q,
            Kind::Store => p,
        };
        let mut at = 0;
        while let Some(o) = self.store.next(pointer, at) {
            if self.lengths[o] > k {
                match word.kind() {
                    Kind::Load => self.include(p, o + k, true)?,
                    _ => self.include(o + k, q, true)?,
                }
            }
            at = o + 1;
        }
        Ok(())
    }
}

/// Fills the store, or answers the position at which the room ends.
pub fn difference<S: RowStore>(list: &List, store: &mut S) -> Result<(), usize> {
    let lengths = list.lengths();
    let pending = Pending { rows: [[0; 4]; 256], variables: [0; 4] };
    let mut work = Difference { lengths: &lengths, store, pending };
    for (i, &word) in list.words.iter().enumerate() {
        work.begin(word).map_err(|Full| i)?;
        while let Some((v, o)) = work.pending.take_first() {
            for &reader in &list.words[..=i] {
                work.spread(reader, v, o).map_err(|Full| i)?;
            }
        }
    }
    Ok(())
}
