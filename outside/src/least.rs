//! The smallest solution, by the plainest way: apply every word's rule until nothing changes.

use crate::list::{Kind, List, Word};

/// A set of objects for each variable, as 256 bits a row.
#[derive(Clone, PartialEq, Eq)]
pub struct Rows(Vec<[u64; 4]>);

impl Rows {
    fn empty() -> Rows {
        Rows(vec![[0; 4]; 256])
    }

    pub fn holds(&self, variable: usize, object: usize) -> bool {
        variable < 256 && object < 256 && self.0[variable][object / 64] >> (object % 64) & 1 == 1
    }

    /// The objects of a row, rising.
    pub fn row(&self, variable: usize) -> impl Iterator<Item = usize> + '_ {
        (0..256).filter(move |&o| self.holds(variable, o))
    }

    pub fn share(&self, a: usize, b: usize) -> bool {
        self.0[a].iter().zip(self.0[b]).any(|(x, y)| x & y != 0)
    }

    pub fn first_pair(&self) -> Option<(usize, usize)> {
        (0..256).find_map(|v| self.row(v).next().map(|o| (v, o)))
    }

    pub fn pairs(&self) -> usize {
        self.0.iter().flatten().map(|w| w.count_ones() as usize).sum()
    }

    /// Adds an object to a row; whether that changed it.
    fn put(&mut self, variable: usize, object: usize) -> bool {
        let new = !self.holds(variable, object);
        self.0[variable][object / 64] |= 1 << (object % 64);
        new
    }

    /// Adds row `from` to row `into`; whether that changed it.
    fn include(&mut self, into: usize, from: usize) -> bool {
        let before = self.0[into];
        for i in 0..4 {
            self.0[into][i] |= self.0[from][i];
        }
        self.0[into] != before
    }
}

/// Adds what one word's rule asks of the rows; whether that changed them.
fn apply(word: Word, lengths: &[usize], rows: &mut Rows) -> bool {
    let (p, q, k) = (word.left(), word.right(), word.offset());
    let long_enough = |rows: &Rows, v| rows.row(v).filter(|&o| lengths[o] > k).collect::<Vec<_>>();
    match word.kind() {
        Kind::Address => rows.put(p, q),
        Kind::Copy => rows.include(p, q),
        Kind::Load => long_enough(rows, q).into_iter().fold(false, |c, o| rows.include(p, o + k) | c),
        Kind::Store => long_enough(rows, p).into_iter().fold(false, |c, o| rows.include(o + k, q) | c),
    }
}

pub fn least(list: &List) -> Rows {
    let lengths = list.lengths();
    let mut rows = Rows::empty();
    let mut changed = true;
    while changed {
        changed = list.words.iter().fold(false, |c, &w| apply(w, &lengths, &mut rows) | c);
    }
    rows
}

/// The earliest word whose list up to and including it has more than `room` pairs, if there is one.
pub fn overflow(list: &List, room: usize) -> Option<usize> {
    if least(list).pairs() <= room {
        return None;
    }
    // More words have no fewer pairs, so halving finds the first.
    let (mut fits, mut over) = (0, list.words.len());
    while over - fits > 1 {
        let middle = (fits + over) / 2;
        if least(&list.prefix(middle)).pairs() <= room {
            fits = middle;
        } else {
            over = middle;
        }
    }
    Some(over - 1)
}

#[cfg(test)]
mod tests {
    use super::*;

    fn list(blocks: &[usize], words: &[u32]) -> List {
        List { blocks: blocks.to_vec(), words: words.iter().map(|&w| Word(w)).collect() }
    }

    #[test]
    fn empty_list() {
        assert_eq!(least(&List::default()).pairs(), 0);
    }

    #[test]
    fn copies_hand_on() {
        let rows = least(&list(&[1; 5], &[0x0000_2000, 0x4000_3002, 0x4000_4003]));
        for v in 2..5 {
            assert_eq!(rows.row(v).collect::<Vec<_>>(), [0]);
        }
        assert_eq!(rows.pairs(), 3);
    }

    #[test]
    fn a_store_past_the_block_does_nothing() {
        let over = least(&list(&[3, 1, 1], &[0x0000_4000, 0x0000_3003, 0xD800_4003]));
        assert!((0..3).all(|v| over.row(v).count() == 0));
        let within = least(&list(&[3, 1, 1], &[0x0000_4000, 0x0000_3003, 0xD000_4003]));
        assert_eq!(within.row(2).collect::<Vec<_>>(), [3]);
    }

    #[test]
    fn overflow_names_the_first_word() {
        let l = list(&[1; 5], &[0x0000_2000, 0x4000_3002, 0x4000_4003]);
        assert_eq!(overflow(&l, 3), None);
        assert_eq!(overflow(&l, 2), Some(2));
        assert_eq!(overflow(&l, 0), Some(0));
    }
}
