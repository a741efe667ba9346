//! Blocks and 32-bit words.

pub const MOST_VARIABLES: usize = 256;
pub const MOST_WORDS: usize = 512;

/// Bits 31-30 kind, 29-27 offset, 26-24 zero, 23-12 left variable, 11-0 right variable.
#[derive(Clone, Copy, PartialEq, Eq, PartialOrd, Ord, Hash)]
pub struct Word(pub u32);

#[derive(Clone, Copy, Debug, PartialEq, Eq)]
pub enum Kind {
    Address,
    Copy,
    Load,
    Store,
}

impl std::fmt::Debug for Word {
    fn fmt(&self, f: &mut std::fmt::Formatter<'_>) -> std::fmt::Result {
        write!(f, "{:#010x}", self.0)
    }
}

impl Word {
    pub fn new(kind: Kind, offset: usize, left: usize, right: usize) -> Word {
        assert!(offset < 8 && left < 4096 && right < 4096);
        Word((kind as u32) << 30 | (offset as u32) << 27 | (left as u32) << 12 | right as u32)
    }

    pub fn kind(self) -> Kind {
        [Kind::Address, Kind::Copy, Kind::Load, Kind::Store][(self.0 >> 30) as usize]
    }

    pub fn offset(self) -> usize {
        (self.0 >> 27 & 7) as usize
    }

    pub fn left(self) -> usize {
        (self.0 >> 12 & 0xfff) as usize
    }

    pub fn right(self) -> usize {
        (self.0 & 0xfff) as usize
    }
}

/// Blocks by their lengths, and words.
#[derive(Clone, Debug, Default, PartialEq, Eq)]
pub struct List {
    pub blocks: Vec<usize>,
    pub words: Vec<Word>,
}

impl List {
    pub fn variables(&self) -> usize {
        self.blocks.iter().sum()
    }

    /// For each variable, its block's first variable.
    pub fn objects(&self) -> Vec<usize> {
        let mut objects = Vec::new();
        for &length in &self.blocks {
            let first = objects.len();
            objects.resize(first + length, first);
        }
        objects
    }

    /// For each object the length of its block; 0 for a variable that is no object.
    pub fn lengths(&self) -> Vec<usize> {
        let mut lengths = Vec::new();
        for &length in &self.blocks {
            lengths.push(length);
            lengths.resize(lengths.len() + length - 1, 0);
        }
        lengths
    }

    /// The same blocks with the words before a position.
    pub fn prefix(&self, words: usize) -> List {
        List { blocks: self.blocks.clone(), words: self.words[..words].to_vec() }
    }
}
