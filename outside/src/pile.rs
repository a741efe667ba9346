//! Piles: layers over a solver over a store, and whether a list fits one.

use crate::least;
use crate::list::List;
use crate::merge::{merge, Layer};
use std::fmt;

#[derive(Clone, Copy, Debug, PartialEq, Eq)]
pub enum Solver {
    Worklist,
    Difference,
}

#[derive(Clone, Copy, Debug, PartialEq, Eq)]
pub enum Store {
    Bits,
    Chains(usize),
}

/// Layers from the top.
#[derive(Clone, Debug, PartialEq, Eq)]
pub struct Pile {
    pub layers: Vec<Layer>,
    pub solver: Solver,
    pub store: Store,
}

/// Where a list stops fitting. The pair that a fault carries is any of the smallest solution.
#[derive(Clone, Copy, Debug, PartialEq, Eq)]
pub struct Overflow {
    pub position: usize,
    pub depth: u8,
}

pub const MOST_CELLS: usize = 16_384;

impl Store {
    pub fn room(self) -> usize {
        match self {
            Store::Bits => 65_536,
            Store::Chains(cells) => cells.min(MOST_CELLS),
        }
    }
}

impl Pile {
    /// Reads `hu+hvn+difference/chains:1024`.
    pub fn parse(text: &str) -> Option<Pile> {
        let (above, store) = text.split_once('/')?;
        let store = match store.strip_prefix("chains:") {
            Some(cells) => Store::Chains(cells.parse().ok()?),
            None if store == "bits" => Store::Bits,
            None => return None,
        };
        let mut layers = Vec::new();
        let mut parts = above.split('+').peekable();
        while let Some(part) = parts.next() {
            match part {
                "hvn" => layers.push(Layer::Hvn),
                "hu" => layers.push(Layer::Hu),
                "worklist" if parts.peek().is_none() => return Some(Pile { layers, solver: Solver::Worklist, store }),
                "difference" if parts.peek().is_none() => {
                    return Some(Pile { layers, solver: Solver::Difference, store })
                }
                _ => return None,
            }
        }
        None
    }

    /// Every arrangement of layers and solvers over these stores.
    pub fn all(stores: &[Store]) -> Vec<Pile> {
        let arrangements: [&[Layer]; 5] =
            [&[], &[Layer::Hvn], &[Layer::Hu], &[Layer::Hu, Layer::Hvn], &[Layer::Hvn, Layer::Hu]];
        let mut piles = Vec::new();
        for &store in stores {
            for solver in [Solver::Worklist, Solver::Difference] {
                piles.extend(arrangements.map(|layers| Pile { layers: layers.to_vec(), solver, store }));
            }
        }
        piles
    }

    /// Whether a list fits, and if not where. Both solvers fit alike.
    pub fn settle(&self, list: &List) -> Result<(), Overflow> {
        settle_under(&self.layers, self.store.room(), list)
    }
}

fn settle_under(layers: &[Layer], room: usize, list: &List) -> Result<(), Overflow> {
    match layers {
        [] => match least::overflow(list, room) {
            None => Ok(()),
            Some(position) => Err(Overflow { position, depth: 0 }),
        },
        [top, below @ ..] => {
            let merged = merge(*top, list);
            settle_under(below, room, &merged.reduced).map_err(|fault| Overflow {
                position: merged.own_position(list, fault.position),
                depth: fault.depth.saturating_add(1),
            })
        }
    }
}

impl fmt::Display for Pile {
    fn fmt(&self, f: &mut fmt::Formatter<'_>) -> fmt::Result {
        for layer in &self.layers {
            f.write_str(match layer {
                Layer::Hvn => "hvn+",
                Layer::Hu => "hu+",
            })?;
        }
        f.write_str(match self.solver {
            Solver::Worklist => "worklist/",
            Solver::Difference => "difference/",
        })?;
        match self.store {
            Store::Bits => f.write_str("bits"),
            Store::Chains(cells) => write!(f, "chains:{cells}"),
        }
    }
}

#[cfg(test)]
mod tests {
    use super::*;
    use crate::list::{Kind, Word};

    #[test]
    fn piles_are_written_as_they_are_read() {
        for text in ["hu+hvn+difference/chains:1024", "worklist/bits", "hvn+worklist/chains:0"] {
            assert_eq!(Pile::parse(text).unwrap().to_string(), text);
        }
        for text in ["", "worklist", "hu/bits", "worklist+hu/bits", "worklist/chains", "hu+/bits"] {
            assert_eq!(Pile::parse(text), None);
        }
    }

    /// 33 objects in the row of variable 33, copied to 31 others.
    fn star() -> List {
        let mut words: Vec<Word> = (0..33).map(|o| Word::new(Kind::Address, 0, 33, o)).collect();
        words.extend((34..65).map(|v| Word::new(Kind::Copy, 0, v, 33)));
        List { blocks: vec![1; 65], words }
    }

    #[test]
    fn the_star_needs_1056_cells_or_33_with_hvn() {
        assert_eq!(least::least(&star()).pairs(), 1056);
        let settle = |pile: &str| Pile::parse(pile).unwrap().settle(&star());
        assert_eq!(settle("worklist/chains:1056"), Ok(()));
        assert_eq!(settle("worklist/chains:1024"), Err(Overflow { position: 63, depth: 0 }));
        assert_eq!(settle("hvn+worklist/chains:1024"), Ok(()));
        assert_eq!(settle("hvn+worklist/chains:33"), Ok(()));
        assert_eq!(settle("hvn+worklist/chains:32"), Err(Overflow { position: 32, depth: 1 }));
        assert_eq!(settle("hu+hvn+worklist/chains:0"), Err(Overflow { position: 0, depth: 2 }));
    }
}
