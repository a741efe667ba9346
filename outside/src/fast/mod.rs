//! The algorithms of the proved program in plain Rust, to compare speed with: two stores, two solvers that
//! take the words in one at a time, and the two layers over bit rows.

mod layers;
mod solvers;
mod stores;

use crate::host::Solution;
use crate::list::List;
use crate::merge::Layer;
use crate::pile::{Overflow, Pile, Solver, Store};
use solvers::{difference, worklist};
use stores::{Bits, Chains, RowStore};

/// A settled store under layers: each variable is asked for by the one that stands for it.
struct Settled<S> {
    store: S,
    representatives: [u8; 256],
}

impl<S: RowStore> Solution for Settled<S> {
    fn next(&self, variable: usize, from: usize) -> Option<usize> {
        self.store.next(usize::from(self.representatives[variable]), from)
    }

    fn holds(&self, variable: usize, object: usize) -> bool {
        self.store.has(usize::from(self.representatives[variable]), object)
    }
}

fn settle_store<S: RowStore>(solver: Solver, list: &List, store: &mut S) -> Result<(), Overflow> {
    let settled = match solver {
        Solver::Worklist => worklist(list, store),
        Solver::Difference => difference(list, store),
    };
    settled.map_err(|position| Overflow { position, depth: 0 })
}

fn settle_layers<S: RowStore>(
    layers: &[Layer],
    solver: Solver,
    list: &List,
    store: &mut S,
    representatives: &mut [u8; 256],
) -> Result<(), Overflow> {
    let [top, below @ ..] = layers else {
        return settle_store(solver, list, store);
    };
    let merged = layers::merge(*top, list);
    for r in representatives.iter_mut() {
        *r = merged.representatives[usize::from(*r)];
    }
    settle_layers(below, solver, &merged.reduced, store, representatives).map_err(|fault| Overflow {
        position: merged.own_position(list, fault.position),
        depth: fault.depth.saturating_add(1),
    })
}

fn settle_over<S: RowStore + 'static>(pile: &Pile, list: &List, store: S) -> Result<Box<dyn Solution>, Overflow> {
    let mut representatives = [0; 256];
    for (r, v) in representatives.iter_mut().zip(0..=255) {
        *r = v;
    }
    let mut settled = Settled { store, representatives };
    settle_layers(&pile.layers, pile.solver, list, &mut settled.store, &mut settled.representatives)?;
    Ok(Box::new(settled))
}

/// Settles a list over a pile.
pub fn settle(pile: &Pile, list: &List) -> Result<Box<dyn Solution>, Overflow> {
    match pile.store {
        Store::Bits => settle_over(pile, list, Bits::new()),
        Store::Chains(_) => settle_over(pile, list, Chains::new(pile.store.room())),
    }
}

#[cfg(test)]
mod tests {
    use super::*;
    use crate::least::least;
    use crate::list::{Kind, Word};
    use crate::random::Random;

    fn random_list(random: &mut Random) -> List {
        let blocks: Vec<usize> = (0..random.between(1, 12)).map(|_| random.between(1, 8)).collect();
        let mut list = List { blocks, words: Vec::new() };
        let (variables, objects) = (list.variables(), list.objects());
        for _ in 0..random.below(40) {
            let (p, q) = (random.below(variables), random.below(variables));
            let word = match random.below(4) {
                0 => Word::new(Kind::Address, 0, p, objects[q]),
                1 => Word::new(Kind::Copy, 0, p, q),
                2 => Word::new(Kind::Load, random.below(8), p, q),
                _ => Word::new(Kind::Store, random.below(8), p, q),
            };
            list.words.push(word);
        }
        list
    }

    #[test]
    fn fast_and_plain_settle_alike() {
        let mut random = Random::new(7);
        for _ in 0..300 {
            let list = random_list(&mut random);
            let rows = least(&list);
            let cells = random.between(0, rows.pairs() + 1);
            for pile in Pile::all(&[Store::Bits, Store::Chains(cells)]) {
                match (settle(&pile, &list), pile.settle(&list)) {
                    (Err(a), Err(b)) => assert_eq!(a, b, "{pile} {list:?}"),
                    (Ok(solution), Ok(())) => {
                        let same = |v, o| solution.holds(v, o) == rows.holds(v, o);
                        assert!((0..list.variables()).all(|v| (0..256).all(|o| same(v, o))), "{pile} {list:?}");
                    }
                    (a, b) => panic!("{pile} {list:?}: {:?} {:?}", a.err(), b.err()),
                }
            }
        }
    }
}
