//! What the two merging layers put together, by their definitions, and the list that they hand down.

use crate::list::{Kind, List, Word};
use std::collections::{BTreeMap, BTreeSet};

#[derive(Clone, Copy, Debug, PartialEq, Eq)]
pub enum Layer {
    Hvn,
    Hu,
}

/// What may flow into a variable from somewhere that the copies do not show.
#[derive(Clone, Copy, Debug, PartialEq, Eq, PartialOrd, Ord)]
enum Source {
    Load(usize, usize),
    Address(usize),
    Open(usize),
}

/// The copies of a list as a graph, with the sources that stand at each variable.
struct Graph {
    /// reach[u][v]: a path of copies leads from u to v; every variable reaches itself.
    reach: Vec<Vec<bool>>,
    /// Edges from the right to the left variable of each copy.
    edges: Vec<(usize, usize)>,
    sources: Vec<BTreeSet<Source>>,
    open: Vec<bool>,
}

fn open_variables(list: &List) -> Vec<bool> {
    let addressed = |o: usize| list.words.iter().any(|w| w.kind() == Kind::Address && w.right() == o);
    list.objects().into_iter().map(addressed).collect()
}

fn reached_from(start: usize, variables: usize, next: &[Vec<usize>]) -> Vec<bool> {
    let mut seen = vec![false; variables];
    seen[start] = true;
    let mut left = vec![start];
    while let Some(u) = left.pop() {
        for &v in &next[u] {
            if !seen[v] {
                seen[v] = true;
                left.push(v);
            }
        }
    }
    seen
}

fn graph(list: &List) -> Graph {
    let n = list.variables();
    let open = open_variables(list);
    let mut sources = vec![BTreeSet::new(); n];
    let mut edges = Vec::new();
    let mut next = vec![Vec::new(); n];
    for w in &list.words {
        match w.kind() {
            Kind::Address => {
                sources[w.left()].insert(Source::Address(w.right()));
            }
            Kind::Copy => {
                edges.push((w.right(), w.left()));
                next[w.right()].push(w.left());
            }
            Kind::Load => {
                sources[w.left()].insert(Source::Load(w.right(), w.offset()));
            }
            Kind::Store => {}
        }
    }
    for v in (0..n).filter(|&v| open[v]) {
        sources[v].insert(Source::Open(v));
    }
    let reach = (0..n).map(|u| reached_from(u, n, &next)).collect();
    Graph { reach, edges, sources, open }
}

/// Equal marks, equal numbers: a mark is the set of sources at variables that reach a variable.
fn hu_classes(g: &Graph) -> Vec<usize> {
    let n = g.reach.len();
    let mut numbers = BTreeMap::new();
    (0..n)
        .map(|v| {
            let reaching = (0..n).filter(|&u| g.reach[u][v]);
            let mark: BTreeSet<Source> = reaching.flat_map(|u| g.sources[u].iter().copied()).collect();
            let fresh = numbers.len();
            *numbers.entry(mark).or_insert(fresh)
        })
        .collect()
}

/// A value: nothing, a source, or a set of values. Sets hold the numbers of their elements, so that equal
/// values have equal numbers and no tree is written out.
#[derive(Clone, PartialEq, Eq, PartialOrd, Ord)]
enum Value {
    Nothing,
    Source(Source),
    Set(BTreeSet<usize>),
}

#[derive(Default)]
struct Values {
    numbers: BTreeMap<Value, usize>,
}

impl Values {
    fn number(&mut self, value: Value) -> usize {
        let fresh = self.numbers.len();
        *self.numbers.entry(value).or_insert(fresh)
    }
}

/// The value of the component of v; `known` has those of the components found so far.
fn hvn_value(g: &Graph, v: usize, values: &mut Values, known: &mut [Option<usize>]) -> usize {
    if let Some(value) = known[v] {
        return value;
    }
    let n = g.reach.len();
    let members: Vec<usize> = (0..n).filter(|&u| g.reach[u][v] && g.reach[v][u]).collect();
    let value = match members.iter().find(|&&u| g.open[u]) {
        Some(&u) => Value::Source(Source::Open(u)),
        None => {
            let nothing = values.number(Value::Nothing);
            let mut elements = BTreeSet::new();
            for &u in &members {
                elements.extend(g.sources[u].iter().map(|&s| values.number(Value::Source(s))));
            }
            for &(from, into) in &g.edges {
                if members.contains(&into) && !members.contains(&from) {
                    elements.insert(hvn_value(g, from, values, known));
                }
            }
            elements.remove(&nothing);
            match elements.len() {
                0 => Value::Nothing,
                1 => return record(&members, elements.pop_first().unwrap(), known),
                _ => Value::Set(elements),
            }
        }
    };
    let number = values.number(value);
    record(&members, number, known)
}

fn record(members: &[usize], value: usize, known: &mut [Option<usize>]) -> usize {
    for &u in members {
        known[u] = Some(value);
    }
    value
}

fn hvn_classes(g: &Graph) -> Vec<usize> {
    let mut values = Values::default();
    let mut known = vec![None; g.reach.len()];
    (0..g.reach.len()).map(|v| hvn_value(g, v, &mut values, &mut known)).collect()
}

/// What a layer makes of a list.
pub struct Merged {
    /// For each variable the one that stands for it.
    pub representatives: Vec<usize>,
    pub reduced: List,
}

fn representatives(classes: &[usize], open: &[bool]) -> Vec<usize> {
    let lowest =
        |class: usize, among_open: bool| (0..classes.len()).find(|&v| classes[v] == class && open[v] == among_open);
    let of = |v: usize| match open[v] {
        true => v,
        false => lowest(classes[v], true).or(lowest(classes[v], false)).unwrap(),
    };
    (0..classes.len()).map(of).collect()
}

/// A word with its variables replaced. An address's right side is an object, open and so never replaced.
fn replaced(word: Word, by: &[usize]) -> Word {
    Word::new(word.kind(), word.offset(), by[word.left()], by[word.right()])
}

fn is_idle(word: Word) -> bool {
    word.kind() == Kind::Copy && word.left() == word.right()
}

pub fn merge(layer: Layer, list: &List) -> Merged {
    let g = graph(list);
    let classes = match layer {
        Layer::Hvn => hvn_classes(&g),
        Layer::Hu => hu_classes(&g),
    };
    let representatives = representatives(&classes, &g.open);
    let mut reduced = List { blocks: list.blocks.clone(), words: Vec::new() };
    let mut seen = BTreeSet::new();
    for &word in &list.words {
        let word = replaced(word, &representatives);
        if !is_idle(word) && seen.insert(word) {
            reduced.words.push(word);
        }
    }
    Merged { representatives, reduced }
}

impl Merged {
    pub fn replaced_count(&self) -> usize {
        self.representatives.iter().enumerate().filter(|&(v, &r)| v != r).count()
    }

    /// The earliest word of the list above whose reduced form is the reduced list's word at a position.
    pub fn own_position(&self, above: &List, position: usize) -> usize {
        let named = self.reduced.words[position];
        above.words.iter().position(|&w| replaced(w, &self.representatives) == named).unwrap()
    }
}

#[cfg(test)]
mod tests {
    use super::*;

    fn list(blocks: &[usize], words: &[u32]) -> List {
        List { blocks: blocks.to_vec(), words: words.iter().map(|&w| Word(w)).collect() }
    }

    #[test]
    fn hvn_merges_a_chain_of_copies() {
        let merged = merge(Layer::Hvn, &list(&[1; 5], &[0x0000_2000, 0x4000_3002, 0x4000_4003]));
        assert_eq!(merged.reduced.words, [Word(0x0000_2000)]);
        assert_eq!(merged.replaced_count(), 2);
    }

    #[test]
    fn hu_sees_what_hvn_does_not() {
        let words = [0x0000_2000, 0x0000_3001, 0x4000_4002, 0x4000_4003, 0x4000_5004, 0x4000_5002];
        let l = list(&[1; 6], &words);
        assert_eq!(merge(Layer::Hvn, &l).replaced_count(), 0);
        let hu = merge(Layer::Hu, &l);
        assert_eq!(hu.replaced_count(), 1);
        assert_eq!(hu.representatives[5], 4);
    }

    #[test]
    fn open_variables_are_never_replaced() {
        // 1 and 2 are copies of each other; 1 is open by the address of it in 0.
        let l = list(&[1; 4], &[0x0000_0001, 0x4000_1002, 0x4000_2001]);
        let hvn = merge(Layer::Hvn, &l);
        assert_eq!(hvn.representatives, [0, 1, 1, 3]);
        assert_eq!(hvn.reduced.words, [Word(0x0000_0001)]);
    }

    #[test]
    fn variables_without_sources_are_one_class() {
        let l = list(&[1; 4], &[0x4000_1000, 0x8000_3002]);
        let hvn = merge(Layer::Hvn, &l);
        assert_eq!(hvn.representatives, [0, 0, 0, 3]);
        assert_eq!(hvn.own_position(&l, 0), 1);
    }

    #[test]
    fn empty_list_merges_to_nothing() {
        let merged = merge(Layer::Hu, &List::default());
        assert_eq!((merged.replaced_count(), merged.reduced.words.len()), (0, 0));
    }
}
