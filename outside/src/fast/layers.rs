//! HVN and HU over bit rows.

use crate::list::{Kind, List, Word};
use crate::merge::Layer;
use std::collections::{HashMap, HashSet};

type Row = [u64; 4];

/// Room for a column for each source: 256 open variables and 512 words.
type Mark = [u64; 12];

fn has(row: &[u64], i: usize) -> bool {
    row[i / 64] >> (i % 64) & 1 == 1
}

fn put(row: &mut [u64], i: usize) {
    row[i / 64] |= 1 << (i % 64);
}

fn bits(row: &[u64]) -> impl Iterator<Item = usize> + '_ {
    row.iter().enumerate().flat_map(|(i, &word)| {
        let mut left = word;
        std::iter::from_fn(move || {
            let bit = (left != 0).then(|| left.trailing_zeros() as usize)?;
            left &= left - 1;
            Some(64 * i + bit)
        })
    })
}

struct Flow {
    variables: usize,
    /// into[v]: the variables with a copy into v.
    into: Vec<Row>,
    /// reaching[v]: the variables that reach v, itself among them.
    reaching: Vec<Row>,
    /// The columns of the sources that stand at a variable.
    sources: Vec<Mark>,
    open: Row,
}

fn open_variables(list: &List) -> Row {
    let mut addressed: Row = [0; 4];
    for w in list.words.iter().filter(|w| w.kind() == Kind::Address) {
        put(&mut addressed, w.right());
    }
    let mut open: Row = [0; 4];
    for (v, &object) in list.objects().iter().enumerate() {
        if has(&addressed, object) {
            put(&mut open, v);
        }
    }
    open
}

/// Warshall's closure, a row at a time.
fn close(rows: &mut [Row]) {
    for middle in 0..rows.len() {
        let through = rows[middle];
        for row in rows.iter_mut().filter(|row| has(&row[..], middle)) {
            for i in 0..4 {
                row[i] |= through[i];
            }
        }
    }
}

fn flow(list: &List) -> Flow {
    let variables = list.variables();
    let open = open_variables(list);
    let mut into = vec![[0; 4]; variables];
    let mut sources = vec![[0; 12]; variables];
    let mut columns = HashMap::new();
    for w in &list.words {
        match w.kind() {
            Kind::Copy => put(&mut into[w.left()], w.right()),
            Kind::Address | Kind::Load => {
                let fresh = 256 + columns.len();
                let column = *columns.entry((w.kind() as u8, w.offset(), w.right())).or_insert(fresh);
                put(&mut sources[w.left()], column);
            }
            Kind::Store => {}
        }
    }
    let mut reaching = into.clone();
    for v in 0..variables {
        put(&mut reaching[v], v);
        if has(&open, v) {
            put(&mut sources[v], v);
        }
    }
    close(&mut reaching);
    Flow { variables, into, reaching, sources, open }
}

fn numbered<K: std::hash::Hash + Eq>(keys: impl Iterator<Item = K>) -> Vec<usize> {
    let mut numbers = HashMap::new();
    keys.map(|key| {
        let fresh = numbers.len();
        *numbers.entry(key).or_insert(fresh)
    })
    .collect()
}

fn hu_classes(f: &Flow) -> Vec<usize> {
    numbered((0..f.variables).map(|v| {
        let mut mark: Mark = [0; 12];
        for u in bits(&f.reaching[v]) {
            for (word, from) in mark.iter_mut().zip(f.sources[u]) {
                *word |= from;
            }
        }
        mark
    }))
}

/// Values by number: columns first, sets of values above them, `NOTHING` last.
const NOTHING: usize = usize::MAX;
const SETS: usize = 768;

fn hvn_classes(f: &Flow) -> Vec<usize> {
    let mut values = vec![None; f.variables];
    let mut sets = HashMap::new();
    for v in 0..f.variables {
        hvn_value(f, v, &mut values, &mut sets);
    }
    values.into_iter().map(Option::unwrap).collect()
}

fn hvn_value(f: &Flow, v: usize, values: &mut [Option<usize>], sets: &mut HashMap<Vec<usize>, usize>) -> usize {
    if let Some(value) = values[v] {
        return value;
    }
    let members: Vec<usize> = bits(&f.reaching[v]).filter(|&u| has(&f.reaching[u], v)).collect();
    let value = match members.iter().find(|&&u| has(&f.open, u)) {
        Some(&u) => u,
        None => {
            let mut elements: Vec<usize> = members.iter().flat_map(|&u| bits(&f.sources[u])).collect();
            for &u in &members {
                for from in bits(&f.into[u]).filter(|from| !members.contains(from)) {
                    elements.push(hvn_value(f, from, values, sets));
                }
            }
            elements.retain(|&e| e != NOTHING);
            elements.sort_unstable();
            elements.dedup();
            match elements[..] {
                [] => NOTHING,
                [one] => one,
                _ => {
                    let fresh = SETS + sets.len();
                    *sets.entry(elements).or_insert(fresh)
                }
            }
        }
    };
    for &u in &members {
        values[u] = Some(value);
    }
    value
}

pub struct Merged {
    pub representatives: [u8; 256],
    pub reduced: List,
}

fn representatives(classes: &[usize], open: &Row) -> [u8; 256] {
    let mut lowest = HashMap::new();
    let by_openness = [true, false].into_iter().flat_map(|o| (0..classes.len()).filter(move |&v| has(open, v) == o));
    for v in by_openness {
        lowest.entry(classes[v]).or_insert(v);
    }
    let mut found = [0; 256];
    for v in 0..classes.len() {
        found[v] = if has(open, v) { v as u8 } else { lowest[&classes[v]] as u8 };
    }
    found
}

fn replaced(word: Word, by: &[u8; 256]) -> Word {
    Word::new(word.kind(), word.offset(), by[word.left()].into(), by[word.right()].into())
}

pub fn merge(layer: Layer, list: &List) -> Merged {
    let f = flow(list);
    let classes = match layer {
        Layer::Hvn => hvn_classes(&f),
        Layer::Hu => hu_classes(&f),
    };
    let representatives = representatives(&classes, &f.open);
    let mut seen = HashSet::new();
    let kept = |word: &Word| !(word.kind() == Kind::Copy && word.left() == word.right()) && seen.insert(*word);
    let words = list.words.iter().map(|&word| replaced(word, &representatives)).filter(kept).collect();
    Merged { representatives, reduced: List { blocks: list.blocks.clone(), words } }
}

impl Merged {
    pub fn own_position(&self, above: &List, position: usize) -> usize {
        let named = self.reduced.words[position];
        above.words.iter().position(|&w| replaced(w, &self.representatives) == named).unwrap()
    }
}
