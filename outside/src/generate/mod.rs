//! Journals from a seed: units that are valid, damaged or at a limit, and histories of calls over them.

mod history;
mod long;
mod texts;

pub use long::{long, Long};
pub use texts::speed_texts;

use crate::journal::Journal;
use crate::random::Random;
use std::rc::Rc;
use texts::Pool;

/// The calls that a journal may make.
#[derive(Clone)]
pub struct Calls(Vec<String>);

impl Calls {
    pub const ALL: &'static str = "load,unload,settle,points,alias,targets";

    /// Reads `load,unload`.
    pub fn parse(text: &str) -> Option<Calls> {
        let names: Vec<String> = text.split(',').map(String::from).collect();
        let known = |name: &String| Calls::ALL.split(',').any(|call| call == name);
        names.iter().all(known).then_some(Calls(names))
    }

    pub fn has(&self, call: &str) -> bool {
        self.0.iter().any(|c| c == call)
    }
}

/// The journal of a seed.
pub fn journal(seed: u64, calls: &Calls) -> Journal {
    let mut random = Random::new(seed);
    let pool = Pool::new(&mut random);
    let count = random.between(3, 12);
    let mut journal = Journal { noisy: random.percent(30), ..Journal::default() };
    for i in 0..count {
        let text = pool.text(i, &mut random);
        journal.files.insert(format!("u{i}.unit"), Rc::new(text));
    }
    // Most histories are short; some are long, with many exchanges.
    let length = match random.below(10) {
        0 => 1500,
        1..=3 => 300,
        _ => random.between(5, 80),
    };
    journal.lines = history::lines(&journal, &pool, calls, length, &mut random);
    journal
}

/// The number of cells that a seed's chains have: most are too few for some of its lists.
pub fn cells(seed: u64) -> usize {
    *Random::new(seed ^ 0xce11).pick(&[0, 1, 2, 5, 9, 16, 27, 40, 64, 100, 150, 300, 700, 1024, 16_384])
}

/// A journal text with one bad line, and that line's number.
pub fn bad_journal(seed: u64, journal: &Journal) -> (Vec<u8>, usize) {
    const BAD: [&[u8]; 14] = [
        b"setle",
        b"load 0",
        b"load 0 u0.unit u1.unit",
        b"load x u0.unit",
        b"load 0 no_such.unit",
        b"unload",
        b"unload -1",
        b"unload +1",
        b"unload 4294967296",
        b"unload 1 2",
        b"Load 0 u0.unit",
        b"settle now",
        b"points a",
        b"targets 0 \xff",
    ];
    let mut random = Random::new(seed ^ 0xbad);
    let text = journal.text();
    let mut lines: Vec<&[u8]> = text.lines().map(str::as_bytes).collect();
    let at = random.below(lines.len() + 1);
    lines.insert(at, *random.pick(&BAD[..]));
    (lines.join(&b'\n'), at + 1)
}

#[cfg(test)]
mod tests {
    use super::*;
    use crate::host::{replay, Manner, Reply};
    use crate::pile::{Pile, Solver, Store};
    use std::collections::BTreeMap;

    /// What the journals of a few seeds are answered with: everything there is.
    #[test]
    fn every_reply_is_reached() {
        let calls = Calls::parse(Calls::ALL).unwrap();
        let mut seen: BTreeMap<String, usize> = BTreeMap::new();
        for seed in 1..=40 {
            let pile = Pile { layers: vec![], solver: Solver::Worklist, store: Store::Chains(cells(seed)) };
            let (_, replies) = replay(&journal(seed, &calls), &pile, Manner::Plain);
            for reply in &replies {
                let kind = match reply {
                    Reply::Loaded => "loaded".into(),
                    Reply::Unloaded => "unloaded".into(),
                    Reply::Settled => "settled".into(),
                    Reply::Answer(yes) => yes.to_string(),
                    Reply::Targets(list) => format!("targets {}", list.len().min(1)),
                    refused => format!("refused {:02}", refused.number()),
                };
                *seen.entry(kind).or_default() += 1;
            }
        }
        println!("{seen:?}");
        for number in 9..=25 {
            assert!(seen.contains_key(&format!("refused {number:02}")), "refusal {number}");
        }
        for kind in ["loaded", "unloaded", "settled", "true", "false", "targets 0", "targets 1"] {
            assert!(seen.get(kind).copied().unwrap_or(0) > 20, "{kind}");
        }
    }

    #[test]
    fn texts_for_speed_are_accepted() {
        for (name, text) in speed_texts() {
            assert!(crate::book::read_text(&text).is_ok(), "{name}: {} bytes", text.len());
        }
    }
}
