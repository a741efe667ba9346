//! A very long history over small units, and the short one of a fresh host that ends alike.

use super::history;
use super::texts::Pool;
use super::Calls;
use crate::host::{Host, Manner, Reply};
use crate::journal::{read_lines, Entry, Journal, Line};
use crate::pile::Pile;
use crate::random::Random;
use crate::report::standing_loads;
use std::rc::Rc;

const FILES: usize = 10;

pub struct Long {
    pub journal: Journal,
    /// Loads what stands at the end, settles, and asks the same last questions.
    pub fresh: Journal,
    /// How many questions end both.
    pub questions: usize,
}

/// Every points and alias over the pool's names, and the targets of every unit's first calls.
fn last_questions(pool: &Pool) -> Vec<Line> {
    let names: Vec<&str> = pool.shared.iter().map(|s| s.name.as_str()).collect();
    let mut text = String::new();
    for a in &names {
        for b in &names {
            text += &format!("points {a} {b}\nalias {a} {b}\npoints {a}.r {b}\n");
        }
    }
    for unit in 0..8 {
        text += &format!("targets {unit} 0\ntargets {unit} 1\ntargets {unit} 2\n");
    }
    read_lines(&text).expect("calls of a journal")
}

/// The replies to loads and unloads alone; other calls do not change which texts stand.
fn exchanges(journal: &Journal) -> Vec<Reply> {
    let mut host = Host::new(&Pile::parse("worklist/bits").expect("a pile"), Manner::Plain);
    let mut reply = |line: &Line| match line.entry {
        Entry::Load { .. } | Entry::Unload { .. } => host.call(&line.entry, journal),
        _ => Reply::Refused(21),
    };
    journal.lines.iter().map(&mut reply).collect()
}

/// A journal of so many calls.
pub fn long(seed: u64, calls: usize) -> Long {
    let mut random = Random::new(seed);
    let pool = Pool::new(&mut random);
    let mut journal = Journal::default();
    for i in 0..FILES {
        journal.files.insert(format!("u{i}.unit"), Rc::new(pool.small_text(i, &mut random)));
    }
    let questions = last_questions(&pool);
    let settle = read_lines("settle").expect("a call");
    let all = Calls::parse(Calls::ALL).expect("calls");
    let before = calls.saturating_sub(questions.len() + 1);
    journal.lines = history::lines(&journal, &pool, &all, before, &mut random);
    let loads = standing_loads(&journal, &exchanges(&journal)).into_iter().cloned().collect();
    let fresh = Journal { lines: [loads, settle.clone(), questions.clone()].concat(), ..journal.clone() };
    journal.lines.extend(settle);
    journal.lines.extend(questions.iter().cloned());
    Long { journal, fresh, questions: questions.len() }
}

#[cfg(test)]
mod tests {
    use super::*;
    use crate::host::replay;
    use crate::report::reply_text;

    #[test]
    fn both_end_alike() {
        let long = long(3, 2000);
        assert_eq!(long.journal.lines.len(), 2000);
        let pile = Pile::parse("worklist/bits").unwrap();
        let tail = |journal: &Journal| {
            let (_, replies) = replay(journal, &pile, Manner::Plain);
            replies[replies.len() - long.questions..].iter().map(reply_text).collect::<Vec<_>>()
        };
        let answers = tail(&long.journal);
        assert_eq!(answers, tail(&long.fresh));
        assert!(answers.iter().any(|a| a == "yes") && answers.iter().any(|a| a == "no"));
    }
}
