//! Histories of calls over a journal's files.

use super::texts::Pool;
use super::Calls;
use crate::host::{Host, Manner};
use crate::journal::{read_line, Entry, Journal, Line};
use crate::pile::Pile;
use crate::random::Random;
use crate::unit::Shape;

struct History<'a> {
    random: &'a mut Random,
    pool: &'a Pool,
    calls: &'a Calls,
    journal: &'a Journal,
    /// Makes the loads and unloads, so that most further calls can be ones that are answered.
    host: Host,
    files: Vec<String>,
    lines: Vec<Line>,
}

impl History<'_> {
    fn push(&mut self, text: String) {
        let call = text.split(' ').next().unwrap_or("");
        if self.calls.has(call) {
            let line = read_line(&text).ok().flatten().expect("a call of a journal");
            if matches!(line.entry, Entry::Load { .. } | Entry::Unload { .. }) {
                self.host.call(&line.entry, self.journal);
            }
            self.lines.push(line);
        }
    }

    /// A unit number; mostly one that stands, or one that is free, as asked for.
    fn unit(&mut self, stands: bool) -> u32 {
        let standing = self.host.standing();
        let wanted: Vec<u32> = (0..8).filter(|u| standing.contains(u) == stands).collect();
        match self.random.below(60) {
            0 => 8,
            1 => 4_000_000_000,
            2..=8 => self.random.below(8) as u32,
            _ if wanted.is_empty() => self.random.below(8) as u32,
            _ => *self.random.pick(&wanted),
        }
    }

    fn load(&mut self, unit: u32) {
        let file = self.random.pick(&self.files).clone();
        self.push(format!("load {unit} {file}"));
    }

    /// A place of the pool, now and then one that no unit can have.
    fn place(&mut self) -> String {
        const ODD: [&str; 12] = [
            "h.7",
            ".r",
            "a.",
            "var",
            "a.r.r",
            "x-y",
            "nobody",
            "a..1",
            "é",
            "r.r",
            "a.01",
            "xxxxxxxxxxxxxxxxxxxxxxxxx",
        ];
        if self.random.percent(6) {
            return self.random.pick(&ODD).to_string();
        }
        let (name, shape) = self.named();
        let slot = match shape {
            Shape::Function(n) if n > 0 && self.random.percent(30) => format!(".{}", self.random.between(1, n.into())),
            Shape::Function(_) if self.random.percent(30) => ".r".to_string(),
            _ if self.random.percent(3) => format!(".{}", self.random.below(7)),
            _ => String::new(),
        };
        format!("{name}{slot}")
    }

    /// A name, mostly one that stands.
    fn named(&mut self) -> (String, Shape) {
        let standing = self.host.names();
        if standing.is_empty() || self.random.percent(6) {
            let shared = self.random.pick(&self.pool.shared);
            return (shared.name.clone(), shared.shape);
        }
        self.random.pick(&standing).clone()
    }

    fn name(&mut self) -> String {
        match self.random.percent(6) {
            true => self.place(),
            false => self.named().0,
        }
    }

    fn question(&mut self) {
        let text = match self.random.below(8) {
            0..=2 => format!("points {} {}", self.place(), self.name()),
            3 | 4 => format!("alias {} {}", self.place(), self.place()),
            _ => {
                let buffer = match self.random.below(6) {
                    0 => format!(" {}", self.random.below(30)),
                    _ => String::new(),
                };
                let unit = self.unit(true);
                let call = match self.random.percent(5) {
                    true => 4_000_000_000,
                    false => self.random.between(0, self.host.indirect_calls(unit)),
                };
                format!("targets {unit} {call}{buffer}")
            }
        };
        self.push(text);
    }

    /// Some loads and unloads, a settle, some questions.
    fn round(&mut self) {
        for _ in 0..self.random.between(1, 4) {
            let few = self.host.standing().len() < 3;
            let out = self.random.percent(if few { 10 } else { 55 });
            let unit = self.unit(out);
            if out {
                self.push(format!("unload {unit}"));
            }
            if !out || self.random.percent(60) {
                self.load(unit);
            }
        }
        if self.random.percent(85) {
            self.push("settle".into());
        }
        if self.random.percent(8) {
            self.push("settle".into());
        }
        for _ in 0..self.random.below(8) {
            self.question();
        }
    }
}

pub fn lines(journal: &Journal, pool: &Pool, calls: &Calls, length: usize, random: &mut Random) -> Vec<Line> {
    let files = journal.files.keys().cloned().collect();
    let pile = Pile::parse("worklist/bits").expect("a pile");
    let host = Host::new(&pile, Manner::Plain);
    let mut history = History { random, pool, calls, journal, host, files, lines: Vec::new() };
    while history.lines.len() < length {
        history.round();
    }
    history.lines.truncate(length);
    history.lines
}
