//! The analyser: the six calls over a book and a pile.

use crate::book::{read_text, Book, Layout, LoadRefusal};
use crate::fast;
use crate::journal::{Entry, Journal};
use crate::least::{least, Rows};
use crate::pile::Pile;
use crate::unit::{question_place, Shape, Unit};
use std::collections::HashMap;
use std::rc::Rc;

#[derive(Clone)]
pub enum Reply {
    Loaded,
    Unloaded,
    Settled,
    Answer(bool),
    Targets(Vec<u8>),
    Refused(u8),
    RefusedAt { number: u8, offset: usize, line: usize },
    NoRoom(NoRoom),
}

/// Refusal 20. The pair that it is printed with may be any of the smallest solution.
#[derive(Clone)]
pub struct NoRoom {
    pub unit: u32,
    pub line: usize,
    pub position: usize,
    pub depth: u8,
    pub smallest: Rows,
}

impl Reply {
    /// The refusal's number, or 0 for an answer.
    pub fn number(&self) -> u8 {
        match self {
            Reply::Refused(number) | Reply::RefusedAt { number, .. } => *number,
            Reply::NoRoom(_) => 20,
            _ => 0,
        }
    }
}

/// Rows that can be asked for their objects, rising.
pub trait Solution {
    fn next(&self, variable: usize, from: usize) -> Option<usize>;

    fn holds(&self, variable: usize, object: usize) -> bool;

    fn share(&self, a: usize, b: usize) -> bool {
        let mut from = 0;
        while let Some(o) = self.next(a, from) {
            if self.holds(b, o) {
                return true;
            }
            from = o + 1;
        }
        false
    }
}

impl Solution for Rows {
    fn next(&self, variable: usize, from: usize) -> Option<usize> {
        self.row(variable).find(|&o| o >= from)
    }

    fn holds(&self, variable: usize, object: usize) -> bool {
        Rows::holds(self, variable, object)
    }
}

/// How a host goes about its work. The replies are the same.
#[derive(Clone, Copy, Debug, PartialEq, Eq)]
pub enum Manner {
    /// By the definitions; each text is read once.
    Plain,
    /// By the algorithms of the proved program, to compare speed.
    Fast,
    /// Texts are taken unread: refusals 12 to 17 do not apply.
    Unread,
}

struct Settled {
    layout: Layout,
    solution: Box<dyn Solution>,
}

pub struct Host {
    pile: Pile,
    manner: Manner,
    book: Book,
    settled: Option<Settled>,
    read: HashMap<*const u8, Result<Rc<Unit>, LoadRefusal>>,
}

fn refused(refusal: LoadRefusal) -> Reply {
    match refusal.at {
        None => Reply::Refused(refusal.number),
        Some((offset, line)) => Reply::RefusedAt { number: refusal.number, offset, line },
    }
}

fn unread(text: &[u8]) -> Result<Rc<Unit>, LoadRefusal> {
    if text.len() > crate::book::LONGEST_TEXT {
        return Err(LoadRefusal { number: 11, at: None });
    }
    Ok(Rc::new(Unit { declarations: Vec::new(), statements: Vec::new() }))
}

impl Host {
    pub fn new(pile: &Pile, manner: Manner) -> Host {
        Host { pile: pile.clone(), manner, book: Book::default(), settled: None, read: HashMap::new() }
    }

    pub fn is_settled(&self) -> bool {
        self.settled.is_some()
    }

    /// Unit numbers that stand.
    pub fn standing(&self) -> Vec<u32> {
        self.book.standing().map(|(number, _)| number).collect()
    }

    /// The names that standing units declare, once for each unit that does.
    pub fn names(&self) -> Vec<(String, Shape)> {
        let declarations = self.book.standing().flat_map(|(_, unit)| &unit.declarations);
        declarations.map(|d| (String::from_utf8_lossy(&d.name.bytes).into_owned(), d.shape)).collect()
    }

    /// How many indirect calls a unit has; 0 if it does not stand.
    pub fn indirect_calls(&self, unit: u32) -> usize {
        self.book.unit(unit).map_or(0, |text| text.indirect_pointers().count())
    }

    /// Loads a text. In the plain manner texts are told apart by their address: a journal keeps its own.
    fn load(&mut self, unit: u32, text: &[u8]) -> Reply {
        let (manner, read) = (self.manner, &mut self.read);
        let reply = self.book.load(unit, text, || match manner {
            Manner::Plain => read.entry(text.as_ptr()).or_insert_with(|| read_text(text)).clone(),
            Manner::Fast => read_text(text),
            Manner::Unread => unread(text),
        });
        match reply {
            Ok(()) => {
                self.settled = None;
                Reply::Loaded
            }
            Err(refusal) => refused(refusal),
        }
    }

    fn unload(&mut self, unit: u32) -> Reply {
        match self.book.unload(unit) {
            Ok(()) => {
                self.settled = None;
                Reply::Unloaded
            }
            Err(number) => Reply::Refused(number),
        }
    }

    fn settle(&mut self) -> Reply {
        if self.is_settled() {
            return Reply::Refused(19);
        }
        let layout = self.book.layout();
        let settled: Result<Box<dyn Solution>, _> = match self.manner {
            Manner::Fast => fast::settle(&self.pile, &layout.list),
            _ => self.pile.settle(&layout.list).map(|()| Box::new(least(&layout.list)) as Box<dyn Solution>),
        };
        match settled {
            Ok(solution) => {
                self.settled = Some(Settled { layout, solution });
                Reply::Settled
            }
            Err(fault) => {
                let (unit, line) = layout.origins[fault.position];
                let smallest = least(&layout.list);
                Reply::NoRoom(NoRoom { unit, line, position: fault.position, depth: fault.depth, smallest })
            }
        }
    }

    fn points(&self, place: &str, name: &str) -> Reply {
        let Some(Settled { layout, solution }) = &self.settled else {
            return Reply::Refused(21);
        };
        let Some(variable) = question_place(place.as_bytes()).and_then(|p| layout.variable(&p)) else {
            return Reply::Refused(22);
        };
        match question_place(name.as_bytes()).and_then(|p| layout.object(&p)) {
            Some(object) => Reply::Answer(solution.holds(variable, object)),
            None => Reply::Refused(23),
        }
    }

    fn alias(&self, first: &str, second: &str) -> Reply {
        let Some(Settled { layout, solution }) = &self.settled else {
            return Reply::Refused(21);
        };
        let variable = |word: &str| question_place(word.as_bytes()).and_then(|p| layout.variable(&p));
        match (variable(first), variable(second)) {
            (None, _) => Reply::Refused(22),
            (_, None) => Reply::Refused(23),
            (Some(a), Some(b)) => Reply::Answer(solution.share(a, b)),
        }
    }

    fn targets(&self, unit: u32, call: u32, buffer: u32) -> Reply {
        let Some(Settled { layout, solution }) = &self.settled else {
            return Reply::Refused(21);
        };
        if unit >= crate::book::UNITS {
            return Reply::Refused(9);
        }
        let Some(text) = self.book.unit(unit) else {
            return Reply::Refused(18);
        };
        let Some(pointer) = text.indirect_pointers().nth(call as usize) else {
            return Reply::Refused(24);
        };
        let variable = layout.variable(pointer).expect("a standing text has no declaration fault");
        let mut list = Vec::new();
        for (object, name) in &layout.functions {
            if solution.holds(variable, *object) {
                list.extend_from_slice(name);
                list.push(b'\n');
            }
        }
        if list.len() > buffer as usize {
            return Reply::Refused(25);
        }
        Reply::Targets(list)
    }

    /// Makes one call of a journal.
    pub fn call(&mut self, entry: &Entry, journal: &Journal) -> Reply {
        match entry {
            Entry::Load { unit, file } => self.load(*unit, &journal.files[file]),
            Entry::Unload { unit } => self.unload(*unit),
            Entry::Settle => self.settle(),
            Entry::Points { place, name } => self.points(place, name),
            Entry::Alias { first, second } => self.alias(first, second),
            Entry::Targets { unit, call, buffer } => self.targets(*unit, *call, *buffer),
        }
    }
}

/// Makes a journal's calls of a new host.
pub fn replay(journal: &Journal, pile: &Pile, manner: Manner) -> (Host, Vec<Reply>) {
    let mut host = Host::new(pile, manner);
    let replies = journal.lines.iter().map(|line| host.call(&line.entry, journal)).collect();
    (host, replies)
}
