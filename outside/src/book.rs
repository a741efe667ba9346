//! Which texts stand, the list they make together, and what refuses a load.

use crate::lexeme::line_of;
use crate::list::{Kind, List, Word, MOST_VARIABLES, MOST_WORDS};
use crate::unit::{self, Call, Callee, Declaration, Place, Shape, Slot, Statement, TextFault, Unit, Value};
use std::collections::HashMap;
use std::rc::Rc;

pub const UNITS: u32 = 8;
pub const LONGEST_TEXT: usize = 4096;
pub const MOST_INDIRECT_CALLS: usize = 64;

/// A refused load, by its number; 12, 13 and 14 with the offset in the text.
#[derive(Clone, Copy, Debug, PartialEq, Eq)]
pub struct LoadRefusal {
    pub number: u8,
    pub at: Option<(usize, usize)>,
}

/// Where a name's block begins, and what the name is.
#[derive(Clone, Copy, Debug)]
pub struct Named {
    pub first: usize,
    pub shape: Shape,
}

/// The list of the standing units. `origins` has each word's unit number and line.
#[derive(Clone, Default)]
pub struct Layout {
    pub names: HashMap<Vec<u8>, Named>,
    pub functions: Vec<(usize, Vec<u8>)>,
    pub list: List,
    pub origins: Vec<(u32, usize)>,
}

#[derive(Clone, Default)]
pub struct Book {
    units: [Option<Rc<Unit>>; UNITS as usize],
}

fn refused(number: u8) -> LoadRefusal {
    LoadRefusal { number, at: None }
}

fn refused_at(number: u8, text: &[u8], offset: usize) -> LoadRefusal {
    LoadRefusal { number, at: Some((offset, line_of(text, offset))) }
}

/// A text read on its own: refusals 11 to 13.
pub fn read_text(text: &[u8]) -> Result<Rc<Unit>, LoadRefusal> {
    if text.len() > LONGEST_TEXT {
        return Err(refused(11));
    }
    unit::read(text).map(Rc::new).map_err(|fault| match fault {
        TextFault::Grammar(offset) => refused_at(12, text, offset),
        TextFault::Declaration(offset) => refused_at(13, text, offset),
    })
}

fn clash(a: &Declaration, b: &Declaration) -> bool {
    a.name.bytes == b.name.bytes && (a.shape != b.shape || !a.external && !b.external)
}

impl Book {
    pub fn unit(&self, number: u32) -> Option<&Rc<Unit>> {
        self.units.get(number as usize)?.as_ref()
    }

    /// The standing units by rising number.
    pub fn standing(&self) -> impl Iterator<Item = (u32, &Rc<Unit>)> {
        (0..).zip(&self.units).filter_map(|(n, u)| u.as_ref().map(|u| (n, u)))
    }

    /// Enters a text, which `read_text` gives a meaning only where it is asked for it.
    pub fn load(
        &mut self,
        number: u32,
        text: &[u8],
        read: impl FnOnce() -> Result<Rc<Unit>, LoadRefusal>,
    ) -> Result<(), LoadRefusal> {
        if number >= UNITS {
            return Err(refused(9));
        }
        if self.unit(number).is_some() {
            return Err(refused(10));
        }
        let unit = read()?;
        let declared = || self.standing().flat_map(|(_, u)| &u.declarations);
        if let Some(d) = unit.declarations.iter().find(|d| declared().any(|other| clash(d, other))) {
            return Err(refused_at(14, text, d.name.offset));
        }
        let mut after = self.clone();
        after.units[number as usize] = Some(unit);
        after.check_limits()?;
        *self = after;
        Ok(())
    }

    fn check_limits(&self) -> Result<(), LoadRefusal> {
        let mut shapes = HashMap::new();
        let mut words = 0;
        let mut calls = 0;
        for (_, unit) in self.standing() {
            shapes.extend(unit.declarations.iter().map(|d| (&d.name.bytes, d.shape)));
            words += unit.word_count();
            calls += unit.indirect_pointers().count();
        }
        let variables: usize = shapes.values().map(|s| s.block_length()).sum();
        if variables > MOST_VARIABLES {
            Err(refused(15))
        } else if words > MOST_WORDS {
            Err(refused(16))
        } else if calls > MOST_INDIRECT_CALLS {
            Err(refused(17))
        } else {
            Ok(())
        }
    }

    /// Strikes out a unit, or answers the refusal's number.
    pub fn unload(&mut self, number: u32) -> Result<(), u8> {
        let place = self.units.get_mut(number as usize).ok_or(9)?;
        place.take().map(|_| ()).ok_or(18)
    }

    pub fn layout(&self) -> Layout {
        let mut layout = Layout::default();
        for (_, unit) in self.standing() {
            for d in &unit.declarations {
                layout.declare(d);
            }
        }
        for (number, unit) in self.standing() {
            for (statement, line) in &unit.statements {
                layout.add_statement(statement);
                layout.origins.resize(layout.list.words.len(), (number, *line));
            }
        }
        layout
    }
}

impl Layout {
    fn declare(&mut self, d: &Declaration) {
        if self.names.contains_key(&d.name.bytes) {
            return;
        }
        let first = self.list.variables();
        self.names.insert(d.name.bytes.clone(), Named { first, shape: d.shape });
        self.list.blocks.push(d.shape.block_length());
        if d.shape != Shape::Variable {
            self.functions.push((first, d.name.bytes.clone()));
        }
    }

    /// The variable of a place, if a standing unit declares its name and the name has its slot.
    pub fn variable(&self, place: &Place) -> Option<usize> {
        let named = self.names.get(&place.name.bytes)?;
        Some(named.first + named.shape.cell(place.slot)?)
    }

    fn known(&self, place: &Place) -> usize {
        self.variable(place).expect("a standing text has no declaration fault")
    }

    fn add(&mut self, kind: Kind, offset: usize, left: usize, right: usize) {
        self.list.words.push(Word::new(kind, offset, left, right));
    }

    fn add_statement(&mut self, statement: &Statement) {
        match statement {
            Statement::Assign(left, value) => {
                let p = self.known(left);
                match value {
                    Value::Address(name) => self.add(Kind::Address, 0, p, self.names[&name.bytes].first),
                    Value::Place(place) => self.add(Kind::Copy, 0, p, self.known(place)),
                    Value::Load(place) => self.add(Kind::Load, 0, p, self.known(place)),
                    Value::Call(call) => self.add_call(call, Some(p)),
                }
            }
            Statement::Store(pointer, place) => self.add(Kind::Store, 0, self.known(pointer), self.known(place)),
            Statement::Call(call) => self.add_call(call, None),
        }
    }

    fn add_call(&mut self, call: &Call, result: Option<usize>) {
        match &call.callee {
            Callee::Direct(name) => {
                let first = self.names[&name.bytes].first;
                for (j, argument) in call.arguments.iter().enumerate() {
                    self.add(Kind::Copy, 0, first + 2 + j, self.known(argument));
                }
                if let Some(p) = result {
                    self.add(Kind::Copy, 0, p, first + 1);
                }
            }
            Callee::Indirect(place) => {
                let pointer = self.known(place);
                for (j, argument) in call.arguments.iter().enumerate() {
                    self.add(Kind::Store, 2 + j, pointer, self.known(argument));
                }
                if let Some(p) = result {
                    self.add(Kind::Load, 1, p, pointer);
                }
            }
        }
    }

    /// The object of a bare name, if a standing unit declares it.
    pub fn object(&self, place: &Place) -> Option<usize> {
        match place.slot {
            Slot::Own => self.variable(place),
            _ => None,
        }
    }
}

#[cfg(test)]
mod tests {
    use super::*;

    fn loaded(texts: &[&str]) -> (Book, Vec<u8>) {
        let mut book = Book::default();
        let mut replies = Vec::new();
        for (number, text) in texts.iter().enumerate() {
            let text = text.as_bytes();
            let reply = book.load(number as u32, text, || read_text(text));
            replies.push(reply.map_or_else(|r| r.number, |()| 0));
        }
        (book, replies)
    }

    #[test]
    fn words_of_the_valves() {
        let text = "fun open 1; fun shut 1; var v; var h; var x; h = &open; h = &shut; x = (*h)(v);";
        let (book, _) = loaded(&[text]);
        let layout = book.layout();
        assert_eq!(layout.list.words, [0x0000_7000, 0x0000_7003, 0xD000_7006, 0x8800_8007].map(Word));
        assert_eq!(layout.list.blocks, [3, 3, 1, 1, 1]);
        assert_eq!(layout.origins, [(0, 1); 4]);
    }

    #[test]
    fn direct_calls() {
        let (book, _) = loaded(&["fun f 2; var a; var b; a = f(a, b); f(b, f.r); fun g 0; g();"]);
        let words = [0x4000_2004, 0x4000_3005, 0x4000_4001, 0x4000_2005, 0x4000_3001].map(Word);
        assert_eq!(book.layout().list.words, words);
    }

    #[test]
    fn names_mean_the_same_in_all_units() {
        let (book, replies) = loaded(&["extern var a; var b; b = a;", "var a; extern var b; a = b;"]);
        assert_eq!(replies, [0, 0]);
        assert_eq!(book.layout().list.words, [0x4000_1000, 0x4000_0001].map(Word));
        assert_eq!(book.layout().origins, [(0, 1), (1, 1)]);
    }

    #[test]
    fn clashes() {
        assert_eq!(loaded(&["var a;", "var a;"]).1, [0, 14]);
        assert_eq!(loaded(&["extern var a;", "extern fun a 0;"]).1, [0, 14]);
        assert_eq!(loaded(&["fun a 1;", "extern fun a 2;"]).1, [0, 14]);
        assert_eq!(loaded(&["extern var a;", "extern var a;", "var a;"]).1, [0, 0, 0]);
    }
}
