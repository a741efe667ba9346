//! One unit's text, read: its declarations, its statements, and the first declaration fault.

use crate::grammar;
use crate::lexeme::{lexemes, Lexeme, Placed};
use std::collections::HashMap;

/// A name where it stands in the text.
#[derive(Clone, Debug)]
pub struct Name {
    pub bytes: Vec<u8>,
    pub offset: usize,
}

#[derive(Clone, Copy, Debug, PartialEq, Eq)]
pub enum Slot {
    Own,
    Result,
    /// As written: 0 is no parameter.
    Parameter(u8),
}

#[derive(Clone, Debug)]
pub struct Place {
    pub name: Name,
    pub slot: Slot,
}

#[derive(Clone, Debug)]
pub enum Callee {
    Direct(Name),
    Indirect(Place),
}

#[derive(Clone, Debug)]
pub struct Call {
    pub callee: Callee,
    pub arguments: Vec<Place>,
}

#[derive(Clone, Debug)]
pub enum Value {
    Address(Name),
    Place(Place),
    Load(Place),
    Call(Call),
}

#[derive(Clone, Debug)]
pub enum Statement {
    Assign(Place, Value),
    Store(Place, Place),
    Call(Call),
}

/// What a name is: a variable, or a function with so many parameters.
#[derive(Clone, Copy, Debug, PartialEq, Eq)]
pub enum Shape {
    Variable,
    Function(u8),
}

impl Shape {
    pub fn block_length(self) -> usize {
        match self {
            Shape::Variable => 1,
            Shape::Function(n) => usize::from(n) + 2,
        }
    }

    /// The place of a slot in the block, if the shape has that slot.
    pub fn cell(self, slot: Slot) -> Option<usize> {
        match (self, slot) {
            (_, Slot::Own) => Some(0),
            (Shape::Function(_), Slot::Result) => Some(1),
            (Shape::Function(n), Slot::Parameter(j)) if 1 <= j && j <= n => Some(1 + usize::from(j)),
            _ => None,
        }
    }
}

#[derive(Clone, Debug)]
pub struct Declaration {
    pub name: Name,
    pub external: bool,
    pub shape: Shape,
}

/// An accepted text. Lines stand beside the statements, as a room fault names them.
#[derive(Clone, Debug)]
pub struct Unit {
    pub declarations: Vec<Declaration>,
    pub statements: Vec<(Statement, usize)>,
}

#[derive(Clone, Copy, Debug, PartialEq, Eq)]
pub enum TextFault {
    Grammar(usize),
    Declaration(usize),
}

enum Item {
    Declare(Declaration),
    Do(Statement),
}

/// Reads items from lexemes that the grammar has admitted.
struct Reader<'a> {
    lexemes: Vec<Placed<'a>>,
    at: usize,
}

impl<'a> Reader<'a> {
    fn peek(&self, ahead: usize) -> Option<Lexeme<'a>> {
        self.lexemes.get(self.at + ahead).map(|p| p.lexeme)
    }

    fn is_sign(&self, sign: u8) -> bool {
        self.peek(0) == Some(Lexeme::Sign(sign))
    }

    /// Whether the next lexeme is this sign; takes it if so.
    fn take(&mut self, sign: u8) -> bool {
        let found = self.is_sign(sign);
        self.at += usize::from(found);
        found
    }

    fn expect(&mut self, sign: u8) {
        assert!(self.take(sign), "the grammar admitted this text");
    }

    fn name(&mut self) -> Name {
        let placed = self.lexemes[self.at];
        self.at += 1;
        match placed.lexeme {
            Lexeme::Name(bytes) => Name { bytes: bytes.to_vec(), offset: placed.offset },
            _ => unreachable!("the grammar admitted this text"),
        }
    }

    fn number(&mut self) -> u8 {
        self.at += 1;
        match self.lexemes[self.at - 1].lexeme {
            Lexeme::Number(n) => n,
            _ => unreachable!("the grammar admitted this text"),
        }
    }

    fn place(&mut self) -> Place {
        let name = self.name();
        let slot = if !self.take(b'.') {
            Slot::Own
        } else if let Some(Lexeme::Number(_)) = self.peek(0) {
            Slot::Parameter(self.number())
        } else {
            self.name();
            Slot::Result
        };
        Place { name, slot }
    }

    fn call(&mut self) -> Call {
        let callee = if self.take(b'(') {
            self.expect(b'*');
            let pointer = self.place();
            self.expect(b')');
            Callee::Indirect(pointer)
        } else {
            Callee::Direct(self.name())
        };
        self.expect(b'(');
        let mut arguments = Vec::new();
        while !self.take(b')') {
            self.take(b',');
            arguments.push(self.place());
        }
        Call { callee, arguments }
    }

    /// A call begins with a bracket, or with a name and a bracket.
    fn at_call(&self) -> bool {
        self.is_sign(b'(') || self.peek(1) == Some(Lexeme::Sign(b'('))
    }

    fn value(&mut self) -> Value {
        if self.take(b'&') {
            Value::Address(self.name())
        } else if self.take(b'*') {
            Value::Load(self.place())
        } else if self.at_call() {
            Value::Call(self.call())
        } else {
            Value::Place(self.place())
        }
    }

    fn statement(&mut self) -> Statement {
        if self.take(b'*') {
            let pointer = self.place();
            self.expect(b'=');
            Statement::Store(pointer, self.place())
        } else if self.at_call() {
            Statement::Call(self.call())
        } else {
            let left = self.place();
            self.expect(b'=');
            Statement::Assign(left, self.value())
        }
    }

    fn declaration(&mut self) -> Declaration {
        let external = self.peek(0) == Some(Lexeme::Extern);
        self.at += usize::from(external);
        let function = self.peek(0) == Some(Lexeme::Fun);
        self.at += 1;
        let name = self.name();
        let shape = if function { Shape::Function(self.number()) } else { Shape::Variable };
        Declaration { name, external, shape }
    }

    fn item(&mut self) -> Item {
        let item = match self.peek(0) {
            Some(Lexeme::Var | Lexeme::Fun | Lexeme::Extern) => Item::Declare(self.declaration()),
            _ => Item::Do(self.statement()),
        };
        self.expect(b';');
        item
    }
}

impl Call {
    /// The words that the call stands for, with or without a place for its result.
    fn word_count(&self, result: bool) -> usize {
        self.arguments.len() + usize::from(result)
    }
}

impl Statement {
    pub fn word_count(&self) -> usize {
        match self {
            Statement::Assign(_, Value::Call(call)) => call.word_count(true),
            Statement::Call(call) => call.word_count(false),
            _ => 1,
        }
    }

    /// The pointer of the statement's indirect call, if it has one.
    pub fn indirect_pointer(&self) -> Option<&Place> {
        match self {
            Statement::Assign(_, Value::Call(call)) | Statement::Call(call) => match &call.callee {
                Callee::Indirect(pointer) => Some(pointer),
                Callee::Direct(_) => None,
            },
            _ => None,
        }
    }
}

/// A name used in a statement, and what is asked of it.
enum Use<'a> {
    Named(&'a Name),
    Slotted(&'a Place),
    Called(&'a Name, usize),
}

fn uses_of_call<'a>(call: &'a Call, uses: &mut Vec<Use<'a>>) {
    match &call.callee {
        Callee::Direct(name) => uses.push(Use::Called(name, call.arguments.len())),
        Callee::Indirect(pointer) => uses.push(Use::Slotted(pointer)),
    }
    uses.extend(call.arguments.iter().map(Use::Slotted));
}

/// The names of a statement in the order of the text.
fn uses_of(statement: &Statement) -> Vec<Use<'_>> {
    let mut uses = Vec::new();
    match statement {
        Statement::Assign(left, value) => {
            uses.push(Use::Slotted(left));
            match value {
                Value::Address(name) => uses.push(Use::Named(name)),
                Value::Place(place) | Value::Load(place) => uses.push(Use::Slotted(place)),
                Value::Call(call) => uses_of_call(call, &mut uses),
            }
        }
        Statement::Store(pointer, place) => {
            uses.push(Use::Slotted(pointer));
            uses.push(Use::Slotted(place));
        }
        Statement::Call(call) => uses_of_call(call, &mut uses),
    }
    uses
}

/// The fault of one use under the declarations before it, if it shows one.
fn fault_of(used: &Use<'_>, declared: &HashMap<Vec<u8>, Shape>) -> Option<usize> {
    let (name, right) = match *used {
        Use::Named(name) => (name, declared.contains_key(&name.bytes)),
        Use::Slotted(place) => {
            let shape = declared.get(&place.name.bytes);
            (&place.name, shape.is_some_and(|s| s.cell(place.slot).is_some()))
        }
        Use::Called(name, count) => {
            let right = match declared.get(&name.bytes) {
                Some(Shape::Function(n)) => usize::from(*n) == count,
                _ => false,
            };
            (name, right)
        }
    };
    (!right).then_some(name.offset)
}

/// Reads a text, or says where it first breaks the grammar or else a rule of declarations.
pub fn read(text: &[u8]) -> Result<Unit, TextFault> {
    let lexemes = lexemes(text);
    if let Some(offset) = grammar::fault(text, &lexemes) {
        return Err(TextFault::Grammar(offset));
    }
    let mut reader = Reader { lexemes, at: 0 };
    let mut unit = Unit { declarations: Vec::new(), statements: Vec::new() };
    let mut declared = HashMap::new();
    let (mut line, mut counted) = (1, 0);
    while reader.at < reader.lexemes.len() {
        let offset = reader.lexemes[reader.at].offset;
        line += text[counted..offset].iter().filter(|&&b| b == b'\n').count();
        counted = offset;
        match reader.item() {
            Item::Declare(d) => {
                if declared.insert(d.name.bytes.clone(), d.shape).is_some() {
                    return Err(TextFault::Declaration(d.name.offset));
                }
                unit.declarations.push(d);
            }
            Item::Do(statement) => {
                if let Some(at) = uses_of(&statement).iter().find_map(|u| fault_of(u, &declared)) {
                    return Err(TextFault::Declaration(at));
                }
                unit.statements.push((statement, line));
            }
        }
    }
    Ok(unit)
}

impl Unit {
    pub fn word_count(&self) -> usize {
        self.statements.iter().map(|(s, _)| s.word_count()).sum()
    }

    /// The pointers of the unit's indirect calls, in order.
    pub fn indirect_pointers(&self) -> impl Iterator<Item = &Place> {
        self.statements.iter().filter_map(|(s, _)| s.indirect_pointer())
    }
}

/// A place as questions write it: without blanks. None where the word is no place at all.
pub fn question_place(word: &[u8]) -> Option<Place> {
    let found = lexemes(word);
    let dense = !word.iter().any(|&b| crate::lexeme::is_blank(b));
    let slot = match found.iter().map(|p| p.lexeme).collect::<Vec<_>>()[..] {
        [Lexeme::Name(_)] => Slot::Own,
        [Lexeme::Name(_), Lexeme::Sign(b'.'), Lexeme::Name(b"r")] => Slot::Result,
        [Lexeme::Name(_), Lexeme::Sign(b'.'), Lexeme::Number(n)] => Slot::Parameter(n),
        _ => return None,
    };
    match found[0].lexeme {
        Lexeme::Name(bytes) if dense => Some(Place { name: Name { bytes: bytes.to_vec(), offset: 0 }, slot }),
        _ => None,
    }
}

#[cfg(test)]
mod tests {
    use super::*;

    fn fault_in(text: &str) -> Option<TextFault> {
        read(text.as_bytes()).err()
    }

    #[test]
    fn known_texts() {
        assert_eq!(fault_in("var p"), Some(TextFault::Grammar(5)));
        assert_eq!(fault_in("var p;;"), Some(TextFault::Grammar(6)));
        assert_eq!(fault_in("p=q;"), Some(TextFault::Declaration(0)));
        assert_eq!(fault_in(""), None);
    }

    #[test]
    fn declaration_faults() {
        assert_eq!(fault_in("var p; extern var p;"), Some(TextFault::Declaration(18)));
        assert_eq!(fault_in("var p; p = q; var q;"), Some(TextFault::Declaration(11)));
        assert_eq!(fault_in("var p; p.r = p;"), Some(TextFault::Declaration(7)));
        assert_eq!(fault_in("fun f 1; f.1 = f.r; f.2 = f;"), Some(TextFault::Declaration(20)));
        assert_eq!(fault_in("fun f 1; f = f.0;"), Some(TextFault::Declaration(13)));
        assert_eq!(fault_in("var p; p = p(p);"), Some(TextFault::Declaration(11)));
        assert_eq!(fault_in("fun f 1; f(q, q);"), Some(TextFault::Declaration(9)));
        assert_eq!(fault_in("fun f 1; f(q);"), Some(TextFault::Declaration(11)));
    }

    #[test]
    fn a_grammar_fault_comes_first() {
        assert_eq!(fault_in("p = q; var"), Some(TextFault::Grammar(10)));
    }

    #[test]
    fn places_of_questions() {
        let slot = |w: &[u8]| question_place(w).map(|p| p.slot);
        assert_eq!(slot(b"h"), Some(Slot::Own));
        assert_eq!(slot(b"r.r"), Some(Slot::Result));
        assert_eq!(slot(b"h.6"), Some(Slot::Parameter(6)));
        for bad in [&b""[..], b"h.", b".r", b"h.7", b"h.r.r", b"h.s", b"h .r", b"var", b"var.r", b"6", b"h\n"] {
            assert_eq!(slot(bad), None);
        }
    }
}
