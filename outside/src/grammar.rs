//! The grammar, written down once as it stands in the rules, and the first place where a text leaves it.
//!
//! The grammar has no nesting, so it is a regular expression over lexemes. The derivative of an expression
//! by a lexeme describes what may follow that lexeme; a text begins no unit exactly when the derivative by
//! its lexemes is empty. All derivatives are worked out once, as a table.

use crate::lexeme::{Lexeme, Placed};
use std::collections::{BTreeMap, BTreeSet};
use std::sync::OnceLock;

/// What the grammar can tell apart: the name r may be a slot, other names may not.
#[derive(Clone, Copy, Debug, PartialEq, Eq, PartialOrd, Ord)]
enum Kind {
    Var,
    Fun,
    Extern,
    NameR,
    OtherName,
    Number,
    Sign(u8),
}

const KINDS: [Kind; 14] = [
    Kind::Var,
    Kind::Fun,
    Kind::Extern,
    Kind::NameR,
    Kind::OtherName,
    Kind::Number,
    Kind::Sign(b'='),
    Kind::Sign(b'&'),
    Kind::Sign(b'*'),
    Kind::Sign(b'('),
    Kind::Sign(b')'),
    Kind::Sign(b','),
    Kind::Sign(b';'),
    Kind::Sign(b'.'),
];

fn kind_of(lexeme: Lexeme<'_>) -> Option<usize> {
    let kind = match lexeme {
        Lexeme::Var => Kind::Var,
        Lexeme::Fun => Kind::Fun,
        Lexeme::Extern => Kind::Extern,
        Lexeme::Name(b"r") => Kind::NameR,
        Lexeme::Name(_) => Kind::OtherName,
        Lexeme::Number(_) => Kind::Number,
        Lexeme::Sign(s) => Kind::Sign(s),
        Lexeme::Bad => return None,
    };
    KINDS.iter().position(|&k| k == kind)
}

/// A regular expression in a normal form: `None` stands for the language without a text nowhere but at the top.
#[derive(Clone, Debug, PartialEq, Eq, PartialOrd, Ord)]
enum Expr {
    None,
    Empty,
    One(Kind),
    Then(Box<Expr>, Box<Expr>),
    Either(BTreeSet<Expr>),
    Many(Box<Expr>),
}

use Expr::{Either, Empty, Many, None as Nothing, One, Then};

fn then(a: Expr, b: Expr) -> Expr {
    match (a, b) {
        (Nothing, _) | (_, Nothing) => Nothing,
        (Empty, e) | (e, Empty) => e,
        (Then(a, b), c) => then(*a, then(*b, c)),
        (a, b) => Then(Box::new(a), Box::new(b)),
    }
}

fn either(choices: impl IntoIterator<Item = Expr>) -> Expr {
    let mut set = BTreeSet::new();
    for choice in choices {
        match choice {
            Nothing => {}
            Either(inner) => set.extend(inner),
            e => {
                set.insert(e);
            }
        }
    }
    match set.len() {
        0 => Nothing,
        1 => set.pop_first().unwrap(),
        _ => Either(set),
    }
}

fn sequence(parts: impl IntoIterator<Item = Expr>) -> Expr {
    parts.into_iter().fold(Empty, then)
}

fn optional(e: Expr) -> Expr {
    either([Empty, e])
}

fn sign(s: char) -> Expr {
    One(Kind::Sign(s as u8))
}

fn name() -> Expr {
    either([One(Kind::NameR), One(Kind::OtherName)])
}

/// place = name [ "." ( "r" | number ) ]
fn place() -> Expr {
    let slot = either([One(Kind::NameR), One(Kind::Number)]);
    then(name(), optional(then(sign('.'), slot)))
}

/// call = ( name | "(" "*" place ")" ) "(" [ place { "," place } ] ")", with six arguments at most
fn call() -> Expr {
    let pointer = sequence([sign('('), sign('*'), place(), sign(')')]);
    let mut more = Empty;
    for _ in 0..5 {
        more = optional(sequence([sign(','), place(), more]));
    }
    let arguments = optional(then(place(), more));
    sequence([either([name(), pointer]), sign('('), arguments, sign(')')])
}

/// value = "&" name | place | "*" place | call
fn value() -> Expr {
    either([then(sign('&'), name()), place(), then(sign('*'), place()), call()])
}

fn item() -> Expr {
    let variable = then(One(Kind::Var), name());
    let function = sequence([One(Kind::Fun), name(), One(Kind::Number)]);
    let declaration = then(optional(One(Kind::Extern)), either([variable, function]));
    let assignment = sequence([place(), sign('='), value()]);
    let store = sequence([sign('*'), place(), sign('='), place()]);
    then(either([declaration, assignment, store, call()]), sign(';'))
}

/// unit = { item }
fn unit() -> Expr {
    Many(Box::new(item()))
}

fn accepts_empty(e: &Expr) -> bool {
    match e {
        Empty | Many(_) => true,
        Nothing | One(_) => false,
        Then(a, b) => accepts_empty(a) && accepts_empty(b),
        Either(set) => set.iter().any(accepts_empty),
    }
}

fn derivative(e: &Expr, by: Kind) -> Expr {
    match e {
        Nothing | Empty => Nothing,
        One(k) => {
            if *k == by {
                Empty
            } else {
                Nothing
            }
        }
        Then(a, b) => {
            let first = then(derivative(a, by), (**b).clone());
            if accepts_empty(a) {
                either([first, derivative(b, by)])
            } else {
                first
            }
        }
        Either(set) => either(set.iter().map(|e| derivative(e, by))),
        Many(a) => then(derivative(a, by), e.clone()),
    }
}

/// The derivatives of `unit` as a table: where each kind leads, and whether a unit may end here.
struct Table {
    steps: Vec<[Option<usize>; KINDS.len()]>,
    ends: Vec<bool>,
}

fn build() -> Table {
    let mut table = Table { steps: Vec::new(), ends: Vec::new() };
    let mut numbers = BTreeMap::from([(unit(), 0)]);
    let mut exprs = vec![unit()];
    while table.steps.len() < exprs.len() {
        let e = exprs[table.steps.len()].clone();
        let mut row = [None; KINDS.len()];
        for (cell, kind) in row.iter_mut().zip(KINDS) {
            let next = derivative(&e, kind);
            if next != Nothing {
                let fresh = exprs.len();
                let number = *numbers.entry(next.clone()).or_insert(fresh);
                if number == fresh {
                    exprs.push(next);
                }
                *cell = Some(number);
            }
        }
        table.steps.push(row);
        table.ends.push(accepts_empty(&e));
    }
    table
}

/// The offset of the grammar fault of a text with these lexemes, if it has one.
pub fn fault(text: &[u8], lexemes: &[Placed<'_>]) -> Option<usize> {
    static TABLE: OnceLock<Table> = OnceLock::new();
    let table = TABLE.get_or_init(build);
    let mut state = 0;
    for placed in lexemes {
        match kind_of(placed.lexeme).and_then(|kind| table.steps[state][kind]) {
            Some(next) => state = next,
            None => return Some(placed.offset),
        }
    }
    if table.ends[state] {
        None
    } else {
        Some(text.len())
    }
}

#[cfg(test)]
mod tests {
    use super::*;
    use crate::lexeme::lexemes;

    fn fault_of(text: &str) -> Option<usize> {
        fault(text.as_bytes(), &lexemes(text.as_bytes()))
    }

    #[test]
    fn known_faults() {
        assert_eq!(fault_of("var p"), Some(5));
        assert_eq!(fault_of("var p;;"), Some(6));
        assert_eq!(fault_of("p=q;"), None);
        assert_eq!(fault_of(""), None);
    }

    #[test]
    fn the_seventh_argument_is_refused_at_its_comma() {
        assert_eq!(fault_of("f(a,b,c,d,e,g);"), None);
        assert_eq!(fault_of("f(a,b,c,d,e,g,h);"), Some(13));
    }

    #[test]
    fn slots() {
        assert_eq!(fault_of("r.r=f.6;"), None);
        assert_eq!(fault_of("a.s=b;"), Some(2));
        assert_eq!(fault_of("a.7=b;"), Some(2));
        assert_eq!(fault_of("a=&b.1;"), Some(4));
        assert_eq!(fault_of("a.1(b);"), Some(3));
    }

    #[test]
    fn statements() {
        assert_eq!(fault_of("(*p.r)(); x = (*p)(a.1, b); *x = y; x = *y;"), None);
        assert_eq!(fault_of("*x = *y;"), Some(5));
        assert_eq!(fault_of("*x = &y;"), Some(5));
        assert_eq!(fault_of("p;"), Some(1));
        assert_eq!(fault_of("x = (p)();"), Some(5));
        assert_eq!(fault_of("extern extern var x;"), Some(7));
        assert_eq!(fault_of("fun f;"), Some(5));
        assert_eq!(fault_of("fun f 66;"), Some(6));
        assert_eq!(fault_of("fun f 6a;"), Some(7));
        assert_eq!(fault_of("var fun;"), Some(4));
    }

    #[test]
    fn the_table_is_small() {
        assert!(build().steps.len() < 100);
    }
}
