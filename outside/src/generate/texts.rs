//! Unit texts.

use crate::random::Random;
use crate::unit::Shape;

/// A name that several units may mention. Its home unit defines it, others declare it extern.
#[derive(Clone)]
pub struct Shared {
    pub name: String,
    pub shape: Shape,
    home: usize,
}

pub struct Pool {
    pub shared: Vec<Shared>,
}

fn shape(random: &mut Random) -> Shape {
    match random.percent(55) {
        true => Shape::Variable,
        false => Shape::Function(random.below(7) as u8),
    }
}

/// A text in the making: its lexemes, and what it has declared.
struct Draft<'a> {
    random: &'a mut Random,
    lexemes: Vec<Vec<u8>>,
    declared: Vec<(String, Shape)>,
    /// Of a hundred places, how many break a rule of declarations.
    slips: usize,
}

impl Draft<'_> {
    fn put(&mut self, lexemes: &[&str]) {
        self.lexemes.extend(lexemes.iter().map(|l| l.as_bytes().to_vec()));
    }

    fn declare(&mut self, name: &str, shape: Shape, external: bool) {
        if external {
            self.put(&["extern"]);
        }
        match shape {
            Shape::Variable => self.put(&["var", name, ";"]),
            Shape::Function(n) => self.put(&["fun", name, &n.to_string(), ";"]),
        }
        self.declared.push((name.to_string(), shape));
    }

    fn slip(&mut self) -> bool {
        let slips = self.slips;
        self.random.percent(slips)
    }

    fn name(&mut self) -> (String, Shape) {
        if self.slip() {
            return (format!("unknown{}", self.random.below(3)), shape(self.random));
        }
        self.random.pick(&self.declared).clone()
    }

    fn place(&mut self) {
        let (name, shape) = self.name();
        self.put(&[&name]);
        let most = match shape {
            Shape::Function(n) => n,
            Shape::Variable => 0,
        };
        let slot = match shape {
            _ if self.slip() => self.random.pick(&["0", "r", "6", "1"]).to_string(),
            Shape::Variable => return,
            Shape::Function(_) if self.random.percent(40) => return,
            Shape::Function(_) if most == 0 || self.random.percent(40) => "r".to_string(),
            Shape::Function(_) => self.random.between(1, most.into()).to_string(),
        };
        self.put(&[".", &slot]);
    }

    fn arguments(&mut self, count: usize) {
        self.put(&["("]);
        for i in 0..count {
            if i > 0 {
                self.put(&[","]);
            }
            self.place();
        }
        self.put(&[")"]);
    }

    /// One of the declared functions and its count, if there are any.
    fn function(&mut self) -> Option<(String, u8)> {
        let count = |shape: &Shape| match shape {
            Shape::Function(n) => Some(*n),
            Shape::Variable => None,
        };
        let functions: Vec<(String, u8)> =
            self.declared.iter().filter_map(|(name, shape)| Some((name.clone(), count(shape)?))).collect();
        (!functions.is_empty()).then(|| self.random.pick(&functions).clone())
    }

    fn direct_call(&mut self) {
        let Some((name, count)) = self.function() else {
            return self.indirect_call();
        };
        let wrong = usize::from(self.slip());
        self.put(&[&name]);
        self.arguments(usize::from(count) + wrong);
    }

    fn indirect_call(&mut self) {
        self.put(&["(", "*"]);
        self.place();
        self.put(&[")"]);
        let count = self.random.below(7);
        self.arguments(count);
    }

    fn call(&mut self) {
        match self.random.percent(50) {
            true => self.direct_call(),
            false => self.indirect_call(),
        }
    }

    /// A statement; `weights` says how often each kind is picked.
    fn statement(&mut self, weights: &[usize; 6]) {
        let mut left = self.random.below(weights.iter().sum());
        let kind = weights
            .iter()
            .position(|&w| {
                left < w || {
                    left -= w;
                    false
                }
            })
            .unwrap();
        match kind {
            0 => {
                self.place();
                self.put(&["=", "&"]);
                let function = if self.random.percent(50) { self.function() } else { None };
                let name = function.map_or_else(|| self.name().0, |(name, _)| name);
                self.put(&[&name]);
            }
            1 => {
                self.place();
                self.put(&["="]);
                self.place();
            }
            2 => {
                self.place();
                self.put(&["=", "*"]);
                self.place();
            }
            3 => {
                self.put(&["*"]);
                self.place();
                self.put(&["="]);
                self.place();
            }
            4 => self.call(),
            _ => {
                self.place();
                self.put(&["="]);
                self.call();
            }
        }
        self.put(&[";"]);
    }

    fn statements(&mut self, count: usize) {
        let mut weights = [0; 6];
        for w in &mut weights {
            *w = self.random.below(8);
        }
        weights[0] += 2;
        weights[1] += 1;
        weights[5] += 1;
        for _ in 0..count {
            self.statement(&weights);
        }
    }

    /// Declarations and statements, some of the declarations late.
    fn body(&mut self, pool: &Pool, unit: usize) {
        let most_shared = self.random.between(1, pool.shared.len());
        for shared in &pool.shared[..most_shared] {
            let external = (shared.home != unit) != self.random.percent(3);
            let other = if self.random.percent(3) { shape(self.random) } else { shared.shape };
            self.declare(&shared.name, other, external);
        }
        for i in 0..self.random.below(6) {
            let shape = shape(self.random);
            self.declare(&format!("p{unit}_{i}"), shape, false);
        }
        let most = *self.random.pick(&[3, 10, 30, 60]);
        let count = self.random.below(most);
        self.statements(count);
        if self.random.percent(30) {
            let again = self.slip();
            let name = if again { pool.shared[0].name.clone() } else { format!("late{unit}") };
            self.declare(&name, Shape::Variable, false);
            self.statements(3);
        }
    }

    /// Many variables: blocks of up to eight, so many in all.
    fn many_variables(&mut self, unit: usize, total: usize) {
        let mut left = total;
        let mut i = 0;
        while left > 0 {
            let length = if left >= 8 && self.random.percent(80) { 8 } else { 1 };
            let shape = if length == 8 { Shape::Function(6) } else { Shape::Variable };
            self.declare(&format!("m{unit}_{i}"), shape, false);
            left -= length;
            i += 1;
        }
    }

    fn repeat(&mut self, declarations: &[(&str, Shape)], statement: &[&str], count: usize) {
        for &(name, shape) in declarations {
            self.declare(name, shape, true);
        }
        for _ in 0..count {
            self.put(statement);
        }
    }

    /// Many objects in one row, copied to many others.
    fn star(&mut self, unit: usize) {
        let (objects, copies) = (self.random.between(1, 33), self.random.between(1, 31));
        for i in 0..objects.max(copies) + 1 {
            self.declare(&format!("s{unit}_{i}"), Shape::Variable, false);
        }
        self.declare("centre", Shape::Variable, true);
        for i in 0..objects {
            self.put(&["centre", "=", "&", &format!("s{unit}_{i}"), ";"]);
        }
        for i in 0..copies {
            self.put(&[&format!("s{unit}_{i}"), "=", "centre", ";"]);
        }
    }

    fn extreme(&mut self, pool: &Pool, unit: usize) {
        let near = self.random.below(3);
        match self.random.below(7) {
            0 => self.many_variables(unit, [255, 256, 257][near]),
            1 => self.many_variables(unit, 130),
            2 => self.repeat(&[("a", Shape::Variable)], &["a", "=", "a", ";"], [300, 512, 513][near]),
            3 => self.repeat(&[("q", Shape::Variable)], &["(", "*", "q", ")", "(", ")", ";"], [40, 64, 65][near]),
            4 => {
                let lengths = [23, 24, 25];
                self.declare(&format!("n{}", "x".repeat(lengths[near] - 1)), Shape::Function(1), true);
                self.statements(4);
            }
            5 => self.star(unit),
            _ => self.body(pool, unit),
        }
    }

    /// Writes the lexemes with blanks between them, where two would otherwise run together at least one.
    fn written(&mut self) -> Vec<u8> {
        let dense = self.random.percent(40);
        let mut text: Vec<u8> = Vec::new();
        for lexeme in std::mem::take(&mut self.lexemes) {
            let word = |b: Option<&u8>| b.is_some_and(|b| b.is_ascii_alphanumeric() || *b == b'_');
            let touching = word(text.last()) && word(lexeme.first());
            let blank = match self.random.below(8) {
                0 | 1 => "\n",
                2 => "\t ",
                3 => "\r\n",
                _ => " ",
            };
            if touching || !dense && self.random.percent(50) {
                text.extend_from_slice(blank.as_bytes());
            }
            text.extend_from_slice(&lexeme);
        }
        text
    }
}

/// Texts to measure speed on, by name: the variables a and b, an indirect call, and so many names and
/// statements besides.
pub fn speed_texts() -> Vec<(&'static str, Vec<u8>)> {
    let made = |seed, functions: usize, variables: usize, statements: usize| {
        let mut random = Random::new(seed);
        let mut draft = Draft { random: &mut random, lexemes: Vec::new(), declared: Vec::new(), slips: 0 };
        for name in ["a", "b"] {
            draft.declare(name, Shape::Variable, true);
        }
        for i in 0..functions {
            draft.declare(&format!("f{i}"), Shape::Function(2), true);
        }
        for i in 0..variables {
            draft.declare(&format!("v{i}"), Shape::Variable, true);
        }
        draft.put(&["a", "=", "&", "f0", ";", "(", "*", "a", ")", "(", "b", ")", ";"]);
        for _ in 0..statements {
            draft.statement(&[3, 8, 2, 2, 1, 1]);
        }
        draft.written()
    };
    vec![("small", made(1, 3, 6, 20)), ("middle", made(2, 12, 40, 70)), ("large", made(3, 24, 100, 140))]
}

/// Spoils a text: bytes changed, put in or taken out, lexemes doubled, the end cut off.
fn damage(text: &mut Vec<u8>, random: &mut Random) {
    for _ in 0..random.between(1, 3) {
        let at = random.below(text.len() + 1);
        match random.below(6) {
            0 => text.truncate(at),
            1 => text.insert(at, *random.pick(b";=*&(),.7r0@# \x00\xff")),
            2 if at < text.len() => text[at] = random.below(256) as u8,
            3 if at < text.len() => {
                text.remove(at);
            }
            4 => {
                let word = *random.pick(&["var ", " extern ", "fun", "12", "7", ".r", "6a"]);
                text.splice(at..at, word.bytes());
            }
            _ => {
                let end = (at + random.below(12)).min(text.len());
                let doubled = text[at..end].to_vec();
                text.splice(at..at, doubled);
            }
        }
    }
}

fn noise(random: &mut Random) -> Vec<u8> {
    let length = random.below(200);
    (0..length).map(|_| *random.pick(b"var fun extern a b r;;==&*(),.0123456789 \n\t\x80")).collect()
}

impl Pool {
    pub fn new(random: &mut Random) -> Pool {
        const NAMES: [&str; 10] = ["a", "b", "r", "valve", "h", "pump_1", "_x", "Heater", "varied", "q7"];
        let count = random.between(2, NAMES.len());
        let shared = NAMES[..count]
            .iter()
            .map(|name| Shared { name: name.to_string(), shape: shape(random), home: random.below(8) })
            .collect();
        Pool { shared }
    }

    /// A short valid text.
    pub fn small_text(&self, unit: usize, random: &mut Random) -> Vec<u8> {
        let mut draft = Draft { random, lexemes: Vec::new(), declared: Vec::new(), slips: 0 };
        for shared in &self.shared {
            draft.declare(&shared.name, shared.shape, shared.home != unit);
        }
        draft.declare(&format!("own{unit}"), Shape::Function(2), false);
        draft.statements(12);
        draft.written()
    }

    /// The text of one unit file.
    pub fn text(&self, unit: usize, random: &mut Random) -> Vec<u8> {
        let manner = random.below(100);
        let slips = if (55..68).contains(&manner) { 4 } else { 0 };
        let mut draft = Draft { random, lexemes: Vec::new(), declared: Vec::new(), slips };
        match manner {
            0..=67 => draft.body(self, unit),
            68..=87 => draft.extreme(self, unit),
            88..=97 => draft.body(self, unit),
            _ => return noise(random),
        }
        let mut text = draft.written();
        match manner {
            88..=97 => damage(&mut text, random),
            80..=87 => {
                let length = *random.pick(&[4095, 4096, 4097, 5000]);
                text.resize(length.max(text.len()), b' ');
            }
            _ => {}
        }
        text
    }
}
