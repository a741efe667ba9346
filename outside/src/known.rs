//! Lists whose outcomes are known, too large to be proved by computation, and the last accepted of every
//! limit with one more. The expected replies are written out here, not worked out by the analyser.

use crate::journal::{read_lines, Journal};
use crate::pile::{Pile, Store, MOST_CELLS};
use std::rc::Rc;

pub struct Case {
    pub name: &'static str,
    pub pile: &'static str,
    pub journal: Journal,
    /// The reply to each call. A room fault's is given up to its pair.
    pub replies: Vec<&'static str>,
}

const DEFAULT: &str = "hu+hvn+difference/bits";

/// A case over some unit texts; `calls` has a call and its reply in turn.
fn case(name: &'static str, pile: &'static str, files: Vec<(&str, String)>, calls: &[(&str, &'static str)]) -> Case {
    let text: String = calls.iter().map(|(call, _)| format!("{call}\n")).collect();
    let files = files.into_iter().map(|(name, text)| (name.to_string(), Rc::new(text.into_bytes()))).collect();
    let journal = Journal { lines: read_lines(&text).expect("known journals are right"), files, noisy: false };
    Case { name, pile, journal, replies: calls.iter().map(|&(_, reply)| reply).collect() }
}

/// `each` for every number below n, one after the other.
fn times(n: usize, each: impl Fn(usize) -> String) -> String {
    (0..n).map(each).collect()
}

fn variables(n: usize) -> String {
    times(n, |i| format!("var v{i};\n"))
}

/// 33 objects in one row, copied to 31 others: a statement a line, the first on line 66.
fn star() -> String {
    let declarations = times(33, |i| format!("var o{i};\n")) + "var p;\n" + &times(31, |i| format!("var q{i};\n"));
    declarations + &times(33, |i| format!("p = &o{i};\n")) + &times(31, |i| format!("q{i} = p;\n"))
}

fn star_cases() -> Vec<Case> {
    let load = ("load 0 star.unit", "loaded");
    let last = "refused 20 (no room) at unit 0, line 129: position 63, depth 0, pair ";
    let with = |name, pile, rest: &[(&str, &'static str)]| {
        case(name, pile, vec![("star.unit", star())], &[&[load], rest].concat())
    };
    let settled = [("settle", "settled"), ("points q30 o32", "yes"), ("alias p q0", "yes"), ("alias o0 p", "no")];
    vec![
        with(
            "star-1024-worklist",
            "worklist/chains:1024",
            &[("settle", last), ("points p o0", "refused 21 (not settled)")],
        ),
        with("star-1024-difference", "difference/chains:1024", &[("settle", last)]),
        with("star-1055", "difference/chains:1055", &[("settle", last)]),
        with("star-1056", "worklist/chains:1056", &settled),
        with("star-hvn-1024", "hvn+worklist/chains:1024", &settled),
        with("star-hvn-33", "hvn+difference/chains:33", &settled),
        with("star-hu-33", "hu+worklist/chains:33", &settled),
        with(
            "star-hvn-32",
            "hvn+worklist/chains:32",
            &[("settle", "refused 20 (no room) at unit 0, line 98: position 32, depth 1, pair ")],
        ),
        with(
            "star-two-layers-0",
            "hvn+hu+difference/chains:0",
            &[("settle", "refused 20 (no room) at unit 0, line 66: position 0, depth 2, pair ")],
        ),
        with("star-bits", DEFAULT, &settled),
    ]
}

fn variable_cases() -> Vec<Case> {
    let functions = |n| times(n, |i| format!("fun f{i} 6;"));
    let files = || {
        vec![
            ("v256.unit", variables(256)),
            ("v257.unit", variables(257)),
            ("f32.unit", functions(32)),
            ("one.unit", "var one;".to_string()),
            ("shared.unit", "extern var v0; extern var v255;".to_string()),
        ]
    };
    vec![
        case(
            "256-variables",
            DEFAULT,
            files(),
            &[
                ("load 0 v257.unit", "refused 15 (too many variables)"),
                ("load 0 v256.unit", "loaded"),
                ("load 1 one.unit", "refused 15 (too many variables)"),
                ("load 1 shared.unit", "loaded"),
                ("settle", "settled"),
                ("alias v0 v255", "no"),
            ],
        ),
        case(
            "32-functions-of-six",
            DEFAULT,
            files(),
            &[
                ("load 3 f32.unit", "loaded"),
                ("load 2 one.unit", "refused 15 (too many variables)"),
                ("settle", "settled"),
                ("alias f31.6 f31.r", "no"),
                ("alias f31.0 f31.r", "refused 22 (first is no place)"),
            ],
        ),
    ]
}

fn word_and_call_cases() -> Vec<Case> {
    let words = |n| "var a;".to_string() + &times(n, |_| "a=a;".to_string());
    let calls = |n| "var h; fun g 0; h = &g;".to_string() + &times(n, |_| "(*h)();".to_string());
    vec![
        case(
            "512-words",
            DEFAULT,
            vec![
                ("w512.unit", words(512)),
                ("w513.unit", words(513)),
                ("one.unit", "var b; b = b;".to_string()),
                ("none.unit", "var b; fun g 0; g();".to_string()),
            ],
            &[
                ("load 0 w513.unit", "refused 16 (too many words)"),
                ("load 0 w512.unit", "loaded"),
                ("load 1 one.unit", "refused 16 (too many words)"),
                ("load 1 none.unit", "loaded"),
                ("settle", "settled"),
            ],
        ),
        case(
            "64-indirect-calls",
            DEFAULT,
            vec![("c64.unit", calls(64)), ("c65.unit", calls(65)), ("one.unit", "var b; (*b)();".to_string())],
            &[
                ("load 0 c65.unit", "refused 17 (too many indirect calls)"),
                ("load 0 c64.unit", "loaded"),
                ("load 1 one.unit", "refused 17 (too many indirect calls)"),
                ("settle", "settled"),
                ("targets 0 63", "2 bytes: g"),
                ("targets 0 63 2", "2 bytes: g"),
                ("targets 0 63 1", "refused 25 (buffer too short)"),
                ("targets 0 64", "refused 24 (no such call)"),
                ("targets 1 0", "refused 18 (nothing stands)"),
                ("targets 8 0", "refused 9 (no such unit number)"),
            ],
        ),
    ]
}

fn text_cases() -> Vec<Case> {
    let named = |n| format!("\nvar {};", "n".repeat(n));
    let blank = |n: usize| format!("var a;{}", "\n".repeat(n - 6));
    vec![
        case(
            "24-byte-names",
            DEFAULT,
            vec![("n24.unit", named(24)), ("n25.unit", named(25))],
            &[
                ("load 0 n25.unit", "refused 12 (grammar) at offset 5, line 2"),
                ("load 0 n24.unit", "loaded"),
                ("settle", "settled"),
                ("points nnnnnnnnnnnnnnnnnnnnnnnn nnnnnnnnnnnnnnnnnnnnnnnn", "no"),
                ("points nnnnnnnnnnnnnnnnnnnnnnnnn nnnnnnnnnnnnnnnnnnnnnnnn", "refused 22 (first is no place)"),
                ("points nnnnnnnnnnnnnnnnnnnnnnnn nnnnnnnnnnnnnnnnnnnnnnn", "refused 23 (second is unknown)"),
            ],
        ),
        case(
            "4096-bytes",
            DEFAULT,
            vec![
                ("b4096.unit", blank(4096)),
                ("b4097.unit", blank(4097)),
                ("bad4096.unit", blank(4095) + "="),
                ("bad4097.unit", blank(4096) + "="),
            ],
            &[
                ("load 0 b4097.unit", "refused 11 (text too long)"),
                ("load 0 bad4097.unit", "refused 11 (text too long)"),
                ("load 0 bad4096.unit", "refused 12 (grammar) at offset 4095, line 4090"),
                ("load 0 b4096.unit", "loaded"),
            ],
        ),
        case(
            "unit-7",
            DEFAULT,
            vec![("a.unit", "var a;".to_string())],
            &[
                ("load 8 a.unit", "refused 9 (no such unit number)"),
                ("load 7 a.unit", "loaded"),
                ("load 7 a.unit", "refused 10 (the unit stands already)"),
                ("unload 8", "refused 9 (no such unit number)"),
                ("unload 4294967295", "refused 9 (no such unit number)"),
                ("unload 7", "unloaded"),
                ("unload 7", "refused 18 (nothing stands)"),
            ],
        ),
    ]
}

fn grammar_cases() -> Vec<Case> {
    let six = "fun f 6; var a; f(a,a,a,a,a,a); var h; h = &f; a = (*h)(a,a,a,a,a,a);";
    vec![
        case(
            "six-arguments",
            DEFAULT,
            vec![
                ("six.unit", six.to_string()),
                ("seven.unit", "fun f 6; var a; f(a,a,a,a,a,a,a);".to_string()),
                ("count7.unit", "fun f 7;".to_string()),
                ("count10.unit", "fun f 10;".to_string()),
            ],
            &[
                ("load 0 seven.unit", "refused 12 (grammar) at offset 29, line 1"),
                ("load 0 count7.unit", "refused 12 (grammar) at offset 6, line 1"),
                ("load 0 count10.unit", "refused 12 (grammar) at offset 6, line 1"),
                ("load 0 six.unit", "loaded"),
                ("settle", "settled"),
                ("targets 0 0", "2 bytes: f"),
            ],
        ),
        case(
            "short-texts",
            DEFAULT,
            vec![
                ("end.unit", "var p".to_string()),
                ("twice.unit", "var p;;".to_string()),
                ("unknown.unit", "p=q;".to_string()),
                ("empty.unit", String::new()),
            ],
            &[
                ("load 0 end.unit", "refused 12 (grammar) at offset 5, line 1"),
                ("load 0 twice.unit", "refused 12 (grammar) at offset 6, line 1"),
                ("load 0 unknown.unit", "refused 13 (declaration) at offset 0, line 1"),
                ("load 0 empty.unit", "loaded"),
                ("load 1 empty.unit", "loaded"),
                ("settle", "settled"),
                ("settle", "refused 19 (settled already)"),
            ],
        ),
        valves_case(),
    ]
}

fn valves_case() -> Case {
    let valves = "fun open 1; fun shut 1; var v; var h; var x; h = &open; h = &shut; x = (*h)(v);";
    let clash = "extern fun open 1;\nextern var v;\nextern fun shut 2;\nvar v2;";
    case(
        "valves",
        DEFAULT,
        vec![("valves.unit", valves.to_string()), ("clash.unit", clash.to_string())],
        &[
            ("load 0 valves.unit", "loaded"),
            ("load 1 valves.unit", "refused 14 (clash) at offset 4, line 1"),
            ("load 1 clash.unit", "refused 14 (clash) at offset 44, line 3"),
            ("points h open", "refused 21 (not settled)"),
            ("settle", "settled"),
            ("points h open", "yes"),
            ("points h shut", "yes"),
            ("points h v", "no"),
            ("alias v x", "no"),
            ("alias h h", "yes"),
            ("points h.r open", "refused 22 (first is no place)"),
            ("points open.1 open.1", "refused 23 (second is unknown)"),
            ("targets 0 0", "10 bytes: open shut"),
            ("targets 0 0 9", "refused 25 (buffer too short)"),
            ("unload 0", "unloaded"),
            ("targets 0 0", "refused 21 (not settled)"),
        ],
    )
}

pub fn cases() -> Vec<Case> {
    let groups = [star_cases(), variable_cases(), word_and_call_cases(), text_cases(), grammar_cases()];
    groups.into_iter().flatten().collect()
}

impl Case {
    /// The piles that the replies are known for: where the case is not about room, every one that has enough.
    pub fn piles(&self) -> Vec<Pile> {
        match self.pile {
            DEFAULT => Pile::all(&[Store::Bits, Store::Chains(MOST_CELLS)]),
            text => vec![Pile::parse(text).expect("known piles are right")],
        }
    }

    /// The expected lines, each with its call.
    pub fn expected(&self) -> String {
        self.journal.lines.iter().zip(&self.replies).map(|(line, reply)| format!("{}: {reply}\n", line.text)).collect()
    }

    /// The first printed line that is not the expected one.
    pub fn first_wrong(&self, printed: &[&str]) -> Option<String> {
        for (i, (line, reply)) in self.journal.lines.iter().zip(&self.replies).enumerate() {
            let expected = format!("{}: {reply}", line.text);
            let found = printed.get(i).copied().unwrap_or("nothing more");
            let right = match reply.ends_with("pair ") {
                true => found.starts_with(&expected),
                false => found == expected,
            };
            if !right {
                return Some(format!("expected: {expected}\n  printed:  {found}"));
            }
        }
        None
    }
}

#[cfg(test)]
mod tests {
    use super::*;
    use crate::host::{replay, Manner};
    use crate::report::call_line;

    #[test]
    fn the_outside_analyser_knows_them() {
        for case in cases() {
            for (pile, manner) in case.piles().iter().flat_map(|p| [(p, Manner::Plain), (p, Manner::Fast)]) {
                let (_, replies) = replay(&case.journal, pile, manner);
                let lines: Vec<String> =
                    case.journal.lines.iter().zip(&replies).map(|(l, r)| call_line(l, r)).collect();
                let lines: Vec<&str> = lines.iter().map(String::as_str).collect();
                assert_eq!(case.first_wrong(&lines), None, "{}", case.name);
            }
        }
    }
}
