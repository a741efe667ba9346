//! Command lines of the form `--name value`.

use std::collections::BTreeMap;
use std::process::exit;

pub struct Args {
    options: BTreeMap<String, String>,
    pub rest: Vec<String>,
}

/// Stops the command with a message.
pub fn fail(message: &str) -> ! {
    eprintln!("{message}");
    exit(1)
}

impl Args {
    /// Reads the command line. `valued` are the options with a value, `flags` those without.
    pub fn read(usage: &str, valued: &[&str], flags: &[&str]) -> Args {
        let mut args = Args { options: BTreeMap::new(), rest: Vec::new() };
        let mut words = std::env::args().skip(1);
        while let Some(word) = words.next() {
            if word == "--help" {
                println!("{usage}");
                exit(0);
            } else if flags.contains(&word.as_str()) {
                args.options.insert(word, String::new());
            } else if valued.contains(&word.as_str()) {
                let value = words.next().unwrap_or_else(|| fail(&format!("{word} needs a value\n{usage}")));
                args.options.insert(word, value);
            } else if word.starts_with("--") {
                fail(&format!("{word} is no option\n{usage}"));
            } else {
                args.rest.push(word);
            }
        }
        args
    }

    pub fn has(&self, name: &str) -> bool {
        self.options.contains_key(name)
    }

    pub fn get(&self, name: &str) -> Option<&str> {
        self.options.get(name).map(String::as_str)
    }

    pub fn text<'a>(&'a self, name: &str, default: &'a str) -> &'a str {
        self.get(name).unwrap_or(default)
    }

    pub fn number(&self, name: &str, default: usize) -> usize {
        match self.get(name) {
            None => default,
            Some(text) => text.parse().unwrap_or_else(|_| fail(&format!("{name} {text}: not a number"))),
        }
    }

    /// A range `A..B` with both ends counted.
    pub fn range(&self, name: &str, default: (u64, u64)) -> (u64, u64) {
        let Some(text) = self.get(name) else {
            return default;
        };
        let ends = text.split_once("..").and_then(|(a, b)| Some((a.parse().ok()?, b.parse().ok()?)));
        ends.or_else(|| text.parse().ok().map(|n| (n, n)))
            .unwrap_or_else(|| fail(&format!("{name} {text}: write A..B")))
    }
}
