//! The journal: one call a line.

use std::collections::btree_map::{BTreeMap, Entry as Slot};
use std::path::Path;
use std::rc::Rc;

#[derive(Clone, Debug, PartialEq, Eq)]
pub enum Entry {
    Load { unit: u32, file: String },
    Unload { unit: u32 },
    Settle,
    Points { place: String, name: String },
    Alias { first: String, second: String },
    Targets { unit: u32, call: u32, buffer: u32 },
}

pub const DEFAULT_BUFFER: u32 = 4096;

/// A call with its line as it is printed: single blanks.
#[derive(Clone, Debug)]
pub struct Line {
    pub text: String,
    pub entry: Entry,
}

/// A journal with the unit files that it names.
#[derive(Clone, Debug, Default)]
pub struct Journal {
    pub lines: Vec<Line>,
    pub files: BTreeMap<String, Rc<Vec<u8>>>,
    /// Written with comments, empty lines and more blanks than are needed.
    pub noisy: bool,
}

fn number(word: &str) -> Option<u32> {
    if word.bytes().all(|b| b.is_ascii_digit()) {
        word.parse().ok()
    } else {
        None
    }
}

/// The line is no call.
#[derive(Clone, Copy, Debug)]
pub struct BadLine;

/// The call of a line; None for a line without one.
pub fn read_line(line: &str) -> Result<Option<Line>, BadLine> {
    let words: Vec<&str> = line.split_ascii_whitespace().collect();
    let entry = match words[..] {
        [] => return Ok(None),
        [first, ..] if first.starts_with('#') => return Ok(None),
        ["load", u, file] => Entry::Load { unit: number(u).ok_or(BadLine)?, file: file.to_string() },
        ["unload", u] => Entry::Unload { unit: number(u).ok_or(BadLine)? },
        ["settle"] => Entry::Settle,
        ["points", place, name] => Entry::Points { place: place.into(), name: name.into() },
        ["alias", first, second] => Entry::Alias { first: first.into(), second: second.into() },
        ["targets", u, i] => targets(u, i, None)?,
        ["targets", u, i, bytes] => targets(u, i, Some(bytes))?,
        _ => return Err(BadLine),
    };
    Ok(Some(Line { text: words.join(" "), entry }))
}

fn targets(unit: &str, call: &str, buffer: Option<&str>) -> Result<Entry, BadLine> {
    let buffer = match buffer {
        Some(word) => number(word).ok_or(BadLine)?,
        None => DEFAULT_BUFFER,
    };
    Ok(Entry::Targets { unit: number(unit).ok_or(BadLine)?, call: number(call).ok_or(BadLine)?, buffer })
}

/// All calls of a text, or the number of its first bad line.
pub fn read_lines(text: &str) -> Result<Vec<Line>, usize> {
    let mut lines = Vec::new();
    for (i, line) in text.lines().enumerate() {
        lines.extend(read_line(line).map_err(|BadLine| i + 1)?);
    }
    Ok(lines)
}

impl Journal {
    /// Reads a journal's text, and the unit files that it names from a folder.
    pub fn read(text: &str, folder: &Path) -> Result<Journal, String> {
        let lines = read_lines(text).map_err(|line| format!("line {line}: bad line"))?;
        let mut files = BTreeMap::new();
        for (i, line) in text.lines().enumerate() {
            let Ok(Some(Line { entry: Entry::Load { file, .. }, .. })) = read_line(line) else { continue };
            if let Slot::Vacant(slot) = files.entry(file) {
                let unreadable = |e| format!("line {}: cannot read {}: {e}", i + 1, slot.key());
                let bytes = std::fs::read(folder.join(slot.key())).map_err(unreadable)?;
                slot.insert(Rc::new(bytes));
            }
        }
        Ok(Journal { lines, files, noisy: false })
    }

    pub fn text(&self) -> String {
        let mut text = String::new();
        for (i, line) in self.lines.iter().enumerate() {
            if self.noisy && i % 5 == 2 {
                text += "\n  # settle\n \t\r\n#";
                text += &format!("{i}\n\t ");
            }
            match self.noisy && i % 3 == 1 {
                true => text += &line.text.replace(' ', " \t "),
                false => text += &line.text,
            }
            text += if self.noisy && i % 4 == 0 { " \r\n" } else { "\n" };
        }
        text
    }

    /// Writes `journal` and the unit files that it still names into a folder.
    pub fn write(&self, folder: &Path) -> std::io::Result<()> {
        std::fs::write(folder.join("journal"), self.text())?;
        for (name, bytes) in &self.files {
            let named = |l: &Line| matches!(&l.entry, Entry::Load { file, .. } if file == name);
            if self.lines.iter().any(named) {
                std::fs::write(folder.join(name), &**bytes)?;
            }
        }
        Ok(())
    }
}

#[cfg(test)]
mod tests {
    use super::*;

    #[test]
    fn lines() {
        let lines = read_lines("# c\n\n load  0\tx#y \nsettle\ntargets 0 1\ntargets 0 1 7").unwrap();
        assert_eq!(lines[0].text, "load 0 x#y");
        assert_eq!(lines[2].entry, Entry::Targets { unit: 0, call: 1, buffer: 4096 });
        assert_eq!(lines[3].entry, Entry::Targets { unit: 0, call: 1, buffer: 7 });
        for bad in ["setle", "load 0", "unload -1", "unload 4294967296", "points a", "settle x", "targets 0"] {
            assert_eq!(read_lines(&format!("settle\n{bad}")).unwrap_err(), 2);
        }
    }
}
