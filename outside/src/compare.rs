//! One journal over one pile: what the program prints against what the outside analyser replies.

use crate::generate::bad_journal;
use crate::host::{replay, Manner, Reply};
use crate::journal::Journal;
use crate::pile::Pile;
use crate::report::{call_line, counts_line, is_right};
use crate::run::{run, Output};
use std::path::{Path, PathBuf};
use std::process::Command;
use std::time::Duration;

pub struct Settings {
    pub program: PathBuf,
    pub manner: Manner,
    pub limit: Duration,
    pub folder: PathBuf,
}

/// A pile as the program is told of it; without a text it is run without `--pile`.
#[derive(Clone)]
pub struct Over {
    pub pile: Pile,
    pub text: Option<String>,
}

impl Over {
    pub fn pile(pile: Pile) -> Over {
        Over { text: Some(pile.to_string()), pile }
    }

    /// The program's own default.
    pub fn default_pile() -> Over {
        Over { pile: Pile::parse("hu+hvn+difference/bits").expect("a pile"), text: None }
    }

    pub fn name(&self) -> &str {
        self.text.as_deref().unwrap_or("the default pile")
    }
}

/// Runs the program on a journal file.
pub fn program(settings: &Settings, over: &Over, journal: &Path) -> Output {
    let mut command = Command::new(&settings.program);
    if let Some(text) = &over.text {
        command.args(["--pile", text]);
    }
    run(command.arg(journal), settings.limit)
        .unwrap_or_else(|e| crate::args::fail(&format!("cannot run {}: {e}", settings.program.display())))
}

fn ending(output: &Output) -> String {
    let stderr = output.stderr.lines().next().unwrap_or("");
    match (output.timed_out, output.status) {
        (true, _) => "it ran out of time".to_string(),
        (_, Some(status)) => format!("status {status}, standard error: {stderr}"),
        (_, None) => format!("it was stopped by a signal, standard error: {stderr}"),
    }
}

/// The first difference between the printed lines and the replies, if there is one.
fn first_difference(journal: &Journal, replies: &[Reply], output: &Output) -> Option<String> {
    let Ok(stdout) = std::str::from_utf8(&output.stdout) else {
        return Some("standard output is not UTF-8 text".into());
    };
    let mut printed = stdout.split('\n');
    let mut differs = |what: &str, expected: String, right: &dyn Fn(&str) -> bool| match printed.next() {
        Some(line) if right(line) => None,
        Some(line) => Some(format!("{what}\n  expected: {expected}\n  printed:  {line}")),
        None => Some(format!("{what}\n  expected: {expected}\n  printed:  nothing more; {}", ending(output))),
    };
    for (i, (line, reply)) in journal.lines.iter().zip(replies).enumerate() {
        let what = format!("call {}", i + 1);
        let found = differs(&what, call_line(line, reply), &|p| is_right(line, reply, p));
        if found.is_some() {
            return found;
        }
    }
    let counts = counts_line(replies);
    differs("after the calls", "an empty line".into(), &str::is_empty)
        .or_else(|| differs("the counts", counts.clone(), &|p| p == counts))
}

/// Runs the program on a journal and compares. The audit's lines are not read: it must have agreed, which
/// its status tells.
pub fn compare(journal: &Journal, over: &Over, settings: &Settings) -> Result<Vec<Reply>, String> {
    journal.write(&settings.folder).expect("write scratch files");
    let (_, replies) = replay(journal, &over.pile, settings.manner);
    let output = program(settings, over, &settings.folder.join("journal"));
    if let Some(difference) = first_difference(journal, &replies, &output) {
        return Err(difference);
    }
    match output.status {
        Some(0) if !output.timed_out => Ok(replies),
        _ => Err(format!("the calls agree, then the audit does not: {}", ending(&output))),
    }
}

/// A journal with one bad line: nothing is replayed, and the message has the line's number.
pub fn compare_bad(seed: u64, journal: &Journal, over: &Over, settings: &Settings) -> Result<(), String> {
    let (text, line) = bad_journal(seed, journal);
    journal.write(&settings.folder).expect("write scratch files");
    std::fs::write(settings.folder.join("bad"), &text).expect("write scratch files");
    let output = program(settings, over, &settings.folder.join("bad"));
    let named = output.stderr.contains(&format!("line {line}:")) || output.stderr.contains(&format!("line {line} "));
    if output.status == Some(1) && output.stdout.is_empty() && named {
        return Ok(());
    }
    let bad = text.split(|&b| b == b'\n').nth(line - 1).unwrap_or(b"");
    let bad = String::from_utf8_lossy(bad);
    Err(format!(
        "line {line} ('{bad}') is bad: expected status 1, no output and the line's number; {}",
        ending(&output)
    ))
}
