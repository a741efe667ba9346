//! The outside analyser with the program's own command line: audits a journal.

use outside::args::{fail, Args};
use outside::host::{replay, Manner};
use outside::journal::Journal;
use outside::pile::Pile;
use outside::report::{audit, audit_lines, call_line, counts_line};
use std::io::{Read, Write};
use std::path::Path;

const USAGE: &str = "usage: outside [--pile PILE] [--witness PILE] [--fast] [JOURNAL]

Audits a journal as hollowsieve does, written apart from it.
  --pile PILE      layers+solver/store; hu+hvn+difference/bits unless said
  --witness PILE   the pile of the fresh analyser; worklist/bits unless said
  --fast           by the program's algorithms instead of the definitions, and with every call made as often
                   as the program makes it, to compare speed";

fn pile(args: &Args, name: &str, default: &str) -> Pile {
    let text = args.text(name, default);
    Pile::parse(text).unwrap_or_else(|| fail(&format!("outside: '{text}' is no pile; see --help")))
}

fn read_journal(path: Option<&String>) -> Result<Journal, String> {
    let mut bytes = Vec::new();
    let (name, folder) = match path {
        Some(path) => {
            bytes = std::fs::read(path).map_err(|e| format!("cannot read {path}: {e}"))?;
            (path.as_str(), Path::new(path).parent().unwrap_or(Path::new("")))
        }
        None => {
            let read = std::io::stdin().read_to_end(&mut bytes);
            read.map_err(|e| format!("cannot read standard input: {e}"))?;
            ("standard input", Path::new(""))
        }
    };
    let text = std::str::from_utf8(&bytes).map_err(|e| {
        let line = outside::lexeme::line_of(&bytes, e.valid_up_to());
        format!("{name}, line {line}: is not UTF-8 text")
    })?;
    Journal::read(text, folder).map_err(|e| format!("{name}, {e}"))
}

fn main() {
    let args = Args::read(USAGE, &["--pile", "--witness"], &["--fast"]);
    let fast = args.has("--fast");
    let manner = if fast { Manner::Fast } else { Manner::Plain };
    let pile_text = pile(&args, "--pile", "hu+hvn+difference/bits");
    let witness = pile(&args, "--witness", "worklist/bits");
    let journal = read_journal(args.rest.first()).unwrap_or_else(|e| fail(&format!("outside: {e}")));
    let (mut host, replies) = replay(&journal, &pile_text, manner);
    let mut out = std::io::BufWriter::new(std::io::stdout().lock());
    let mut print = |line: String| writeln!(out, "{line}").unwrap_or_else(|_| std::process::exit(1));
    for (line, reply) in journal.lines.iter().zip(&replies) {
        print(call_line(line, reply));
    }
    print(String::new());
    print(counts_line(&replies));
    if fast {
        // The program's audit replays the journal once more.
        host = replay(&journal, &pile_text, manner).0;
    }
    let found = audit(&journal, &mut host, &replies, &witness, manner);
    print(audit_lines(&found));
    if found.differ > 0 {
        drop(out);
        fail("outside: the fresh analyser does not agree");
    }
}
