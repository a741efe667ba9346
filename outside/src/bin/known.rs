//! Runs a program on the journals whose replies are known.

use outside::args::{fail, Args};
use outside::compare::{compare, program, Over, Settings};
use outside::host::Manner;
use outside::known::{cases, Case};
use outside::run::Scratch;
use std::path::Path;
use std::process::exit;
use std::time::Duration;

const USAGE: &str = "usage: known --program PATH [--timeout SECONDS]
       known --write FOLDER

Runs the program on journals with known replies, each over the piles that they are known for, and compares
both with the replies written down and with the outside analyser. --write puts each case into a folder of its
own: the journal, its unit files, `expected` (one line a call) and `pile`.";

fn write(folder: &Path, case: &Case) -> std::io::Result<()> {
    let own = folder.join(case.name);
    std::fs::create_dir_all(&own)?;
    case.journal.write(&own)?;
    std::fs::write(own.join("expected"), case.expected())?;
    std::fs::write(own.join("pile"), format!("{}\n", case.pile))
}

fn check(case: &Case, over: &Over, settings: &Settings) -> Result<(), String> {
    compare(&case.journal, over, settings)?;
    let output = program(settings, over, &settings.folder.join("journal"));
    let stdout = String::from_utf8_lossy(&output.stdout);
    let lines: Vec<&str> = stdout.lines().collect();
    case.first_wrong(&lines).map_or(Ok(()), Err)
}

fn main() {
    let args = Args::read(USAGE, &["--program", "--timeout", "--write"], &[]);
    if let Some(folder) = args.get("--write") {
        for case in cases() {
            write(Path::new(folder), &case).unwrap_or_else(|e| fail(&format!("{folder}: {e}")));
        }
        return;
    }
    let Some(path) = args.get("--program") else { fail(USAGE) };
    let path = std::fs::canonicalize(path).unwrap_or_else(|e| fail(&format!("{path}: {e}")));
    let scratch = Scratch::new("known");
    let limit = Duration::from_secs(args.number("--timeout", 20) as u64);
    let folder = scratch.path().to_path_buf();
    let settings = Settings { program: path, manner: Manner::Plain, limit, folder };
    let (mut runs, mut wrong) = (0, 0);
    for case in cases() {
        for pile in case.piles() {
            runs += 1;
            let over = Over::pile(pile);
            if let Err(difference) = check(&case, &over, &settings) {
                println!("{} differs over {}: {difference}", case.name, over.name());
                wrong += 1;
                break;
            }
        }
    }
    println!("{} known journals, {runs} runs, {wrong} wrong", cases().len());
    drop(scratch);
    exit(i32::from(wrong > 0));
}
