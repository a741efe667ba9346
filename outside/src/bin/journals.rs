//! Writes the journals of seeds.

use outside::args::{fail, Args};
use outside::generate::{journal, Calls};
use std::path::Path;

const USAGE: &str = "usage: journals --seeds A..B --into FOLDER [--calls CALL,CALL]

Writes the journal of each seed, and its unit files, into FOLDER/seed-N.";

fn main() {
    let args = Args::read(USAGE, &["--seeds", "--into", "--calls"], &[]);
    let Some(into) = args.get("--into") else { fail(USAGE) };
    let calls = Calls::parse(args.text("--calls", Calls::ALL)).unwrap_or_else(|| fail("--calls: no such call"));
    let (first, last) = args.range("--seeds", (1, 1));
    for seed in first..=last {
        let folder = Path::new(into).join(format!("seed-{seed}"));
        let written = std::fs::create_dir_all(&folder).and_then(|()| journal(seed, &calls).write(&folder));
        written.unwrap_or_else(|e| fail(&format!("{}: {e}", folder.display())));
    }
}
