//! Compares a program with the outside analyser on random journals.

use outside::args::{fail, Args};
use outside::compare::{compare, compare_bad, Over, Settings};
use outside::generate::{cells, journal, Calls};
use outside::host::{Manner, Reply};
use outside::journal::Journal;
use outside::pile::{Pile, Store};
use outside::run::Scratch;
use outside::shrink::shrink;
use std::collections::BTreeMap;
use std::path::{Path, PathBuf};
use std::process::exit;
use std::time::{Duration, Instant};

const USAGE: &str = "usage: compare --program PATH [--seeds A..B] [--piles PILE,PILE | all | default]
               [--calls CALL,CALL] [--unread] [--timeout SECONDS] [--seconds N] [--keep FOLDER]

Makes a journal from each seed, runs the program on it over every pile, and compares every line up to the
counts, and whether the audit agreed, with the outside analyser. The first difference ends it with status 1:
the seed, the pile and a journal cut down to what still differs, which --keep (default ./difference) gets.

  --seeds A..B    both counted; 1..50 unless said
  --piles         all (default): every layers and solver, over bits and over a seed's number of chain cells;
                  default: the program is run without --pile; or piles, apart by commas
  --calls         only these calls; all six unless said
  --unread        the program takes texts unread: refusals 12 to 17 do not apply
  --timeout       for one run of the program; 20 unless said
  --seconds N     begin no further seed after so many; the last line tells which were done";

struct Progress {
    start: Instant,
    shown: Instant,
    runs: usize,
    lines: usize,
    replies: BTreeMap<u8, usize>,
}

impl Progress {
    fn count(&mut self, replies: &[Reply]) {
        self.runs += 1;
        self.lines += replies.len();
        for reply in replies {
            *self.replies.entry(reply.number()).or_default() += 1;
        }
    }

    fn show(&mut self, seed: u64, last: u64) {
        if self.shown.elapsed() > Duration::from_secs(2) {
            self.shown = Instant::now();
            let seconds = self.start.elapsed().as_secs();
            eprintln!("seed {seed} of {last}: {} runs, {} lines, {seconds} s", self.runs, self.lines);
        }
    }
}

fn piles_of(text: &str, seed: u64) -> Vec<Over> {
    match text {
        "all" => Pile::all(&[Store::Bits, Store::Chains(cells(seed))]).into_iter().map(Over::pile).collect(),
        "default" => vec![Over::default_pile()],
        names => {
            let read = |name| Pile::parse(name).unwrap_or_else(|| fail(&format!("{name} is no pile")));
            names.split(',').map(read).map(Over::pile).collect()
        }
    }
}

/// Cuts the journal down, tells of the difference and ends the command.
fn report(seed: u64, over: &Over, journal: &Journal, first: &str, settings: &Settings, keep: &Path) -> ! {
    println!("seed {seed} differs over {}: {first}", over.name());
    eprintln!("cutting the journal down ...");
    let small = shrink(journal, 600, &mut |candidate| compare(candidate, over, settings).is_err());
    let difference = compare(&small, over, settings).err().unwrap_or_else(|| first.to_string());
    println!("\ncut down, over {}: {difference}\n\njournal:\n{}", over.name(), small.text());
    let text = small.text();
    for (name, bytes) in small.files.iter().filter(|(name, _)| text.contains(&format!(" {name}\n"))) {
        println!("{name}: \"{}\"", bytes.escape_ascii());
    }
    if std::fs::create_dir_all(keep).and_then(|()| small.write(keep)).is_ok() {
        println!("\nkept in {}", keep.display());
    }
    let _ = std::fs::remove_dir_all(&settings.folder);
    exit(1)
}

fn compare_seed(seed: u64, piles: &str, calls: &Calls, settings: &Settings, keep: &Path, progress: &mut Progress) {
    let journal = journal(seed, calls);
    let overs = piles_of(piles, seed);
    for over in &overs {
        match compare(&journal, over, settings) {
            Ok(replies) => progress.count(&replies),
            Err(difference) => report(seed, over, &journal, &difference, settings, keep),
        }
    }
    if let Err(difference) = compare_bad(seed, &journal, &overs[0], settings) {
        println!("seed {seed} differs on a bad line: {difference}");
        let _ = std::fs::remove_dir_all(&settings.folder);
        exit(1);
    }
}

fn main() {
    let args = Args::read(
        USAGE,
        &["--program", "--seeds", "--piles", "--calls", "--timeout", "--seconds", "--keep"],
        &["--unread"],
    );
    let Some(program) = args.get("--program") else { fail(USAGE) };
    let program = std::fs::canonicalize(program).unwrap_or_else(|e| fail(&format!("{program}: {e}")));
    let calls = Calls::parse(args.text("--calls", Calls::ALL)).unwrap_or_else(|| fail("--calls: no such call"));
    let scratch = Scratch::new("compare");
    let settings = Settings {
        program,
        manner: if args.has("--unread") { Manner::Unread } else { Manner::Plain },
        limit: Duration::from_secs(args.number("--timeout", 20) as u64),
        folder: scratch.path().to_path_buf(),
    };
    let keep = PathBuf::from(args.text("--keep", "difference"));
    let (first, last) = args.range("--seeds", (1, 50));
    let now = Instant::now();
    let mut progress = Progress { start: now, shown: now, runs: 0, lines: 0, replies: BTreeMap::new() };
    let seconds = args.number("--seconds", usize::MAX) as u64;
    let mut done = first;
    for seed in (first..=last).take_while(|_| now.elapsed().as_secs() < seconds) {
        compare_seed(seed, args.text("--piles", "all"), &calls, &settings, &keep, &mut progress);
        progress.show(seed, last);
        done = seed;
    }
    if progress.runs == 0 {
        fail("no seed was compared");
    }
    let answered = progress.replies.remove(&0).unwrap_or(0);
    let refused: Vec<String> = progress.replies.iter().map(|(number, count)| format!("{number}: {count}")).collect();
    println!("seeds {first} to {done}: {} runs, {} lines, no difference", progress.runs, progress.lines);
    println!("answered {answered}; refused {}", refused.join(", "));
}
