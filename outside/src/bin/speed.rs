//! The program's speed beside the same algorithms in plain Rust, as ratios.

use outside::args::{fail, Args};
use outside::generate::speed_texts;
use outside::pile::{Pile, Store};
use outside::run::{run_timed, Scratch};
use std::path::{Path, PathBuf};
use std::process::Command;
use std::time::{Duration, Instant};

const USAGE: &str = "usage: speed --program PATH [--outside PATH] [--seconds S] [--piles PILE,PILE]

Times settle over every pile, and load, points and targets, in the program and in `outside --fast`, on the same
journals. Prints a table in Markdown: microseconds for one call in each, and the ratio. Each time is that of a
journal with many such calls less that of one with as many calls that do nothing: processor time, the best of
three runs.
  --outside PATH  the outside analyser; beside this command unless said
  --seconds S     how long a timed run of the outside analyser should be, about; 0.3 unless said";

struct Bench {
    program: PathBuf,
    outside: PathBuf,
    scratch: Scratch,
    seconds: f64,
}

/// A journal's calls: `once` at the beginning, then `each` so many times.
struct Calls<'a> {
    once: &'a str,
    each: &'a str,
    /// The same number of lines without the call that is timed.
    idle: &'a str,
}

impl Bench {
    /// Processor seconds of a run, or wall seconds where the system does not tell those.
    fn time(&self, command: &mut Command) -> f64 {
        let begin = Instant::now();
        let output = run_timed(command, Duration::from_secs(600)).unwrap_or_else(|e| fail(&e.to_string()));
        if output.status != Some(0) {
            fail(&format!("{command:?}: status {:?}: {}", output.status, output.stderr));
        }
        output.cpu.unwrap_or_else(|| begin.elapsed()).as_secs_f64()
    }

    /// Seconds of both programs, `[program, outside]`, the best of some runs in turn.
    fn times(&self, pile: &Pile, journal: &str, runs: usize) -> [f64; 2] {
        let path = self.scratch.path().join("journal");
        std::fs::write(&path, journal).expect("write scratch files");
        let pile = pile.to_string();
        let mut best = [f64::INFINITY; 2];
        for _ in 0..runs {
            let mut program = Command::new(&self.program);
            let mut outside = Command::new(&self.outside);
            outside.arg("--fast");
            for (best, command) in best.iter_mut().zip([&mut program, &mut outside]) {
                *best = best.min(self.time(command.args(["--pile", &pile]).arg(&path)));
            }
        }
        best
    }

    /// How often the calls must be made for the run to last long enough.
    fn repeats(&self, pile: &Pile, calls: &Calls) -> usize {
        let mut repeats = 64;
        loop {
            let with = self.times(pile, &(calls.once.to_string() + &calls.each.repeat(repeats)), 1)[1];
            let without = self.times(pile, &(calls.once.to_string() + &calls.idle.repeat(repeats)), 1)[1];
            let took = (with - without).max(with / 20.0);
            if took >= self.seconds / 2.0 || repeats >= 1 << 20 {
                return repeats;
            }
            repeats = (repeats as f64 * (self.seconds / took).clamp(2.0, 16.0)) as usize;
        }
    }

    /// One row of the table.
    fn row(&self, what: &str, text: &str, pile: &Pile, calls: &Calls) {
        let repeats = self.repeats(pile, calls);
        let with = self.times(pile, &(calls.once.to_string() + &calls.each.repeat(repeats)), 3);
        let without = self.times(pile, &(calls.once.to_string() + &calls.idle.repeat(repeats)), 3);
        let one = |i: usize| (with[i] - without[i]) * 1e6 / repeats as f64;
        let (program, outside) = (one(0), one(1));
        let ratio = program / outside;
        println!("| {what} | {text} | {pile} | {repeats} | {program:.2} | {outside:.2} | {ratio:.2} |");
    }
}

fn machine() -> String {
    let info = std::fs::read_to_string("/proc/cpuinfo").unwrap_or_default();
    let model =
        info.lines().find_map(|l| l.strip_prefix("model name")).map_or("unknown", |l| l.trim_matches([' ', '\t', ':']));
    let cores = std::thread::available_parallelism().map_or(1, usize::from);
    format!("{model}, {cores} cores")
}

fn piles(args: &Args) -> Vec<Pile> {
    match args.get("--piles") {
        None => Pile::all(&[Store::Bits, Store::Chains(16_384)]),
        Some(text) => {
            let read = |name| Pile::parse(name).unwrap_or_else(|| fail(&format!("{name} is no pile")));
            text.split(',').map(read).collect()
        }
    }
}

fn questions(bench: &Bench, text: &str, file: &str, pile: &Pile) {
    let once = format!("load 0 {file}\nsettle\n");
    let load = format!("load 1 {file}\nunload 1\n");
    bench.row("load and unload", text, pile, &Calls { once: "", each: &load, idle: "unload 9\nunload 9\n" });
    for (what, line) in [("points", "points a b\n"), ("alias", "alias a b\n"), ("targets", "targets 0 0\n")] {
        bench.row(what, text, pile, &Calls { once: &once, each: line, idle: "unload 9\n" });
    }
}

fn main() {
    let args = Args::read(USAGE, &["--program", "--outside", "--seconds", "--piles"], &[]);
    let Some(program) = args.get("--program") else { fail(USAGE) };
    let beside = std::env::current_exe().ok().and_then(|p| Some(p.parent()?.join("outside")));
    let outside = args.get("--outside").map(PathBuf::from).or(beside).unwrap_or_else(|| fail(USAGE));
    let absolute =
        |path: &Path| std::fs::canonicalize(path).unwrap_or_else(|e| fail(&format!("{}: {e}", path.display())));
    let seconds = args.text("--seconds", "0.3").parse().unwrap_or_else(|_| fail("--seconds: not a number"));
    let scratch = Scratch::new("speed");
    let bench = Bench { program: absolute(Path::new(program)), outside: absolute(&outside), scratch, seconds };
    println!("{}\n", machine());
    println!("| call | text | pile | calls | program, µs | outside, µs | ratio |\n|---|---|---|---|---|---|---|");
    for (text, bytes) in speed_texts() {
        let file = format!("{text}.unit");
        std::fs::write(bench.scratch.path().join(&file), bytes).expect("write scratch files");
        let each = format!("load 0 {file}\nsettle\nunload 0\n");
        let idle = format!("load 0 {file}\nunload 9\nunload 0\n");
        for pile in piles(&args) {
            bench.row("settle", text, &pile, &Calls { once: "", each: &each, idle: &idle });
        }
        let pile = Pile::parse("hu+hvn+difference/bits").expect("a pile");
        questions(&bench, text, &file, &pile);
    }
}
