//! Replays a very long journal: memory over time, and the answers at the end against a fresh host's.

use outside::args::{fail, Args};
use outside::generate::{long, Long};
use outside::host::{replay, Manner};
use outside::journal::Journal;
use outside::pile::Pile;
use outside::report::is_right;
use outside::run::Scratch;
use std::io::{BufRead, BufReader};
use std::path::{Path, PathBuf};
use std::process::{exit, Child, Command, Stdio};
use std::sync::atomic::{AtomicUsize, Ordering};
use std::sync::Arc;
use std::thread;
use std::time::{Duration, Instant};

const USAGE: &str = "usage: longlife --program PATH [--calls N] [--seed N] [--pile PILE] [--all]

Replays a journal of N calls (1000000 unless said) and reports the program's resident size when it has read the
journal, at its end and at its highest, beside those of as many calls that do nothing. The answers to the last
questions must equal those of a fresh host with the same texts; --all compares every line with the outside
analyser too.";

/// Resident size in kB: when the journal was read, last seen, highest.
#[derive(Clone, Copy, Default)]
struct Sizes {
    start: usize,
    end: usize,
    highest: usize,
}

struct Watched {
    lines: Vec<String>,
    sizes: Sizes,
    seconds: f64,
}

/// A number of /proc/PID/FILE, by the name in front of it.
fn proc_number(child: &Child, file: &str, name: &str) -> Option<usize> {
    let text = std::fs::read_to_string(format!("/proc/{}/{file}", child.id())).ok()?;
    let line = text.lines().find_map(|line| line.strip_prefix(name))?;
    line.split_whitespace().next()?.parse().ok()
}

fn sample(child: &Child, journal_bytes: usize, sizes: &mut Sizes) {
    if let Some(now) = proc_number(child, "status", "VmRSS:").filter(|&n| n > 0) {
        let read = proc_number(child, "io", "rchar:").unwrap_or(0);
        if sizes.start == 0 && read >= journal_bytes {
            sizes.start = now;
        }
        sizes.end = now;
    }
    sizes.highest = proc_number(child, "status", "VmHWM:").unwrap_or(0).max(sizes.highest);
}

/// Runs the program on a journal file, with its size sampled and its output counted on the way.
fn watch(program: &Path, pile: Option<&str>, journal: &Path, calls: usize) -> Watched {
    let begin = Instant::now();
    let mut command = Command::new(program);
    command.args(pile.map(|p| ["--pile", p]).iter().flatten()).arg(journal);
    let mut child = command
        .stdin(Stdio::null())
        .stdout(Stdio::piped())
        .spawn()
        .unwrap_or_else(|e| fail(&format!("cannot run {}: {e}", program.display())));
    let printed = Arc::new(AtomicUsize::new(0));
    let (stdout, counter) = (child.stdout.take().expect("piped"), printed.clone());
    let reader = thread::spawn(move || {
        let count = |line| {
            counter.fetch_add(1, Ordering::Relaxed);
            line
        };
        BufReader::new(stdout).lines().map_while(Result::ok).map(count).collect::<Vec<String>>()
    });
    let journal_bytes = std::fs::metadata(journal).map_or(0, |m| m.len() as usize);
    let mut sizes = Sizes::default();
    let mut shown = Instant::now();
    let status = loop {
        sample(&child, journal_bytes, &mut sizes);
        if let Some(status) = child.try_wait().unwrap_or_else(|e| fail(&e.to_string())) {
            break status;
        }
        if shown.elapsed() > Duration::from_secs(2) {
            shown = Instant::now();
            let (lines, seconds) = (printed.load(Ordering::Relaxed), begin.elapsed().as_secs());
            eprintln!("{seconds} s: {lines} of {calls} lines printed, {} kB", sizes.end);
        }
        thread::sleep(Duration::from_millis(5));
    };
    let lines = reader.join().unwrap_or_default();
    if !status.success() {
        fail(&format!("{}: {status} after {} lines", program.display(), lines.len()));
    }
    Watched { lines, sizes, seconds: begin.elapsed().as_secs_f64() }
}

/// As many lines, as long as the journal's, none of which changes anything.
fn idle_text(journal: &Journal) -> String {
    let mut text = String::new();
    for line in &journal.lines {
        text += &format!("{:<width$}\n", "unload 9", width = line.text.len());
    }
    text
}

fn show(what: &str, watched: &Watched) {
    let Sizes { start, end, highest } = watched.sizes;
    println!(
        "{what}: {:.1} s; resident {start} kB with the journal read, {end} kB at the end, {highest} kB at most",
        watched.seconds
    );
}

fn last_answers<'a>(lines: &'a [String], journal: &Journal, questions: usize) -> &'a [String] {
    let calls = journal.lines.len();
    lines.get(calls - questions..calls).unwrap_or_else(|| fail(&format!("only {} lines were printed", lines.len())))
}

fn compare_all(journal: &Journal, lines: &[String], pile: &Pile) {
    eprintln!("the outside analyser replays it too ...");
    let (_, replies) = replay(journal, pile, Manner::Plain);
    for (i, (line, reply)) in journal.lines.iter().zip(&replies).enumerate() {
        if !is_right(line, reply, &lines[i]) {
            let expected = outside::report::call_line(line, reply);
            fail(&format!("call {}\n  expected: {expected}\n  printed:  {}", i + 1, lines[i]));
        }
    }
    println!("all {} lines are the outside analyser's", replies.len());
}

fn main() {
    let args = Args::read(USAGE, &["--program", "--calls", "--seed", "--pile"], &["--all"]);
    let Some(program) = args.get("--program") else { fail(USAGE) };
    let program: PathBuf = std::fs::canonicalize(program).unwrap_or_else(|e| fail(&format!("{program}: {e}")));
    let calls = args.number("--calls", 1_000_000);
    eprintln!("making a journal of {calls} calls ...");
    let Long { journal, fresh, questions } = long(args.number("--seed", 1) as u64, calls);
    let scratch = Scratch::new("longlife");
    let at = |name: &str| scratch.path().join(name);
    journal.write(scratch.path()).expect("write scratch files");
    std::fs::write(at("idle"), idle_text(&journal)).expect("write scratch files");
    std::fs::write(at("fresh"), fresh.text()).expect("write scratch files");
    let run = |name: &str, calls| watch(&program, args.get("--pile"), &at(name), calls);
    let idle = run("idle", calls);
    show(&format!("{calls} calls that do nothing"), &idle);
    let long = run("journal", calls);
    show(&format!("{calls} calls"), &long);
    let more = long.sizes.highest as i64 - idle.sizes.highest as i64;
    println!("{more} kB more at most than calls that do nothing");
    let short = run("fresh", fresh.lines.len());
    show("fresh host", &short);
    let refused = long.lines[..calls].iter().filter(|l| l.contains(": refused ")).count();
    println!("{} calls answered, {refused} refused", calls - refused);
    if args.has("--all") {
        let pile = Pile::parse(args.text("--pile", "hu+hvn+difference/bits")).unwrap_or_else(|| fail("no such pile"));
        compare_all(&journal, &long.lines, &pile);
    }
    let same = last_answers(&long.lines, &journal, questions) == last_answers(&short.lines, &fresh, questions);
    println!("the last {questions} answers {} those of a fresh host", if same { "equal" } else { "differ from" });
    drop(scratch);
    exit(i32::from(!same));
}
