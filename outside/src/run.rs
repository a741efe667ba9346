//! Running a program with a time limit.

use std::io::Read;
use std::path::{Path, PathBuf};
use std::process::{Command, Stdio};
use std::sync::mpsc;
use std::thread;
use std::time::Duration;

pub struct Output {
    /// None: it was stopped by a signal.
    pub status: Option<i32>,
    pub stdout: Vec<u8>,
    pub stderr: String,
    pub timed_out: bool,
    /// Time on the processor, where the system tells it.
    pub cpu: Option<Duration>,
}

/// A field of /proc/PID/FILE behind the command's name in brackets, if there is one.
fn proc_field(pid: u32, file: &str, field: usize) -> Option<String> {
    let text = std::fs::read_to_string(format!("/proc/{pid}/{file}")).ok()?;
    let rest = text.rsplit_once(')').map_or(text.as_str(), |(_, rest)| rest);
    rest.split_whitespace().nth(field).map(String::from)
}

/// The processor time of a command that has closed its output and is about to end. Its figures last until it
/// is waited for.
fn cpu_time(pid: u32) -> Option<Duration> {
    for _ in 0..2000 {
        if proc_field(pid, "stat", 0)? == "Z" {
            break;
        }
        thread::sleep(Duration::from_micros(100));
    }
    Some(Duration::from_nanos(proc_field(pid, "schedstat", 0)?.parse().ok()?))
}

/// Reads a pipe to its end in a thread of its own and hands the bytes over.
fn reader(mut from: impl Read + Send + 'static) -> mpsc::Receiver<Vec<u8>> {
    let (sender, receiver) = mpsc::channel();
    thread::spawn(move || {
        let mut bytes = Vec::new();
        let _ = from.read_to_end(&mut bytes);
        let _ = sender.send(bytes);
    });
    receiver
}

/// Runs a command to its end, or stops it when its time is over.
pub fn run(command: &mut Command, limit: Duration) -> std::io::Result<Output> {
    run_command(command, limit, false)
}

/// The same, with its processor time.
pub fn run_timed(command: &mut Command, limit: Duration) -> std::io::Result<Output> {
    run_command(command, limit, true)
}

fn run_command(command: &mut Command, limit: Duration, timed: bool) -> std::io::Result<Output> {
    let mut child = command.stdin(Stdio::null()).stdout(Stdio::piped()).stderr(Stdio::piped()).spawn()?;
    let stdout = reader(child.stdout.take().expect("piped"));
    let stderr = reader(child.stderr.take().expect("piped"));
    // Its output ends when the command does.
    let printed = stdout.recv_timeout(limit);
    let timed_out = printed.is_err();
    if timed_out {
        child.kill()?;
    }
    let cpu = if timed { cpu_time(child.id()) } else { None };
    let status = child.wait()?.code();
    let stderr = String::from_utf8_lossy(&stderr.recv().unwrap_or_default()).into_owned();
    Ok(Output { status, stdout: printed.unwrap_or_default(), stderr, timed_out, cpu })
}

/// A folder for a command's files, removed at the end.
pub struct Scratch(pub PathBuf);

impl Scratch {
    pub fn new(name: &str) -> Scratch {
        let path = std::env::temp_dir().join(format!("hollowsieve-{name}-{}", std::process::id()));
        std::fs::create_dir_all(&path).expect("a folder for scratch files");
        Scratch(path)
    }

    pub fn path(&self) -> &Path {
        &self.0
    }
}

impl Drop for Scratch {
    fn drop(&mut self) {
        let _ = std::fs::remove_dir_all(&self.0);
    }
}
