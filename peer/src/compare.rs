//! Running another bench program on random scripts and comparing every byte it prints.

use crate::bench;
use crate::script::script;
use std::io::{Read, Write};
use std::path::Path;
use std::process::{Child, Command, ExitCode, Stdio};
use std::sync::atomic::{AtomicBool, AtomicU64, Ordering};
use std::sync::{mpsc, Mutex};
use std::time::Duration;

/// Two at a time, for the other program may be slow to come up.
const THREADS: usize = 2;
const PATIENCE: Duration = Duration::from_secs(60);

/// What all threads share.
struct Work<'a> {
    command: &'a [&'a str],
    next: AtomicU64,
    end: u64,
    stop: AtomicBool,
    tally: Mutex<Tally>,
}

#[derive(Default)]
struct Tally {
    scripts: u64,
    bytes_in: u64,
    bytes_out: u64,
    /// Document 01 says nothing of exit codes, so they are counted and not compared.
    other_exits: u64,
    /// Of every script that differed: its seed and how.
    differences: Vec<(u64, String)>,
}

/// What the other program did.
struct Printed {
    bytes: Vec<u8>,
    exit: Option<i32>,
}

/// `peer expect FIRST COUNT FOLDER`
pub fn expect(first: u64, count: u64, folder: &str) -> ExitCode {
    match write_all(first, count, Path::new(folder)) {
        Ok(()) => {
            println!("expect: {count} scripts from seed {first}");
            ExitCode::SUCCESS
        }
        Err(error) => {
            println!("expect: {error}");
            ExitCode::FAILURE
        }
    }
}

fn write_all(first: u64, count: u64, folder: &Path) -> std::io::Result<()> {
    std::fs::create_dir_all(folder)?;
    for seed in first..first + count {
        let input = script(seed);
        std::fs::write(folder.join(format!("{seed}.out")), bench::run(&input))?;
        std::fs::write(folder.join(format!("{seed}.in")), input)?;
    }
    Ok(())
}

/// `peer compare FIRST COUNT -- COMMAND..`
pub fn compare(first: u64, count: u64, command: &[&str]) -> ExitCode {
    let work = Work {
        command,
        next: AtomicU64::new(first),
        end: first + count,
        stop: AtomicBool::new(false),
        tally: Mutex::new(Tally::default()),
    };
    std::thread::scope(|scope| {
        for _ in 0..THREADS {
            scope.spawn(|| work.take_scripts());
        }
    });
    let tally = work.tally.into_inner().expect("no thread panicked");
    // Seeds are taken in order, so the smallest one that differed is the first.
    if let Some((seed, how)) = tally.differences.iter().min() {
        let command = command.join(" ");
        println!("compare: seed {seed} differs: {how}");
        println!("replay:  peer script {seed} | {command}    against    peer script {seed} | peer bench");
        return ExitCode::FAILURE;
    }
    println!(
        "compare: {} scripts from seed {first} print the same, {} bytes in, {} bytes out, {} exits other than 0",
        tally.scripts, tally.bytes_in, tally.bytes_out, tally.other_exits
    );
    ExitCode::SUCCESS
}

impl Work<'_> {
    fn take_scripts(&self) {
        while !self.stop.load(Ordering::Relaxed) {
            let seed = self.next.fetch_add(1, Ordering::Relaxed);
            if seed >= self.end {
                return;
            }
            let input = script(seed);
            let expected = bench::run(&input);
            let printed = run_other(self.command, &input);
            self.note(seed, input.len(), &expected, printed);
        }
    }

    fn note(&self, seed: u64, bytes_in: usize, expected: &[u8], printed: Result<Printed, String>) {
        let mut tally = self.tally.lock().expect("no thread panicked");
        tally.scripts += 1;
        tally.bytes_in += bytes_in as u64;
        tally.bytes_out += expected.len() as u64;
        let difference = match printed {
            Err(why) => Some(why),
            Ok(printed) if printed.bytes != expected => Some(first_difference(expected, &printed.bytes)),
            Ok(Printed { exit: None, .. }) => {
                Some("the same bytes, but it was ended by a signal".to_string())
            }
            Ok(Printed { exit, .. }) => {
                tally.other_exits += u64::from(exit != Some(0));
                None
            }
        };
        if let Some(how) = difference {
            tally.differences.push((seed, how));
            self.stop.store(true, Ordering::Relaxed);
        }
    }
}

fn run_other(command: &[&str], input: &[u8]) -> Result<Printed, String> {
    let mut child = Command::new(command[0])
        .args(&command[1..])
        .stdin(Stdio::piped())
        .stdout(Stdio::piped())
        .stderr(Stdio::null())
        .spawn()
        .map_err(|error| format!("cannot run it: {error}"))?;
    let bytes = exchange(&mut child, input.to_vec());
    if bytes.is_err() {
        // It may have ended by itself meanwhile; then there is nothing to end.
        let _ = child.kill();
    }
    let status = child.wait().map_err(|error| format!("cannot wait for it: {error}"))?;
    Ok(Printed { bytes: bytes?, exit: status.code() })
}

/// Writes and reads at the same time, for the pipes hold only so much.
fn exchange(child: &mut Child, input: Vec<u8>) -> Result<Vec<u8>, String> {
    let mut stdin = child.stdin.take().expect("it was piped");
    let mut stdout = child.stdout.take().expect("it was piped");
    // A program that stops reading early, after a refused first line, is no failure.
    std::thread::spawn(move || drop(stdin.write_all(&input)));
    let (sender, receiver) = mpsc::channel();
    std::thread::spawn(move || {
        let mut bytes = Vec::new();
        let read = stdout.read_to_end(&mut bytes).map(|_| bytes);
        drop(sender.send(read));
    });
    match receiver.recv_timeout(PATIENCE) {
        Ok(read) => read.map_err(|error| format!("cannot read from it: {error}")),
        Err(_) => Err(format!("it has not ended after {} seconds", PATIENCE.as_secs())),
    }
}

fn first_difference(expected: &[u8], printed: &[u8]) -> String {
    let mut mine = expected.split(|&byte| byte == b'\n');
    let mut theirs = printed.split(|&byte| byte == b'\n');
    let mut number = 1;
    loop {
        let (my_line, their_line) = (mine.next(), theirs.next());
        if my_line != their_line {
            let shown = |line: Option<&[u8]>| match line {
                None => "nothing".to_string(),
                Some(line) => format!("\"{}\"", line.escape_ascii()),
            };
            return format!(
                "printed line {number}: expected {}, printed {}",
                shown(my_line),
                shown(their_line)
            );
        }
        number += 1;
    }
}
