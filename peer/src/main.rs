//! The peer: an engine of the dirty-block index written from document 01 and the readings alone,
//! for comparing with. `peer` without words says how it is called.

mod bench;
mod compare;
mod damaged;
mod draw;
mod engine;
mod fault;
mod history;
mod random;
#[cfg(test)]
mod rules;
mod runs;
mod script;
mod speed;
mod step;
mod story;
mod watch;

use fault::{Fault, FAULTS};
use std::io::{Read, Write};
use std::process::ExitCode;

const USAGE: &str = "\
peer bench                            what the bench prints for the standard input
peer speed                            what the speed program prints for the standard input
peer runs                             the runs (a) to (j), the example and the runs-only numbers
peer script SEED                      the random bench script of a seed
peer expect FIRST COUNT FOLDER        SEED.in and SEED.out for COUNT seeds
peer compare FIRST COUNT -- COMMAND.. runs the command on each script, compares every byte
peer draw                             the tree that a bench script on the standard input leaves, as text
peer history FIRST COUNT              demand 3 at every moment of random histories
peer damaged FIRST COUNT              damaged tables: no panic, refused calls change nothing
peer fault NAME FIRST COUNT           the first history that a fault brings to harm, made small
peer faults FIRST COUNT               for every fault, how many histories come to which harm";

fn main() -> ExitCode {
    let words: Vec<String> = std::env::args().skip(1).collect();
    let words: Vec<&str> = words.iter().map(String::as_str).collect();
    called(&words).unwrap_or_else(|| {
        eprintln!("{USAGE}");
        ExitCode::from(2)
    })
}

fn called(words: &[&str]) -> Option<ExitCode> {
    Some(match *words {
        ["bench"] => run_on_input(bench::run),
        ["speed"] => run_on_input(speed::run),
        ["runs"] => runs::check(),
        ["script", seed] => print(&script::script(number(seed)?)),
        ["expect", first, count, folder] => compare::expect(number(first)?, number(count)?, folder),
        ["compare", first, count, "--", ref command @ ..] if !command.is_empty() => {
            compare::compare(number(first)?, number(count)?, command)
        }
        ["draw"] => print(draw::of_input().as_bytes()),
        ["history", first, count] => history::check(number(first)?, number(count)?),
        ["damaged", first, count] => damaged::check(number(first)?, number(count)?),
        ["fault", name, first, count] => history::show(Fault::named(name)?, number(first)?, number(count)?),
        ["faults", first, count] => all_faults(number(first)?, number(count)?),
        _ => return None,
    })
}

fn number(word: &str) -> Option<u64> {
    word.parse().ok()
}

fn print(bytes: &[u8]) -> ExitCode {
    match std::io::stdout().write_all(bytes) {
        Ok(()) => ExitCode::SUCCESS,
        Err(_) => ExitCode::FAILURE,
    }
}

fn run_on_input(program: fn(&[u8]) -> Vec<u8>) -> ExitCode {
    let mut input = Vec::new();
    if std::io::stdin().read_to_end(&mut input).is_err() {
        return ExitCode::FAILURE;
    }
    print(&program(&input))
}

fn all_faults(first: u64, count: u64) -> ExitCode {
    for fault in FAULTS {
        let kinds = history::kinds(fault, first, count);
        let harmed: u64 = kinds.iter().map(|(_, times)| times).sum();
        print!("fault {}: {harmed} of {count} histories come to harm", fault.name());
        for (kind, times) in kinds {
            print!("; {}: {times}", kind.name());
        }
        println!();
    }
    ExitCode::SUCCESS
}
