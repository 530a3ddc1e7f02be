//! The fixed work of the speed program, for timing the two beside each other: a tree is filled,
//! searched, and changed until it is full. The same input gives the same line.

use crate::engine::*;
use crate::step::step;
use std::fmt::Write;

/// Enough for k = 8 with 4,096 nodes and records, as in the other program.
const BLOCK_WORDS: usize = 102_915;
/// More steps than any operation of a process alone takes.
const MOST_STEPS: u32 = 1_000_000;
/// Below infinity and prime, so that no two of its keys are the same.
const PRIME: u64 = 4_294_967_291;
const REFUSED: u32 = 3;

/// What an operation came to, 3 if it was refused, and its steps.
#[derive(Clone, Copy)]
struct Ending {
    answer: u32,
    steps: u32,
}

impl Ending {
    fn is_over(self) -> bool {
        self.answer > 1
    }
}

#[derive(Default)]
struct Tally {
    /// How many ended in no, yes, full and a refusal.
    ends: [u64; 4],
    steps: u64,
    sum: u32,
}

impl Tally {
    fn add(&mut self, ending: Ending) {
        self.ends[ending.answer as usize] += 1;
        self.steps += u64::from(ending.steps);
        let mixed = u64::from(self.sum) * 31 + u64::from(ending.steps) * 4 + u64::from(ending.answer);
        self.sum = (mixed % PRIME) as u32;
    }
}

/// The tables, and what the operations on them have come to.
struct Bench {
    block: Vec<u32>,
    row: [Process; 1],
    tally: Tally,
}

/// What the program prints for this input.
pub fn run(input: &[u8]) -> Vec<u8> {
    let [k, nodes, records, keys, finds, changes, rounds] = numbers(input);
    let mut bench = Bench { block: vec![0; BLOCK_WORDS], row: [IDLE], tally: Tally::default() };
    for _ in 0..rounds {
        // A refused making leaves a block on which every operation is refused.
        let _ = make(&mut bench.block, &mut bench.row, k, 1, nodes, records);
        let count = bench.fill(keys);
        bench.find_all(count, finds);
        bench.change_all(count, changes);
    }
    bench.report().into_bytes()
}

/// The numbers of a text, whatever stands between them; 0 for those that are missing.
fn numbers(text: &[u8]) -> [u32; 7] {
    let mut found = [0; 7];
    let words = text.split(|byte| !byte.is_ascii_digit()).filter(|word| !word.is_empty());
    for (number, word) in found.iter_mut().zip(words) {
        *number = word.iter().fold(0, with_digit);
    }
    found
}

/// A digit more; past nine digits no more is read.
fn with_digit(number: u32, digit: &u8) -> u32 {
    if number < 100_000_000 {
        number * 10 + u32::from(digit - b'0')
    } else {
        number
    }
}

/// All different, in no order, and none infinity.
fn key_of(i: u32) -> u32 {
    ((u64::from(i) + 1) * 2_654_435_761 % PRIME) as u32
}

impl Bench {
    fn operate(&mut self, operation: u32, key: u32) -> Ending {
        let ending = self.ending(operation, key).unwrap_or(Ending { answer: REFUSED, steps: 0 });
        self.tally.add(ending);
        ending
    }

    fn ending(&mut self, operation: u32, key: u32) -> Result<Ending, Refusal> {
        start(&self.block, &mut self.row, 1, operation, key)?;
        for _ in 0..MOST_STEPS {
            if let Outcome::Answered(answer, steps) = step(&mut self.block, &mut self.row, 1)? {
                return Ok(Ending { answer: answer as u32, steps });
            }
        }
        Ok(Ending { answer: REFUSED, steps: 0 })
    }

    /// So many operations, or until one is over; how many were tried.
    fn perform(&mut self, number: u32, asks: impl Fn(u32) -> (u32, u32)) -> u32 {
        for i in 0..number {
            let (operation, key) = asks(i);
            if self.operate(operation, key_of(key)).is_over() {
                return i + 1;
            }
        }
        number
    }

    fn fill(&mut self, keys: u32) -> u32 {
        self.perform(keys, |i| (INSERT, i))
    }

    /// Half of the keys sought were inserted.
    fn find_all(&mut self, count: u32, finds: u32) {
        let period = if count < 1_000_000 { 2 * count + 2 } else { 1 };
        self.perform(finds, |i| (FIND, i % period));
    }

    /// The oldest key goes, or a new one comes.
    fn change_all(&mut self, count: u32, changes: u32) {
        self.perform(changes, |i| match i % 2 {
            0 => (DELETE, i / 2),
            _ => (INSERT, count.wrapping_add(i / 2)),
        });
    }

    fn report(&self) -> String {
        let [no, yes, full, refused] = self.tally.ends;
        let (nodes, records) = (self.block[NODES_USED_AT], self.block[RECORDS_USED_AT]);
        let mut text = format!("yes={yes} no={no} full={full} refused={refused} steps={}", self.tally.steps);
        let _ = writeln!(text, " nodes={nodes} records={records} sum={}", self.tally.sum);
        text
    }
}

#[cfg(test)]
mod tests {
    use super::*;

    #[test]
    fn the_proved_program_prints_the_same() {
        let printed = run(include_bytes!("../../crates/speed/stdin"));
        assert_eq!(printed, include_bytes!("../../crates/speed/stdout"));
    }

    #[test]
    fn a_refused_making_has_every_operation_refused() {
        let printed = run(b"k=9 nodes=4096 records=1 keys=2 finds=3 changes=4 rounds=1");
        assert!(printed.starts_with(b"yes=0 no=0 full=0 refused=3 steps=0 "));
    }
}
