//! Damaged tables: whatever the words and records hold, no call may panic, and a refused call
//! changes nothing lent.

use crate::engine::*;
use crate::random::Random;
use crate::step::step;
use std::process::ExitCode;

const CASES_PER_SEED: u32 = 20;
const CALLS_PER_CASE: u32 = 10;

/// A block and its row, from a fresh tree by some steps.
#[derive(Clone, PartialEq)]
struct Lent {
    block: Vec<u32>,
    row: Vec<Process>,
}

#[derive(Default)]
struct Counts {
    cases: u64,
    accepted: u64,
    refused: [u64; 11],
}

/// `peer damaged FIRST COUNT`
pub fn check(first: u64, count: u64) -> ExitCode {
    let mut counts = Counts::default();
    for seed in first..first + count {
        let mut of_seed = Counts::default();
        let held = std::panic::catch_unwind(std::panic::AssertUnwindSafe(|| one_seed(seed, &mut of_seed)));
        if held.is_err() {
            println!("damaged: seed {seed}, case {} fails", of_seed.cases);
            return ExitCode::FAILURE;
        }
        counts.cases += of_seed.cases;
        counts.accepted += of_seed.accepted;
        counts.refused.iter_mut().zip(of_seed.refused).for_each(|(sum, more)| *sum += more);
    }
    print!(
        "damaged: no panic, nothing changed by a refused call: cases={} accepted={}",
        counts.cases, counts.accepted
    );
    for (place, times) in counts.refused.iter().enumerate().take(10) {
        print!(" refused {}={times}", place + 1);
    }
    println!();
    ExitCode::SUCCESS
}

fn one_seed(seed: u64, counts: &mut Counts) {
    let mut random = Random::new(seed);
    let good = some_state(&mut random);
    for _ in 0..CASES_PER_SEED {
        let mut lent = good.clone();
        for _ in 0..random.between(1, 3) {
            damage(&mut random, &mut lent, &good);
        }
        counts.cases += 1;
        for _ in 0..CALLS_PER_CASE {
            let result = some_call(&mut random, &mut lent);
            match result {
                Ok(()) => counts.accepted += 1,
                Err(refusal) => counts.refused[refusal.number() as usize - 1] += 1,
            }
        }
    }
}

fn some_state(random: &mut Random) -> Lent {
    let k = random.pick(&[2, 2, 2, 3, 3, 4, 8]);
    let processes = random.between(1, 5);
    let (nodes, records) = (2 * k + 1 + random.below(60), random.between(1, 40));
    let header = Header::fresh(k, processes, nodes, records).expect("within the limits");
    let spare = random.below(3);
    let mut block = vec![7; header.length() + spare as usize];
    let mut row = vec![IDLE; (processes + spare) as usize];
    make(&mut block, &mut row, k, processes, nodes, records).expect("long enough");
    for _ in 0..random.below(600) {
        let process = random.between(1, processes);
        if row[process as usize - 1].operation == 0 {
            let operation = random.pick(&[FIND, INSERT, INSERT, INSERT, DELETE, DELETE]);
            start(&block, &mut row, process, operation, random.below(6)).expect("it is idle");
        } else {
            step(&mut block, &mut row, process).expect("nothing is damaged yet");
        }
    }
    Lent { block, row }
}

/// A number that is likely to be just right or just wrong.
fn some_number(random: &mut Random, old: u32, header: &Header) -> u32 {
    match random.below(12) {
        0 => 0,
        1 => random.below(4),
        2 => old.wrapping_add(1),
        3 => old.wrapping_sub(1),
        4 => header.k - random.below(2),
        5 => header.nodes_used + random.below(2),
        6 => header.records_used + random.below(2),
        7 => 4 * random.below(header.records_used + 2) + random.below(4),
        8 => INFINITY - random.below(2),
        9 | 10 => random.between(1, header.nodes_used),
        _ => random.next() as u32,
    }
}

fn some_pending(random: &mut Random, old: Pending, header: &Header) -> Pending {
    let record = match old {
        Pending::Clean(record)
        | Pending::Replace(record)
        | Pending::Prune(record)
        | Pending::Mark(record) => record,
    };
    let record = if random.one_in(2) { record } else { some_number(random, record, header) };
    random.pick(&[
        Pending::Clean(record),
        Pending::Replace(record),
        Pending::Prune(record),
        Pending::Mark(record),
    ])
}

/// Changes one word of the block or one field of a process record.
fn damage(random: &mut Random, lent: &mut Lent, good: &Lent) {
    let header = Header::read(&good.block).expect("it is good");
    if random.one_in(2) {
        let place = random.below(header.processes) as usize;
        return damage_field(random, &mut lent.row[place], &header);
    }
    let node = random.between(1, header.nodes_used);
    let at = match random.below(20) {
        0 => random.below(HEADER_WORDS as u32) as usize,
        1..=4 => header.node_at(node) + random.below(header.k) as usize,
        5..=8 => header.child_at(node, random.between(1, header.k)),
        9..=11 => header.pending_at(node),
        12..=17 if header.records_used > 0 => {
            header.record_at(random.between(1, header.records_used)) + random.below(8) as usize
        }
        _ => random.below(lent.block.len() as u32) as usize,
    };
    lent.block[at] = some_number(random, lent.block[at], &header);
}

fn damage_field(random: &mut Random, process: &mut Process, header: &Header) {
    let field = match random.below(15) {
        0 => &mut process.operation,
        1 => &mut process.key,
        2 => {
            process.point = random.below(16);
            return;
        }
        3 => &mut process.gp,
        4 => &mut process.p,
        5 => &mut process.l,
        6 => &mut process.index,
        7 => &mut process.mask,
        8 => &mut process.helped,
        9 => &mut process.other,
        10 => &mut process.depth,
        11 => &mut process.own,
        12 => &mut process.steps,
        13 => {
            process.seen_p = some_pending(random, process.seen_p, header);
            return;
        }
        _ => {
            process.seen_gp = some_pending(random, process.seen_gp, header);
            return;
        }
    };
    *field = some_number(random, *field, header);
}

fn some_call(random: &mut Random, lent: &mut Lent) -> Checked {
    match random.below(20) {
        0 => call_listing(random, lent),
        1 => call_range(random, lent),
        2 => call_start(random, lent),
        3 => call_make(random, lent),
        4 => call_short(random, lent),
        _ => call_step(random, lent),
    }
}

/// A process that is busy if there is one, or one that may not exist.
fn some_process(random: &mut Random, lent: &Lent) -> u32 {
    let busy: Vec<u32> = (1..)
        .zip(&lent.row)
        .filter(|(_, process)| process.operation != 0)
        .map(|(number, _)| number)
        .collect();
    match random.below(20) {
        0 => random.pick(&[0, 33, INFINITY, lent.row.len() as u32 + 1]),
        1 => random.between(1, lent.row.len() as u32),
        _ if busy.is_empty() => 1,
        _ => random.pick(&busy),
    }
}

fn call_step(random: &mut Random, lent: &mut Lent) -> Checked {
    let process = some_process(random, lent);
    let before = lent.clone();
    let result = step(&mut lent.block, &mut lent.row, process);
    if result.is_err() {
        assert!(*lent == before, "a refused step changed something");
        return result.map(drop);
    }
    let place = process as usize - 1;
    let changed = lent.block.iter().zip(&before.block).filter(|(now, then)| now != then).count();
    // One shared word and one stack word at most, but for a draw.
    let most = match before.row[place].point {
        1 | 2 | 3 | 6 | 11 | 12 => 0,
        4 | 5 => usize::MAX,
        9 | 10 => 2,
        _ => 1,
    };
    assert!(changed <= most, "a step touched {changed} words");
    let mut row = before.row;
    row[place] = lent.row[place];
    assert!(row == lent.row, "a step changed another process record");
    Ok(())
}

fn call_start(random: &mut Random, lent: &mut Lent) -> Checked {
    let process = some_process(random, lent);
    let (operation, key) = (random.below(5), random.pick(&[0, 3, INFINITY - 1, INFINITY]));
    let mut row = lent.row.clone();
    let result = start(&lent.block, &mut lent.row, process, operation, key);
    if result.is_ok() {
        row[process as usize - 1] = Process::started(operation, key);
    }
    assert!(row == lent.row, "a start changed something else");
    result
}

fn call_listing(random: &mut Random, lent: &mut Lent) -> Checked {
    let before = vec![99; random.pick(&[0, 1, 2, 5, 600])];
    let mut list = before.clone();
    let result = listing(&lent.block, &mut list);
    let count = result.unwrap_or(0) as usize;
    assert!(list[count..] == before[count..], "a listing wrote past its count");
    let mut twin = before.clone();
    let part = listing_part(&lent.block, &mut twin);
    assert!(part == &list[..count] && twin == list, "the listing's twin differs");
    result.map(drop)
}

fn call_range(random: &mut Random, lent: &mut Lent) -> Checked {
    let ends = [0, 1, 3, 4, INFINITY - 1, INFINITY];
    clear_of_range(&lent.block, random.pick(&ends), random.pick(&ends)).map(drop)
}

/// On a copy, for an accepted making would leave nothing damaged.
fn call_make(random: &mut Random, lent: &Lent) -> Checked {
    let (k, processes) = (random.pick(&[0, 1, 2, 8, 9, INFINITY]), random.pick(&[0, 1, 5, 32, 33, INFINITY]));
    let nodes = random.pick(&[0, 4, 5, 9, 16, 17, 4096, 4097, INFINITY]);
    let records = random.pick(&[0, 1, 4096, 4097, INFINITY]);
    let mut copy = lent.clone();
    let result = make(&mut copy.block, &mut copy.row, k, processes, nodes, records);
    assert!(result.is_ok() || copy == *lent, "a refused making changed something");
    result
}

/// A call that is lent too short a block or row.
fn call_short(random: &mut Random, lent: &mut Lent) -> Checked {
    let process = some_process(random, lent);
    let before = lent.clone();
    let mut words = lent.block.len();
    let mut records = lent.row.len();
    match random.below(3) {
        0 => words = random.below(8) as usize,
        1 => words -= random.below(4) as usize,
        _ => records -= 1,
    }
    let result = step(&mut lent.block[..words], &mut lent.row[..records], process);
    assert!(result.is_ok() || *lent == before, "a refused step changed something");
    result.map(drop)
}
