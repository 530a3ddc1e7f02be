//! Random interleaved histories, watched at every moment, with or without a fault in the step.

use crate::engine::{Answer, DELETE, FIND, INFINITY, INSERT};
use crate::fault::Fault;
use crate::random::Random;
use crate::step::{step, StepCall};
use crate::story::Story;
use crate::watch::{Event, Harm, HarmKind, Seen, Shape, Tally, Watch};
use std::fmt::Write;
use std::process::ExitCode;

/// A process that runs alone answers long before this; the tables are small.
const SOLO_STEPS: u32 = 20_000;

/// How many harmed histories are shortened to find one that is short.
const HARMED_HISTORIES: usize = 8;

/// What the histories of one call have in common.
#[derive(Clone, Copy)]
struct Terms {
    call: StepCall,
    strict: bool,
    /// Whether the history stays within the bench program's limits, so that it can be printed.
    bench_sized: bool,
}

/// What a random history is made from.
struct Plan {
    shape: Shape,
    first_key: u32,
    keys: u32,
    /// How often each process is picked; a light one is a slow one.
    weights: Vec<u32>,
    /// The weights of find, insert and delete.
    mix: [u32; 3],
    longest_burst: u32,
    /// Whether bursts end where the next step would be a swap, so that races come often.
    to_swaps: bool,
    /// How often all keys are first inserted, in order, and then deleted together.
    waves: u32,
    events: u32,
}

/// A history that came to harm.
struct Failure {
    shape: Shape,
    events: Vec<Event>,
    /// Whether the harm only came when the busy processes were run on alone.
    in_drain: bool,
    harm: Harm,
}

fn plan(random: &mut Random, bench_sized: bool) -> Plan {
    let k = random.pick(&[2, 2, 2, 2, 3, 3, 3, 4, 4, 5, 6, 7, 8]);
    let processes = match random.below(10) {
        0 => 1,
        1..=4 => random.between(2, 3),
        5..=7 => random.between(4, 8),
        _ if bench_sized => 8,
        _ => random.between(9, 32),
    };
    let shape =
        Shape { k, processes, nodes: nodes(random, k, bench_sized), records: records(random, bench_sized) };
    let keys = random.pick(&[2, 3, 4, 5, 6, 8, 12, 20, 60]);
    let first_key = random.pick(&[0, 0, 1, 1000, INFINITY - keys]);
    let weights = (0..processes).map(|_| random.pick(&[1, 4, 20, 20, 20])).collect();
    let mix = random.pick(&[[1, 4, 4], [1, 3, 5], [1, 5, 3], [4, 3, 3], [0, 1, 1]]);
    let to_swaps = random.one_in(2);
    let longest_burst = if to_swaps { 60 } else { random.pick(&[1, 1, 2, 4, 10, 30]) };
    let events = random.pick(&[200, 500, 1000, 1000, 2000, 3000]);
    let waves = random.pick(&[0, 0, 0, 1, 2, 3]);
    Plan { shape, first_key, keys, weights, mix, longest_burst, to_swaps, waves, events }
}

/// From nearly full to roomy.
fn nodes(random: &mut Random, k: u32, bench_sized: bool) -> u32 {
    let fresh = 2 * k + 1;
    match random.below(50) {
        0..=4 => fresh + random.below(k + 3),
        5..=14 => fresh + random.below(8 * k),
        15..=44 => random.between(100, 500),
        _ if bench_sized => 512,
        45..=48 => random.between(500, 1000),
        _ => 4096,
    }
}

fn records(random: &mut Random, bench_sized: bool) -> u32 {
    match random.below(50) {
        0..=3 => random.between(1, 6),
        4..=9 => random.between(7, 60),
        10..=44 => random.between(100, 500),
        _ if bench_sized => 512,
        45..=48 => random.between(500, 1000),
        _ => 4096,
    }
}

/// A history under way, with every event it took.
struct Running {
    watch: Watch,
    events: Vec<Event>,
}

impl Running {
    fn event(&mut self, event: Event) -> Result<bool, Harm> {
        self.events.push(event);
        self.watch.event(event)
    }

    /// Starts a process, unless it is busy.
    fn start(&mut self, process: u32, operation: u32, key: u32) -> Seen {
        if self.watch.is_busy(process) {
            return Ok(());
        }
        self.event(Event::Start { process, operation, key }).map(drop)
    }

    /// Steps a busy process up to so many times; ends at the answer, a refusal or a swap point.
    fn burst(&mut self, process: u32, times: u32, to_swap: bool) -> Seen {
        for _ in 0..times {
            if !self.watch.is_busy(process) || !self.event(Event::Step { process })? {
                break;
            }
            if to_swap && matches!(self.watch.row[process as usize - 1].point, 4 | 5 | 7..=10 | 13 | 14) {
                break;
            }
        }
        Ok(())
    }

    fn run(&mut self, plan: &Plan, random: &mut Random) -> Seen {
        for _ in 0..plan.waves {
            self.wave(plan, random)?;
            self.run_at_random(plan, random, plan.events / 8)?;
        }
        self.run_at_random(plan, random, plan.events)
    }

    /// Keys inserted in order make a long chain of nodes. When each process then deletes one of
    /// them, and all have flagged before any goes on, a helper has to stack one upon the other.
    fn wave(&mut self, plan: &Plan, random: &mut Random) -> Seen {
        for process in 1..=plan.shape.processes {
            self.burst(process, SOLO_STEPS, false)?;
        }
        for key in plan.first_key..plan.first_key + plan.keys {
            self.start(1, INSERT, key)?;
            self.burst(1, SOLO_STEPS, false)?;
        }
        let first = random.below(plan.keys);
        for process in 1..=plan.shape.processes {
            self.start(process, DELETE, plan.first_key + (first + process) % plan.keys)?;
            self.burst(process, SOLO_STEPS, true)?;
        }
        (1..=plan.shape.processes).try_for_each(|process| self.burst(process, 1, true))
    }

    fn run_at_random(&mut self, plan: &Plan, random: &mut Random, events: u32) -> Seen {
        let last = self.events.len() + events as usize;
        while self.events.len() < last && !full_for_long(&self.watch.tally) {
            let process = random.weighted(&plan.weights) as u32 + 1;
            let operation = [FIND, INSERT, DELETE][random.weighted(&plan.mix)];
            self.start(process, operation, plan.first_key + random.below(plan.keys))?;
            let times = random.between(1, plan.longest_burst);
            self.burst(process, times, plan.to_swaps)?;
        }
        Ok(())
    }
}

/// Once everything is full, more of the same shows nothing.
fn full_for_long(tally: &Tally) -> bool {
    tally.fulls() > 40
}

fn random_history(seed: u64, terms: Terms) -> Result<Tally, Failure> {
    let mut random = Random::new(seed);
    let plan = plan(&mut random, terms.bench_sized);
    let watch = Watch::new(plan.shape, terms.call, terms.strict);
    let mut running = Running { watch, events: Vec::new() };
    let run = running.run(&plan, &mut random);
    let in_drain = run.is_ok();
    match run.and_then(|()| running.watch.drain(SOLO_STEPS)) {
        Ok(()) => Ok(running.watch.tally),
        Err(harm) => Err(Failure { shape: plan.shape, events: running.events, in_drain, harm }),
    }
}

/// Runs these events again, leaving out those that no longer fit.
fn replay(shape: Shape, given: &[Event], terms: Terms) -> Option<Failure> {
    let mut watch = Watch::new(shape, terms.call, terms.strict);
    let mut events = Vec::new();
    for &event in given {
        let fits = match event {
            Event::Start { process, .. } => !watch.is_busy(process),
            Event::Step { process } => watch.is_busy(process),
        };
        if !fits {
            continue;
        }
        events.push(event);
        if let Err(harm) = watch.event(event) {
            return Some(Failure { shape, events, in_drain: false, harm });
        }
    }
    let harm = watch.drain(SOLO_STEPS).err()?;
    Some(Failure { shape, events, in_drain: true, harm })
}

/// Takes the rest of a failure's events if the same kind of harm remains.
fn take_if_harmful(failure: &mut Failure, rest: &[Event], terms: Terms) -> bool {
    match replay(failure.shape, rest, terms) {
        Some(smaller)
            if smaller.harm.kind == failure.harm.kind && smaller.events.len() < failure.events.len() =>
        {
            *failure = smaller;
            true
        }
        _ => false,
    }
}

/// Leaves out whole processes and ever smaller runs of events, until nothing more can go.
fn minimised(mut failure: Failure, terms: Terms) -> Failure {
    loop {
        let length = failure.events.len();
        for process in 1..=failure.shape.processes {
            let rest: Vec<Event> =
                failure.events.iter().copied().filter(|event| event.process() != process).collect();
            take_if_harmful(&mut failure, &rest, terms);
        }
        let mut chunk = failure.events.len() / 2;
        while chunk > 0 {
            leave_out_runs(&mut failure, chunk, terms);
            chunk /= 2;
        }
        if failure.events.len() == length {
            return failure;
        }
    }
}

fn leave_out_runs(failure: &mut Failure, chunk: usize, terms: Terms) {
    let mut from = 0;
    while from < failure.events.len() {
        let to = (from + chunk).min(failure.events.len());
        let rest = [&failure.events[..from], &failure.events[to..]].concat();
        if !take_if_harmful(failure, &rest, terms) {
            from = to;
        }
    }
}

/// The events as bench lines.
fn as_script(failure: &Failure) -> String {
    let Shape { k, processes, nodes, records } = failure.shape;
    let mut text = format!("k={k} processes={processes} nodes={nodes} records={records}\n");
    let mut events = failure.events.iter().peekable();
    while let Some(&event) = events.next() {
        match event {
            Event::Start { process, operation, key } => {
                let op = ["find", "insert", "delete"][operation as usize - 1];
                writeln!(text, "start={process} op={op} key={key}").expect("a string takes it");
            }
            Event::Step { process } => {
                let mut times = 1;
                while events.next_if_eq(&&event).is_some() {
                    times += 1;
                }
                writeln!(text, "step={process} times={times}").expect("a string takes it");
            }
        }
    }
    if failure.in_drain {
        let takes_part = |process: &u32| failure.events.iter().any(|event| event.process() == *process);
        for process in (1..=processes).filter(takes_part) {
            writeln!(text, "step={process} times={SOLO_STEPS}").expect("a string takes it");
        }
    }
    text
}

fn summary(tally: &Tally) -> String {
    let by = |operation: u32, answer: Answer| tally.answers[operation as usize - 1][answer as usize];
    format!(
        "histories={} events={} find yes={} no={} insert yes={} no={} full={} delete yes={} no={} full={} \
         swaps={} helps={} pushes={} deepest={} fulls={} set readings={}",
        tally.histories,
        tally.events,
        by(FIND, Answer::Yes),
        by(FIND, Answer::No),
        by(INSERT, Answer::Yes),
        by(INSERT, Answer::No),
        by(INSERT, Answer::Full),
        by(DELETE, Answer::Yes),
        by(DELETE, Answer::No),
        by(DELETE, Answer::Full),
        tally.swaps,
        tally.helps,
        tally.pushes,
        tally.deepest,
        tally.fulls(),
        tally.set_readings
    )
}

/// `peer history FIRST COUNT`
pub fn check(first: u64, count: u64) -> ExitCode {
    let terms = Terms { call: step, strict: true, bench_sized: false };
    let mut total = Tally::default();
    for seed in first..first + count {
        match random_history(seed, terms) {
            Ok(tally) => total.add(&tally),
            Err(failure) => {
                let Failure { events, harm, .. } = &failure;
                println!("history seed {seed}, event {}: {}: {}", events.len(), harm.kind.name(), harm.what);
                println!("{}", as_script(&minimised(failure, terms)));
                return ExitCode::FAILURE;
            }
        }
    }
    println!("history: no harm: {}", summary(&total));
    ExitCode::SUCCESS
}

/// `peer fault NAME FIRST COUNT`. Finding harm is what is wanted, so that is the success.
pub fn show(fault: Fault, first: u64, count: u64) -> ExitCode {
    let terms = Terms { call: fault.step(), strict: false, bench_sized: true };
    println!("fault {}: {}", fault.name(), fault.meaning());
    let mut total = Tally::default();
    let (mut harmed, mut lesser) = (Vec::new(), Vec::new());
    for seed in first..first + count {
        match random_history(seed, terms) {
            Ok(tally) => total.add(&tally),
            Err(failure) if failure.harm.kind.is_grave() => harmed.push((seed, failure)),
            Err(failure) => lesser.push((seed, failure)),
        }
        if harmed.len() == HARMED_HISTORIES {
            break;
        }
    }
    if harmed.is_empty() {
        lesser.truncate(HARMED_HISTORIES);
        harmed = lesser;
    }
    if harmed.is_empty() {
        println!("no harm in {count} histories from seed {first}: {}", summary(&total));
        return ExitCode::FAILURE;
    }
    report(harmed, terms);
    ExitCode::SUCCESS
}

/// Says what the first history came to, and shows whichever gets shortest.
fn report(harmed: Vec<(u64, Failure)>, terms: Terms) {
    let (seed, Failure { events, harm, .. }) = &harmed[0];
    println!(
        "first harm with seed {seed}, after {} events: {}: {}",
        events.len(),
        harm.kind.name(),
        harm.what
    );
    let shortened = harmed.into_iter().map(|(seed, failure)| (seed, minimised(failure, terms)));
    let Some((seed, smaller)) = shortened.min_by_key(|(_, failure)| failure.events.len()) else { return };
    let Failure { shape, events, harm, in_drain } = &smaller;
    println!("shortest, from seed {seed}, {} events: {}: {}", events.len(), harm.kind.name(), harm.what);
    print!("{}", as_script(&smaller));
    println!("told:");
    let story = Story::new(Watch::new(*shape, terms.call, terms.strict));
    for line in story.tell(events, *in_drain, harm) {
        println!("  {line}");
    }
    let without = Terms { call: step, strict: true, ..terms };
    match replay(*shape, events, without) {
        None => println!("the same events without the fault: no harm"),
        Some(other) => println!("the same events without the fault: {}", other.harm.what),
    }
}

/// Which kinds of harm a fault does, over many histories.
pub fn kinds(fault: Fault, first: u64, count: u64) -> Vec<(HarmKind, u64)> {
    let terms = Terms { call: fault.step(), strict: false, bench_sized: true };
    let mut kinds: Vec<(HarmKind, u64)> = Vec::new();
    for seed in first..first + count {
        let Err(failure) = random_history(seed, terms) else { continue };
        match kinds.iter_mut().find(|(kind, _)| *kind == failure.harm.kind) {
            Some((_, times)) => *times += 1,
            None => kinds.push((failure.harm.kind, 1)),
        }
    }
    kinds
}
