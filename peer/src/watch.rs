//! An observer of one history. It is told every event, compares the whole block before and
//! after it, and holds each step and each answer against the set read from the leaves.

use crate::engine::*;
use crate::step::StepCall;
use std::collections::{BTreeSet, HashMap};

/// The making numbers of a history.
#[derive(Clone, Copy, Debug)]
pub struct Shape {
    pub k: u32,
    pub processes: u32,
    pub nodes: u32,
    pub records: u32,
}

#[derive(Clone, Copy, PartialEq, Eq, Debug)]
pub enum Event {
    Start { process: u32, operation: u32, key: u32 },
    Step { process: u32 },
}

impl Event {
    pub fn process(self) -> u32 {
        match self {
            Event::Start { process, .. } | Event::Step { process } => process,
        }
    }
}

#[derive(Clone, Copy, PartialEq, Eq, Debug)]
pub enum HarmKind {
    /// Refused 3, though it comes from a fresh tree.
    RefusedThree,
    /// A number is gone from the set that nobody deleted, or never came into it though its insert is answered yes.
    NumberLost,
    /// The set changed otherwise than by the one key of the operation helped, and none is lost.
    NumberGained,
    DoneTwice,
    WrongAnswer,
    NeverAnswers,
    /// The tables are not as they should be; nothing a caller can see yet.
    Structure,
}

impl HarmKind {
    /// What the driver asks never to see: a number lost, a job done twice, a task refused 3 for ever.
    pub fn is_grave(self) -> bool {
        matches!(self, HarmKind::NumberLost | HarmKind::DoneTwice | HarmKind::RefusedThree)
    }

    pub fn name(self) -> &'static str {
        match self {
            HarmKind::RefusedThree => "a task is refused 3",
            HarmKind::NumberLost => "a number is lost",
            HarmKind::NumberGained => "a number is gained, or stays though it is deleted",
            HarmKind::DoneTwice => "a job is done twice",
            HarmKind::WrongAnswer => "an answer is wrong",
            HarmKind::NeverAnswers => "a task never answers",
            HarmKind::Structure => "the tables are not as they should be",
        }
    }
}

#[derive(Clone, Debug)]
pub struct Harm {
    pub kind: HarmKind,
    pub what: String,
}

pub type Seen = Result<(), Harm>;

fn harm(kind: HarmKind, what: String) -> Seen {
    Err(Harm { kind, what })
}

/// Which of the two a wrong change of the set is; the key that was to be deleted is not lost.
fn lost_or_gained(changes: &[u32], now: &BTreeSet<u32>, deleted: Option<u32>) -> HarmKind {
    if changes.iter().any(|key| !now.contains(key) && deleted != Some(*key)) {
        HarmKind::NumberLost
    } else {
        HarmKind::NumberGained
    }
}

/// What is counted over histories.
#[derive(Clone, Copy, Default, Debug)]
pub struct Tally {
    pub histories: u64,
    pub events: u64,
    /// By operation, then by answer: no, yes, full.
    pub answers: [[u64; 3]; 3],
    pub swaps: u64,
    pub helps: u64,
    pub pushes: u64,
    pub deepest: u32,
    pub set_readings: u64,
}

impl Tally {
    pub fn add(&mut self, other: &Tally) {
        self.histories += other.histories;
        self.events += other.events;
        for (mine, theirs) in self.answers.iter_mut().flatten().zip(other.answers.iter().flatten()) {
            *mine += theirs;
        }
        self.swaps += other.swaps;
        self.helps += other.helps;
        self.pushes += other.pushes;
        self.deepest = self.deepest.max(other.deepest);
        self.set_readings += other.set_readings;
    }

    pub fn fulls(&self) -> u64 {
        self.answers.iter().map(|by_answer| by_answer[Answer::Full as usize]).sum()
    }
}

/// One operation from its start on; kept after its answer, for a late swap would be harm.
struct Task {
    operation: u32,
    key: u32,
    started: u64,
    steps: u32,
    swaps: u32,
    answer: Option<Answer>,
}

/// Where a word of the block lies.
enum Place {
    Header,
    TagOrKey { node: u32 },
    Child { node: u32 },
    Pending { node: u32 },
    Record { record: u32 },
    Stack { process: u32 },
    Beyond,
}

/// A step that changed the block.
struct Change {
    process: u32,
    /// The point at which the step was.
    point: u32,
    old: Header,
    new: Header,
}

/// Words and a record lent beyond those needed; they must stay untouched.
const GUARD_WORD: u32 = 0xdead_beef;
const GUARD_WORDS: usize = 3;
const GUARD: Process = Process { operation: 77, own: 99, seen_p: Pending::Mark(7), ..IDLE };

pub struct Watch {
    call: StepCall,
    /// Whether harm that no caller can see yet counts too.
    strict: bool,
    header: Header,
    block: Vec<u32>,
    pub row: Vec<Process>,
    /// The block and the row as they were before the event.
    last_block: Vec<u32>,
    last_row: Vec<Process>,
    set: BTreeSet<u32>,
    /// The number of accepted events so far; moment m is the state after event m.
    moment: u64,
    /// The first moment at which a key had its present state.
    changed: HashMap<u32, u64>,
    tasks: Vec<Task>,
    /// The task under way of each process.
    current: Vec<usize>,
    /// The task that drew each record.
    drawn_by: Vec<usize>,
    pub tally: Tally,
}

impl Watch {
    pub fn new(shape: Shape, call: StepCall, strict: bool) -> Watch {
        let Shape { k, processes, nodes, records } = shape;
        let header = Header::fresh(k, processes, nodes, records).expect("a shape within the limits");
        let mut block = vec![GUARD_WORD; header.length() + GUARD_WORDS];
        let mut row = vec![GUARD; processes as usize + 1];
        make(&mut block, &mut row, k, processes, nodes, records).expect("long enough");
        Watch {
            call,
            strict,
            header,
            last_block: block.clone(),
            last_row: row.clone(),
            block,
            row,
            set: BTreeSet::new(),
            moment: 0,
            changed: HashMap::new(),
            tasks: Vec::new(),
            current: vec![0; processes as usize],
            drawn_by: vec![0],
            tally: Tally { histories: 1, ..Tally::default() },
        }
    }

    pub fn is_busy(&self, process: u32) -> bool {
        self.row[process as usize - 1].operation != 0
    }

    pub fn words(&self) -> &[u32] {
        &self.block
    }

    /// The answer to the process's last operation, if it has one.
    pub fn last_answer(&self, process: u32) -> Option<Answer> {
        self.tasks.get(self.current[process as usize - 1])?.answer
    }

    fn structure(&self, is_so: bool, what: &str) -> Seen {
        if is_so || !self.strict {
            return Ok(());
        }
        harm(HarmKind::Structure, what.to_string())
    }

    /// Takes an event that fits the state. Says whether it was accepted.
    pub fn event(&mut self, event: Event) -> Result<bool, Harm> {
        match event {
            Event::Start { process, operation, key } => self.start(process, operation, key),
            Event::Step { process } => self.step(process),
        }
    }

    fn accepted(&mut self) {
        self.moment += 1;
        self.tally.events += 1;
    }

    fn refused(&self, process: u32, refusal: Refusal) -> Result<bool, Harm> {
        // A fault's refusal may pass, so it only counts once nothing else can move.
        if refusal == Refusal::Damaged && !self.strict {
            return Ok(false);
        }
        Err(self.refusal_as_harm(process, refusal, ""))
    }

    fn refusal_as_harm(&self, process: u32, refusal: Refusal, how_long: &str) -> Harm {
        let Process { operation, key, point, .. } = self.row[process as usize - 1];
        let number = refusal.number();
        let what = format!(
            "process {process}, operation {operation} of key {key}, is refused {number} at point {point}{how_long}"
        );
        Harm { kind: HarmKind::RefusedThree, what }
    }

    fn start(&mut self, process: u32, operation: u32, key: u32) -> Result<bool, Harm> {
        if let Err(refusal) = start(&self.block, &mut self.row, process, operation, key) {
            return self.refused(process, refusal);
        }
        self.accepted();
        self.current[process as usize - 1] = self.tasks.len();
        let started = self.moment;
        self.tasks.push(Task { operation, key, started, steps: 0, swaps: 0, answer: None });
        self.look_at_row(process)?;
        Ok(true)
    }

    fn step(&mut self, process: u32) -> Result<bool, Harm> {
        let place = process as usize - 1;
        let before = self.row[place];
        let outcome = match (self.call)(&mut self.block, &mut self.row, process) {
            Ok(outcome) => outcome,
            Err(refusal) => return self.refused(process, refusal),
        };
        self.accepted();
        self.tasks[self.current[place]].steps += 1;
        self.look_at_block(process, &before)?;
        self.look_at_row(process)?;
        let after = self.row[place];
        self.count_help(&before, &after);
        if let Outcome::Answered(answer, steps) = outcome {
            self.answered(process, &before, answer, steps)?;
        }
        Ok(true)
    }

    fn count_help(&mut self, before: &Process, after: &Process) {
        let goes_to_help = matches!(after.point, 6 | 9 | 11) && after.helped != after.own;
        let from_elsewhere = matches!(before.point, 2 | 4 | 5) || before.helped != after.helped;
        if goes_to_help && from_elsewhere {
            self.tally.helps += 1;
        }
        if after.depth > before.depth {
            self.tally.pushes += 1;
        }
        self.tally.deepest = self.tally.deepest.max(after.depth);
    }

    /// Only the record of the process itself may change.
    fn look_at_row(&mut self, process: u32) -> Seen {
        let place = process as usize - 1;
        self.last_row[place] = self.row[place];
        self.structure(self.last_row == self.row, "another process record changed")
    }

    // ---- The block ----

    fn place(&self, at: usize) -> Place {
        let header = &self.header;
        if at < HEADER_WORDS {
            return Place::Header;
        }
        if at < header.record_at(1) {
            let node = ((at - HEADER_WORDS) / header.node_words()) as u32 + 1;
            let k = header.k as usize;
            return match at - header.node_at(node) {
                word if word < k => Place::TagOrKey { node },
                word if word < 2 * k => Place::Child { node },
                _ => Place::Pending { node },
            };
        }
        if at < header.stack_at(1, 0) {
            return Place::Record { record: ((at - header.record_at(1)) / RECORD_WORDS) as u32 + 1 };
        }
        if at < header.length() {
            let depth = header.stack_limit() as usize;
            return Place::Stack { process: ((at - header.stack_at(1, 0)) / depth) as u32 + 1 };
        }
        Place::Beyond
    }

    fn look_at_block(&mut self, process: u32, before: &Process) -> Seen {
        if self.block == self.last_block {
            return Ok(());
        }
        let damaged = |_| Harm { kind: HarmKind::Structure, what: "the header is damaged".to_string() };
        let old = Header::read(&self.last_block).map_err(damaged)?;
        let new = Header::read(&self.block).map_err(damaged)?;
        let change = Change { process, point: before.point, old, new };
        let changed: Vec<usize> =
            (0..self.block.len()).filter(|&at| self.block[at] != self.last_block[at]).collect();
        self.look_at_header(&change)?;
        let swapped = self.look_at_words(&changed, &change)?;
        for _ in old.records_used..new.records_used {
            self.drawn_by.push(self.current[process as usize - 1]);
        }
        for at in changed {
            self.last_block[at] = self.block[at];
        }
        self.look_at_set(before.helped, swapped)?;
        self.look_at_walks(before.key)
    }

    /// "Used counts never fall", and only a draw at 4 or 5 raises them.
    fn look_at_header(&self, change: &Change) -> Seen {
        let Change { old, new, .. } = change;
        let fixed = |header: &Header| Header { nodes_used: 0, records_used: 0, ..*header };
        self.structure(fixed(old) == fixed(new), "a fixed header word changed")?;
        self.structure(new.nodes_used >= old.nodes_used, "nodes used fell")?;
        self.structure(new.records_used >= old.records_used, "records used fell")?;
        let draws = new.records_used == old.records_used + 1 && matches!(change.point, 4 | 5);
        self.structure(old == new || draws, "a draw outside 4 and 5, or of no single record")
    }

    /// Holds every changed word against what the point may touch: one shared word, the nodes and
    /// the record drawn, the own stack. Says whether a child was swapped.
    fn look_at_words(&self, changed: &[usize], change: &Change) -> Result<bool, Harm> {
        let (mut children, mut pendings) = (0, 0);
        for &at in changed {
            let place = self.place(at);
            self.look_at_word(&place, change)?;
            match place {
                Place::Child { node } if node <= change.old.nodes_used => children += 1,
                Place::Pending { node } if node <= change.old.nodes_used => pendings += 1,
                _ => {}
            }
        }
        self.structure(children + pendings <= 1, "more than one shared word changed")?;
        let child_point = matches!(change.point, 7 | 13);
        let pending_point = matches!(change.point, 4 | 5 | 8 | 9 | 10 | 14);
        self.structure(children == 0 || child_point, "a child swapped outside 7 and 13")?;
        self.structure(pendings == 0 || pending_point, "a pending swapped at a wrong point")?;
        Ok(children > 0 && child_point)
    }

    fn look_at_word(&self, place: &Place, change: &Change) -> Seen {
        let Change { old, new, .. } = change;
        match *place {
            Place::Header => Ok(()),
            Place::TagOrKey { node } | Place::Child { node } | Place::Pending { node }
                if node > old.nodes_used =>
            {
                self.structure(node <= new.nodes_used, "a node not in use changed")
            }
            Place::TagOrKey { .. } => self.structure(false, "a tag or key in use changed"),
            Place::Child { .. } | Place::Pending { .. } => Ok(()),
            Place::Record { record } => {
                let drawn = record > old.records_used && record <= new.records_used;
                self.structure(drawn, "a record in use, or not drawn, changed")
            }
            Place::Stack { process } => {
                self.structure(process == change.process, "another process's stack changed")
            }
            Place::Beyond => self.structure(false, "a word beyond those needed changed"),
        }
    }

    // ---- The set ----

    /// "The key set read from leaves changes only at a child swap, and then by exactly the one
    /// key of the operation whose record was helped."
    fn look_at_set(&mut self, helped: u32, swapped: bool) -> Seen {
        let now = self.read_set()?;
        self.tally.set_readings += 1;
        let changes: Vec<u32> = now.symmetric_difference(&self.set).copied().collect();
        for &key in &changes {
            self.changed.insert(key, self.moment);
        }
        if !swapped {
            if !changes.is_empty() {
                let what = format!("keys {changes:?} changed without a child swap");
                return harm(lost_or_gained(&changes, &now, None), what);
            }
            return Ok(());
        }
        self.tally.swaps += 1;
        let task = self.drawn_by[helped as usize];
        let Task { operation, key, answer, .. } = self.tasks[task];
        self.tasks[task].swaps += 1;
        if self.tasks[task].swaps > 1 {
            return harm(
                HarmKind::DoneTwice,
                format!("a second swap for operation {operation} of key {key}"),
            );
        }
        if answer.is_some() {
            let what = format!("operation {operation} of key {key} is done after its answer {answer:?}");
            return harm(HarmKind::WrongAnswer, what);
        }
        if changes != [key] || now.contains(&key) != (operation == INSERT) {
            let what = format!("operation {operation} of key {key} changed the keys {changes:?}");
            let deleted = (operation == DELETE).then_some(key);
            return harm(lost_or_gained(&changes, &now, deleted), what);
        }
        self.set = now;
        Ok(())
    }

    /// The keys of all leaves, read without the engine's own walk. Strictly ascending order of
    /// the leaves is part of the search order, which is checked at every internal node.
    fn read_set(&self) -> Result<BTreeSet<u32>, Harm> {
        let header = Header::read(&self.block).expect("it was just read");
        let mut allowed = header.nodes_used;
        let mut keys = Vec::new();
        let mut path = Vec::new();
        self.read_below(ROOT, &mut allowed, &mut path, &mut keys)?;
        self.structure(keys.windows(2).all(|pair| pair[0] < pair[1]), "keys out of order")?;
        Ok(keys.into_iter().collect())
    }

    fn read_below(
        &self,
        node: u32,
        allowed: &mut u32,
        path: &mut Vec<(u32, u32)>,
        keys: &mut Vec<u32>,
    ) -> Seen {
        if *allowed == 0 {
            return self.structure(false, "more nodes reached than are in use");
        }
        *allowed -= 1;
        let header = &self.header;
        let tag = self.block[header.node_at(node)];
        if tag < header.k {
            let at = header.node_at(node) + 1;
            let held = &self.block[at..at + tag as usize];
            keys.extend(held);
            return held.iter().try_for_each(|&key| self.look_at_order(key, path));
        }
        for i in 1..=header.k {
            let child = self.block[header.child_at(node, i)];
            self.structure(child > node, "a child not above its parent")?;
            path.push((node, i));
            self.read_below(child, allowed, path, keys)?;
            path.pop();
        }
        Ok(())
    }

    /// "Every key in the subtree of child i of internal n has route n key = i."
    fn look_at_order(&self, key: u32, path: &[(u32, u32)]) -> Seen {
        path.iter().try_for_each(|&(node, i)| {
            let at = self.header.node_at(node) + 1;
            let keys = &self.block[at..at + self.header.k as usize - 1];
            let route = keys.iter().position(|&other| key < other).unwrap_or(keys.len());
            self.structure(route as u32 + 1 == i, "search order broken")
        })
    }

    /// The listing equals the set, ascending, and range questions near this key agree.
    fn look_at_walks(&self, key: u32) -> Seen {
        if !self.strict {
            return Ok(());
        }
        let mut list = vec![GUARD_WORD; self.set.len() + 1];
        let count = listing(&self.block, &mut list);
        self.structure(count == Ok(self.set.len() as u32), "the listing's count")?;
        self.structure(list.iter().take(self.set.len()).eq(self.set.iter()), "the listing's keys")?;
        self.structure(list.last() == Some(&GUARD_WORD), "the listing wrote past its count")?;
        let above = key.saturating_add(3).min(INFINITY - 1);
        for (low, high) in [(key, key), (key.saturating_sub(2), above), (above, INFINITY - 1), (0, key)] {
            let clear = self.set.range(low..=high).next().is_none();
            self.structure(clear_of_range(&self.block, low, high) == Ok(clear), "a range question")?;
        }
        Ok(())
    }

    // ---- Answers ----

    fn answered(&mut self, process: u32, before: &Process, answer: Answer, steps: u32) -> Seen {
        let place = process as usize - 1;
        let task = &mut self.tasks[self.current[place]];
        task.answer = Some(answer);
        let (operation, key, swaps) = (task.operation, task.key, task.swaps);
        self.tally.answers[operation as usize - 1][answer as usize] += 1;
        let what = || format!("operation {operation} of key {key} of process {process} answers {answer:?}");
        if steps != task.steps {
            return harm(HarmKind::WrongAnswer, format!("{} with {steps} steps", what()));
        }
        let wanted_swaps = u32::from(answer == Answer::Yes && operation != FIND);
        if swaps < wanted_swaps && operation == INSERT && !self.set.contains(&key) {
            return harm(HarmKind::NumberLost, format!("{}, and no swap put it in", what()));
        }
        if swaps != wanted_swaps {
            return harm(HarmKind::WrongAnswer, format!("{} after {swaps} swaps of it", what()));
        }
        let agrees = match (operation, answer) {
            (FIND, Answer::Yes) | (INSERT, Answer::No) => self.was(key, true, self.current[place]),
            (FIND, Answer::No) | (DELETE, Answer::No) => self.was(key, false, self.current[place]),
            (FIND, _) => false,
            _ => true,
        };
        if !agrees {
            return harm(HarmKind::WrongAnswer, format!("{}; the set never agreed", what()));
        }
        if answer == Answer::Full {
            self.look_at_full(before)?;
        }
        self.structure(self.row[place] == IDLE, "an answer leaves the process busy")
    }

    /// Whether the key was present (or absent) at some moment since the task's start.
    fn was(&self, key: u32, present: bool, task: usize) -> bool {
        if self.set.contains(&key) == present {
            return true;
        }
        // It was so up to the moment before its last change.
        let changed = self.changed.get(&key).copied().unwrap_or(0);
        changed > self.tasks[task].started
    }

    /// "Full is given exactly when the swap would succeed and either no record is left or nodes
    /// used plus those needed pass the limit."
    fn look_at_full(&self, before: &Process) -> Seen {
        let header = Header::read(&self.block).expect("it was read before");
        let tables = Tables { words: &self.block, header };
        let (node, seen, needed) = match before.point {
            5 => (before.gp, before.seen_gp, 0),
            _ if before.operation == INSERT && tables.tag(before.l) == header.k - 1 => {
                (before.p, before.seen_p, header.k + 1)
            }
            _ => (before.p, before.seen_p, 1),
        };
        self.structure(tables.pending(node) == Ok(seen), "full though the swap would fail")?;
        let no_room = header.nodes_used + needed > header.node_limit;
        let no_record = header.records_used == header.record_limit;
        self.structure(no_room || no_record, "full though there is room")
    }

    /// Runs every process that is still busy on by itself, in turn, until it answers.
    pub fn drain(&mut self, solo_steps: u32) -> Seen {
        loop {
            let mut answered = false;
            let mut refused = None;
            for process in 1..=self.header.processes {
                match self.run_solo(process, solo_steps)? {
                    Solo::WasIdle => {}
                    Solo::Answered => answered = true,
                    Solo::Refused => refused = Some(process),
                }
            }
            match refused {
                Some(process) if !answered => {
                    let for_ever = ", for ever, as nothing else can move";
                    return Err(self.refusal_as_harm(process, Refusal::Damaged, for_ever));
                }
                Some(_) => {}
                None => return Ok(()),
            }
        }
    }

    fn run_solo(&mut self, process: u32, solo_steps: u32) -> Result<Solo, Harm> {
        if !self.is_busy(process) {
            return Ok(Solo::WasIdle);
        }
        for _ in 0..solo_steps {
            if !self.event(Event::Step { process })? {
                return Ok(Solo::Refused);
            }
            if !self.is_busy(process) {
                return Ok(Solo::Answered);
            }
        }
        let what = format!("process {process} alone goes on after {solo_steps} steps");
        Err(Harm { kind: HarmKind::NeverAnswers, what })
    }
}

enum Solo {
    WasIdle,
    Answered,
    Refused,
}
