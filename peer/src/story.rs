//! A history that came to harm, told for a reader: what each step changed in the block, where a
//! process was left standing, every answer, and the harm. Steps that change nothing are passed over.

use crate::engine::*;
use crate::watch::{Event, Harm, Watch};

/// The most keys that a told history has in its set.
const LONGEST_LIST: usize = 1024;

pub struct Story {
    watch: Watch,
    header: Header,
    lines: Vec<String>,
    /// The process of the last event.
    stepping: u32,
}

impl Story {
    pub fn new(watch: Watch) -> Story {
        let header = Header::read(watch.words()).expect("a fresh tree");
        Story { watch, header, lines: Vec::new(), stepping: 0 }
    }

    /// The whole history, the busy processes run on alone at its end where the harm came only then.
    pub fn tell(mut self, events: &[Event], in_drain: bool, harm: &Harm) -> Vec<String> {
        let told = events.iter().try_for_each(|&event| self.event(event).map(drop));
        if told.is_ok() && in_drain {
            self.run_on();
        }
        self.lines.push(format!("{}: {}", harm.kind.name(), harm.what));
        self.lines
    }

    /// Each busy process in turn, until one comes to harm or none can go on.
    fn run_on(&mut self) {
        let mut moved = true;
        while moved {
            moved = false;
            for process in 1..=self.header.processes {
                match self.run_alone(process) {
                    Ok(answered) => moved |= answered,
                    Err(_) => return,
                }
            }
        }
    }

    /// Whether the process was busy and has answered.
    fn run_alone(&mut self, process: u32) -> Result<bool, Harm> {
        let busy = self.watch.is_busy(process);
        while self.watch.is_busy(process) {
            if !self.event(Event::Step { process })? {
                return Ok(false);
            }
        }
        Ok(busy)
    }

    fn event(&mut self, event: Event) -> Result<bool, Harm> {
        let process = event.process();
        if process != self.stepping {
            self.leave();
        }
        self.stepping = process;
        let before = self.watch.row[process as usize - 1];
        let old = self.watch.words().to_vec();
        let result = self.watch.event(event);
        match event {
            Event::Start { operation, key, .. } => {
                self.line(format!("process {process} starts {} {key}", name(operation)))
            }
            Event::Step { .. } => self.stepped(process, &before, &old, matches!(result, Ok(false))),
        }
        result
    }

    fn line(&mut self, text: String) {
        if self.lines.last() != Some(&text) {
            self.lines.push(text);
        }
    }

    /// Where the last process stands, when another goes on.
    fn leave(&mut self) {
        let process = self.stepping;
        if process == 0 || !self.watch.is_busy(process) {
            return;
        }
        let now = self.watch.row[process as usize - 1];
        if now.steps == 0 {
            return;
        }
        self.line(format!("process {process} is left {}", standing(&now)));
    }

    fn stepped(&mut self, process: u32, before: &Process, old: &[u32], refused: bool) {
        let point = before.point;
        if refused {
            self.line(format!("process {process} at {point}: refused 3"));
            return;
        }
        let changes = self.changes(old);
        if !changes.is_empty() {
            self.line(format!("process {process} at {point}: {}", changes.join("; ")));
        }
        if self.watch.is_busy(process) {
            return;
        }
        if let Some(answer) = self.watch.last_answer(process) {
            let Process { operation, key, .. } = *before;
            self.line(
                format!("process {process} answers {answer:?} to {} {key}", name(operation)).to_lowercase(),
            );
        }
    }

    // ---- What a step changed ----

    fn changes(&self, old: &[u32]) -> Vec<String> {
        let now = self.watch.words();
        if now == old {
            return Vec::new();
        }
        let mut said = self.drawn(old);
        let used = old[NODES_USED_AT];
        for node in 1..=used {
            said.extend(self.node_changes(node, old));
        }
        let (before, after) = (keys_of(old), keys_of(now));
        if before != after {
            said.push(format!("the set is {}", set_text(&after)));
        }
        said
    }

    fn drawn(&self, old: &[u32]) -> Vec<String> {
        let now = self.watch.words();
        let (first, last) = (old[NODES_USED_AT] + 1, now[NODES_USED_AT]);
        let mut said = Vec::new();
        if first == last {
            said.push(format!("draws node {first}"));
        }
        if first < last {
            said.push(format!("draws nodes {first} to {last}"));
        }
        if old[RECORDS_USED_AT] != now[RECORDS_USED_AT] {
            said.push(format!("draws record {}", now[RECORDS_USED_AT]));
        }
        said
    }

    fn node_changes(&self, node: u32, old: &[u32]) -> Vec<String> {
        let header = &self.header;
        let now = self.watch.words();
        let at = header.node_at(node);
        let mut said = Vec::new();
        let keys = at..at + header.k as usize;
        if old[keys.clone()] != now[keys] {
            said.push(format!("writes over node {node}, which is in use"));
        }
        for i in 1..=header.k {
            let at = header.child_at(node, i);
            if old[at] != now[at] {
                said.push(format!("child {i} of node {node}: {} to {}", old[at], now[at]));
            }
        }
        let at = header.pending_at(node);
        if old[at] != now[at] {
            let (from, to) = (pending_text(old[at]), pending_text(now[at]));
            said.push(format!("pending of node {node}: {from} to {to}"));
        }
        said
    }
}

/// The point to come, and what a process brings to it.
fn standing(now: &Process) -> String {
    let Process { point, p, gp, seen_p, seen_gp, helped, .. } = *now;
    match point {
        1..=3 => format!("before {point} at node {p}"),
        4 => format!("before 4, having read node {p} as {}", pending_text(seen_p.word())),
        5 => format!("before 5, having read node {gp} as {}", pending_text(seen_gp.word())),
        _ => format!("before {point} for record {helped}"),
    }
}

fn name(operation: u32) -> &'static str {
    ["find", "insert", "delete"][operation as usize - 1]
}

fn pending_text(word: u32) -> String {
    let kind = ["clean", "replace", "prune", "mark"][word as usize % 4];
    format!("{kind} {}", word / 4)
}

/// None where the walk meets damage.
fn keys_of(block: &[u32]) -> Option<Vec<u32>> {
    let mut list = vec![0; LONGEST_LIST];
    let count = listing(block, &mut list).ok()?;
    list.truncate(count as usize);
    Some(list)
}

fn set_text(keys: &Option<Vec<u32>>) -> String {
    match keys {
        Some(keys) => format!("{keys:?}"),
        None => "no longer to be listed (refused 3)".to_string(),
    }
}
