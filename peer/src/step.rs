//! The fourteen points. A step first decides everything on a by-value copy of its process
//! record and only notes the words it would write; they go into the block once no check is
//! left, so a refused step has written nothing.

use crate::engine::*;
use crate::fault::{Slip, Sound};
use std::marker::PhantomData;

pub type StepCall = fn(&mut [u32], &mut [Process], u32) -> Result<Outcome, Refusal>;

/// One step of one process.
pub fn step(block: &mut [u32], row: &mut [Process], process: u32) -> Result<Outcome, Refusal> {
    step_with::<Sound>(block, row, process)
}

/// The same with the decisions of `S`, which is how a deliberate fault gets in.
pub fn step_with<S: Slip>(block: &mut [u32], row: &mut [Process], process: u32) -> Result<Outcome, Refusal> {
    let tables = Tables::enter(block, Some(row.len()))?;
    let place = tables.place_of(process)?;
    if row[place].operation == 0 {
        return Err(Refusal::Idle);
    }
    let mut turn = Turn::<S>::new(tables, process, row[place]);
    turn.take()?;
    let Turn { now, writes, answer, .. } = turn;
    for (at, word) in writes {
        block[at] = word;
    }
    let Some(answer) = answer else {
        row[place] = now;
        return Ok(Outcome::GoesOn);
    };
    // "An answer leaves the process idle and reports the steps."
    row[place] = IDLE;
    Ok(Outcome::Answered(answer, now.steps))
}

/// One step under way.
struct Turn<'a, S: Slip> {
    tables: Tables<'a>,
    process: u32,
    now: Process,
    /// Words to be written, each with its place in the block.
    writes: Vec<(usize, u32)>,
    answer: Option<Answer>,
    slip: PhantomData<S>,
}

impl<'a, S: Slip> Turn<'a, S> {
    fn new(tables: Tables<'a>, process: u32, now: Process) -> Self {
        Turn { tables, process, now, writes: Vec::new(), answer: None, slip: PhantomData }
    }

    fn take(&mut self) -> Checked {
        self.check_process_record()?;
        // R4: counted before an answer is made, so the answer reports it.
        self.now.steps = self.now.steps.saturating_add(1);
        match self.now.point {
            1 => self.read_pending_of_p(),
            2 => self.read_child_for_key(),
            3 => self.read_child_for_mask(),
            4 => self.flag_p(),
            5 => self.flag_gp(),
            _ => self.take_helping(),
        }
    }

    /// "From here l, p and gp are those of the record being helped."
    fn take_helping(&mut self) -> Checked {
        let record = self.check_record_helped()?;
        match self.now.point {
            6 => self.look_for_l(&record),
            7 => self.swap_l(&record),
            8 => self.clean_p(&record),
            9 => self.mark_p(&record),
            10 => self.unflag_gp(&record),
            11 => self.look_for_other(&record),
            12 => self.look_for_p(&record),
            13 => self.swap_p(&record),
            14 => self.clean_gp(&record),
            _ => Err(Refusal::Damaged),
        }
    }

    // ---- What a step checks before anything else ----

    /// R20: "a step checks the whole of its process record".
    fn check_process_record(&self) -> Checked {
        let (tables, header, now) = (&self.tables, &self.tables.header, &self.now);
        sound(point_fits_operation(now.operation, now.point))?;
        sound(now.key < INFINITY)?;
        tables.internal(now.p)?;
        zero_or(now.gp, |gp| tables.internal(gp))?;
        zero_or(now.l, |l| tables.leaf(l))?;
        zero_or(now.other, |other| tables.node(other).map(drop))?;
        sound(tables.pending_is_good(now.seen_p))?;
        sound(tables.pending_is_good(now.seen_gp))?;
        sound(now.index <= header.k)?;
        sound(now.mask < 1 << header.k)?;
        sound(now.helped <= header.records_used)?;
        sound(now.own <= header.records_used)?;
        sound(now.depth <= header.stack_limit())?;
        self.check_what_the_row_uses()
    }

    /// "Zero is damage in p and in what the row uses"; p is checked as an internal node.
    fn check_what_the_row_uses(&self) -> Checked {
        let now = &self.now;
        let point = now.point;
        sound(now.l != 0 || !(3..=5).contains(&point))?;
        sound(now.gp != 0 || point != 5)?;
        sound(now.helped != 0 || point < 6)?;
        sound(now.index != 0 || !matches!(point, 3 | 6 | 7 | 11..=13))?;
        sound(now.other != 0 || point != 13)?;
        sound(now.depth != 0 || point != 10)
    }

    /// R21: "and, from 6 on, of the record helped".
    fn check_record_helped(&self) -> Result<Record, Refusal> {
        let tables = &self.tables;
        let record = tables.record(self.now.helped);
        sound(record.kind == if self.now.point < 9 { REPLACE } else { PRUNE })?;
        sound(matches!(record.operation, INSERT | DELETE))?;
        sound(record.key < INFINITY)?;
        sound((1..=tables.header.processes).contains(&record.process))?;
        tables.internal(record.p)?;
        tables.leaf(record.l)?;
        if record.kind == REPLACE {
            tables.node(record.third)?;
            sound(record.third > record.p)?;
        } else {
            tables.internal(record.third)?;
        }
        let expected = Pending::from_word(record.expected);
        sound(expected.is_clean() && tables.pending_is_good(expected))?;
        Ok(record)
    }

    // ---- Points 1 to 3: the search and the count of non-empty children ----

    fn read_pending_of_p(&mut self) -> Checked {
        self.now.seen_p = self.tables.pending(self.now.p)?;
        self.now.point = 2;
        Ok(())
    }

    fn read_child_for_key(&mut self) -> Checked {
        let now = &mut self.now;
        let i = self.tables.route(now.p, now.key);
        match self.tables.child(now.p, i)? {
            Node::Internal(child) => {
                now.gp = now.p;
                now.p = child;
                now.seen_gp = now.seen_p;
                now.point = 1;
                Ok(())
            }
            Node::Leaf(leaf) => self.reach_leaf(leaf),
        }
    }

    fn reach_leaf(&mut self, leaf: u32) -> Checked {
        // "A leaf straight below node 1 on a search" is damage.
        sound(self.now.p != ROOT)?;
        let holds = self.tables.leaf_keys(leaf)?.contains(&self.now.key);
        self.now.l = leaf;
        match (self.now.operation, holds) {
            (FIND, true) => self.answer(Answer::Yes),
            (FIND, false) | (INSERT, true) | (DELETE, false) => self.answer(Answer::No),
            (INSERT, false) => self.try_insert(),
            _ => self.try_delete(),
        }
    }

    fn try_insert(&mut self) -> Checked {
        if !self.now.seen_p.is_clean() {
            return self.help(self.now.seen_p);
        }
        self.now.point = 4;
        Ok(())
    }

    /// "Helps gp's pending, then p's, whichever is first not clean."
    fn try_delete(&mut self) -> Checked {
        if S::HELPS_GP && !self.now.seen_gp.is_clean() {
            return self.help(self.now.seen_gp);
        }
        if !self.now.seen_p.is_clean() {
            return self.help(self.now.seen_p);
        }
        self.now.point = 3;
        self.now.index = 1;
        self.now.mask = 0;
        Ok(())
    }

    fn read_child_for_mask(&mut self) -> Checked {
        let now = &mut self.now;
        let child = self.tables.child(now.p, now.index)?;
        if self.tables.non_empty(child) {
            now.mask |= 1 << (now.index - 1);
        }
        if now.index < self.tables.header.k {
            now.index += 1;
        } else if now.mask.count_ones() == 2 && self.tables.tag(now.l) == 1 {
            now.point = 5;
        } else {
            now.point = 4;
        }
        Ok(())
    }

    // ---- Points 4 and 5: the flags ----

    fn flag_p(&mut self) -> Checked {
        let Process { operation, key, p, l, seen_p, .. } = self.now;
        let seen = self.tables.pending(p)?;
        let keys = self.tables.leaf_keys(l)?;
        // R23: "an l that holds an insert's key or lacks a delete's", compare or no compare.
        sound(keys.contains(&key) == (operation == DELETE))?;
        if seen != seen_p {
            return self.help(seen);
        }
        let full_leaf = keys.len() as u32 == self.tables.header.k - 1;
        let needed = if operation == INSERT && full_leaf { self.tables.header.k + 1 } else { 1 };
        let first = S::first_free(&self.tables, needed, p);
        if first + needed - 1 > self.tables.header.node_limit || self.no_record_left() {
            return self.answer(Answer::Full);
        }
        if needed == 1 {
            self.draw_leaf(first, &keys_after(keys, operation, key));
        } else {
            self.sprout(first, &keys_after(keys, operation, key));
        }
        let used = self.tables.header.nodes_used.max(first + needed - 1);
        self.write(NODES_USED_AT, used);
        let record = self.draw_record(REPLACE, first, 0);
        self.write(self.tables.header.pending_at(p), Pending::Replace(record).word());
        self.help(Pending::Replace(record))
    }

    fn flag_gp(&mut self) -> Checked {
        let Process { gp, seen_p, seen_gp, .. } = self.now;
        let seen = self.tables.pending(gp)?;
        if seen != seen_gp {
            return self.help(seen);
        }
        if self.no_record_left() {
            return self.answer(Answer::Full);
        }
        // The value of p's pending read on the way down is the expected one.
        let record = self.draw_record(PRUNE, gp, seen_p.word());
        self.write(self.tables.header.pending_at(gp), Pending::Prune(record).word());
        self.help(Pending::Prune(record))
    }

    fn no_record_left(&self) -> bool {
        self.tables.header.records_used == self.tables.header.record_limit
    }

    /// Writes the next free record and makes it the own one.
    fn draw_record(&mut self, kind: u32, third: u32, expected: u32) -> u32 {
        let Process { operation, key, p, l, .. } = self.now;
        let number = self.tables.header.records_used + 1;
        let record = Record { kind, l, p, third, expected, process: self.process, operation, key };
        self.write_all(self.tables.header.record_at(number), &record.words());
        self.write(RECORDS_USED_AT, number);
        self.now.own = number;
        number
    }

    /// R16: a new node is written whole, its unused words 0.
    fn draw_leaf(&mut self, number: u32, keys: &[u32]) {
        let mut words = vec![0; self.tables.header.node_words()];
        words[0] = keys.len() as u32;
        words[1..=keys.len()].copy_from_slice(keys);
        self.write_all(self.tables.header.node_at(number), &words);
    }

    /// "An internal node with the k−1 largest keys, then k new leaves of one key each,
    /// ascending, its pending clean with that record."
    fn sprout(&mut self, first: u32, keys: &[u32]) {
        let Header { k, records_used, .. } = self.tables.header;
        let mut words = vec![k];
        words.extend(&keys[1..]);
        words.extend(first + 1..=first + k);
        words.push(Pending::Clean(records_used + 1).word());
        self.write_all(self.tables.header.node_at(first), &words);
        for (leaf, key) in (first + 1..).zip(keys) {
            self.draw_leaf(leaf, &[*key]);
        }
    }

    // ---- Points 6 to 8: a replace ----

    fn look_for_l(&mut self, record: &Record) -> Checked {
        self.look_for(record.p, record.l, 7, 8)
    }

    fn swap_l(&mut self, record: &Record) -> Checked {
        self.swap_child(record.p, record.l, record.third)?;
        self.now.point = 8;
        Ok(())
    }

    fn clean_p(&mut self, record: &Record) -> Checked {
        let helped = self.now.helped;
        self.swap_pending(record.p, Pending::Replace(helped), S::cleaned(helped))?;
        self.end_help(true)
    }

    // ---- Points 9 to 14: a prune ----

    fn mark_p(&mut self, record: &Record) -> Checked {
        let helped = self.now.helped;
        let seen = self.tables.pending(record.p)?;
        if S::is_expected(seen, Pending::from_word(record.expected)) {
            self.write(self.tables.header.pending_at(record.p), Pending::Mark(helped).word());
            return self.help(Pending::Mark(helped));
        }
        if seen == Pending::Mark(helped) || S::GOES_ON_UNMARKED {
            return self.help(Pending::Mark(helped));
        }
        sound(self.now.depth < self.tables.header.stack_limit())?;
        self.write(self.tables.header.stack_at(self.process, self.now.depth), helped);
        self.now.depth += 1;
        if seen.is_clean() {
            // R14: help ends at once, and the top is the record just pushed.
            self.now.point = 10;
            return Ok(());
        }
        self.help(seen)
    }

    fn unflag_gp(&mut self, record: &Record) -> Checked {
        let helped = self.now.helped;
        let from = Pending::Prune(helped);
        let to = if S::UNFLAGS_GP { Pending::Clean(helped) } else { from };
        self.swap_pending(record.third, from, to)?;
        self.pop()?;
        if self.now.depth == 0 {
            self.restart();
            return Ok(());
        }
        self.now.helped = self.stack_top()?;
        Ok(())
    }

    fn look_for_other(&mut self, record: &Record) -> Checked {
        let child = self.tables.child(record.p, self.now.index)?;
        if self.tables.non_empty(child) && child.number() != record.l {
            // "A second node noted at 11, or none at its end" is damage.
            sound(self.now.other == 0)?;
            self.now.other = child.number();
        }
        if self.now.index < self.tables.header.k {
            self.now.index += 1;
            return Ok(());
        }
        sound(self.now.other != 0)?;
        self.now.point = 12;
        self.now.index = 1;
        Ok(())
    }

    fn look_for_p(&mut self, record: &Record) -> Checked {
        self.look_for(record.third, record.p, 13, 14)
    }

    fn swap_p(&mut self, record: &Record) -> Checked {
        // R22: what would be hung below gp is above it, whether or not the swap succeeds.
        sound(self.now.other > record.third)?;
        self.swap_child(record.third, record.p, self.now.other)?;
        self.now.point = 14;
        Ok(())
    }

    fn clean_gp(&mut self, record: &Record) -> Checked {
        let helped = self.now.helped;
        self.swap_pending(record.third, Pending::Prune(helped), Pending::Clean(helped))?;
        self.end_help(true)
    }

    // ---- What several points do ----

    /// Points 6 and 12: the index is kept where the child is found.
    fn look_for(&mut self, parent: u32, wanted: u32, found: u32, none: u32) -> Checked {
        let child = self.tables.child(parent, self.now.index)?;
        if child.number() == wanted {
            self.now.point = found;
        } else if self.now.index < self.tables.header.k {
            self.now.index += 1;
        } else {
            self.now.point = none;
        }
        Ok(())
    }

    /// Points 7 and 13.
    fn swap_child(&mut self, parent: u32, from: u32, to: u32) -> Checked {
        let child = self.tables.child(parent, self.now.index)?;
        if child.number() == from {
            self.write(self.tables.header.child_at(parent, self.now.index), to);
        }
        Ok(())
    }

    /// Points 8, 10 and 14: swaps only if the word is this flag.
    fn swap_pending(&mut self, node: u32, from: Pending, to: Pending) -> Checked {
        if self.tables.pending(node)? == from {
            self.write(self.tables.header.pending_at(node), to.word());
        }
        Ok(())
    }

    /// "Helping a replace goes to 6, a prune to 9, a mark to 11 with its record; a clean value
    /// ends help at once."
    fn help(&mut self, seen: Pending) -> Checked {
        let now = &mut self.now;
        match seen {
            Pending::Clean(_) => return self.end_help(false),
            Pending::Replace(record) => {
                now.helped = record;
                now.point = 6;
                now.index = 1;
            }
            Pending::Prune(record) => {
                now.helped = record;
                now.point = 9;
            }
            Pending::Mark(record) => {
                now.helped = record;
                now.point = 11;
                now.index = 1;
                now.other = 0;
            }
        }
        Ok(())
    }

    /// R8. Only at 8 or 14 has the helped record been seen through to its end.
    fn end_help(&mut self, at_8_or_14: bool) -> Checked {
        if self.now.depth > 0 {
            self.now.helped = self.stack_top()?;
            self.now.point = 10;
            return Ok(());
        }
        if at_8_or_14 && self.now.own != 0 {
            return self.answer(Answer::Yes);
        }
        self.restart();
        Ok(())
    }

    /// "A restart is a start that keeps the steps."
    fn restart(&mut self) {
        let Process { operation, key, steps, .. } = self.now;
        self.now = Process { steps, ..Process::started(operation, key) };
    }

    fn answer(&mut self, answer: Answer) -> Checked {
        self.answer = Some(answer);
        Ok(())
    }

    /// R24: a stack top, popped or helped, is a record in use of kind prune.
    fn stack_top(&self) -> Result<u32, Refusal> {
        let top = self.tables.words[self.tables.header.stack_at(self.process, self.now.depth - 1)];
        sound(self.tables.record_in_use(top, PRUNE))?;
        Ok(top)
    }

    /// "A pop sets its stack word to 0."
    fn pop(&mut self) -> Checked {
        self.stack_top()?;
        self.now.depth -= 1;
        self.write(self.tables.header.stack_at(self.process, self.now.depth), 0);
        Ok(())
    }

    fn write(&mut self, at: usize, word: u32) {
        self.writes.push((at, word));
    }

    fn write_all(&mut self, at: usize, words: &[u32]) {
        self.writes.extend((at..).zip(words.iter().copied()));
    }
}

/// "Point (find 1 or 2, insert not 3 or 5) in range", and the operation with it.
fn point_fits_operation(operation: u32, point: u32) -> bool {
    match operation {
        FIND => matches!(point, 1 | 2),
        INSERT => matches!(point, 1 | 2 | 4 | 6..=14),
        DELETE => (1..=14).contains(&point),
        _ => false,
    }
}

fn zero_or(number: u32, check: impl Fn(u32) -> Checked) -> Checked {
    if number == 0 {
        Ok(())
    } else {
        check(number)
    }
}

/// The keys of the leaf with the key put "before the first greater key", or without it.
fn keys_after(keys: &[u32], operation: u32, key: u32) -> Vec<u32> {
    let mut after = keys.to_vec();
    if operation == INSERT {
        let place = keys.iter().position(|&other| other > key).unwrap_or(keys.len());
        after.insert(place, key);
    } else {
        after.retain(|&other| other != key);
    }
    after
}
