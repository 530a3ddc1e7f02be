//! Deliberate faults, for showing that the history check sees them. Each one overrides a single
//! decision of the step; the sound step is built from the defaults, so it pays nothing for them.

use crate::engine::{Pending, Tables};
use crate::step::{step_with, StepCall};

/// The decisions of a step in which a fault can be put.
pub trait Slip {
    /// Point 2: does a delete help what it read on gp?
    const HELPS_GP: bool = true;
    /// Point 9: does a failed mark go on to 11 as if it had succeeded?
    const GOES_ON_UNMARKED: bool = false;
    /// Point 10: is the flag on gp taken away?
    const UNFLAGS_GP: bool = true;

    /// Point 8: "clean with the same record number".
    fn cleaned(record: u32) -> Pending {
        Pending::Clean(record)
    }

    /// Point 9: "from the expected word".
    fn is_expected(seen: Pending, expected: Pending) -> bool {
        seen == expected
    }

    /// Points 4 and 5: "in the next free numbers".
    fn first_free(tables: &Tables, _needed: u32, _p: u32) -> u32 {
        tables.header.nodes_used + 1
    }
}

/// No fault.
pub struct Sound;
impl Slip for Sound {}

struct MarkAnyClean;
impl Slip for MarkAnyClean {
    fn is_expected(seen: Pending, _expected: Pending) -> bool {
        seen.is_clean()
    }
}

struct SkipTen;
impl Slip for SkipTen {
    const GOES_ON_UNMARKED: bool = true;
}

struct KeepFlag;
impl Slip for KeepFlag {
    const UNFLAGS_GP: bool = false;
}

struct CleanZero;
impl Slip for CleanZero {
    fn cleaned(_record: u32) -> Pending {
        Pending::Clean(0)
    }
}

struct SkipGp;
impl Slip for SkipGp {
    const HELPS_GP: bool = false;
}

struct ReuseNumber;
impl Slip for ReuseNumber {
    fn first_free(tables: &Tables, needed: u32, p: u32) -> u32 {
        let reused = if needed == 1 { leaf_out_of_the_tree(tables, p) } else { None };
        reused.unwrap_or(tables.header.nodes_used + 1)
    }
}

/// A drawn leaf above p that no node has for a child, though a slow process may still hold it.
fn leaf_out_of_the_tree(tables: &Tables, p: u32) -> Option<u32> {
    let header = tables.header;
    let mut wanted = vec![false; header.nodes_used as usize + 1];
    for node in (1..=header.nodes_used).filter(|&node| tables.tag(node) == header.k) {
        for i in 1..=header.k {
            wanted[tables.child_word(node, i) as usize] = true;
        }
    }
    // A new child whose swap is still to come isn't out of the tree but on its way into it.
    for number in 1..=header.records_used {
        let record = tables.record(number);
        let pending = Pending::from_word(tables.words[header.pending_at(record.p)]);
        if pending == Pending::Replace(number) {
            wanted[record.third as usize] = true;
        }
    }
    let fresh_nodes = 2 * header.k + 1;
    (p.max(fresh_nodes) + 1..=header.nodes_used)
        .find(|&node| !wanted[node as usize] && tables.tag(node) < header.k)
}

#[derive(Clone, Copy, PartialEq, Eq, Debug)]
pub enum Fault {
    MarkAnyClean,
    SkipTen,
    KeepFlag,
    CleanZero,
    ReuseNumber,
    SkipGp,
}

pub const FAULTS: [Fault; 6] = [
    Fault::MarkAnyClean,
    Fault::SkipTen,
    Fault::KeepFlag,
    Fault::CleanZero,
    Fault::ReuseNumber,
    Fault::SkipGp,
];

impl Fault {
    pub fn named(name: &str) -> Option<Fault> {
        FAULTS.into_iter().find(|fault| fault.name() == name)
    }

    pub fn name(self) -> &'static str {
        match self {
            Fault::MarkAnyClean => "mark-any-clean",
            Fault::SkipTen => "skip-ten",
            Fault::KeepFlag => "keep-flag",
            Fault::CleanZero => "clean-zero",
            Fault::ReuseNumber => "reuse-number",
            Fault::SkipGp => "skip-gp",
        }
    }

    pub fn meaning(self) -> &'static str {
        match self {
            Fault::MarkAnyClean => "9 takes any clean word for the expected one",
            Fault::SkipTen => "9 goes to 11 after a failed mark",
            Fault::KeepFlag => "10 pops, but leaves the flag on gp",
            Fault::CleanZero => "8 swaps to clean with record 0",
            Fault::ReuseNumber => "a draw of one leaf takes that of a leaf that no node has for a child",
            Fault::SkipGp => "2 skips the help of gp",
        }
    }

    /// The step with this fault in it.
    pub fn step(self) -> StepCall {
        match self {
            Fault::MarkAnyClean => step_with::<MarkAnyClean>,
            Fault::SkipTen => step_with::<SkipTen>,
            Fault::KeepFlag => step_with::<KeepFlag>,
            Fault::CleanZero => step_with::<CleanZero>,
            Fault::ReuseNumber => step_with::<ReuseNumber>,
            Fault::SkipGp => step_with::<SkipGp>,
        }
    }
}
