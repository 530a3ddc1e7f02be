//! One test for each reason to refuse 3 that a history from a fresh tree never meets.

use crate::engine::*;
use crate::step::step;

/// k=2, two processes, from run (d): node 7 internal over leaves 8 (key 3) and 9 (key 5), records 1
/// and 2; process 2 holds a delete of 3 that has flagged the dummy (record 3) and stands at 9.
struct Case {
    block: Vec<u32>,
    row: Vec<Process>,
    header: Header,
}

const CHAIN: u32 = 7;
const LEAF_3: u32 = 8;
const LEAF_5: u32 = 9;
const INNER: Process = Process {
    operation: DELETE,
    key: 3,
    point: 1,
    gp: DUMMY,
    p: CHAIN,
    l: LEAF_3,
    seen_p: Pending::Clean(2),
    seen_gp: Pending::Clean(2),
    ..IDLE
};

impl Case {
    fn new() -> Case {
        let mut block = vec![0; 400];
        let mut row = vec![IDLE; 2];
        make(&mut block, &mut row, 2, 2, 16, 8).unwrap();
        for key in [3, 5] {
            start(&block, &mut row, 1, INSERT, key).unwrap();
            while step(&mut block, &mut row, 1).unwrap() == Outcome::GoesOn {}
        }
        start(&block, &mut row, 2, DELETE, 3).unwrap();
        while row[1].point != 9 {
            step(&mut block, &mut row, 2).unwrap();
        }
        let header = Header::read(&block).unwrap();
        assert_eq!((row[1].own, header.records_used, header.stack_limit()), (3, 3, 5));
        Case { block, row, header }
    }

    fn set_child(&mut self, node: u32, i: u32, word: u32) {
        let at = self.header.child_at(node, i);
        self.block[at] = word;
    }

    fn set_pending(&mut self, node: u32, pending: Pending) {
        let at = self.header.pending_at(node);
        self.block[at] = pending.word();
    }

    fn set_record(&mut self, record: u32, word: usize, value: u32) {
        let at = self.header.record_at(record) + word;
        self.block[at] = value;
    }

    /// Steps process 1 from this record; a refusal must have changed nothing.
    fn step_from(&mut self, process: Process) -> Result<Process, Refusal> {
        self.row[0] = process;
        let (block, row) = (self.block.clone(), self.row.clone());
        let result = step(&mut self.block, &mut self.row, 1);
        assert!(result.is_ok() || (self.block == block && self.row == row));
        result.map(|_| self.row[0])
    }

    fn is_damaged(&mut self, process: Process) {
        assert_eq!(self.step_from(process), Err(Refusal::Damaged), "{process:?}");
    }
}

fn is_damaged(process: Process) {
    Case::new().is_damaged(process);
}

fn is_taken(process: Process) -> Process {
    Case::new().step_from(process).expect("it is accepted")
}

#[test]
fn every_field_of_the_process_record_is_checked() {
    is_taken(INNER);
    is_damaged(Process { operation: 4, ..INNER });
    is_damaged(Process { key: INFINITY, ..INNER });
    for (operation, point) in [(DELETE, 0), (DELETE, 15), (FIND, 3), (INSERT, 3), (INSERT, 5)] {
        is_damaged(Process { operation, point, key: 4, index: 1, ..INNER });
    }
    for p in [0, 3, 10] {
        is_damaged(Process { p, ..INNER });
    }
    for gp in [3, 10] {
        is_damaged(Process { gp, ..INNER });
    }
    for l in [CHAIN, 10] {
        is_damaged(Process { l, ..INNER });
    }
    is_damaged(Process { index: 3, ..INNER });
    is_damaged(Process { mask: 4, ..INNER });
    is_damaged(Process { helped: 4, ..INNER });
    is_damaged(Process { own: 4, ..INNER });
    is_damaged(Process { other: 10, ..INNER });
    is_damaged(Process { depth: 6, ..INNER });
    is_taken(Process { gp: 0, l: 0, other: 9, depth: 5, helped: 3, own: 3, steps: INFINITY, ..INNER });
}

#[test]
fn steps_stay_at_their_cap() {
    assert_eq!(is_taken(Process { steps: INFINITY - 1, ..INNER }).steps, INFINITY);
    assert_eq!(is_taken(Process { steps: INFINITY, ..INNER }).steps, INFINITY);
}

#[test]
fn a_pending_goes_with_a_record_of_its_kind() {
    let bad = [
        Pending::Clean(4),
        Pending::Clean(INFINITY),
        Pending::Replace(0),
        Pending::Replace(3),
        Pending::Prune(2),
        Pending::Mark(1),
        Pending::Mark(4),
    ];
    for pending in bad {
        is_damaged(Process { seen_p: pending, ..INNER });
        is_damaged(Process { seen_gp: pending, ..INNER });
    }
    is_taken(Process { seen_p: Pending::Clean(3), seen_gp: Pending::Mark(3), ..INNER });
    let mut case = Case::new();
    case.set_pending(CHAIN, Pending::Replace(3));
    case.is_damaged(INNER);
}

#[test]
fn zero_is_damage_in_what_the_row_uses() {
    for point in 3..=5 {
        is_damaged(Process { point, index: 1, l: 0, ..INNER });
    }
    is_damaged(Process { point: 5, gp: 0, ..INNER });
    for point in 6..=14 {
        is_damaged(Process { point, index: 1, other: 9, depth: 1, ..INNER });
    }
    for (point, helped) in [(3, 0), (6, 1), (7, 1), (11, 3), (12, 3), (13, 3)] {
        is_damaged(Process { point, helped, other: 9, ..INNER });
    }
    is_damaged(Process { point: 13, helped: 3, index: 1, ..INNER });
    is_damaged(Process { point: 10, helped: 3, ..INNER });
}

#[test]
fn the_record_helped_is_checked_whole() {
    let replace = Process { point: 8, helped: 2, ..INNER };
    let prune = Process { point: 14, helped: 3, ..INNER };
    is_taken(replace);
    is_taken(prune);
    is_damaged(Process { helped: 3, ..replace });
    is_damaged(Process { helped: 2, ..prune });
    // Leaf, parent, third, expected, process, operation, key.
    let bad = [(1, CHAIN), (1, 0), (2, 4), (2, 0), (3, 0), (5, 0), (5, 3), (6, FIND), (6, 4), (7, INFINITY)];
    for (process, record) in [(replace, 2), (prune, 3)] {
        for (word, value) in bad {
            let mut case = Case::new();
            case.set_record(record, word, value);
            case.is_damaged(process);
        }
        for expected in [Pending::Clean(4), Pending::Replace(1), Pending::Mark(3)] {
            let mut case = Case::new();
            case.set_record(record, 4, expected.word());
            case.is_damaged(process);
        }
    }
    let mut case = Case::new();
    case.set_record(2, 3, DUMMY);
    case.is_damaged(replace);
    let mut case = Case::new();
    case.set_record(3, 3, LEAF_5);
    case.is_damaged(prune);
}

#[test]
fn a_child_read_is_a_node_above_its_parent() {
    let readers = [
        Process { point: 2, ..INNER },
        Process { point: 3, index: 1, ..INNER },
        Process { point: 11, index: 1, helped: 3, ..INNER },
    ];
    for word in [0, CHAIN, DUMMY, 10] {
        for process in readers {
            let mut case = Case::new();
            case.set_child(CHAIN, 1, word);
            case.is_damaged(process);
        }
        for (point, helped) in [(6, 2), (7, 2), (12, 3), (13, 3)] {
            let mut case = Case::new();
            case.set_child(DUMMY, 1, if word == CHAIN { DUMMY } else { word });
            case.is_damaged(Process { point, index: 1, helped, other: 9, ..INNER });
        }
    }
}

#[test]
fn leaves_at_2_and_4_have_rising_keys_below_infinity() {
    let mut case = Case::new();
    let key_at = case.header.node_at(LEAF_3) + 1;
    case.block[key_at] = INFINITY;
    case.is_damaged(Process { point: 2, ..INNER });
    case.is_damaged(Process { point: 2, operation: FIND, ..INNER });
    case.is_damaged(Process { point: 4, ..INNER });
    assert_eq!(listing(&case.block, &mut [0; 9]), Err(Refusal::Damaged));
    assert_eq!(clear_of_range(&case.block, 5, 5), Err(Refusal::Damaged));
}

#[test]
fn at_4_the_leaf_fits_the_operation() {
    is_damaged(Process { point: 4, key: 4, ..INNER });
    is_damaged(Process { point: 4, operation: INSERT, ..INNER });
    // Whether or not the compare holds.
    is_damaged(Process { point: 4, operation: INSERT, seen_p: Pending::Clean(0), ..INNER });
    // Not asked at 5.
    is_taken(Process { point: 5, key: 4, ..INNER });
}

#[test]
fn a_leaf_straight_below_node_1_is_damage() {
    let mut case = Case::new();
    case.set_child(ROOT, 1, 3);
    case.is_damaged(Process { p: ROOT, gp: 0, l: 0, point: 2, ..INNER });
}

#[test]
fn exactly_one_node_is_noted_at_11() {
    let at_11 = Process { point: 11, index: 2, helped: 3, ..INNER };
    assert_eq!(is_taken(at_11).point, 12);
    is_damaged(Process { other: LEAF_5, ..at_11 });
    let mut case = Case::new();
    case.set_record(3, 1, LEAF_5);
    case.is_damaged(at_11);
}

#[test]
fn what_is_hung_below_gp_is_above_it() {
    let at_13 = Process { point: 13, index: 1, helped: 3, other: LEAF_5, ..INNER };
    is_taken(at_13);
    is_damaged(Process { other: DUMMY, ..at_13 });
    is_damaged(Process { other: ROOT, index: 2, ..at_13 });
}

#[test]
fn a_push_past_the_stack_is_damage() {
    let mut case = Case::new();
    case.set_pending(CHAIN, Pending::Clean(1));
    case.is_damaged(Process { point: 9, helped: 3, depth: 5, ..INNER });
    let after = case.step_from(Process { point: 9, helped: 3, depth: 4, ..INNER }).unwrap();
    assert_eq!((after.point, after.depth, after.helped), (10, 5, 3));
    assert_eq!(case.block[case.header.stack_at(1, 4)], 3);
}

#[test]
fn a_stack_top_is_a_prune() {
    for (point, helped) in [(8, 2), (10, 3), (14, 3)] {
        for top in [0, 2, 4] {
            let mut case = Case::new();
            let at = case.header.stack_at(1, 0);
            case.block[at] = top;
            case.is_damaged(Process { point, helped, depth: 1, ..INNER });
        }
    }
    // At 4 and 5 after a clean value seen.
    for point in [4, 5] {
        let mut case = Case::new();
        case.set_pending(DUMMY, Pending::Clean(1));
        let seen =
            Process { seen_p: Pending::Clean(0), seen_gp: Pending::Clean(0), point, depth: 1, ..INNER };
        case.is_damaged(seen);
        let at = case.header.stack_at(1, 0);
        case.block[at] = 3;
        let after = case.step_from(seen).unwrap();
        assert_eq!((after.point, after.helped, after.own), (10, 3, 0));
    }
}

#[test]
fn ten_pops_and_goes_on_with_the_next() {
    let mut case = Case::new();
    let at = case.header.stack_at(1, 0);
    case.block[at..at + 2].fill(3);
    let after = case.step_from(Process { point: 10, helped: 3, depth: 2, ..INNER }).unwrap();
    assert_eq!((after.point, after.helped, after.depth), (10, 3, 1));
    assert_eq!(case.block[at..at + 2], [3, 0]);
    assert_eq!(case.block[case.header.pending_at(DUMMY)], Pending::Clean(3).word());
    let after = case.step_from(after).unwrap();
    assert_eq!(after, Process { steps: 2, ..Process::started(DELETE, 3) });
}

#[test]
fn the_walk_meets_no_more_nodes_than_are_in_use() {
    let mut case = Case::new();
    assert_eq!(listing(&case.block, &mut [0; 9]), Ok(2));
    assert_eq!(listing(&case.block, &mut [0; 1]), Err(Refusal::ListTooShort));
    // Node 7 met three times makes eleven visits; twice and leaf 8 once more makes nine, just
    // as many as are in use.
    case.set_child(ROOT, 2, CHAIN);
    case.set_child(DUMMY, 2, CHAIN);
    assert_eq!(listing(&case.block, &mut [0; 9]), Err(Refusal::Damaged));
    case.set_child(DUMMY, 2, LEAF_3);
    assert_eq!(listing(&case.block, &mut [0; 9]), Ok(5));
}

#[test]
fn header_words_are_checked_before_the_length() {
    let good = Case::new();
    let bad =
        [(0, 1), (0, 9), (1, 0), (1, 33), (2, 4), (2, 4097), (3, 4), (3, 17), (4, 0), (4, 4097), (5, 9)];
    for (at, word) in bad {
        let mut block = good.block.clone();
        block[at] = word;
        assert_eq!(listing(&block[..6], &mut []), Err(Refusal::Damaged), "header word {at} is {word}");
    }
    assert_eq!(listing(&good.block[..5], &mut []), Err(Refusal::TooShort));
    assert_eq!(listing(&good.block[..good.header.length() - 1], &mut []), Err(Refusal::TooShort));
    assert_eq!(listing(&good.block[..good.header.length()], &mut [0; 2]), Ok(2));
}
