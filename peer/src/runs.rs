//! The table of small runs of document 01, the runs-only numbers and the example, each asserted.

use crate::bench;
use crate::engine::*;
use crate::step::step;
use std::process::ExitCode;

const INPUT: &str = "\
k=2 processes=1 nodes=16 records=8
start=1 op=insert key=3
step=1 times=8
start=1 op=insert key=5
step=1 times=8
start=1 op=find key=4
step=1 times=6
start=1 op=delete key=3
step=1 times=15
list=all
";

const PRINTED: &str = "\
process=1 op=insert key=3 answer=yes steps=8
process=1 op=insert key=5 answer=yes steps=8
process=1 op=find key=4 answer=no steps=6
process=1 op=delete key=3 answer=yes steps=15
count=1 nodes=9 records=3
key=5
";

/// Lent tables of one run; k is 2.
struct Run {
    block: Vec<u32>,
    row: Vec<Process>,
    header: Header,
}

impl Run {
    fn fresh(processes: u32, nodes: u32, records: u32) -> Run {
        let header = Header::fresh(2, processes, nodes, records).expect("within the limits");
        let mut block = vec![0; header.length()];
        let mut row = vec![IDLE; processes as usize];
        assert_eq!(make(&mut block, &mut row, 2, processes, nodes, records), Ok(()));
        Run { block, row, header }
    }

    fn start(&mut self, process: u32, operation: u32, key: u32) {
        assert_eq!(start(&self.block, &mut self.row, process, operation, key), Ok(()));
    }

    /// Steps that reach no answer.
    fn steps(&mut self, process: u32, times: u32) {
        for _ in 0..times {
            assert_eq!(step(&mut self.block, &mut self.row, process), Ok(Outcome::GoesOn));
        }
    }

    fn to_answer(&mut self, process: u32) -> (Answer, u32) {
        loop {
            match step(&mut self.block, &mut self.row, process) {
                Ok(Outcome::GoesOn) => {}
                Ok(Outcome::Answered(answer, steps)) => return (answer, steps),
                Err(refusal) => panic!("refused {}", refusal.number()),
            }
        }
    }

    fn whole(&mut self, operation: u32, key: u32) -> (Answer, u32) {
        self.start(1, operation, key);
        self.to_answer(1)
    }

    /// From a fresh tree to (d): insert 3, then 5.
    fn with_3_and_5(processes: u32) -> Run {
        let mut run = Run::fresh(processes, 16, 8);
        assert_eq!(run.whole(INSERT, 3), (Answer::Yes, 8));
        assert_eq!(run.whole(INSERT, 5), (Answer::Yes, 8));
        run
    }

    fn child(&self, node: u32, i: u32) -> u32 {
        self.block[self.header.child_at(node, i)]
    }

    fn node(&self, node: u32) -> &[u32] {
        let at = self.header.node_at(node);
        &self.block[at..at + self.header.node_words()]
    }

    fn used(&self) -> (u32, u32) {
        (self.block[NODES_USED_AT], self.block[RECORDS_USED_AT])
    }

    fn set(&self) -> Vec<u32> {
        let mut list = vec![0; 64];
        listing_part(&self.block, &mut list).to_vec()
    }
}

/// Figure 6 and the example of the length.
fn fresh_tree() {
    let run = Run::fresh(1, 16, 8);
    assert_eq!(run.header.stack_limit(), 5);
    assert_eq!(run.header.length(), 155);
    assert_eq!(run.used(), (5, 0));
    assert_eq!(run.node(1), [2, INFINITY, 2, 3, 0]);
    assert_eq!(run.node(2), [2, INFINITY, 4, 5, 0]);
    assert!(run.block[run.header.node_at(3)..].iter().all(|&word| word == 0));
}

fn a_to_d() {
    let mut run = Run::fresh(1, 16, 8);
    assert_eq!(run.whole(FIND, 3), (Answer::No, 4));
    assert_eq!(run.whole(INSERT, 3), (Answer::Yes, 8));
    assert_eq!((run.child(DUMMY, 1), run.used()), (6, (6, 1)));
    assert_eq!(run.node(6), [1, 3, 0, 0, 0]);
    assert_eq!(run.whole(INSERT, 3), (Answer::No, 4));
    assert_eq!(run.whole(INSERT, 5), (Answer::Yes, 8));
    assert_eq!(run.used(), (9, 2));
    assert_eq!(run.node(7), [2, 5, 8, 9, 8]);
    assert_eq!(run.node(8), [1, 3, 0, 0, 0]);
    assert_eq!(run.node(9), [1, 5, 0, 0, 0]);
    assert_eq!(run.set(), [3, 5]);
    assert_eq!(clear_of_range(&run.block, 4, 4), Ok(true));
    assert_eq!(clear_of_range(&run.block, 3, 4), Ok(false));
    assert_eq!(clear_of_range(&run.block, 4, 3), Err(Refusal::LowAboveHigh));
}

fn e_and_f() {
    let mut run = Run::fresh(1, 16, 8);
    run.whole(INSERT, 3);
    assert_eq!(run.whole(DELETE, 3), (Answer::Yes, 10));
    assert_eq!(run.set(), []);
    let mut run = Run::with_3_and_5(1);
    assert_eq!(run.whole(DELETE, 3), (Answer::Yes, 15));
    assert_eq!(run.child(DUMMY, 1), 9);
    assert_eq!(run.set(), [5]);
}

fn g_to_i() {
    let mut run = Run::fresh(1, 5, 8);
    let before = run.block.clone();
    assert_eq!(run.whole(INSERT, 3), (Answer::Full, 5));
    assert_eq!(run.block, before);
    let mut run = Run::fresh(1, 6, 8);
    assert_eq!(run.whole(INSERT, 3), (Answer::Yes, 8));
    assert_eq!(run.whole(INSERT, 5), (Answer::Full, 5));
    let mut run = Run::fresh(1, 16, 1);
    assert_eq!(run.whole(INSERT, 3), (Answer::Yes, 8));
    assert_eq!(run.whole(DELETE, 3), (Answer::Full, 7));
    assert_eq!((run.row[0], run.set()), (IDLE, vec![3]));
}

fn j() {
    let mut run = Run::with_3_and_5(2);
    run.start(1, DELETE, 3);
    run.steps(1, 9);
    run.start(2, INSERT, 4);
    run.steps(2, 7);
    assert_eq!(run.to_answer(1), (Answer::Yes, 31));
    assert_eq!(run.to_answer(2), (Answer::Yes, 10));
    assert_eq!(run.set(), [4, 5]);
    assert_eq!(run.used(), (12, 5));
}

fn made(k: u32, processes: u32, nodes: u32, records: u32) -> Checked {
    make(&mut vec![0; 200_000], &mut [IDLE; 33], k, processes, nodes, records)
}

/// "To run only", with the other limits of the table of numbers.
fn limits() {
    let refused = Err(Refusal::MakingNumber);
    assert_eq!((made(1, 1, 99, 9), made(9, 1, 99, 9)), (refused, refused));
    assert_eq!((made(2, 1, 99, 9), made(8, 1, 99, 9)), (Ok(()), Ok(())));
    assert_eq!((made(2, 0, 99, 9), made(2, 33, 99, 9)), (refused, refused));
    assert_eq!((made(2, 1, 99, 9), made(2, 32, 99, 9)), (Ok(()), Ok(())));
    for k in 2..=8 {
        assert_eq!((made(k, 1, 2 * k, 9), made(k, 1, 2 * k + 1, 9)), (refused, Ok(())));
    }
    assert_eq!((made(0, 1, 8, 9), made(0, 1, 9, 9)), (refused, Ok(())));
    assert_eq!((made(2, 1, 4097, 9), made(2, 1, 4096, 9)), (refused, Ok(())));
    assert_eq!((made(2, 1, 99, 0), made(2, 1, 99, 4097)), (refused, refused));
    assert_eq!((made(2, 1, 99, 1), made(2, 1, 99, 4096)), (Ok(()), Ok(())));
    let mut run = Run::fresh(1, 16, 8);
    let key = INFINITY - 1;
    assert_eq!(run.whole(INSERT, key), (Answer::Yes, 8));
    assert_eq!((run.set(), run.whole(FIND, key).0), (vec![key], Answer::Yes));
    assert_eq!(start(&run.block, &mut run.row, 1, FIND, INFINITY), Err(Refusal::InfinityGiven));
    assert_eq!(start(&run.block, &mut run.row, 0, FIND, 3), Err(Refusal::NoSuchProcess));
    assert_eq!(start(&run.block, &mut run.row, 33, FIND, 3), Err(Refusal::NoSuchProcess));
    assert_eq!(step(&mut run.block, &mut run.row, 0), Err(Refusal::NoSuchProcess));
    assert_eq!(step(&mut run.block, &mut run.row, 1), Err(Refusal::Idle));
}

/// `peer runs`; a number that is not the paper's ends it with a panic.
pub fn check() -> ExitCode {
    fresh_tree();
    a_to_d();
    e_and_f();
    g_to_i();
    j();
    limits();
    assert_eq!(bench::run(INPUT.as_bytes()), PRINTED.as_bytes());
    println!("runs: (a) to (j), the fresh tree, the runs-only numbers and the bench example hold");
    ExitCode::SUCCESS
}
