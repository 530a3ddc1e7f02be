//! The bench program of document 01: bytes in, bytes out.

use crate::engine::*;
use crate::step::step;
use std::io::Write;

const MOST_PROCESSES: u32 = 8;
const MOST_NODES: u32 = 512;
const MOST_RECORDS: u32 = 512;
/// R30: a longer line is not in its form.
pub const LONGEST_LINE: usize = 4096;

/// R28: what stands for an op word that is no operation, so that 4 still goes before 5.
const NO_OPERATION: u32 = 0;

/// One line of the input, read.
enum Call {
    Make { k: u32, processes: u32, nodes: u32, records: u32 },
    Start { process: u32, operation: u32, key: u32 },
    Step { process: u32, times: u32 },
    List,
}

/// The bench between two lines; it has no block before the first one.
pub struct Bench {
    tables: Option<(Vec<u32>, Vec<Process>)>,
    ended: bool,
    printed: Vec<u8>,
}

/// What the bench prints for this input.
pub fn run(input: &[u8]) -> Vec<u8> {
    ran(input).printed
}

/// The bench behind the last line of this input.
pub fn ran(input: &[u8]) -> Bench {
    let mut bench = Bench::new();
    for line in lines(input) {
        bench.line(line);
    }
    bench
}

/// The word of an operation.
pub fn op_word(operation: u32) -> &'static str {
    match operation {
        FIND => "find",
        INSERT => "insert",
        _ => "delete",
    }
}

/// R27: "a newline that ends the input starts no line".
fn lines(input: &[u8]) -> impl Iterator<Item = &[u8]> {
    input.split_inclusive(|&byte| byte == b'\n').map(|line| line.strip_suffix(b"\n").unwrap_or(line))
}

impl Bench {
    pub fn new() -> Bench {
        Bench { tables: None, ended: false, printed: Vec::new() }
    }

    /// The block and the row, once they are made.
    pub fn tables(&self) -> Option<(&[u32], &[Process])> {
        self.tables.as_ref().map(|(block, row)| (block.as_slice(), row.as_slice()))
    }

    /// The point at which a busy process is, 0 for any other.
    pub fn point(&self, process: u32) -> u32 {
        let row = self.tables.as_ref().map(|(_, row)| row.as_slice());
        row.and_then(|row| process_in(row, process)).map_or(0, |process| process.point)
    }

    /// Takes one line, without its newline.
    pub fn line(&mut self, line: &[u8]) {
        if self.ended {
            return;
        }
        if let Err(refusal) = self.call(line) {
            self.print(format_args!("refused={}\n", refusal.number()));
            // "In the first line it ends the run."
            self.ended = self.tables.is_none();
        }
    }

    fn call(&mut self, line: &[u8]) -> Checked {
        let call = parse(line).ok_or(Refusal::LineNotInForm)?;
        match (call, self.tables.is_some()) {
            (Call::Make { k, processes, nodes, records }, false) => self.make(k, processes, nodes, records),
            (Call::Start { process, operation, key }, true) => self.start(process, operation, key),
            (Call::Step { process, times }, true) => self.steps(process, times),
            (Call::List, true) => self.list(),
            // R29: a making line belongs first, and every other line later.
            _ => Err(Refusal::LineNotInForm),
        }
    }

    fn make(&mut self, k: u32, processes: u32, nodes: u32, records: u32) -> Checked {
        if processes > MOST_PROCESSES || nodes > MOST_NODES || records > MOST_RECORDS {
            return Err(Refusal::MakingNumber);
        }
        let header = Header::fresh(k, processes, nodes, records)?;
        let mut block = vec![0; header.length()];
        let mut row = vec![IDLE; processes as usize];
        make(&mut block, &mut row, k, processes, nodes, records)?;
        self.tables = Some((block, row));
        Ok(())
    }

    fn lent(&mut self) -> (&mut [u32], &mut [Process]) {
        let (block, row) = self.tables.as_mut().expect("only lines after the making line ask");
        (block, row)
    }

    fn start(&mut self, process: u32, operation: u32, key: u32) -> Checked {
        let (block, row) = self.lent();
        start(block, row, process, operation, key)
    }

    /// "`times` ends early at an answer or a refusal."
    fn steps(&mut self, process: u32, times: u32) -> Checked {
        let (block, row) = self.lent();
        let task = process_in(row, process).copied().unwrap_or(IDLE);
        for _ in 0..times {
            if let Outcome::Answered(answer, steps) = step(block, row, process)? {
                self.print_answer(process, &task, answer, steps);
                break;
            }
        }
        Ok(())
    }

    fn print_answer(&mut self, process: u32, task: &Process, answer: Answer, steps: u32) {
        let op = op_word(task.operation);
        let answer = match answer {
            Answer::No => "no",
            Answer::Yes => "yes",
            Answer::Full => "full",
        };
        let key = task.key;
        self.print(format_args!("process={process} op={op} key={key} answer={answer} steps={steps}\n"));
    }

    fn list(&mut self) -> Checked {
        let (block, _) = self.lent();
        let header = Header::read(block)?;
        // No node holds more than k−1 keys, so this list is long enough.
        let mut list = vec![0; (header.nodes_used * (header.k - 1)) as usize];
        let count = listing(block, &mut list)?;
        let (nodes, records) = (header.nodes_used, header.records_used);
        self.print(format_args!("count={count} nodes={nodes} records={records}\n"));
        for key in &list[..count as usize] {
            self.print(format_args!("key={key}\n"));
        }
        Ok(())
    }

    fn print(&mut self, text: std::fmt::Arguments) {
        self.printed.write_fmt(text).expect("a vector takes every byte");
    }
}

fn process_in(row: &[Process], process: u32) -> Option<&Process> {
    row.get((process as usize).checked_sub(1)?)
}

/// The call of a line, if it is in its form.
fn parse(line: &[u8]) -> Option<Call> {
    if line.len() > LONGEST_LINE {
        return None;
    }
    let fields: Vec<&[u8]> = line.split(|&byte| byte == b' ').collect();
    match fields[..] {
        [b"list=all"] => Some(Call::List),
        [process, times] => {
            Some(Call::Step { process: number(process, "step=")?, times: number(times, "times=")? })
        }
        [first, second, third] if first.starts_with(b"start=") => parse_start(first, second, third),
        // "An absent k field is k=0."
        [processes, nodes, records] => parse_make(b"k=0", processes, nodes, records),
        [k, processes, nodes, records] => parse_make(k, processes, nodes, records),
        _ => None,
    }
}

fn parse_start(process: &[u8], op: &[u8], key: &[u8]) -> Option<Call> {
    let operation = match op.strip_prefix(b"op=")? {
        b"" => return None,
        b"find" => FIND,
        b"insert" => INSERT,
        b"delete" => DELETE,
        _ => NO_OPERATION,
    };
    Some(Call::Start { process: number(process, "start=")?, operation, key: number(key, "key=")? })
}

fn parse_make(k: &[u8], processes: &[u8], nodes: &[u8], records: &[u8]) -> Option<Call> {
    Some(Call::Make {
        k: number(k, "k=")?,
        processes: number(processes, "processes=")?,
        nodes: number(nodes, "nodes=")?,
        records: number(records, "records=")?,
    })
}

/// "Numbers are decimal, of 32 bits"; leading zeros are digits.
fn number(field: &[u8], name: &str) -> Option<u32> {
    let digits = field.strip_prefix(name.as_bytes())?;
    if digits.is_empty() {
        return None;
    }
    digits.iter().try_fold(0u32, |value, &digit| {
        let digit = digit.is_ascii_digit().then(|| u32::from(digit - b'0'))?;
        value.checked_mul(10)?.checked_add(digit)
    })
}

#[cfg(test)]
mod tests {
    use super::*;

    fn printed(input: &str) -> String {
        String::from_utf8(run(input.as_bytes())).unwrap()
    }

    #[test]
    fn a_line_may_end_with_the_input() {
        assert_eq!(printed("processes=1 nodes=9 records=1\nlist=all"), "count=0 nodes=9 records=0\n");
    }

    #[test]
    fn empty_input_prints_nothing() {
        assert_eq!(printed(""), "");
        assert_eq!(printed("\nlist=all\n"), "refused=11\n");
    }

    #[test]
    fn numbers_have_32_bits_and_any_zeros() {
        assert_eq!(number(b"key=4294967295", "key="), Some(INFINITY));
        assert_eq!(number(b"key=4294967296", "key="), None);
        assert_eq!(number(b"key=00000000000000007", "key="), Some(7));
        assert_eq!(number(b"key=+7", "key="), None);
        assert_eq!(number(b"key=", "key="), None);
    }

    #[test]
    fn the_longest_line_is_taken_and_one_byte_more_is_not() {
        let zeros = "0".repeat(LONGEST_LINE - "step=1 times=".len());
        let text = format!("processes=1 nodes=9 records=1\nstep=1 times={zeros}\nstep=1 times=0{zeros}\n");
        assert_eq!(printed(&text), "refused=11\n");
    }

    #[test]
    fn no_such_process_goes_before_the_unknown_op() {
        let text = "processes=1 nodes=9 records=1\nstart=2 op=x key=1\nstart=1 op=x key=4294967295\n";
        assert_eq!(printed(text), "refused=4\nrefused=5\n");
    }
}
