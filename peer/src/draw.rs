//! What a bench script leaves, drawn as text: the tree in the order of the walk, the nodes out of
//! it, the records, the busy processes.

use crate::bench::{op_word, ran};
use crate::engine::*;
use std::io::Read;

/// What the standard input's script leaves, or why it cannot be drawn.
pub fn of_input() -> String {
    let mut input = Vec::new();
    let read = std::io::stdin().read_to_end(&mut input).map_err(|_| "the input cannot be read");
    read.and_then(|_| draw(&input)).unwrap_or_else(|why| format!("{why}\n"))
}

fn draw(input: &[u8]) -> Result<String, &'static str> {
    let bench = ran(input);
    let (block, row) = bench.tables().ok_or("the script makes no tables")?;
    let tables = Tables::enter(block, Some(row.len())).map_err(|_| "the tables are damaged")?;
    let mut drawing = Drawing { tables, met: vec![ROOT], text: String::new() };
    drawing.node(ROOT, "").map_err(|_| "the tree is damaged")?;
    drawing.out_of_the_tree();
    drawing.records();
    drawing.busy(row);
    Ok(drawing.text)
}

struct Drawing<'a> {
    tables: Tables<'a>,
    met: Vec<u32>,
    text: String,
}

impl Drawing<'_> {
    fn line(&mut self, text: String) {
        self.text += text.trim_end();
        self.text += "\n";
    }

    /// A node, and under it its children, each further in by one branch.
    fn node(&mut self, node: u32, margin: &str) -> Checked {
        let label = self.label(node);
        self.line(label);
        if let Node::Internal(parent) = self.tables.node(node)? {
            let k = self.tables.header.k;
            for i in 1..=k {
                let child = self.tables.child(parent, i)?.number();
                let (branch, below) = if i < k { ("├─ ", "│  ") } else { ("└─ ", "   ") };
                self.met.push(child);
                self.text += margin;
                self.text += branch;
                self.node(child, &format!("{margin}{below}"))?;
            }
        }
        Ok(())
    }

    /// A leaf with its keys in braces; an internal node with its keys and its pending.
    fn label(&self, node: u32) -> String {
        let tables = &self.tables;
        let tag = tables.tag(node);
        if tag < tables.header.k {
            return format!("{node} {{{}}}", keys(tables.first_keys(node, tag)));
        }
        let pending = match Pending::from_word(tables.words[tables.header.pending_at(node)]) {
            Pending::Clean(record) => format!("clean {record}"),
            Pending::Replace(record) => format!("replace {record}"),
            Pending::Prune(record) => format!("prune {record}"),
            Pending::Mark(record) => format!("mark {record}"),
        };
        format!("{node} [{}] {pending}", keys(tables.first_keys(node, tag - 1)))
    }

    fn out_of_the_tree(&mut self) {
        let used = 1..=self.tables.header.nodes_used;
        let out: Vec<String> =
            used.filter(|node| !self.met.contains(node)).map(|node| self.label(node)).collect();
        if !out.is_empty() {
            self.line(format!("not in the tree: {}", out.join(", ")));
        }
    }

    fn records(&mut self) {
        for number in 1..=self.tables.header.records_used {
            let record = self.tables.record(number);
            let what = match record.kind {
                REPLACE => format!("replace {} by {} below {}", record.l, record.third, record.p),
                _ => format!("prune {} and its leaf {} below {}", record.p, record.l, record.third),
            };
            let job = job(record.operation, record.key);
            self.line(format!("record {number}: {what} ({job}, process {})", record.process));
        }
    }

    fn busy(&mut self, row: &[Process]) {
        for (place, process) in row.iter().enumerate().filter(|(_, process)| **process != IDLE) {
            let helps = match process.helped {
                0 => String::new(),
                record => format!(", record {record}"),
            };
            let job = job(process.operation, process.key);
            self.line(format!("process {}: {job}, at point {}{helps}", place + 1, process.point));
        }
    }
}

fn job(operation: u32, key: u32) -> String {
    format!("{} {key}", op_word(operation))
}

fn keys(keys: &[u32]) -> String {
    let keys = keys.iter().map(|&key| if key == INFINITY { "∞".to_string() } else { key.to_string() });
    keys.collect::<Vec<String>>().join(" ")
}

#[cfg(test)]
mod tests {
    use super::draw;

    #[test]
    fn a_fresh_tree() {
        let drawn = draw(b"k=2 processes=1 nodes=16 records=8\n");
        assert_eq!(
            drawn.as_deref(),
            Ok("1 [∞] clean 0\n├─ 2 [∞] clean 0\n│  ├─ 4 {}\n│  └─ 5 {}\n└─ 3 {}\n")
        );
        assert!(draw(b"").is_err());
    }

    #[test]
    fn a_flag_and_who_set_it() {
        let drawn =
            draw(b"k=2 processes=1 nodes=16 records=8\nstart=1 op=insert key=3\nstep=1 times=5\n").unwrap();
        let (tree, rest) = drawn.split_once("not in the tree: ").unwrap();
        assert_eq!(tree, "1 [∞] clean 0\n├─ 2 [∞] replace 1\n│  ├─ 4 {}\n│  └─ 5 {}\n└─ 3 {}\n");
        assert_eq!(
            rest,
            "6 {3}\nrecord 1: replace 4 by 6 below 2 (insert 3, process 1)\nprocess 1: insert 3, at point 6, record 1\n"
        );
    }
}
