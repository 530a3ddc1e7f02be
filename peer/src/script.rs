//! Random bench scripts: interleaved work of several processes on few keys, with refusals and
//! lines that are not in their form strewn in.

use crate::bench::{Bench, LONGEST_LINE};
use crate::random::Random;

/// How a script is meant.
struct Mood {
    /// Once in so many lines: one that is not in its form, one that is refused, a listing.
    malformed: u32,
    refused: u32,
    listed: u32,
}

struct Writer {
    random: Random,
    text: Vec<u8>,
    /// Runs along, so that the script knows which processes are busy.
    bench: Bench,
    k: u32,
    processes: u32,
    first_key: u32,
    keys: u32,
    /// How often each process is picked; a light one is a slow one.
    weights: Vec<u32>,
    longest_burst: u32,
    /// Whether bursts end where the next step would be a swap, so that races come often.
    to_swaps: bool,
}

/// The script of a seed.
pub fn script(seed: u64) -> Vec<u8> {
    let mut writer = Writer::new(Random::new(seed));
    if writer.random.one_in(500) {
        return Vec::new();
    }
    let lines = match writer.random.below(20) {
        0..=2 => writer.random.between(3, 15),
        3..=8 => writer.random.between(40, 150),
        _ => writer.random.between(150, 700),
    };
    if writer.random.one_in(12) {
        writer.refused_first_line();
        writer.body(lines.min(20));
    } else {
        writer.first_line();
        for _ in 0..writer.random.pick(&[0, 0, 0, 1, 2]) {
            writer.wave();
            writer.body(lines / 4);
        }
        writer.body(lines);
    }
    writer.end();
    writer.text
}

impl Writer {
    fn new(mut random: Random) -> Writer {
        let keys = random.pick(&[2, 3, 4, 5, 6, 8, 12, 30]);
        let processes = random.pick(&[1, 2, 2, 3, 3, 4, 5, 6, 7, 8]);
        Writer {
            k: random.pick(&[0, 2, 2, 2, 2, 3, 3, 3, 4, 5, 6, 7, 8]),
            processes,
            first_key: random.pick(&[0, 0, 1, 7, 100_000, u32::MAX - keys]),
            keys,
            weights: (0..processes).map(|_| random.pick(&[1, 4, 20, 20, 20])).collect(),
            longest_burst: random.pick(&[1, 2, 4, 6, 10, 10]),
            to_swaps: random.one_in(3),
            bench: Bench::new(),
            text: Vec::new(),
            random,
        }
    }

    fn line(&mut self, line: impl AsRef<[u8]>) {
        self.bench.line(line.as_ref());
        self.text.extend_from_slice(line.as_ref());
        self.text.push(b'\n');
    }

    // ---- The making line ----

    fn making_line(&self, k: Option<u32>, processes: u32, nodes: u32, records: u32) -> String {
        let k = k.map(|k| format!("k={k} ")).unwrap_or_default();
        format!("{k}processes={processes} nodes={nodes} records={records}")
    }

    fn good_making_line(&mut self) -> String {
        // "An absent k field is k=0", but k=0 may be written too.
        let k = if self.k == 0 && !self.random.one_in(4) { None } else { Some(self.k) };
        let stored = if self.k == 0 { 4 } else { self.k };
        let nodes = match self.random.below(10) {
            0 => 2 * stored + 1 + self.random.below(stored + 3),
            1 | 2 => 2 * stored + 1 + self.random.below(6 * stored),
            3..=6 => self.random.between(60, 511),
            _ => 512,
        };
        let records = match self.random.below(10) {
            0 => self.random.between(1, 5),
            1 | 2 => self.random.between(6, 40),
            3..=6 => self.random.between(60, 511),
            _ => 512,
        };
        self.making_line(k, self.processes, nodes, records)
    }

    fn first_line(&mut self) {
        let mut line = self.good_making_line();
        if self.random.one_in(10) {
            line = line.replace("nodes=", "nodes=000");
        }
        self.line(line);
    }

    /// A first line that in most cases ends the run: a number out by one, a line out of its form.
    fn refused_first_line(&mut self) {
        let stored = if self.k == 0 { 4 } else { self.k };
        let (processes, nodes) = (self.processes, 2 * stored + 1);
        let k = Some(self.k);
        let line = match self.random.below(17) {
            0 => self.making_line(Some(1), processes, 60, 9),
            1 => self.making_line(Some(9), processes, 60, 9),
            2 => self.making_line(k, 0, nodes, 9),
            3 => self.making_line(k, 9, nodes, 9),
            4 => self.making_line(k, 33, nodes, 9),
            5 => self.making_line(k, processes, nodes - 1, 9),
            6 => self.making_line(k, processes, 513, 9),
            7 => self.making_line(k, processes, nodes, 0),
            8 => self.making_line(k, processes, nodes, 513),
            9 => self.making_line(Some(u32::MAX), u32::MAX, u32::MAX, u32::MAX),
            10 => self.start_line(1),
            11 => "list=all".to_string(),
            12 => String::new(),
            13 => self.long_making_line(),
            _ => {
                let line = self.good_making_line();
                let spoilt = self.spoilt(line.into_bytes());
                return self.line(spoilt);
            }
        };
        self.line(line);
    }

    /// As long as a line may be, and so accepted, or one byte longer.
    fn long_making_line(&mut self) -> String {
        let line = self.good_making_line();
        let zeros = "0".repeat(LONGEST_LINE - line.len() + self.random.below(2) as usize);
        line.replace("records=", &format!("records={zeros}"))
    }

    // ---- The lines after it ----

    fn body(&mut self, lines: u32) {
        let mood = match self.random.below(10) {
            0 => Mood { malformed: 3, refused: 4, listed: 10 },
            1..=3 => Mood { malformed: 20, refused: 20, listed: 20 },
            _ => Mood { malformed: 60, refused: 50, listed: 40 },
        };
        for _ in 0..lines {
            if self.random.one_in(mood.malformed) {
                self.malformed_line();
            } else if self.random.one_in(mood.refused) {
                self.refused_line();
            } else if self.random.one_in(mood.listed) {
                self.line("list=all");
            } else {
                self.work();
            }
        }
    }

    /// Keys inserted in order make a long chain of nodes. When each process then deletes one of
    /// them, and all have flagged before any goes on, a helper has to stack one upon the other.
    fn wave(&mut self) {
        for process in 1..=self.processes {
            if self.bench.point(process) != 0 {
                self.line(format!("step={process} times=100000"));
            }
        }
        for key in 0..self.keys {
            self.line(format!("start=1 op=insert key={}", self.first_key + key));
            self.line("step=1 times=1000");
        }
        let first = self.random.below(self.keys);
        for process in 1..=self.processes {
            let key = self.first_key + (first + process) % self.keys;
            self.line(format!("start={process} op=delete key={key}"));
            self.steps_to_a_swap(process);
        }
        for process in 1..=self.processes {
            self.line(format!("step={process} times=1"));
        }
    }

    /// Starts an idle process, or steps a busy one a few times.
    fn work(&mut self) {
        let process = self.random.weighted(&self.weights) as u32 + 1;
        if self.bench.point(process) == 0 {
            let line = self.start_line(process);
            return self.line(line);
        }
        if self.to_swaps && self.random.one_in(2) {
            return self.steps_to_a_swap(process);
        }
        let times = match self.random.below(100) {
            0 => 0,
            1 => self.random.pick(&[100, 1000, 1_000_000, u32::MAX]),
            2 => self.random.between(10, 40),
            _ => self.random.between(1, self.longest_burst),
        };
        self.line(format!("step={process} times={times}"));
    }

    /// One line of as many steps as lead to the next swap, or to the answer.
    fn steps_to_a_swap(&mut self, process: u32) {
        let mut times = 0;
        loop {
            self.bench.line(format!("step={process} times=1").as_bytes());
            times += 1;
            if matches!(self.bench.point(process), 0 | 4 | 5 | 7..=10 | 13 | 14) {
                break;
            }
        }
        self.text.extend_from_slice(format!("step={process} times={times}\n").as_bytes());
    }

    fn start_line(&mut self, process: u32) -> String {
        let op =
            self.random.pick(&["find", "insert", "insert", "insert", "insert", "delete", "delete", "delete"]);
        let key = self.first_key + self.random.below(self.keys);
        format!("start={process} op={op} key={key}")
    }

    fn no_such_process(&mut self) -> u32 {
        self.random.pick(&[0, self.processes + 1, 9, 33, u32::MAX])
    }

    /// A line in its form that is refused in most states.
    fn refused_line(&mut self) {
        let process = self.random.between(1, self.processes);
        let nobody = self.no_such_process();
        let key = self.first_key;
        let op = self.random.pick(&["fly", "Find", "find,", "in=sert", "0", "all", "delete\r"]);
        let line = match self.random.below(12) {
            0 => format!("start={nobody} op=find key={key}"),
            1 => format!("start={nobody} op=fly key={}", u32::MAX),
            2 => format!("start={process} op=fly key={}", u32::MAX),
            3 => format!("start={process} op={op} key={key}"),
            4 => format!("start={process} op=insert key={}", u32::MAX),
            5 | 6 => format!("start={process} op=delete key={key}"),
            7 => format!("step={nobody} times=1"),
            8 => format!("step={nobody} times=0"),
            9 => format!("step={process} times=0"),
            10 => format!("step={process} times={}", u32::MAX),
            _ => format!("step={process} times=1"),
        };
        self.line(line);
    }

    /// A line that is most often not in its form; a few kinds only look so.
    fn malformed_line(&mut self) {
        let process = self.random.between(1, self.processes);
        let line = match self.random.below(8) {
            0 => Vec::new(),
            1 => self.long_line(process).into_bytes(),
            2 => self.good_making_line().into_bytes(),
            3 => self.noise(),
            _ => {
                let good = match self.random.below(5) {
                    0 => "list=all".to_string(),
                    1 | 2 => format!("step={process} times={}", self.random.between(1, 4)),
                    _ => self.start_line(process),
                };
                self.spoilt(good.into_bytes())
            }
        };
        self.line(line);
    }

    /// Lines about as long as the longest, all zeros and so in their form if not too long.
    fn long_line(&mut self, process: u32) -> String {
        let (front, back) = match self.random.below(3) {
            0 => (format!("step={process} times="), "2".to_string()),
            1 => ("start=".to_string(), format!("{process} op=find key={}", self.first_key)),
            _ => (format!("start={process} op="), format!(" key={}", self.first_key)),
        };
        let length =
            self.random.pick(&[4000, LONGEST_LINE - 1, LONGEST_LINE, LONGEST_LINE + 1, 4100, 9000, 20_000]);
        let zeros = "0".repeat(length - front.len() - back.len());
        format!("{front}{zeros}{back}")
    }

    fn noise(&mut self) -> Vec<u8> {
        let alphabet = b"stepliarkynodf=0123456789 \t\r=\0\xff";
        (0..self.random.between(1, 30)).map(|_| self.random.pick(alphabet)).collect()
    }

    /// Does one small thing to a line that is in its form.
    fn spoilt(&mut self, mut line: Vec<u8>) -> Vec<u8> {
        let spaces: Vec<usize> = places(&line, b' ');
        let at = if spaces.is_empty() { line.len() } else { self.random.pick(&spaces) };
        match self.random.below(12) {
            0 => line.insert(at, b' '),
            1 => line.push(b' '),
            2 => line.insert(0, b' '),
            3 => line.truncate(at),
            4 => line = self.with_number(&line),
            5 => line = fields(&line).into_iter().rev().collect::<Vec<_>>().join(&b' '),
            6 => line = [&line[..], b" ", &line[..]].concat(),
            7 => line[0] = line[0].to_ascii_uppercase(),
            8 => line.push(self.random.pick(b"\r\t\0x=-,")),
            9 => {
                let anywhere = self.random.below(line.len() as u32) as usize;
                line[anywhere] = self.random.pick(b"0= +-a\xc3");
            }
            10 => {
                let anywhere = self.random.below(line.len() as u32) as usize;
                line.remove(anywhere);
            }
            _ => line = fields(&line).into_iter().skip(1).collect::<Vec<_>>().join(&b' '),
        }
        line
    }

    /// The line with another number as its last value: too large, signed, zeros before it, none.
    fn with_number(&mut self, line: &[u8]) -> Vec<u8> {
        let equals = places(line, b'=').pop().map_or(line.len(), |at| at + 1);
        let key = self.first_key.to_string();
        let number = self.random.pick(&[
            "4294967296",
            "4294967297",
            "42949672950",
            "18446744073709551617",
            "99999999999999999999999999",
            "+1",
            "-1",
            "1.0",
            "0x1",
            "",
            "00000000000000000000000001",
            "000",
            key.as_str(),
        ]);
        [&line[..equals], number.as_bytes()].concat()
    }

    /// Most scripts run every process on to its answer and list; some just stop, without the
    /// last newline now and then.
    fn end(&mut self) {
        if !self.random.one_in(4) {
            for process in 1..=self.processes {
                self.line(format!("step={process} times=100000"));
            }
            self.line("list=all");
        }
        if self.random.one_in(4) {
            self.text.pop();
        }
    }
}

fn places(line: &[u8], wanted: u8) -> Vec<usize> {
    (0..line.len()).filter(|&at| line[at] == wanted).collect()
}

fn fields(line: &[u8]) -> Vec<&[u8]> {
    line.split(|&byte| byte == b' ').collect()
}
