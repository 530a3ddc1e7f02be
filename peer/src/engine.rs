//! The tables of the dirty-block index and its calls, written from document 01 alone.
//! A number such as R17 is a decision of docs/DECISIONS.md. The fourteen points are in `step.rs`.

/// Stands for infinity; no key of the set is this number.
pub const INFINITY: u32 = u32::MAX;
/// "Node 1 is the root, node 2 the dummy."
pub const ROOT: u32 = 1;
pub const DUMMY: u32 = 2;

pub const FIND: u32 = 1;
pub const INSERT: u32 = 2;
pub const DELETE: u32 = 3;

/// Kinds of a record.
pub const REPLACE: u32 = 1;
pub const PRUNE: u32 = 2;

pub const HEADER_WORDS: usize = 6;
pub const RECORD_WORDS: usize = 8;
pub const NODES_USED_AT: usize = 3;
pub const RECORDS_USED_AT: usize = 5;

const MOST_PROCESSES: u32 = 32;
const MOST_NODES: u32 = 4096;
const MOST_RECORDS: u32 = 4096;

/// Document 01's refusals, each with its number.
#[derive(Clone, Copy, PartialEq, Eq, Debug)]
pub enum Refusal {
    MakingNumber = 1,
    TooShort = 2,
    Damaged = 3,
    NoSuchProcess = 4,
    UnknownOperation = 5,
    InfinityGiven = 6,
    Busy = 7,
    Idle = 8,
    ListTooShort = 9,
    LowAboveHigh = 10,
    LineNotInForm = 11,
}

impl Refusal {
    pub fn number(self) -> u32 {
        self as u32
    }
}

pub type Checked = Result<(), Refusal>;

/// Anything that is not sound is refused 3.
pub fn sound(condition: bool) -> Checked {
    if condition {
        Ok(())
    } else {
        Err(Refusal::Damaged)
    }
}

#[derive(Clone, Copy, PartialEq, Eq, Debug)]
pub enum Answer {
    No = 0,
    Yes = 1,
    Full = 2,
}

/// What an accepted step says: that it goes on, or the answer with the steps.
#[derive(Clone, Copy, PartialEq, Eq, Debug)]
pub enum Outcome {
    GoesOn,
    Answered(Answer, u32),
}

/// "Clean, replace, prune or mark, together with a record number."
#[derive(Clone, Copy, PartialEq, Eq, Debug)]
pub enum Pending {
    Clean(u32),
    Replace(u32),
    Prune(u32),
    Mark(u32),
}

impl Pending {
    pub fn from_word(word: u32) -> Pending {
        let record = word / 4;
        match word % 4 {
            0 => Pending::Clean(record),
            1 => Pending::Replace(record),
            2 => Pending::Prune(record),
            _ => Pending::Mark(record),
        }
    }

    /// "A pending word is 4·record + kind." Asked only for records in use, which are few enough.
    pub fn word(self) -> u32 {
        match self {
            Pending::Clean(record) => 4 * record,
            Pending::Replace(record) => 4 * record + 1,
            Pending::Prune(record) => 4 * record + 2,
            Pending::Mark(record) => 4 * record + 3,
        }
    }

    pub fn is_clean(self) -> bool {
        matches!(self, Pending::Clean(_))
    }
}

/// One record of the lent process row.
#[derive(Clone, Copy, PartialEq, Eq, Debug)]
pub struct Process {
    pub operation: u32,
    pub key: u32,
    pub point: u32,
    pub gp: u32,
    pub p: u32,
    pub l: u32,
    /// The pending value read of p, then that of gp.
    pub seen_p: Pending,
    pub seen_gp: Pending,
    pub index: u32,
    pub mask: u32,
    /// The record being helped.
    pub helped: u32,
    /// The node noted at 11.
    pub other: u32,
    pub depth: u32,
    pub own: u32,
    pub steps: u32,
}

/// "An idle record is all zero and clean."
pub const IDLE: Process = Process {
    operation: 0,
    key: 0,
    point: 0,
    gp: 0,
    p: 0,
    l: 0,
    seen_p: Pending::Clean(0),
    seen_gp: Pending::Clean(0),
    index: 0,
    mask: 0,
    helped: 0,
    other: 0,
    depth: 0,
    own: 0,
    steps: 0,
};

impl Process {
    /// "A start sets operation, key, point 1 and p = 1 and clears the rest."
    pub fn started(operation: u32, key: u32) -> Process {
        Process { operation, key, point: 1, p: ROOT, ..IDLE }
    }
}

/// One record of the block.
#[derive(Clone, Copy, PartialEq, Eq, Debug)]
pub struct Record {
    pub kind: u32,
    pub l: u32,
    pub p: u32,
    /// The new child of a replace, the grandparent of a prune.
    pub third: u32,
    /// The expected pending word of p, 0 in a replace.
    pub expected: u32,
    pub process: u32,
    pub operation: u32,
    pub key: u32,
}

impl Record {
    pub fn words(&self) -> [u32; RECORD_WORDS] {
        [self.kind, self.l, self.p, self.third, self.expected, self.process, self.operation, self.key]
    }

    fn from_words(words: &[u32]) -> Record {
        Record {
            kind: words[0],
            l: words[1],
            p: words[2],
            third: words[3],
            expected: words[4],
            process: words[5],
            operation: words[6],
            key: words[7],
        }
    }
}

/// The six header words, and from them where everything lies.
#[derive(Clone, Copy, PartialEq, Eq, Debug)]
pub struct Header {
    pub k: u32,
    pub processes: u32,
    pub node_limit: u32,
    pub nodes_used: u32,
    pub record_limit: u32,
    pub records_used: u32,
}

impl Header {
    /// The header of a fresh tree, or 1. A k of 0 means 4, "and 4 is stored".
    pub fn fresh(k: u32, processes: u32, nodes: u32, records: u32) -> Result<Header, Refusal> {
        let k = if k == 0 { 4 } else { k };
        let header = Header {
            k,
            processes,
            node_limit: nodes,
            nodes_used: k.saturating_mul(2).saturating_add(1),
            record_limit: records,
            records_used: 0,
        };
        if header.in_limits() {
            Ok(header)
        } else {
            Err(Refusal::MakingNumber)
        }
    }

    /// Refusal 2 for the six words, then 3 for what they hold.
    pub fn read(block: &[u32]) -> Result<Header, Refusal> {
        let Some(&[k, processes, node_limit, nodes_used, record_limit, records_used]) =
            block.first_chunk::<HEADER_WORDS>()
        else {
            return Err(Refusal::TooShort);
        };
        let header = Header { k, processes, node_limit, nodes_used, record_limit, records_used };
        sound(header.in_limits())?;
        Ok(header)
    }

    fn in_limits(&self) -> bool {
        (2..=8).contains(&self.k)
            && (1..=MOST_PROCESSES).contains(&self.processes)
            && (2 * self.k + 1..=MOST_NODES).contains(&self.node_limit)
            && (2 * self.k + 1..=self.node_limit).contains(&self.nodes_used)
            && (1..=MOST_RECORDS).contains(&self.record_limit)
            && self.records_used <= self.record_limit
    }

    pub fn words(&self) -> [u32; HEADER_WORDS] {
        [self.k, self.processes, self.node_limit, self.nodes_used, self.record_limit, self.records_used]
    }

    /// D, the most records that a help stack holds.
    pub fn stack_limit(&self) -> u32 {
        (self.node_limit - 2 * self.k - 1) / self.k
    }

    pub fn node_words(&self) -> usize {
        2 * self.k as usize + 1
    }

    pub fn node_at(&self, node: u32) -> usize {
        HEADER_WORDS + (node as usize - 1) * self.node_words()
    }

    /// Child i of a node, i counted from 1.
    pub fn child_at(&self, node: u32, i: u32) -> usize {
        self.node_at(node) + self.k as usize + i as usize - 1
    }

    pub fn pending_at(&self, node: u32) -> usize {
        self.node_at(node) + 2 * self.k as usize
    }

    pub fn record_at(&self, record: u32) -> usize {
        self.node_at(self.node_limit + 1) + (record as usize - 1) * RECORD_WORDS
    }

    /// The stack word of a process with `depth` records below it.
    pub fn stack_at(&self, process: u32, depth: u32) -> usize {
        self.record_at(self.record_limit + 1)
            + (process as usize - 1) * self.stack_limit() as usize
            + depth as usize
    }

    /// The length of the block in words.
    pub fn length(&self) -> usize {
        self.stack_at(self.processes + 1, 0)
    }
}

/// "A child that is read is a leaf or an internal node; anything else is damaged."
#[derive(Clone, Copy, PartialEq, Eq, Debug)]
pub enum Node {
    Leaf(u32),
    Internal(u32),
}

impl Node {
    pub fn number(self) -> u32 {
        match self {
            Node::Leaf(number) | Node::Internal(number) => number,
        }
    }
}

/// A block whose header is sound and which is long enough for it.
#[derive(Clone, Copy)]
pub struct Tables<'a> {
    pub words: &'a [u32],
    pub header: Header,
}

impl<'a> Tables<'a> {
    /// "Other calls check 2 for the header's 6 words, 3 for the header, 2 for the rest."
    /// Listing and range are lent no row, so none can be too short.
    pub fn enter(words: &'a [u32], row_length: Option<usize>) -> Result<Tables<'a>, Refusal> {
        let header = Header::read(words)?;
        let row_too_short = row_length.is_some_and(|length| length < header.processes as usize);
        if words.len() < header.length() || row_too_short {
            return Err(Refusal::TooShort);
        }
        Ok(Tables { words, header })
    }

    /// The place of a process in the row, or 4.
    pub fn place_of(&self, process: u32) -> Result<usize, Refusal> {
        if (1..=self.header.processes).contains(&process) {
            Ok(process as usize - 1)
        } else {
            Err(Refusal::NoSuchProcess)
        }
    }

    pub fn tag(&self, node: u32) -> u32 {
        self.words[self.header.node_at(node)]
    }

    pub fn child_word(&self, node: u32, i: u32) -> u32 {
        self.words[self.header.child_at(node, i)]
    }

    pub fn record(&self, record: u32) -> Record {
        let at = self.header.record_at(record);
        Record::from_words(&self.words[at..at + RECORD_WORDS])
    }

    /// R17: a node in use whose tag is not above k.
    pub fn node(&self, node: u32) -> Result<Node, Refusal> {
        sound((1..=self.header.nodes_used).contains(&node))?;
        let tag = self.tag(node);
        sound(tag <= self.header.k)?;
        Ok(if tag == self.header.k { Node::Internal(node) } else { Node::Leaf(node) })
    }

    pub fn internal(&self, node: u32) -> Checked {
        sound(matches!(self.node(node)?, Node::Internal(_)))
    }

    pub fn leaf(&self, node: u32) -> Checked {
        sound(matches!(self.node(node)?, Node::Leaf(_)))
    }

    /// R19: a child word read or compared is a good node above its parent.
    pub fn child(&self, parent: u32, i: u32) -> Result<Node, Refusal> {
        let word = self.child_word(parent, i);
        sound(word > parent)?;
        self.node(word)
    }

    /// "Internal or holding a key."
    pub fn non_empty(&self, node: Node) -> bool {
        match node {
            Node::Internal(_) => true,
            Node::Leaf(leaf) => self.tag(leaf) > 0,
        }
    }

    pub fn first_keys(&self, node: u32, count: u32) -> &'a [u32] {
        let at = self.header.node_at(node) + 1;
        &self.words[at..at + count as usize]
    }

    /// "The first i with key below key i, else child k."
    pub fn route(&self, internal: u32, key: u32) -> u32 {
        let keys = self.first_keys(internal, self.header.k - 1);
        let not_below = keys.iter().take_while(|&&other| key >= other).count();
        not_below as u32 + 1
    }

    /// The keys of a leaf, which must "rise below infinity".
    pub fn leaf_keys(&self, leaf: u32) -> Result<&'a [u32], Refusal> {
        let keys = self.first_keys(leaf, self.tag(leaf));
        sound(keys.windows(2).all(|pair| pair[0] < pair[1]))?;
        sound(keys.last() != Some(&INFINITY))?;
        Ok(keys)
    }

    pub fn record_in_use(&self, record: u32, kind: u32) -> bool {
        (1..=self.header.records_used).contains(&record) && self.record(record).kind == kind
    }

    /// R18.
    pub fn pending_is_good(&self, pending: Pending) -> bool {
        match pending {
            Pending::Clean(record) => record <= self.header.records_used,
            Pending::Replace(record) => self.record_in_use(record, REPLACE),
            Pending::Prune(record) | Pending::Mark(record) => self.record_in_use(record, PRUNE),
        }
    }

    /// The pending value of an internal node, read or about to be swapped.
    pub fn pending(&self, internal: u32) -> Result<Pending, Refusal> {
        let pending = Pending::from_word(self.words[self.header.pending_at(internal)]);
        sound(self.pending_is_good(pending))?;
        Ok(pending)
    }

    /// "The walk goes down from node 1, children in order, always over the whole tree"; it ends
    /// by the number of nodes still allowed, for it may not meet more nodes than are in use.
    fn walk(&self, node: u32, allowed: &mut u32, meet: &mut impl FnMut(u32)) -> Checked {
        sound(*allowed > 0)?;
        *allowed -= 1;
        match self.node(node)? {
            Node::Leaf(leaf) => self.leaf_keys(leaf)?.iter().for_each(|&key| meet(key)),
            Node::Internal(parent) => {
                for i in 1..=self.header.k {
                    self.walk(self.child(parent, i)?.number(), allowed, meet)?;
                }
            }
        }
        Ok(())
    }

    fn walk_whole(&self, mut meet: impl FnMut(u32)) -> Checked {
        let mut allowed = self.header.nodes_used;
        self.walk(ROOT, &mut allowed, &mut meet)
    }
}

/// Makes a fresh tree (Figure 6) with an idle process row.
pub fn make(
    block: &mut [u32],
    row: &mut [Process],
    k: u32,
    processes: u32,
    nodes: u32,
    records: u32,
) -> Checked {
    let header = Header::fresh(k, processes, nodes, records)?;
    if block.len() < header.length() || row.len() < processes as usize {
        return Err(Refusal::TooShort);
    }
    block[..header.length()].fill(0);
    block[..HEADER_WORDS].copy_from_slice(&header.words());
    // The root's later children are empty leaves 3 to k+1, the dummy's are k+2 to 2k+1.
    let root_children: Vec<u32> = (DUMMY..=header.k + 1).collect();
    let dummy_children: Vec<u32> = (header.k + 2..=2 * header.k + 1).collect();
    hold_only_infinity(block, &header, ROOT, &root_children);
    hold_only_infinity(block, &header, DUMMY, &dummy_children);
    row[..processes as usize].fill(IDLE);
    Ok(())
}

fn hold_only_infinity(block: &mut [u32], header: &Header, node: u32, children: &[u32]) {
    let at = header.node_at(node);
    block[at] = header.k;
    block[at + 1..at + header.k as usize].fill(INFINITY);
    let first_child = header.child_at(node, 1);
    block[first_child..first_child + children.len()].copy_from_slice(children);
}

/// Starts an operation of one process; the block is only read.
pub fn start(block: &[u32], row: &mut [Process], process: u32, operation: u32, key: u32) -> Checked {
    let tables = Tables::enter(block, Some(row.len()))?;
    let place = tables.place_of(process)?;
    if !(FIND..=DELETE).contains(&operation) {
        return Err(Refusal::UnknownOperation);
    }
    if key == INFINITY {
        return Err(Refusal::InfinityGiven);
    }
    if row[place].operation != 0 {
        return Err(Refusal::Busy);
    }
    row[place] = Process::started(operation, key);
    Ok(())
}

/// Fills the list from its front with the keys of the set; answers their count.
pub fn listing(block: &[u32], list: &mut [u32]) -> Result<u32, Refusal> {
    let tables = Tables::enter(block, None)?;
    let mut keys = Vec::new();
    tables.walk_whole(|key| keys.push(key))?;
    // R3: the count is known before the first key is written.
    let front = list.get_mut(..keys.len()).ok_or(Refusal::ListTooShort)?;
    front.copy_from_slice(&keys);
    Ok(keys.len() as u32)
}

/// The listing's twin: hands back the filled part of the list, empty if refused.
pub fn listing_part<'a>(block: &[u32], list: &'a mut [u32]) -> &'a mut [u32] {
    let count = listing(block, list).unwrap_or(0);
    &mut list[..count as usize]
}

/// Yes exactly when no key of the set lies from low to high, ends included.
pub fn clear_of_range(block: &[u32], low: u32, high: u32) -> Result<bool, Refusal> {
    let tables = Tables::enter(block, None)?;
    if low == INFINITY || high == INFINITY {
        return Err(Refusal::InfinityGiven);
    }
    if low > high {
        return Err(Refusal::LowAboveHigh);
    }
    let mut clear = true;
    tables.walk_whole(|key| clear &= !(low..=high).contains(&key))?;
    Ok(clear)
}
