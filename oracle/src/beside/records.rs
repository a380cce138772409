//! Record inputs: the length handed back and every byte of the buffer, and eight bytes behind it. Each input is answered with room, in a
//! buffer whose places behind the lines must stay as they were, and in one that is too short, which must hold the front of the lines.

use super::{agree, refused, Part, Tally};
use crate::input_graph::Edge;
use crate::lent::answer_records;
use crate::meshes::{uniform, Rng};
use crate::random::{below, graph_of, links, shuffled};
use crate::records::{lines, Record, MOST_BYTES, MOST_LINKS, MOST_NODES, TAG};
use std::fmt::{Debug, Formatter, Result};

/// So many places hold the lines of any input: `output_bound` of crates/routes/specs/Records.antt.
pub const ENOUGH: usize = 17 * (MOST_BYTES + 1);

/// What the buffer holds before: no line has this byte.
const FILLED: u8 = 0xA5;

/// So many bytes behind the buffer are looked at too.
const BEHIND: usize = 8;

impl Record {
    fn bytes(self) -> Vec<u8> {
        let nodes = |ids: &[u16]| ids.iter().flat_map(|id| id.to_le_bytes()).collect::<Vec<u8>>();
        let number = |number: u32| number.to_le_bytes().to_vec();
        let (kind, body) = match self {
            Record::Nodes(count) => (1, nodes(&[count])),
            Record::Link(from, to, weight) => (2, [nodes(&[from, to]), number(weight)].concat()),
            Record::Order(node) => (3, nodes(&[node])),
            Record::Limit(limit) => (4, number(limit)),
            Record::Query(source, target) => (5, nodes(&[source, target])),
        };
        [&TAG[..], &[kind], &body].concat()
    }
}

fn joined(records: &[Record]) -> Vec<u8> {
    records.iter().flat_map(|record| record.bytes()).collect()
}

/// An input, as it is shown.
struct Input<'a>(&'a [u8]);

impl Debug for Input<'_> {
    fn fmt(&self, out: &mut Formatter) -> Result {
        self.0.iter().try_for_each(|byte| write!(out, "{byte:02x}"))
    }
}

/// The length handed back, every byte of the buffer, and those behind it.
#[derive(PartialEq)]
struct Written(usize, Vec<u8>);

impl Debug for Written {
    fn fmt(&self, out: &mut Formatter) -> Result {
        write!(out, "length {}, {}", self.0, self.1.escape_ascii())
    }
}

/// Inputs, each in several buffers.
#[derive(Default)]
pub struct Records(Tally);

impl Records {
    fn add(&mut self, over: &'static str, input: &[u8], buffers: &[Buffer]) {
        let lines = lines(input);
        for buffer in buffers {
            let places = buffer.places(lines.len());
            let mut ours = vec![FILLED; places + BEHIND];
            let length = answer_records(input, &mut ours[..places]);
            let front = lines.len().min(places);
            let mut theirs = vec![FILLED; places + BEHIND];
            theirs[..front].copy_from_slice(&lines.as_bytes()[..front]);
            agree(&(Input(input), places), Written(length, ours), Written(lines.len(), theirs));
            self.0.add(over, if places < lines.len() { "calls with too short a buffer" } else { "calls with room" });
        }
        for line in lines.lines() {
            self.0.note(over, outcome(line));
        }
    }

    /// Case L cut at every byte, without each byte, and with every byte changed to every other and put before every one; and its records, each
    /// left out, twice, and moved to every place.
    fn around_case_l(&mut self) {
        let mut try_input = |input: &[u8]| self.add("one change away from case L", input, &[Buffer::More(1), Buffer::Less(1)]);
        let whole = joined(&CASE_L);
        for at in 0..=whole.len() {
            try_input(&whole[..at]);
            let (before, after) = whole.split_at(at);
            for byte in 0..=255 {
                try_input(&[before, &[byte], after].concat());
                if let Some((_, after)) = after.split_first() {
                    try_input(&[before, &[byte], after].concat());
                }
            }
            if let Some((_, after)) = after.split_first() {
                try_input(&[before, after].concat());
            }
        }
        for at in 0..CASE_L.len() {
            let mut without = CASE_L.to_vec();
            let record = without.remove(at);
            try_input(&joined(&without));
            for place in 0..CASE_L.len() {
                let mut moved = without.clone();
                moved.insert(place, record);
                try_input(&joined(&moved));
                let mut twice = CASE_L.to_vec();
                twice.insert(place, record);
                try_input(&joined(&twice));
            }
        }
    }

    /// The longest input, then with zeros behind it up to 16,384 bytes, one more, and many more.
    fn about_the_longest(&mut self) {
        let mut input = longest();
        for length in [input.len(), MOST_BYTES - 1, MOST_BYTES, MOST_BYTES + 1, MOST_BYTES + 7, 10 * MOST_BYTES] {
            input.resize(length, 0);
            let buffers = [Buffer::Enough, Buffer::More(0), Buffer::Less(1), Buffer::Less(ENOUGH / 2)];
            self.add("of the greatest length", &input, &buffers);
        }
    }
}

/// What a line says.
fn outcome(line: &str) -> &'static str {
    match line.split_once(' ').map_or(line, |(word, _)| word) {
        "built" => "built",
        "route" => "routes",
        "none" => "none",
        "bad" => "bad record",
        "too" => "too long",
        _ => refused(line["refused ".len()..].parse().unwrap()),
    }
}

/// How many places are lent: as many as are always enough, or so many more or less than the lines have bytes.
enum Buffer {
    Enough,
    More(usize),
    Less(usize),
}

impl Buffer {
    fn places(&self, length: usize) -> usize {
        match *self {
            Buffer::Enough => ENOUGH,
            Buffer::More(places) => length + places,
            Buffer::Less(places) => length.saturating_sub(places),
        }
    }

    /// Just enough or a few places more, and one or any number too few; now and then what is always enough.
    fn some(numbers: &mut Rng) -> Vec<Buffer> {
        let less = [1, 1 + below(numbers, 200), 1 + below(numbers, ENOUGH)][below(numbers, 3)];
        let mut buffers = vec![Buffer::More([0, below(numbers, 3)][below(numbers, 2)]), Buffer::Less(less)];
        if below(numbers, 50) == 0 {
            buffers.push(Buffer::Enough);
        }
        buffers
    }
}

/// Case L with document 01's queries.
const CASE_L: [Record; 11] = [
    Record::Nodes(3),
    Record::Link(0, 1, 2),
    Record::Link(1, 2, 3),
    Record::Order(1),
    Record::Order(0),
    Record::Order(2),
    Record::Limit(100),
    Record::Query(0, 2),
    Record::Query(2, 0),
    Record::Query(1, 1),
    Record::Query(0, 7),
];

/// Up to the limit, from columns as a build has them.
fn network(nodes: usize, edges: &[Edge], order: &[usize], limit: u32) -> Vec<Record> {
    let mut records = vec![Record::Nodes(nodes as u16)];
    records.extend(edges.iter().map(|e| Record::Link(e.from as u16, e.to as u16, e.weight as u32)));
    records.extend(order.iter().map(|&node| Record::Order(node as u16)));
    records.push(Record::Limit(limit));
    records
}

/// The longest line, of the heaviest links, and as many queries from front to back of it as fit.
pub fn longest() -> Vec<u8> {
    let last = MOST_NODES - 1;
    let edges: Vec<Edge> = (0..last).map(|from| Edge { from, to: from + 1, weight: u32::MAX as u64 }).collect();
    let order: Vec<usize> = (1..last).chain([0, last]).collect();
    with_queries(network(MOST_NODES, &edges, &order, 100))
}

/// As many links as there may be, no searches, and as many queries as fit.
pub fn densest() -> Vec<u8> {
    let graph = uniform(MOST_NODES, MOST_LINKS);
    let order: Vec<usize> = (0..MOST_NODES).collect();
    with_queries(network(MOST_NODES, graph.get_edges(), &order, 0))
}

fn with_queries(records: Vec<Record>) -> Vec<u8> {
    let mut input = joined(&records);
    let query = Record::Query(0, MOST_NODES as u16 - 1).bytes();
    while input.len() + query.len() <= MOST_BYTES {
        input.extend(&query);
    }
    input
}

/// A network and queries for it. Some have 32 or 33 nodes, or about 256 links.
fn random_records(numbers: &mut Rng) -> Vec<Record> {
    let nodes = match below(numbers, 8) {
        0 => below(numbers, MOST_NODES),
        1 => MOST_NODES + below(numbers, 2),
        _ => below(numbers, 9),
    };
    let graph = if below(numbers, 3) == 0 { links(numbers, nodes) } else { graph_of(numbers, nodes) };
    let mut edges: Vec<Edge> = graph.get_edges().into();
    let most = MOST_LINKS - 2 + below(numbers, 5);
    while edges.len() > most {
        edges.remove(below(numbers, edges.len()));
    }
    let limit = [0, 1, 2, 3, nodes as u32, 100, 1 << 16, u32::MAX][below(numbers, 8)];
    let mut records = network(nodes, &edges, &shuffled(numbers, nodes), limit);
    for _ in 0..below(numbers, 12) {
        let beyond = [0, 0, 0, 1, 2][below(numbers, 5)];
        let end = |numbers: &mut Rng| below(numbers, (nodes + beyond).max(1)) as u16;
        records.push(Record::Query(end(numbers), end(numbers)));
    }
    records
}

/// A node that a network may have, or has not, or has in its low byte alone.
fn some_node(numbers: &mut Rng) -> u16 {
    let node = below(numbers, MOST_NODES + 2) as u16;
    [node % 8, node, node + 256, u16::MAX][below(numbers, 4)]
}

/// The same with another number.
fn changed(numbers: &mut Rng, record: Record) -> Record {
    let node = some_node(numbers);
    let number = [0, 1, 255, 256, 1 << 24, u32::MAX][below(numbers, 6)];
    match (record, below(numbers, 4)) {
        (Record::Nodes(count), 0) => Record::Nodes(count.wrapping_add(1)),
        (Record::Nodes(_), _) => Record::Nodes(node),
        (Record::Link(_, to, weight), 0) => Record::Link(node, to, weight),
        (Record::Link(from, _, weight), 1) => Record::Link(from, node, weight),
        (Record::Link(from, _, weight), 2) => Record::Link(from, from, weight),
        (Record::Link(from, to, _), _) => Record::Link(from, to, number),
        (Record::Order(_), _) => Record::Order(node),
        (Record::Limit(_), _) => Record::Limit(number),
        (Record::Query(_, target), 0 | 1) => Record::Query(node, target),
        (Record::Query(source, _), _) => Record::Query(source, node),
    }
}

/// A fault among records: one changed, left out, twice, elsewhere, or of another kind.
fn spoil(numbers: &mut Rng, records: &mut Vec<Record>) {
    let count = records.len();
    if count == 0 {
        return;
    }
    let (i, j) = (below(numbers, count), below(numbers, count));
    match below(numbers, 10) {
        0 => drop(records.remove(i)),
        1 => records.insert(i, records[i]),
        2 => records.insert(i, records[j]),
        3 => records.swap(i, j),
        4 => records.swap(i, (i + 1) % count),
        5 => {
            let other = CASE_L[below(numbers, CASE_L.len())];
            records[i] = changed(numbers, other)
        }
        _ => records[i] = changed(numbers, records[i]),
    }
}

/// A byte that a record may turn on, or any.
fn some_byte(numbers: &mut Rng) -> u8 {
    [TAG[0], TAG[1], below(numbers, 8) as u8, below(numbers, 256) as u8][below(numbers, 4)]
}

/// A fault in bytes: one changed, put in or left out, a cut, a wrong tag or kind, more bytes behind.
fn damage(numbers: &mut Rng, input: &mut Vec<u8>) {
    let at = below(numbers, input.len() + 1);
    let byte = some_byte(numbers);
    match below(numbers, 7) {
        0 => input.truncate(at),
        1 => input.insert(at, byte),
        2 => input.extend((0..below(numbers, 12)).map(|_| some_byte(numbers))),
        _ if at == input.len() => input.push(byte),
        3 => drop(input.remove(at)),
        4 => input[at] ^= 1 << below(numbers, 8),
        5 => input[at] = byte,
        _ => {
            let heads: Vec<usize> = input.windows(3).enumerate().filter(|(_, head)| head.starts_with(&TAG)).map(|(at, _)| at).collect();
            if !heads.is_empty() {
                input[heads[below(numbers, heads.len())] + below(numbers, 3)] = byte;
            }
        }
    }
}

/// Queries until the input is about as long as it may be, then cut to a length about there.
fn lengthen(numbers: &mut Rng, input: &mut Vec<u8>) {
    let among = [3, 9, MOST_NODES][below(numbers, 3)];
    while input.len() < MOST_BYTES + 8 {
        let query = Record::Query(below(numbers, among) as u16, below(numbers, among) as u16);
        input.extend(query.bytes());
    }
    input.truncate(MOST_BYTES - 7 + below(numbers, 9));
}

/// Bytes of no form: any, or those that records have; mostly few.
fn rubbish(numbers: &mut Rng) -> Vec<u8> {
    let most = [4, 12, 12, 100, 100, 100, 100, 2 * MOST_BYTES][below(numbers, 8)];
    let length = below(numbers, most);
    let any = below(numbers, 2) == 0;
    (0..length).map(|_| if any { below(numbers, 256) as u8 } else { some_byte(numbers) }).collect()
}

impl Part for Records {
    fn exhaust(&mut self) {
        self.around_case_l();
        self.about_the_longest();
    }

    fn round(&mut self, numbers: &mut Rng, round: usize) {
        const KINDS: [&str; 5] =
            ["without a fault", "with faults among their records", "with faults in their bytes", "of about 16,384 bytes", "of bytes of no form"];
        let kind = if round % 500 == 499 { 3 } else { [0, 0, 1, 1, 1, 2, 2, 4][below(numbers, 8)] };
        let mut records = random_records(numbers);
        if kind == 1 || (kind != 0 && below(numbers, 4) == 0) {
            for _ in 0..1 + below(numbers, 2) {
                spoil(numbers, &mut records);
            }
        }
        let mut input = if kind == 4 { rubbish(numbers) } else { joined(&records) };
        match kind {
            2 => (0..1 + below(numbers, 2)).for_each(|_| damage(numbers, &mut input)),
            3 => lengthen(numbers, &mut input),
            _ => {}
        }
        self.add(KINDS[kind], &input, &Buffer::some(numbers));
    }

    fn tally(&self) -> &Tally {
        &self.0
    }
}
