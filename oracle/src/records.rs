//! The gateway's record program (document 01): bytes in, lines out. Tables and routes are the crate's; the records, their sequence, the
//! program's own limits and the lines are ours.

use crate::answer::{build_within, checked, query_on, Asked, Ends, Lent, Stop};
use crate::constants::{NodeId, Weight};
use crate::fail;
use crate::tables::Checked;

pub const MOST_BYTES: usize = 16_384;
pub const MOST_NODES: usize = 32;
pub const MOST_LINKS: usize = 256;

/// Pools and tables of these sizes are enough for any graph of so many nodes.
const MOST_ARCS: usize = MOST_NODES * (MOST_NODES - 1);
const MOST_ENTRIES: usize = MOST_ARCS / 2;

/// What every record begins with, before its kind.
pub const TAG: [u8; 2] = [0x6E, 0x74];

#[derive(Clone, Copy)]
pub enum Record {
    Nodes(u16),
    /// From, to, weight.
    Link(u16, u16, u32),
    Order(u16),
    Limit(u32),
    /// Source, target.
    Query(u16, u16),
}

impl Record {
    /// The record that bytes begin with, and how many of them it is; none if it is wrong or cut.
    fn first(bytes: &[u8]) -> Option<(Record, usize)> {
        let two = |a, b| u16::from_le_bytes([a, b]);
        let four = |a, b, c, d| u32::from_le_bytes([a, b, c, d]);
        match *bytes.strip_prefix(&TAG)? {
            [1, a, b, ..] => Some((Record::Nodes(two(a, b)), 5)),
            [2, a, b, c, d, e, f, g, h, ..] => Some((Record::Link(two(a, b), two(c, d), four(e, f, g, h)), 11)),
            [3, a, b, ..] => Some((Record::Order(two(a, b)), 5)),
            [4, a, b, c, d, ..] => Some((Record::Limit(four(a, b, c, d)), 7)),
            [5, a, b, c, d, ..] => Some((Record::Query(two(a, b), two(c, d)), 7)),
            _ => None,
        }
    }
}

/// What a build is made from, as far as it has been read.
struct Network {
    nodes: usize,
    from: Vec<NodeId>,
    to: Vec<NodeId>,
    weight: Vec<Weight>,
    order: Vec<NodeId>,
}

impl Network {
    fn new(nodes: u16) -> Network {
        Network { nodes: nodes.into(), from: vec![], to: vec![], weight: vec![], order: vec![] }
    }

    /// The hierarchy, or the number of the refusal.
    fn build(&self, limit: u32) -> Result<Checked, u64> {
        if self.nodes > MOST_NODES {
            return Err(1);
        }
        if self.from.len() > MOST_LINKS {
            return Err(2);
        }
        let lent = Lent {
            ranks: MOST_NODES,
            fwd_starts: MOST_NODES + 1,
            bwd_starts: MOST_NODES + 1,
            fwd: [MOST_ENTRIES; 5],
            bwd: [MOST_ENTRIES; 5],
            pool: MOST_ARCS,
            scratch_short: false,
        };
        let graph = checked(self.nodes, &self.from, &self.to, &self.weight)?;
        let (built, _) = build_within(&graph, &self.order, limit as usize, &lent)?;
        Ok(Checked::new(built))
    }
}

/// Which records may come: the first, those before the limit, those after it.
enum Phase {
    Waiting,
    Gathering(Network),
    Answering(Checked),
}

/// What the program writes.
pub fn lines(input: &[u8]) -> String {
    let mut lines = vec![];
    let end = run(input, &mut lines);
    lines.extend(end.err());
    lines.iter().map(|line| format!("{line}\n")).collect()
}

/// Adds a line for what is built and for each query. An error is the line that the program stops with.
fn run(input: &[u8], lines: &mut Vec<String>) -> Result<(), String> {
    if input.len() > MOST_BYTES {
        return Err("too long".to_string());
    }
    let bad_record = |at: usize| format!("bad record {at}");
    let mut phase = Phase::Waiting;
    let mut at = 0;
    while at < input.len() {
        let (record, length) = Record::first(&input[at..]).ok_or_else(|| bad_record(at))?;
        match (&mut phase, record) {
            (Phase::Waiting, Record::Nodes(nodes)) => phase = Phase::Gathering(Network::new(nodes)),
            (Phase::Gathering(network), Record::Link(from, to, weight)) if network.order.is_empty() => {
                network.from.push(from.into());
                network.to.push(to.into());
                network.weight.push(weight.into())
            }
            (Phase::Gathering(network), Record::Order(node)) => network.order.push(node.into()),
            (Phase::Gathering(network), Record::Limit(limit)) => {
                let built = network.build(limit).map_err(refused)?;
                lines.push(format!("built {} {}", built.graph.get_num_out_edges(), built.graph.get_num_in_edges()));
                phase = Phase::Answering(built)
            }
            (Phase::Answering(built), Record::Query(source, target)) => lines.push(answer(built, source, target)),
            _ => return Err(bad_record(at)),
        }
        at += length;
    }
    match phase {
        Phase::Answering(_) => Ok(()),
        _ => Err(bad_record(at)),
    }
}

fn refused(number: u64) -> String {
    format!("refused {number}")
}

/// The line for a query.
fn answer(built: &Checked, source: u16, target: u16) -> String {
    let asked = Asked { sources: Ends::one(source.into()), targets: Ends::one(target.into()), places: MOST_NODES, filled: 0, scratch_short: false };
    match query_on(built, &asked) {
        Ok(Some(path)) => path.nodes.iter().fold(format!("route {}:", path.weight), |line, node| format!("{line} {node}")),
        Ok(None) => "none".to_string(),
        Err(Stop::Refused(number)) => refused(number),
        Err(Stop::TooManyOpened) => fail("an entry of a built table opens into more than 2^20 links"),
    }
}
