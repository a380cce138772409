//! Queries: number, weight, length of the walk and every place of the path.

use super::{agree, refused, Part, Tally};
use crate::answer::{crates_build, handed_back, query_within, Answered, Asked, Ends};
use crate::constants::{NodeId, MAX_ENDS, MAX_SUM, WEIGHT_MAX};
use crate::floyd_warshall::FloydWarshall;
use crate::hierarchies::{drawn, tables_of};
use crate::input_graph::InputGraph;
use crate::lent::{below_formula, query_scratch, wide, Hierarchy, FILLED};
use crate::meshes::Rng;
use crate::random::{any_column, any_number, below};
use crate::tables::{Checked, Tables};
use crate::tiny;

/// Tables as both have them, and the least weights of all pairs where they are those of a small graph.
pub struct Subject {
    pub tables: Tables,
    pub checked: Option<Checked>,
    pub ours: Hierarchy,
    least: Option<FloydWarshall>,
}

impl Subject {
    pub fn new(tables: Tables, built_of: Option<&InputGraph>) -> Subject {
        let least = built_of.filter(|graph| graph.get_num_nodes() <= 200).map(|graph| {
            let mut all = FloydWarshall::new(graph.get_num_nodes());
            all.prepare(graph);
            all
        });
        Subject { checked: tables.read(), ours: Hierarchy::of(&tables), tables, least }
    }

    /// Some tables, of one of the kinds.
    pub fn drawn(numbers: &mut Rng, round: usize) -> (&'static str, Subject) {
        let (over, tables, graph) = drawn(numbers, round);
        (over, Subject::new(tables, graph.as_ref()))
    }

    /// A number of nodes that ends and places can be drawn for, whatever the tables say.
    pub fn nodes(&self) -> usize {
        self.tables.nodes.min(2000)
    }

    /// By the formula. Tables that are refused are so before scratch is looked at: they are lent none.
    pub fn scratch(&self) -> [usize; 4] {
        let lengths = |c: &Checked| query_scratch(c.graph.get_num_nodes(), c.graph.get_num_out_edges(), c.graph.get_num_in_edges());
        self.checked.as_ref().map_or([0; 4], lengths)
    }

    /// What our query hands back, in scratch by the formula.
    pub fn answer(&self, asked: Asked) -> Answered {
        Call { subject: self, asked, scratch: self.scratch(), rubbish: 9 }.ours()
    }

    fn call(&self, sources: Ends, targets: Ends) -> Call<'_> {
        let asked = Asked { sources, targets, places: self.nodes(), filled: FILLED as u64, scratch_short: false };
        Call { subject: self, asked, scratch: self.scratch(), rubbish: 9 }
    }

    /// The least weight by the method of Floyd and Warshall: of all ends that count, offsets and the way between them.
    pub fn least(&self, sources: &Ends, targets: &Ends) -> Option<u64> {
        let least = self.least.as_ref()?;
        let counting = |ends: &Ends| ends.pairs().into_iter().filter(|end| end.1 != WEIGHT_MAX).collect::<Vec<_>>();
        let (sources, targets) = (counting(sources), counting(targets));
        let between = |&(source, start): &(NodeId, u64), &(target, end): &(NodeId, u64)| match least.calc_weight(source, target) {
            WEIGHT_MAX => WEIGHT_MAX,
            weight => start + weight + end,
        };
        Some(sources.iter().flat_map(|s| targets.iter().map(move |t| between(s, t))).min().unwrap_or(WEIGHT_MAX))
    }
}

/// A query: what is handed in, and how many places of everything are lent.
struct Call<'a> {
    subject: &'a Subject,
    asked: Asked,
    scratch: [usize; 4],
    rubbish: u64,
}

impl Call<'_> {
    fn ours(&self) -> Answered {
        let Asked { sources, targets, places, filled, .. } = &self.asked;
        let [from, to] = [sources, targets].map(|ends| ends.nodes.iter().map(|&node| node as u32).collect::<Vec<u32>>());
        let mut path = vec![*filled as u32; *places];
        let mut scratch = self.scratch.map(|length| vec![self.rubbish; length]);
        let (number, weight, length) = self.subject.ours.query((&from, &sources.offsets), (&to, &targets.offsets), &mut path, &mut scratch);
        Answered { number: number as u64, weight, length, path: wide(&path) }
    }

    /// What both answer; nothing where the crate is not let unpack.
    fn compare(&self) -> Option<Answered> {
        let Call { subject, asked, scratch, rubbish } = self;
        let asked = Asked { scratch_short: below_formula(scratch, &subject.scratch()), ..asked.clone() };
        let theirs = handed_back(&asked, query_within(subject.checked.as_ref(), &asked))?;
        let case = (&subject.tables, &asked, scratch, rubbish);
        let answered = agree(&case, self.ours(), theirs);
        if answered.number == 0 {
            if let Some(least) = subject.least(&asked.sources, &asked.targets) {
                agree(&(&case, "by all pairs"), answered.weight, least);
            }
        }
        Some(answered)
    }
}

/// The crate is not let unpack where an entry opens into more than 2^20 links.
pub const NOT_COMPARED: &str = "(not compared)";

#[derive(Default)]
pub struct Queries(Tally);

impl Queries {
    fn add(&mut self, over: &'static str, call: &Call) {
        let Some(Answered { number, length, .. }) = call.compare() else { return self.0.note(over, NOT_COMPARED) };
        let outcome = match (number, length) {
            (0, 0) => "none",
            (0, _) => "route",
            _ => refused(number),
        };
        self.0.add(over, outcome);
        if length > call.subject.nodes() {
            self.0.note(over, "(routes of more nodes than there are)");
        }
        if length > 0 && length == call.asked.places {
            self.0.note(over, "(routes as long as the path)");
        }
    }
}

/// Up to 16 ends of each side; where they are drawn from few nodes, they repeat and meet.
fn random_ends(numbers: &mut Rng, nodes: usize) -> [Ends; 2] {
    let among = 1 + below(numbers, nodes.max(1));
    let style = below(numbers, 4);
    [(); 2].map(|_| {
        let count = [1, 1, 1, 2, 3, 1 + below(numbers, MAX_ENDS), MAX_ENDS][below(numbers, 7)];
        let offset = |numbers: &mut Rng| match style {
            0 => 0,
            1 => below(numbers, 3) as u64,
            2 => below(numbers, 1000) as u64,
            _ => [0, 1, MAX_SUM - 1, MAX_SUM, WEIGHT_MAX][below(numbers, 5)],
        };
        let nodes = (0..count).map(|_| below(numbers, among)).collect();
        Ends { nodes, offsets: (0..count).map(|_| offset(numbers)).collect() }
    })
}

/// A fault in what is handed in or lent, or none that matters.
fn spoil(numbers: &mut Rng, call: &mut Call) {
    let nodes = call.subject.nodes();
    let Asked { sources, targets, places, .. } = &mut call.asked;
    let Ends { nodes: ids, offsets } = if below(numbers, 2) == 0 { sources } else { targets };
    let count = ids.len().min(offsets.len());
    match below(numbers, 8) {
        0 => {
            ids.clear();
            offsets.clear()
        }
        1 => {
            ids.resize(MAX_ENDS + 1, 0);
            offsets.resize(MAX_ENDS + 1, 0)
        }
        2 => ids.push(0),
        3 => offsets.truncate(count / 2),
        4 if count > 0 => ids[below(numbers, count)] = [nodes, nodes + 1, u32::MAX as usize][below(numbers, 3)],
        5 if count > 0 => offsets[below(numbers, count)] = [MAX_SUM + 1, WEIGHT_MAX - 1][below(numbers, 2)],
        6 => *places = [0, nodes / 2, nodes.saturating_sub(1)][below(numbers, 3)],
        _ => {
            let length = &mut call.scratch[below(numbers, 4)];
            *length = length.saturating_sub(1)
        }
    }
}

/// Any ends, and any lengths.
fn any_call<'a>(numbers: &mut Rng, subject: &'a Subject) -> Call<'a> {
    let [sources, targets] = [(); 2].map(|_| {
        let mut ends = Ends { nodes: any_column(numbers).into_iter().map(|node| node as u32 as usize).collect(), offsets: any_column(numbers) };
        if below(numbers, 2) == 0 {
            ends.offsets.resize(ends.nodes.len(), 0);
        }
        ends
    });
    let mut call = subject.call(sources, targets);
    call.rubbish = any_number(numbers);
    call.asked.places = below(numbers, subject.nodes() + 9);
    if below(numbers, 2) == 0 {
        call.scratch = call.scratch.map(|length| below(numbers, length + 9));
    }
    call
}

/// A random query, in scratch that holds anything, with a path of n places or a few more, or about as long as the walk.
fn random_call<'a>(numbers: &mut Rng, subject: &'a Subject) -> Call<'a> {
    let nodes = subject.nodes();
    let [sources, targets] = random_ends(numbers, nodes);
    let mut call = subject.call(sources, targets);
    call.rubbish = [0, 1, 2, 9, u64::MAX][below(numbers, 5)];
    call.asked.places = if below(numbers, 3) == 0 {
        nodes + below(numbers, 3)
    } else {
        let endless = Asked { places: usize::MAX, ..call.asked.clone() };
        let walk = query_within(subject.checked.as_ref(), &endless).ok().flatten().map_or(0, |path| path.nodes.len());
        (walk + below(numbers, 3)).saturating_sub(1).max(nodes)
    };
    let faults = [0, 0, 0, 0, 0, 0, 1, 2][below(numbers, 8)];
    for _ in 0..faults {
        spoil(numbers, &mut call);
    }
    call
}

impl Part for Queries {
    /// On every small graph every pair of ends, those beyond its last node too; and all its nodes on both sides, with every choice among
    /// offsets 0, 1 and the mark.
    fn exhaust(&mut self) {
        tiny::each(|graph, order, limit| {
            let subject = Subject::new(tables_of(&crates_build(graph, order, limit), 1), Some(graph));
            let nodes = subject.nodes();
            for source in 0..=nodes {
                for target in 0..=nodes {
                    self.add("pairs of ends on all graphs of up to 3 nodes", &subject.call(Ends::one(source), Ends::one(target)));
                }
            }
            let offset = |code: usize, node: usize| [0, 1, WEIGHT_MAX][code / 3usize.pow(node as u32) % 3];
            let side = |code: usize| Ends { nodes: (0..nodes).collect(), offsets: (0..nodes).map(|node| offset(code, node)).collect() };
            let choices = 3usize.pow(nodes as u32);
            for code in 0..choices * choices {
                self.add("all of their nodes with offsets 0, 1 and the mark", &subject.call(side(code / choices), side(code % choices)));
            }
        });
    }

    fn round(&mut self, numbers: &mut Rng, round: usize) {
        let (over, subject) = Subject::drawn(numbers, round);
        let queries = match &subject.checked {
            None => 1,
            Some(checked) if checked.graph.get_num_nodes() > 40 => 100,
            Some(_) => 6,
        };
        for query in 0..queries {
            let call = if (round + query) % 8 == 0 { any_call(numbers, &subject) } else { random_call(numbers, &subject) };
            self.add(over, &call);
        }
    }

    fn tally(&self) -> &Tally {
        &self.0
    }
}
