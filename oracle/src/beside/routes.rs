//! Many routes in one call: the number of the call, and every place of the four columns.

use super::queries::{Subject, NOT_COMPARED};
use super::{agree, refused, Part, Tally};
use crate::answer::{crates_build, handed_back, query_on, Answered, Asked, Ends};
use crate::constants::{NodeId, WEIGHT_MAX};
use crate::hierarchies::tables_of;
use crate::lent::{below_formula, wide, Routes as Columns, FILLED};
use crate::meshes::Rng;
use crate::random::{any_column, any_number, below};
use crate::tiny;

/// Pairs of ends, and how many places of everything are lent: numbers, weights, lengths, paths, and scratch.
struct Call<'a> {
    subject: &'a Subject,
    sources: Vec<u32>,
    targets: Vec<u32>,
    columns: [usize; 4],
    scratch: [usize; 4],
    rubbish: u64,
}

/// Numbers, weights, lengths and paths after a call, and its number.
type After = (u32, [Vec<u64>; 4]);

impl Call<'_> {
    fn new(subject: &Subject, sources: Vec<u32>, targets: Vec<u32>) -> Call<'_> {
        let pairs = sources.len();
        Call { subject, sources, targets, columns: [pairs, pairs, pairs, pairs * subject.nodes()], scratch: subject.scratch(), rubbish: 9 }
    }

    fn ours(&self) -> After {
        let mut lent = Columns::filled(self.columns);
        let mut scratch = self.scratch.map(|length| vec![self.rubbish; length]);
        let number = self.subject.ours.routes(&self.sources, &self.targets, &mut lent, &mut scratch);
        (number, [wide(&lent.numbers), lent.weights, wide(&lent.lengths), wide(&lent.paths)])
    }

    /// Each pair as a query of its own; nothing where the crate is not let unpack.
    fn theirs(&self) -> Option<After> {
        let mut after = self.columns.map(|length| vec![FILLED as u64; length]);
        let Call { subject, sources, targets, columns, scratch, .. } = self;
        let Some(checked) = &subject.checked else { return Some((20, after)) };
        if sources.len() != targets.len() {
            return Some((21, after));
        }
        let (pairs, nodes) = (sources.len(), checked.graph.get_num_nodes());
        if below_formula(columns, &[pairs, pairs, pairs, pairs * nodes]) || below_formula(scratch, &subject.scratch()) {
            return Some((24, after));
        }
        for (k, (&source, &target)) in sources.iter().zip(targets).enumerate() {
            let ends = |node: u32| Ends::one(node as NodeId);
            let asked = Asked { sources: ends(source), targets: ends(target), places: nodes, filled: FILLED as u64, scratch_short: false };
            let Answered { number, weight, length, path } = handed_back(&asked, query_on(checked, &asked))?;
            if number == 0 {
                subject.least(&asked.sources, &asked.targets).map(|least| agree(&(&subject.tables, &asked), weight, least));
            }
            let [numbers, weights, lengths, paths] = &mut after;
            (numbers[k], weights[k], lengths[k]) = (number, weight, length as u64);
            paths[k * nodes..][..nodes].copy_from_slice(&path);
        }
        Some((0, after))
    }
}

#[derive(Default)]
pub struct Routes(Tally);

impl Routes {
    fn add(&mut self, over: &'static str, call: &Call) {
        let Some(theirs) = call.theirs() else { return self.0.note(over, NOT_COMPARED) };
        let Call { subject, sources, targets, columns, scratch, rubbish } = call;
        let (number, [numbers, weights, ..]) = agree(&(&subject.tables, sources, targets, columns, scratch, rubbish), call.ours(), theirs);
        self.0.add(over, refused(number as u64));
        if number == 0 {
            for (&number, &weight) in numbers.iter().zip(&weights).take(sources.len()) {
                self.0.note(over, match (number, weight) {
                    (0, WEIGHT_MAX) => "(pairs: none)",
                    (0, _) => "(pairs: route)",
                    (22, _) => "(pairs: 22)",
                    _ => "(pairs: 25)",
                });
            }
        }
    }
}

/// Up to 40 pairs, often of few nodes, some beyond the last; columns that are just as long as needed or longer, one now and then shorter.
fn random_call<'a>(numbers: &mut Rng, subject: &'a Subject) -> Call<'a> {
    let nodes = subject.nodes();
    let among = 1 + below(numbers, nodes + 2);
    let pairs = [0, 1, 2, 3, below(numbers, 41), 40][below(numbers, 6)];
    let mut side = || (0..pairs).map(|_| if below(numbers, 50) == 0 { any_number(numbers) as u32 } else { below(numbers, among) as u32 }).collect();
    let (sources, targets) = (side(), side());
    let mut call = Call::new(subject, sources, targets);
    call.rubbish = [0, 1, 2, 9, u64::MAX][below(numbers, 5)];
    call.columns = call.columns.map(|length| length + [0, 0, 1, 3][below(numbers, 4)]);
    if below(numbers, 4) == 0 {
        match below(numbers, 4) {
            0 => call.targets.push(0),
            1 => call.targets = any_column(numbers).into_iter().map(|node| node as u32).collect(),
            lengths => {
                let length = &mut [&mut call.columns, &mut call.scratch][lengths - 2][below(numbers, 4)];
                *length = [length.saturating_sub(1), below(numbers, *length + 1)][below(numbers, 2)]
            }
        }
    }
    call
}

impl Part for Routes {
    /// All pairs of every small graph in one call, those beyond its last node too.
    fn exhaust(&mut self) {
        tiny::each(|graph, order, limit| {
            let subject = Subject::new(tables_of(&crates_build(graph, order, limit), 1), Some(graph));
            let ends = 0..=subject.nodes() as u32;
            let (sources, targets) = ends.clone().flat_map(|source| ends.clone().map(move |target| (source, target))).unzip();
            self.add("all graphs of up to 3 nodes", &Call::new(&subject, sources, targets));
        });
    }

    fn round(&mut self, numbers: &mut Rng, round: usize) {
        let (over, subject) = Subject::drawn(numbers, round);
        self.add(over, &random_call(numbers, &subject));
    }

    fn tally(&self) -> &Tally {
        &self.0
    }
}
