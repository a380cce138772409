//! Table checks: the number.

use super::{agree, refused, Part, Tally};
use crate::answer::crates_build;
use crate::hierarchies::{drawn, tables_of};
use crate::lent::Hierarchy;
use crate::meshes::Rng;
use crate::tables::Tables;
use crate::tiny;

#[derive(Default)]
pub struct Checks(Tally);

impl Checks {
    fn add(&mut self, over: &'static str, tables: &Tables) {
        let theirs = if tables.read().is_some() { 0 } else { 20 };
        let number = agree(tables, Hierarchy::of(tables).check(), theirs);
        self.0.add(over, refused(number as u64));
    }
}

impl Part for Checks {
    fn exhaust(&mut self) {
        tiny::each(|graph, order, limit| self.add("all graphs of up to 3 nodes", &tables_of(&crates_build(graph, order, limit), 0)));
    }

    fn round(&mut self, numbers: &mut Rng, round: usize) {
        let (over, tables, _) = drawn(numbers, round);
        self.add(over, &tables);
    }

    fn tally(&self) -> &Tally {
        &self.0
    }
}
