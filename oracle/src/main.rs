//! The oracle: five files of the crate fast_paths, read unchanged from the folder FAST_PATHS_SRC, over
//! stand-ins of ours. See ../README.md.

/// The crate's progress lines go nowhere.
macro_rules! debug {
    ($($any:tt)*) => {};
}

/// The text of one of the five files. What follows it in its module is code of ours that needs its
/// private parts.
macro_rules! given {
    ($file:literal) => {
        include!(concat!(env!("FAST_PATHS_SRC"), "/", $file));
    };
}

mod preparation_graph {
    given!("preparation_graph.rs");
}

mod witness_search {
    given!("witness_search.rs");

    impl WitnessSearch {
        pub fn settled(&self) -> usize {
            self.settled_nodes
        }
    }
}

mod node_contractor {
    given!("node_contractor.rs");

    impl Shortcut {
        pub fn ends(&self) -> (NodeId, NodeId) {
            (self.from, self.to)
        }

        pub fn weight(&self) -> Weight {
            self.weight
        }

        pub fn add_to(self, graph: &mut PreparationGraph) {
            add_shortcut(graph, self)
        }
    }
}

#[allow(dead_code)] // the builds with default parameters
mod fast_graph_builder {
    use crate::priority_queue;
    given!("fast_graph_builder.rs");
}

#[allow(dead_code)] // the query for single ends
mod path_calculator {
    given!("path_calculator.rs");
}

/// The third witness: least weights of all pairs, from the links alone.
#[cfg(beside)]
mod floyd_warshall {
    given!("floyd_warshall.rs");
}

mod constants;
mod fast_graph;
mod heap_item;
mod input_graph;
mod priority_queue;
mod shortest_path;
mod valid_flags;

mod answer;
mod json;
mod records;
mod room;
mod tables;

// With the proved code linked.
#[cfg(beside)]
mod beside;
#[cfg(beside)]
mod guard;
#[cfg(beside)]
mod hierarchies;
#[cfg(beside)]
mod lent;
#[cfg(beside)]
mod limits;
#[cfg(beside)]
mod meshes;
#[cfg(beside)]
mod random;
#[cfg(beside)]
mod stack;
#[cfg(beside)]
mod timing;
#[cfg(beside)]
mod tiny;

use std::io::{BufRead, BufWriter, Read, Write};

/// One line on what is wrong, and out.
fn fail(why: &str) -> ! {
    eprintln!("oracle: {why}");
    std::process::exit(2)
}

fn main() {
    let args: Vec<String> = std::env::args().skip(1).collect();
    match args.iter().map(String::as_str).collect::<Vec<_>>()[..] {
        ["answer"] => answer_all(|case| answer::answer(case, false)),
        ["answer", "--peak"] => answer_all(|case| answer::answer(case, true)),
        #[cfg(beside)]
        ["answer", "--proved"] => answer_all(beside::answer),
        ["records"] => answer_records(),
        #[cfg(beside)]
        ["beside", ref words @ ..] => beside::run(words),
        #[cfg(beside)]
        ["time", ref names @ ..] => timing::time(names),
        #[cfg(before)]
        ["time-checks", ref names @ ..] => timing::time_checks(names),
        #[cfg(beside)]
        ["limits"] => limits::measure(),
        _ => fail("usage: oracle answer [--peak] | oracle records"),
    }
}

/// Standard input holds one case a line; each is printed again with its answer.
fn answer_all(answer: impl Fn(&mut json::Json)) {
    let mut out = BufWriter::new(std::io::stdout().lock());
    for line in std::io::stdin().lock().lines() {
        let mut case = json::Json::read(&line.unwrap_or_else(|why| fail(&why.to_string())));
        answer(&mut case);
        if writeln!(out, "{case}").is_err() {
            return; // whoever read the answers has gone
        }
    }
}

/// Standard input holds records; the record program's lines are printed.
fn answer_records() {
    let mut input = vec![];
    if let Err(why) = std::io::stdin().read_to_end(&mut input) {
        fail(&why.to_string());
    }
    let _ = std::io::stdout().write_all(records::lines(&input).as_bytes()); // whoever reads the lines may have gone
}
