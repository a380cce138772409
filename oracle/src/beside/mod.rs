//! Runs the proved code beside the crate: in rounds of random cases, and on all that can be gone through in full. Every part draws its
//! cases from numbers of its own, answers each by both, and stops at the first that differs.

mod builds;
mod cases;
mod checks;
mod queries;
mod records;
mod routes;

pub use builds::{Call as Build, Ours};
pub use cases::answer;
pub use queries::Subject;
pub use records::{densest as densest_records, longest as longest_records, ENOUGH};

use crate::fail;
use crate::guard::guard_all;
use crate::meshes::Rng;
use std::collections::BTreeMap;
use std::fmt::Debug;
use std::sync::atomic::{AtomicBool, Ordering::Relaxed};
use std::time::{Duration, Instant};

/// Calls of one kind.
trait Part {
    /// All small cases, and those at the paper's edges.
    fn exhaust(&mut self);
    /// A few random cases.
    fn round(&mut self, numbers: &mut Rng, round: usize);
    fn tally(&self) -> &Tally;
}

/// How many calls there were, and how many over what were answered how.
#[derive(Default)]
struct Tally {
    calls: usize,
    counts: BTreeMap<(&'static str, &'static str), usize>,
}

impl Tally {
    fn add(&mut self, over: &'static str, outcome: &'static str) {
        self.calls += 1;
        self.note(over, outcome);
    }

    /// Counts what is no call.
    fn note(&mut self, over: &'static str, what: &'static str) {
        *self.counts.entry((over, what)).or_default() += 1;
    }

    fn say(&self, name: &str) {
        println!("{name}: {} calls, all agree", self.calls);
        let mut lines: BTreeMap<&str, Vec<String>> = BTreeMap::new();
        for ((over, outcome), count) in &self.counts {
            lines.entry(over).or_default().push(format!("{outcome}: {count}"));
        }
        for (over, mut outcomes) in lines {
            outcomes.sort_by_key(|outcome| outcome.find(':'));
            println!("    {over}: {}", outcomes.join(", "));
        }
    }
}

/// A number as an outcome.
fn refused(number: u64) -> &'static str {
    const NUMBERS: [&str; 26] = [
        "0", "1", "2", "3", "4", "5", "6", "7", "8", "9", "10", "11", "12", "13", "14", "15", "16", "17", "18", "19", "20", "21", "22", "23",
        "24", "25",
    ];
    NUMBERS[number as usize]
}

/// The answer of both to a case; stops where they differ.
fn agree<A: PartialEq + Debug>(case: &dyn Debug, ours: A, theirs: A) -> A {
    if ours != theirs {
        println!("{case:?}\nours {ours:?}\nthe crate's {theirs:?}");
        std::process::exit(1)
    }
    ours
}

const PARTS: [&str; 5] = ["builds", "checks", "queries", "routes", "records"];

fn part(name: &str) -> Box<dyn Part> {
    match name {
        "builds" => Box::<builds::Builds>::default(),
        "checks" => Box::<checks::Checks>::default(),
        "queries" => Box::<queries::Queries>::default(),
        "routes" => Box::<routes::Routes>::default(),
        "records" => Box::<records::Records>::default(),
        _ => fail(&format!("there is no part {name}; there are {}", PARTS.join(", "))),
    }
}

const USAGE: &str = "usage: oracle/beside [--seed S] [--count ROUNDS | --minutes M | --until-stopped] [--exhaust] [--guarded] [PART ..]";

/// What is asked for on the command line.
struct Options {
    seed: u64,
    rounds: usize,
    time: Duration,
    exhaust: bool,
    parts: Vec<&'static str>,
}

impl Options {
    fn of(words: &[&str]) -> Options {
        let mut options = Options { seed: 1, rounds: 100_000, time: Duration::MAX, exhaust: false, parts: vec![] };
        let mut words = words.iter();
        while let Some(&word) = words.next() {
            let mut number = || words.next().and_then(|word| word.parse::<u64>().ok()).unwrap_or_else(|| fail(USAGE));
            match word {
                "--seed" => options.seed = number(),
                "--count" => options.rounds = number() as usize,
                "--minutes" => (options.rounds, options.time) = (usize::MAX, Duration::from_secs(60 * number())),
                "--until-stopped" => options.rounds = usize::MAX,
                "--exhaust" => options.exhaust = true,
                "--guarded" => guard_all(),
                _ => options.parts.extend(PARTS.iter().find(|part| **part == word).or_else(|| fail(USAGE))),
            }
        }
        if options.parts.is_empty() {
            options.parts.extend(PARTS);
        }
        options
    }
}

/// A part at work: its numbers, and how long it took.
struct Running {
    name: &'static str,
    part: Box<dyn Part>,
    numbers: Rng,
    taken: Duration,
}

impl Running {
    fn work(&mut self, work: impl FnOnce(&mut dyn Part, &mut Rng)) {
        let start = Instant::now();
        work(&mut *self.part, &mut self.numbers);
        self.taken += start.elapsed();
    }

    fn progress(&self) -> String {
        let calls = self.part.tally().calls;
        format!("{} {calls} ({:.0} a second)", self.name, calls as f64 / self.taken.as_secs_f64())
    }
}

/// Set when the process is told to stop: the round is finished, and what was run is said.
static STOPPED: AtomicBool = AtomicBool::new(false);

fn stop_when_told() {
    extern "C" fn stop(_: i32) {
        STOPPED.store(true, Relaxed);
    }
    extern "C" {
        fn signal(number: i32, handler: extern "C" fn(i32)) -> usize;
    }
    const INTERRUPTED: i32 = 2;
    const TERMINATED: i32 = 15;
    for number in [INTERRUPTED, TERMINATED] {
        unsafe { signal(number, stop) };
    }
}

/// Rounds as asked for, with a line on the way now and then.
pub fn run(words: &[&str]) {
    const BETWEEN_LINES: Duration = Duration::from_secs(10);
    let Options { seed, rounds, time, exhaust, parts } = Options::of(words);
    let running = |name: &&'static str| Running { name, part: part(name), numbers: Rng(seed), taken: Duration::ZERO };
    let mut parts: Vec<Running> = parts.iter().map(running).collect();
    stop_when_told();
    let start = Instant::now();
    if exhaust {
        for running in &mut parts {
            running.work(|part, _| part.exhaust());
            eprintln!("all small cases, {} s: {}", start.elapsed().as_secs(), running.progress());
        }
    }
    let (mut round, mut said) = (0, Instant::now());
    while round < rounds && start.elapsed() < time && !STOPPED.load(Relaxed) {
        for running in &mut parts {
            running.work(|part, numbers| part.round(numbers, round));
        }
        round += 1;
        if said.elapsed() > BETWEEN_LINES {
            said = Instant::now();
            let progress: Vec<String> = parts.iter().map(Running::progress).collect();
            eprintln!("seed {seed}, {round} rounds, {} s: {}", start.elapsed().as_secs(), progress.join(", "));
        }
    }
    println!("seed {seed}, {round} rounds{}, {:.0} s", if exhaust { " after all small cases" } else { "" }, start.elapsed().as_secs_f64());
    for running in &parts {
        running.part.tally().say(running.name);
        println!("    {}", running.progress());
    }
}
