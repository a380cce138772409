//! Cases as text, answered by the proved code.

use super::builds::{Call as Build, Ours};
use super::queries::Subject;
use crate::answer::{no_answer, set_answered, set_built, Asked, Lent};
use crate::json::Json;
use crate::lent::{build_scratch, Columns, Hierarchy};
use crate::tables::Tables;

/// As `answer::answer`, which has the crate's.
pub fn answer(case: &mut Json) {
    match case.get("kind").word() {
        "build" => build(case),
        "check" => case.set("number", Json::Number(Hierarchy::of(&Tables::of(case)).check() as u64)),
        "query" => {
            let subject = Subject::new(Tables::of(case), None);
            set_answered(case, subject.answer(Asked::of(case)))
        }
        kind => no_answer(case, &format!("the library has no call for a {kind}")),
    }
}

fn build(case: &mut Json) {
    let column = |json: &Json| json.ids().into_iter().map(|number| number as u32).collect::<Vec<u32>>();
    let links = case.get("links");
    let [tails, heads, weights] = ["from", "to", "weight"].map(|name| column(links.get(name)));
    let lent = Lent::of(case);
    let n = case.get("nodes").id();
    let call = Build {
        links: Columns { n, tails, heads, weights },
        order: column(case.get("order")),
        limit: case.get("limit").id() as u32,
        lent,
        scratch: build_scratch(n, lent.pool),
    };
    let mut ours = Ours::filled(&call, case.get("filled_with").id() as u32);
    let number = ours.build(&call);
    let entries = if number == 0 { ours.entries(n) } else { [0, 0] };
    set_built(case, number as u64, entries.map(|count| count as u64), &ours.places());
}
