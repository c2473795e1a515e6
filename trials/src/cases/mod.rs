//! Cases for any implementation. `all_cases` has each edge by hand, and
//! random roads of fixed seeds; `source` gives cases without end.

pub mod batches;
pub mod case;
pub mod dice;
pub mod joins;
pub mod list;
pub mod loads;
pub mod puts;
pub mod source;
pub mod streets;
pub mod stretches;
pub mod wanted_queues;
pub mod within;

mod altered;
mod cells;
mod closed_steps;
mod closures;
mod edges;
mod judged;
mod leaves;
mod meters;
mod random;
mod refusals;
mod roads;
mod rows;
mod samples;
mod steps;
mod sweep;
mod trial;
mod versions;
mod walk;
mod weights;
mod writes;

use case::Case;
use list::Cases;

/// All cases, group by group.
pub fn all_cases() -> Vec<Case> {
    let mut cases = Cases::default();
    // Group 1: the document's edges.
    edges::add(&mut cases);
    // Group 2: refusals 1 to 6 and 9 to 14, at the bounds and in pairs.
    refusals::add(&mut cases);
    // Group 3: single steps, refusals 7 to 10.
    steps::add(&mut cases);
    // Group 4: random roads, run.
    let trials = roads::add(&mut cases);
    // Group 5: schedules over those roads, judged.
    judged::add(&mut cases, &trials);
    // Group 6: records written, and the numbers of rows.
    writes::add(&mut cases);
    // Group 7: meter laws, alone and filling records.
    leaves::add(&mut cases);
    meters::add(&mut cases);
    // Group 8: lanes closed, refusals 17 and 18.
    closed_steps::add(&mut cases);
    closures::add(&mut cases);
    // Group 9: version 2, refusal 19.
    versions::add(&mut cases, &trials);
    // Group 10: all rows of a record in one list.
    rows::add(&mut cases, &trials);
    // Group 11: runs weighted, and weighted present.
    weights::add(&mut cases, &trials);
    // Group 12: arrivals from a seed and a peak, refusal 25.
    loads::add(&mut cases);
    // Group 13: releases for a wanted queue, refusal 23.
    wanted_queues::add(&mut cases);
    // Group 14: the grants of a street, refusal 24, and a release put into a record.
    streets::add(&mut cases);
    puts::add(&mut cases, &trials);
    // Group 15: two roads joined, refusals 20 to 22.
    joins::add(&mut cases, &trials);
    // Group 16: a caller with its own limits, refusal 26.
    within::add(&mut cases, &trials);
    // Group 17: studies that go on from a state, and many studies by one record.
    let stretches = stretches::all().into_iter().map(Box::new);
    cases.list.extend(stretches.map(Case::On));
    let batches = batches::all().into_iter().map(Box::new);
    cases.list.extend(batches.map(Case::Many));
    cases.list
}
