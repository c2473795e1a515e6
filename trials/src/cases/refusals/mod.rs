//! Group 2: refusals 1 to 6 and 9 to 14, each at its bound and one past it.

mod fields;
mod frames;
mod pairs;
mod releases;
mod rows;
mod schedules;

use super::list::Cases;

pub fn add(cases: &mut Cases) {
    // Refusals 1 to 4.
    frames::add(cases);
    // Refusal 5.
    fields::add(cases);
    // Refusal 6.
    rows::add(cases);
    // Refusals 9 to 11.
    releases::add(cases);
    // Refusals 12 to 14.
    schedules::add(cases);
    // Two faults at once.
    pairs::add(cases);
}
