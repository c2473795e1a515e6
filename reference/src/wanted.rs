//! Releases for a wanted queue, refusal 23.
//!
//! A table obeys if no release exceeds the rate or queue plus arrivals, and the queue
//! after each step is at or under the ceiling. The one wanted has the least running sum
//! after every step. If there are few tables, all of them are searched; otherwise it
//! is computed.

use crate::model::Road;

/// Most tables that are searched.
const FEW: u64 = 4_096;

/// What is asked of a ramp.
#[derive(Clone, Copy, Debug, PartialEq, Eq)]
pub struct Asked<'a> {
    /// The queue before step 0.
    pub start: u32,
    /// The greatest queue after a step.
    pub ceiling: u32,
    /// The greatest release in a step.
    pub rate: u32,
    /// In parts a step.
    pub arrivals: &'a [u32],
}

/// The result of the search for releases.
#[derive(Clone, Copy, Debug, PartialEq, Eq)]
pub enum Wanted {
    /// Refusal 23.
    Refused,
    /// No table obeys.
    NoTable,
    /// The table has them.
    Found,
}

/// Puts the wanted releases into a lent table, which is unchanged if there are none.
pub fn wanted(asked: Asked, table: &mut [u32]) -> Wanted {
    if !fits(asked, table.len()) {
        return Wanted::Refused;
    }
    let found = match are_few(asked) {
        true => searched(asked),
        false => worked_out(asked),
    };
    match found {
        Some(releases) => {
            table.copy_from_slice(&releases);
            Wanted::Found
        }
        None => Wanted::NoTable,
    }
}

/// Not refused: 1 to 1,440 steps, lists of one length, numbers within their limits.
fn fits(asked: Asked, length: usize) -> bool {
    (1..=Road::MAX_STEPS).contains(&asked.arrivals.len())
        && asked.arrivals.len() == length
        && asked.rate <= Road::MAX_RATE
        && asked.arrivals.iter().all(|&x| x <= Road::MAX_RATE)
        && asked.start <= Road::MAX_START_QUEUE
        && asked.ceiling <= Road::MAX_START_QUEUE
}

/// Whether the tables of releases up to the rate can be searched.
pub fn are_few(asked: Asked) -> bool {
    let choices = u64::from(asked.rate) + 1;
    let steps = asked.arrivals.len() as u32;
    choices.checked_pow(steps).is_some_and(|count| count <= FEW)
}

/// Whether a table obeys, step by step.
pub fn obeys(asked: Asked, table: &[u32]) -> bool {
    let mut queue = u64::from(asked.start);
    for (&arrivals, &release) in asked.arrivals.iter().zip(table) {
        let waiting = queue + u64::from(arrivals);
        if release > asked.rate || u64::from(release) > waiting {
            return false;
        }
        queue = waiting - u64::from(release);
        if queue > u64::from(asked.ceiling) {
            return false;
        }
    }
    true
}

/// By search of every table whose releases are at most the rate.
pub fn searched(asked: Asked) -> Option<Vec<u32>> {
    let all = all_tables(asked.rate, asked.arrivals.len());
    let obeying: Vec<_> = all.into_iter().filter(|x| obeys(asked, x)).collect();
    let sums = obeying.iter().map(|table| running_sums(table));
    let least = sums.reduce(|a, b| a.iter().zip(&b).map(|(x, y)| *x.min(y)).collect())?;
    let found = obeying.into_iter().find(|x| running_sums(x) == least);
    Some(found.expect("one table is the least after every step"))
}

/// Every table of this many steps with releases up to the rate.
fn all_tables(rate: u32, steps: usize) -> Vec<Vec<u32>> {
    let mut tables = vec![vec![]];
    for _ in 0..steps {
        let longer = |table: &Vec<u32>, release| [&table[..], &[release]].concat();
        tables = tables
            .iter()
            .flat_map(|table| (0..=rate).map(move |release| longer(table, release)))
            .collect();
    }
    tables
}

/// A list's sums from its first number to each.
pub fn running_sums(numbers: &[u32]) -> Vec<u64> {
    let mut sum = 0;
    let add = |&number: &u32| {
        sum += u64::from(number);
        sum
    };
    numbers.iter().map(add).collect()
}

/// By what must have left after each step. That is what is above the ceiling, and what
/// later steps can't release at the full rate. It can't be more than has arrived.
pub fn worked_out(asked: Asked) -> Option<Vec<u32>> {
    let (start, ceiling) = (u64::from(asked.start), u64::from(asked.ceiling));
    let rate = u64::from(asked.rate);
    let come: Vec<u64> = running_sums(asked.arrivals)
        .into_iter()
        .map(|arrived| start + arrived)
        .collect();
    let mut gone: Vec<u64> = come.iter().map(|x| x.saturating_sub(ceiling)).collect();
    for t in (1..gone.len()).rev() {
        gone[t - 1] = gone[t - 1].max(gone[t].saturating_sub(rate));
    }
    if gone[0] > rate || gone.iter().zip(&come).any(|(gone, come)| gone > come) {
        return None;
    }
    let before = [0].iter().chain(&gone);
    let releases = gone
        .iter()
        .zip(before)
        .map(|(after, before)| after - before);
    Some(releases.map(|release| release as u32).collect())
}
