//! The states that a schedule produces, step by step.

use reference::judge;
use reference::lanes;
use reference::model::{self, Road, State};
use reference::record;
use reference::run;
use reference::step;

/// The steps that a schedule reaches on a record that reading accepts.
pub struct Walk {
    pub road: Road,
    /// The roads of the steps reached, as their lanes leave them.
    roads: Vec<Road>,
    /// The rows of the steps reached.
    pub rows: Vec<Vec<u32>>,
    /// The states before them.
    pub states: Vec<State>,
}

impl Walk {
    /// `schedule` holds at least the whole table.
    pub fn new(record: &[u8], lanes: &[u8], schedule: &[u32]) -> Walk {
        let reading = record::read(record);
        let road = reading.road;
        let width = road.n + 1;
        let table = &schedule[..reading.steps * width];
        let answer = judge::judge(record, lanes, table);
        let mut walk = Walk {
            road,
            roads: Vec::new(),
            rows: Vec::new(),
            states: Vec::new(),
        };
        let mut state = reading.state;
        for (t, outflows) in table.chunks(width).take(answer.state.steps).enumerate() {
            let row = record::row(record, road.n, t);
            walk.states.push(state);
            walk.roads.push(lanes::road_at(&road, lanes, t));
            state = step::advance(&road, &state, &row, outflows);
            walk.rows.push(row);
        }
        walk
    }

    /// Steps reached.
    pub fn steps(&self) -> usize {
        self.rows.len()
    }

    /// Index of a step and place in a schedule.
    pub fn at(&self, t: usize, place: usize) -> usize {
        t * (self.road.n + 1) + place
    }

    pub fn demand(&self, t: usize, place: usize) -> u64 {
        model::demand(&self.roads[t], &self.states[t], place)
    }

    /// The greatest outflow of every place in a step.
    pub fn greatest(&self, t: usize) -> Vec<u32> {
        step::greatest_outflows(&self.roads[t], &self.states[t], &self.rows[t])
    }
}

/// Whether a record runs through, with ramps, releases and places held by supply.
pub fn complete(record: &[u8], lanes: &[u8]) -> bool {
    let reading = record::read(record);
    let mut list = vec![0; reading.steps * (reading.road.n + 1)];
    if run::run(record, lanes, &mut list).number != 0 {
        return false;
    }
    let walk = Walk::new(record, lanes, &list);
    let n = walk.road.n;
    let released = |row: &Vec<u32>| (1..=n).any(|cell| model::release(row, cell) > 0);
    let held =
        |t: usize| (0..=n).any(|place| u64::from(list[walk.at(t, place)]) < walk.demand(t, place));
    walk.road.ramp[..n].contains(&1)
        && walk.rows.iter().any(released)
        && (0..walk.steps()).any(held)
}
