//! A random road with rows whose releases fit, and a schedule for it.

use super::cells::Style;
use super::dice::Dice;
use reference::draft::Draft;
use reference::lanes;
use reference::model::{self, Road, State};
use reference::record;
use reference::run;
use reference::step;

/// A record and a schedule.
pub struct Trial {
    pub record: Vec<u8>,
    /// The table of lanes, empty if all are open.
    pub lanes: Vec<u8>,
    pub n: usize,
    pub steps: usize,
    /// Obeys the rules in its own states, up to a refused release if there is
    /// one. Later rows are anything.
    pub schedule: Vec<u32>,
}

/// How a schedule stays below the greatest outflows of its own states.
#[derive(Clone, Copy)]
pub enum Hold {
    /// Not at all: the run's own rows.
    Nothing,
    /// To this many thousandths.
    Scaled(u64),
    /// Anywhere from 0.
    Random,
    /// Now and then a place sends nothing.
    Seldom,
    /// Nothing moves before this step.
    Until(usize),
}

/// What is made of a road.
pub struct Plan {
    pub style: Style,
    pub steps: usize,
    pub hold: Hold,
    /// A step in which some release is one too great, if a ramp allows it.
    pub fault: Option<usize>,
    /// The table of lanes that the rows are made for.
    pub lanes: Vec<u8>,
}

impl Trial {
    fn new(draft: &Draft, lanes: Vec<u8>, schedule: Vec<u32>) -> Trial {
        Trial {
            record: draft.encode(),
            lanes,
            n: draft.cells.len(),
            steps: draft.rows.len(),
            schedule,
        }
    }

    /// Length of its table.
    pub fn table(&self) -> usize {
        self.steps * (self.n + 1)
    }
}

impl Hold {
    fn outflows(self, t: usize, greatest: Vec<u32>, dice: &mut Dice) -> Vec<u32> {
        let mut one = |q: u32| match self {
            Hold::Nothing => q,
            Hold::Scaled(share) => (u64::from(q) * share / 1_000) as u32,
            Hold::Random => dice.between(0, q),
            Hold::Seldom => q * u32::from(!dice.one_in(6)),
            Hold::Until(first) => q * u32::from(t >= first),
        };
        greatest.into_iter().map(&mut one).collect()
    }
}

/// The road and the state before step 0 of a draft without rows.
pub fn start(draft: &Draft) -> (Road, State) {
    let n = draft.cells.len();
    let mut with_row = draft.clone();
    with_row.rows = vec![vec![0; 1 + 2 * n]];
    with_row.steps = 1;
    let reading = record::read(&with_row.encode());
    assert_eq!(reading.number, 0, "a sound road");
    (reading.road, reading.state)
}

/// Random rows for a road, step by step, so that the releases fit both the run
/// and the schedule.
pub fn make(draft: Draft, plan: &Plan, dice: &mut Dice) -> Trial {
    let (_, start) = start(&draft);
    make_from(draft, start, plan, dice)
}

/// The same for a study that goes on from a state within its limits.
pub fn make_from(mut draft: Draft, from: State, plan: &Plan, dice: &mut Dice) -> Trial {
    let (road, _) = start(&draft);
    let (mut fast, mut slow) = (from, from);
    let mut schedule = Vec::new();
    let mut refused = false;
    for t in 0..plan.steps {
        let road = lanes::road_at(&road, &plan.lanes, t);
        let mut row = fitting_row(plan.style, &road, [&fast, &slow], dice);
        if plan.fault == Some(t) {
            spoil_some(&road, &fast, &mut row, dice);
            refused = step::release_fault(&road, &fast, &row).is_some();
        }
        if refused {
            schedule.extend((0..=road.n).map(|_| dice.bits() as u32));
        } else {
            let most = step::greatest_outflows(&road, &fast, &row);
            fast = step::advance(&road, &fast, &row, &most);
            let most = step::greatest_outflows(&road, &slow, &row);
            let outflows = plan.hold.outflows(t, most, dice);
            slow = step::advance(&road, &slow, &row, &outflows);
            schedule.extend(outflows);
        }
        draft.rows.push(row);
    }
    draft.steps = plan.steps as u16;
    Trial::new(&draft, plan.lanes.clone(), schedule)
}

/// The same row in every step. Its releases are halved until the run is whole.
pub fn make_constant(mut draft: Draft, style: Style, steps: usize, dice: &mut Dice) -> Trial {
    let (road, start) = start(&draft);
    let mut row = fitting_row(style, &road, [&start, &start], dice);
    draft.steps = steps as u16;
    let mut list = vec![0; steps * (road.n + 1)];
    loop {
        draft.rows = vec![row.clone(); steps];
        if run::run(&draft.encode(), &[], &mut list).number == 0 {
            return Trial::new(&draft, vec![], list);
        }
        for cell in 1..=road.n {
            row[2 * cell] /= 2;
        }
    }
}

/// Random arrivals, and releases that fit both states.
pub fn fitting_row(style: Style, road: &Road, states: [&State; 2], dice: &mut Dice) -> Vec<u32> {
    let manner = dice.upto(7);
    let mut row = vec![style.arrivals(true, dice)];
    for cell in 1..=road.n {
        if road.ramp[cell - 1] == 0 {
            row.extend([0, 0]);
            continue;
        }
        row.push(style.arrivals(false, dice));
        let most = states.map(|state| most_released(road, state, &row, cell));
        row.push(release(manner, most[0].min(most[1]), dice) as u32);
    }
    row
}

/// None, all, half of it, a little, or a mixture from cell to cell.
fn release(manner: u64, most: u64, dice: &mut Dice) -> u64 {
    match manner {
        0 => 0,
        1 => most,
        2 => most / 2,
        3 | 4 => dice.upto(most.min(most / 8 + 1)),
        _ => {
            let manner = dice.upto(4);
            match manner {
                4 => dice.upto(most),
                _ => release(manner, most, dice),
            }
        }
    }
}

/// The greatest release that refusals 9 and 10 allow.
fn most_released(road: &Road, state: &State, row: &[u32], cell: usize) -> u64 {
    model::supply(road, state, cell).min(model::waiting(state, row, cell))
}

/// Makes one release or two of them one too great.
pub fn spoil_some(road: &Road, state: &State, row: &mut [u32], dice: &mut Dice) {
    for _ in 0..dice.between(1, 2) {
        spoil(road, state, row, dice);
    }
}

/// Makes one release one too great, by the queue or by the supply, if some
/// ramp allows that.
fn spoil(road: &Road, state: &State, row: &mut [u32], dice: &mut Dice) {
    let by_queue = |cell: usize| model::waiting(state, row, cell) + 1;
    let by_supply = |cell: usize| model::supply(road, state, cell) + 1;
    let ramps: Vec<usize> = (1..=road.n)
        .filter(|&cell| road.ramp[cell - 1] == 1)
        .collect();
    let limit = u64::from(Road::MAX_RATE);
    let nines: Vec<(usize, u64)> = ramps
        .iter()
        .map(|&cell| (cell, by_queue(cell)))
        .filter(|&(_, release)| release <= limit)
        .collect();
    let tens: Vec<(usize, u64)> = ramps
        .iter()
        .map(|&cell| (cell, by_supply(cell)))
        .filter(|&(cell, release)| release < by_queue(cell) && release <= limit)
        .collect();
    let choices = match (nines.is_empty(), tens.is_empty()) {
        (true, true) => return,
        (false, true) => nines,
        (true, false) => tens,
        (false, false) if dice.one_in(2) => nines,
        (false, false) => tens,
    };
    let (cell, release) = dice.pick(&choices);
    row[2 * cell] = release as u32;
}
