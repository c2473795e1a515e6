//! Many studies by one record: run and filled. Refusals of the whole call, which are
//! reading's and 27, refused studies between sound ones, and what is refused in every
//! entry.

use super::altered::{
    alter_lanes, alter_law, alter_length, alter_numbers, alter_record, entry, named_cells, near,
};
use super::case::{LawInput, MAX_LANES, MAX_LIST, MAX_RECORD};
use super::cells::STYLES;
use super::closures;
use super::dice::Dice;
use super::list::table_length;
use super::roads;
use super::samples;
use super::stretches::{cells_in, some_laws, Laws};
use super::versions;
use reference::draft::Draft;
use reference::many::ENTRY;
use reference::model::Road;
use reference::record;

const RANDOM: usize = 160;

/// Tables of arrivals for one record. The list is lent with `length` numbers, the answers
/// with `room`.
#[derive(Clone, Debug, PartialEq, Eq)]
pub struct Batch {
    /// Filled by these laws; run without them.
    pub laws: Option<Box<Laws>>,
    pub lanes: Vec<u8>,
    pub arrivals: Vec<u32>,
    pub length: usize,
    pub room: usize,
    pub record: Vec<u8>,
}

impl Batch {
    /// The operation by its name.
    pub fn kind(&self) -> &'static str {
        match self.laws {
            None => "run-many",
            Some(_) => "fill-many",
        }
    }

    /// Changes it in one way.
    pub fn alter(&mut self, dice: &mut Dice) {
        let i = entry(named_cells(&self.record), dice);
        match (dice.upto(9), &mut self.laws) {
            (0, _) => alter_length(&mut self.length, MAX_LIST, dice),
            (1, _) => alter_length(&mut self.room, MAX_LIST, dice),
            (2, _) => alter_lanes(&mut self.lanes, dice),
            (3, Some(laws)) => alter_law(&mut laws[i], dice),
            (3..=6, _) => alter_numbers(&mut self.arrivals, MAX_LIST, dice),
            _ => alter_record(&mut self.record, dice),
        }
    }
}

/// All of fixed seeds and by hand.
pub fn all() -> Vec<Batch> {
    let mut dice = Dice::new(32);
    let mut all = Vec::new();
    counts(&mut all, &mut dice);
    whole_call(&mut all, &mut dice);
    every_entry(&mut all, &mut dice);
    between(&mut all, &mut dice);
    releases(&mut all, &mut dice);
    for k in 0..RANDOM {
        all.push(random(k, &mut dice));
    }
    largest(&mut all, &mut dice);
    for batch in &all {
        assert!(batch.record.len() <= MAX_RECORD && batch.lanes.len() <= MAX_LANES);
        let counts = [batch.arrivals.len(), batch.length, batch.room];
        assert!(counts.iter().all(|&count| count <= MAX_LIST), "{counts:?}");
    }
    all
}

/// The arrivals of a record's rows, as a table.
fn table_of(bytes: &[u8], n: usize, steps: usize) -> Vec<u32> {
    let rows = (0..steps).map(|t| record::row(bytes, n, t));
    rows.flat_map(|row| {
        let ramps: Vec<u32> = row[1..].iter().step_by(2).copied().collect();
        [vec![row[0]], ramps].concat()
    })
    .collect()
}

fn own_table(draft: &Draft) -> Vec<u32> {
    table_of(&draft.encode(), draft.cells.len(), draft.rows.len())
}

/// Laws for a record's ramps.
fn laws_for(record: &[u8], dice: &mut Dice) -> Box<Laws> {
    Box::new(some_laws(&cells_in(record), dice))
}

/// A draft run and filled with tables, with room for everything.
fn both_ways(all: &mut Vec<Batch>, draft: &Draft, tables: &[Vec<u32>], dice: &mut Dice) {
    let run = Batch {
        laws: None,
        lanes: vec![],
        arrivals: tables.concat(),
        length: table_length(draft),
        room: tables.len() * ENTRY,
        record: draft.encode(),
    };
    push_both(all, run, dice);
}

/// A batch as it is, and the same filled.
fn push_both(all: &mut Vec<Batch>, batch: Batch, dice: &mut Dice) {
    let laws = Some(laws_for(&batch.record, dice));
    all.push(batch.clone());
    all.push(Batch { laws, ..batch });
}

/// No study, one and several, in both versions, with room beyond the last entry.
fn counts(all: &mut Vec<Batch>, dice: &mut Dice) {
    for sample in [samples::printed, samples::three_cells] {
        for count in [0, 1, 2, 5] {
            for draft in [sample(), sample().timed(20)] {
                let tables = vec![own_table(&draft); count];
                both_ways(all, &draft, &tables, dice);
                let more = dice.between(1, 80) as usize;
                let batch = Batch {
                    laws: None,
                    lanes: vec![],
                    arrivals: tables.concat(),
                    length: table_length(&draft) + more,
                    room: count * ENTRY + more,
                    record: draft.encode(),
                };
                push_both(all, batch, dice);
            }
        }
    }
}

type Change = fn(&mut Draft);

/// Reading's refusals of the record as given, 27 for the arrivals and 27 for the answers,
/// alone and together.
fn whole_call(all: &mut Vec<Batch>, dice: &mut Dice) {
    let changes: [Change; 11] = [
        |_| (),
        |d| d.length = Some(0),
        |d| d.cut = 172 - 15,
        |d| d.version = 3,
        |d| d.n = 0,
        |d| d.steps = 1_441,
        |d| (d.version, d.seconds) = (2, Some(0)),
        |d| d.extra = 1,
        |d| d.cells[1].held = 8_001,
        // Arrivals that every table replaces are read all the same.
        |d| d.rows[1][0] = 1_000_001,
        |d| d.rows[2][6] = 1_000_001,
    ];
    let own = own_table(&samples::three_cells()).repeat(3);
    for change in changes {
        let mut draft = samples::three_cells();
        change(&mut draft);
        for (count, room) in [
            (36, 3 * ENTRY),
            (35, 3 * ENTRY),
            (37, 4 * ENTRY),
            (13, 0),
            (1, 0),
            (36, 3 * ENTRY - 1),
            (24, ENTRY),
            (12, 0),
            (0, 0),
        ] {
            let mut arrivals = own.clone();
            arrivals.resize(count, 7);
            let batch = Batch {
                laws: None,
                lanes: vec![],
                arrivals,
                length: 12,
                room,
                record: draft.encode(),
            };
            push_both(all, batch, dice);
        }
    }
}

/// Refusals 16, 17, 18 and 11, which each study has for itself; a table that reading
/// refuses comes before them.
fn every_entry(all: &mut Vec<Batch>, dice: &mut Dice) {
    let draft = samples::three_cells();
    let own = own_table(&draft);
    let mut six = own.clone();
    six[4] = 1_000_001;
    let mut spoilt = [1; 12];
    spoilt[10] = 2;
    for lanes in [&spoilt[..11], &spoilt[..], &[1; 12][..], &[3; 13][..], &[]] {
        for length in [0, 11, 12, 15] {
            for not_finite in [false, true] {
                let batch = Batch {
                    laws: None,
                    lanes: lanes.to_vec(),
                    arrivals: [&own[..], &six, &own].concat(),
                    length,
                    room: 3 * ENTRY + 1,
                    record: draft.encode(),
                };
                push_both(all, batch, dice);
                if let (true, Some(laws)) = (
                    not_finite,
                    all.last_mut().and_then(|batch| batch.laws.as_mut()),
                ) {
                    laws[2] = LawInput::new(0, [f64::INFINITY; 3]);
                }
            }
        }
    }
}

/// Sets a number of a table for three cells and three steps.
type Set = fn(&mut [u32]);

/// Tables that reading refuses at each step, by the number or by a cell without a ramp;
/// the greatest arrivals pass.
const TABLES: [Set; 9] = [
    |t| t[0] = 1_000_001,
    |t| t[4] = u32::MAX,
    |t| t[11] = 1_000_001,
    |t| t[2] = 1,
    |t| t[10] = 1,
    |t| (t[0], t[11]) = (1_000_001, 1_000_001),
    |t| t[0] = 1_000_000,
    |t| (t[5], t[11]) = (1_000_000, 1_000_000),
    |t| t.fill(0),
];

/// A refused study first, last, and between sound ones.
fn between(all: &mut Vec<Batch>, dice: &mut Dice) {
    let draft = samples::three_cells();
    let own = own_table(&draft);
    for set in TABLES {
        let mut other = own.clone();
        set(&mut other);
        let mut less = own.clone();
        less.iter_mut().for_each(|number| *number /= 3);
        for tables in [
            [other.clone(), own.clone(), less.clone()],
            [less.clone(), other.clone(), own.clone()],
            [own.clone(), less, other],
        ] {
            both_ways(all, &draft, &tables, dice);
        }
    }
}

/// Releases that arrivals allow in one study and not in another: 9 in each step. The
/// list keeps the rows of the study before.
fn releases(all: &mut Vec<Batch>, dice: &mut Dice) {
    for step in 0..3 {
        let mut draft = samples::three_cells();
        (draft.cells[0].queue, draft.cells[2].queue) = (0, 0);
        for row in &mut draft.rows {
            (row[1], row[2], row[5], row[6]) = (150, 100, 110, 110);
        }
        let own = own_table(&draft);
        let mut few = own.clone();
        few[4 * step + 1] = 0;
        let mut none = own.clone();
        none[4 * step + 3] = 109;
        for tables in [
            [own.clone(), few.clone(), none.clone()],
            [none, own.clone(), few],
        ] {
            both_ways(all, &draft, &tables, dice);
            let last = all.len() - 2;
            all[last].lanes = closures::random_table(3, 3, dice);
        }
    }
}

/// A table near a record's own, or one of other arrivals.
fn random_table(k: usize, n: usize, own: &[u32], ramps: &[u16], dice: &mut Dice) -> Vec<u32> {
    let mut table = own.to_vec();
    let at = dice.upto(own.len() as u64 - 1) as usize;
    match dice.upto(7) {
        0 => {}
        1 => table[at] = near(table[at], dice),
        2 => table[at] = dice.any_size(u64::from(Road::MAX_RATE)) as u32,
        3 => table.iter_mut().for_each(|number| *number /= 2),
        4 => table.fill(0),
        _ => {
            let style = STYLES[k % STYLES.len()];
            for (place, number) in table.iter_mut().enumerate() {
                let place = place % (n + 1);
                if place == 0 || ramps[place - 1] == 1 {
                    *number = style.arrivals(place == 0, dice);
                }
            }
        }
    }
    table
}

/// A road and up to six tables for it, mostly with room for all answers.
pub fn random(k: usize, dice: &mut Dice) -> Batch {
    let trial = match dice.upto(9) {
        0 => roads::random_road(1, STYLES[k % STYLES.len()], dice),
        _ => closures::random_trial(k, dice),
    };
    let road = record::read(&trial.record).road;
    let own = table_of(&trial.record, trial.n, trial.steps);
    let count = dice.upto((MAX_LIST / own.len()).min(6) as u64) as usize;
    let tables: Vec<Vec<u32>> = (0..count)
        .map(|_| random_table(k, trial.n, &own, &road.ramp, dice))
        .collect();
    let mut arrivals = tables.concat();
    if dice.one_in(20) {
        alter_numbers(&mut arrivals, MAX_LIST, dice);
    }
    let room = count * ENTRY;
    let length = roads::list_length(trial.table(), dice);
    let record = match dice.one_in(3) {
        true => versions::timed(&trial.record, dice.between(1, 900) as u16),
        false => trial.record,
    };
    Batch {
        laws: dice.one_in(2).then(|| laws_for(&record, dice)),
        lanes: trial.lanes,
        arrivals,
        length,
        room: match dice.upto(14) {
            0 => room.saturating_sub(1),
            1 | 2 => room + dice.between(1, 100) as usize,
            _ => room,
        },
        record,
    }
}

/// The widest road, the most steps, and as many studies as a list holds.
fn largest(all: &mut Vec<Batch>, dice: &mut Dice) {
    for (n, steps, count) in [
        (64, 3, 20),
        (64, 124, 1),
        (1, 1_440, 3),
        (1, 1, MAX_LIST / ENTRY),
    ] {
        let mut draft = samples::even(n, steps);
        draft.cells[n - 1].ramp = 1;
        draft.cells[n - 1].queue = 400;
        let own = own_table(&draft);
        let ramps: Vec<u16> = draft.cells.iter().map(|cell| cell.ramp).collect();
        let tables: Vec<Vec<u32>> = (0..count)
            .map(|k| random_table(k, n, &own, &ramps, dice))
            .collect();
        both_ways(all, &draft, &tables, dice);
    }
}
