//! Part of group 7: records filled by meter laws. Refusals 1 to 6, 16 and 11,
//! and random roads.

use super::case::{FillInput, LawInput};
use super::cells::{with_ramp, Style, STYLES};
use super::dice::Dice;
use super::list::{table_length, Cases};
use super::samples;
use reference::draft::{CellDraft, Draft};
use reference::lanes_text;
use reference::laws;
use reference::model::Road;
use reference::record;

/// Random roads to be filled, and those whose laws have odd numbers.
const RANDOM: usize = 360;
const ODD: usize = 60;

/// The road of `examples/` and the laws that its page fills it by.
const ROCADE_SUD: &[u8] = include_bytes!("../../../examples/rocade-sud.rec");
const ROCADE_SUD_LAWS: [&str; 4] = [
    include_str!("../../../examples/rocade-sud-open.laws.txt"),
    include_str!("../../../examples/rocade-sud-fixed.laws.txt"),
    include_str!("../../../examples/rocade-sud-alinea.laws.txt"),
    include_str!("../../../examples/rocade-sud-demand-capacity.laws.txt"),
];

const ROCADE_SUD_WORKS: &str = include_str!("../../../examples/rocade-sud-works.lanes.txt");

type Laws = [LawInput; Road::MAX_CELLS];

pub fn add(cases: &mut Cases) {
    let mut dice = Dice::new(8);
    printed(cases);
    frames(cases);
    fields(cases);
    not_finite(cases);
    ignored(cases);
    several(cases);
    lists(cases);
    caps(cases);
    for k in 0..RANDOM {
        cases.fill(&random(k, common_law, &mut dice));
    }
    for k in 0..ODD {
        cases.fill(&random(k, odd_law, &mut dice));
    }
    wide(cases, &mut dice);
    rocade_sud(cases);
}

fn fixed(rate: f64) -> LawInput {
    LawInput::new(0, [rate, 0.0, 0.0])
}

fn alinea(gain: f64, target: f64) -> LawInput {
    LawInput::new(1, [gain, target, 0.0])
}

fn demand_capacity(capacity: f64, critical: f64, least: f64) -> LawInput {
    LawInput::new(2, [capacity, critical, least])
}

/// A draft with a list of just its table's length.
fn input(draft: &Draft, laws: Laws) -> FillInput {
    FillInput {
        laws,
        length: table_length(draft),
        lanes: vec![],
        record: draft.encode(),
    }
}

/// Laws for the three cells of the sample; cell 2 has no ramp.
fn three_laws() -> Laws {
    let mut laws = [fixed(0.0); Road::MAX_CELLS];
    laws[0] = alinea(0.25, 2_100.5);
    laws[1] = fixed(f64::NAN);
    laws[2] = demand_capacity(700.75, 6_100.0, 90.5);
    laws
}

/// The document's input by each law, at its own numbers.
fn printed(cases: &mut Cases) {
    for law in [
        fixed(300.0),
        fixed(0.0),
        fixed(-0.0),
        fixed(299.999),
        fixed(-1.0),
        fixed(1e9),
        alinea(0.1, 4_500.0),
        alinea(1.0, 3_999.5),
        alinea(0.0, 0.0),
        alinea(0.5, -4_000.0),
        alinea(1e300, 1e10),
        demand_capacity(1_000.0, 4_000.0, 50.0),
        demand_capacity(1_000.9, 3_999.0, 50.9),
        demand_capacity(700.0, 4_000.0, 50.0),
        demand_capacity(100.0, 4_000.0, 50.0),
    ] {
        cases.fill(&input(&samples::printed(), [law; Road::MAX_CELLS]));
    }
}

type Change = fn(&mut Draft);

fn changed(cases: &mut Cases, changes: &[Change]) {
    for change in changes {
        let mut draft = samples::three_cells();
        change(&mut draft);
        cases.fill(&input(&draft, three_laws()));
    }
}

/// Refusals 1 to 4, as in reading.
fn frames(cases: &mut Cases) {
    cases.fill(&FillInput {
        laws: three_laws(),
        length: 12,
        lanes: vec![],
        record: vec![],
    });
    changed(
        cases,
        &[
            |_| (),
            |d| d.cut = 172 - 15,
            |d| d.length = Some(7),
            |d| d.version = 3,
            |d| d.n = 0,
            |d| d.n = 65,
            |d| d.steps = 0,
            |d| d.steps = 1_441,
            |d| d.extra = 1,
            |d| d.cut = 4,
        ],
    );
}

/// Refusals 5 and 6. The releases that filling would put over are read too.
fn fields(cases: &mut Cases) {
    changed(
        cases,
        &[
            |d| d.gate_capacity = 1_000_001,
            |d| d.cells[1].held = 8_001,
            |d| d.cells[2].b = 1,
            |d| d.cells[0].ramp = 0,
            |d| d.rows[1][0] = 1_000_001,
            |d| d.rows[2][5] = 1_000_001,
            |d| d.rows[1][3] = 1,
            |d| d.rows[2][4] = 1,
            |d| d.rows[2][6] = 1_000_001,
            |d| d.rows[0][2] = 1_000_001,
            // These would be 9 or 10 in running.
            |d| d.rows[0][2] = 1_000_000,
            |d| (d.rows[0][6], d.rows[1][6], d.rows[2][6]) = (1_000_000, 999_999, 501),
        ],
    );
}

const NOT_FINITE: [f64; 3] = [f64::NAN, f64::INFINITY, f64::NEG_INFINITY];

/// 16 at each number of each law, at either ramp or both.
fn not_finite(cases: &mut Cases) {
    for number in NOT_FINITE {
        for (kind, slots) in [(0, 1), (1, 2), (2, 3)] {
            for slot in 0..slots {
                let mut numbers = [1.0; 3];
                numbers[slot] = number;
                for cell in [0, 2] {
                    let mut laws = three_laws();
                    laws[cell] = LawInput::new(kind, numbers);
                    cases.fill(&input(&samples::three_cells(), laws));
                }
            }
        }
        let mut laws = three_laws();
        (laws[0], laws[2]) = (fixed(number), fixed(number));
        cases.fill(&input(&samples::three_cells(), laws));
    }
    // The greatest numbers are finite.
    for number in [f64::MAX, f64::MIN] {
        for kind in 0..3 {
            let law = LawInput::new(kind, [number; 3]);
            cases.fill(&input(&samples::three_cells(), [law; Road::MAX_CELLS]));
        }
    }
}

/// Numbers that aren't finite where they are not read: at a cell without a ramp,
/// past cell n, and in what a law doesn't use.
fn ignored(cases: &mut Cases) {
    for number in NOT_FINITE {
        for kind in 0..4 {
            let mut laws = [LawInput::new(kind, [number; 3]); Road::MAX_CELLS];
            laws[0] = LawInput::new(0, [95.5, number, number]);
            laws[2] = LawInput::new(1, [0.5, 6_050.0, number]);
            cases.fill(&input(&samples::three_cells(), laws));
            let mut draft = samples::even(2, 2);
            draft.cells[1] = with_ramp(draft.cells[1], 50);
            laws[1] = LawInput::new(kind.max(3), [70.0, number, number]);
            cases.fill(&input(&draft, laws));
        }
    }
    // The last of 64 cells, without a ramp and with one.
    for ramp in [0, 1] {
        let mut draft = samples::even(64, 1);
        draft.cells[63].ramp = ramp;
        let mut laws = [fixed(1.0); Road::MAX_CELLS];
        laws[63] = alinea(f64::NAN, 0.0);
        cases.fill(&input(&draft, laws));
    }
}

/// 16 together with the other refusals: after 6, before 11.
fn several(cases: &mut Cases) {
    let changes: [Change; 7] = [
        |_| (),
        |d| d.length = Some(0),
        |d| d.version = 3,
        |d| d.steps = 0,
        |d| d.cut = 1,
        |d| d.cells[2].v = 1_001,
        |d| d.rows[2][6] = 1_000_001,
    ];
    for change in changes {
        let mut draft = samples::three_cells();
        change(&mut draft);
        for (law, length) in [
            (fixed(f64::NAN), 12),
            (fixed(f64::NAN), 11),
            (fixed(1.0), 11),
        ] {
            let mut laws = three_laws();
            laws[2] = law;
            let mut both = input(&draft, laws);
            both.length = length;
            cases.fill(&both);
        }
    }
}

/// Lists too short, just long enough and longer.
fn lists(cases: &mut Cases) {
    for length in [0, 1, 11, 12, 13, 40, 9_000] {
        let mut fill = input(&samples::three_cells(), three_laws());
        fill.length = length;
        cases.fill(&fill);
    }
}

/// Each cap alone: queue and arrivals, supply, 1,000,000; and one next to it.
fn caps(cases: &mut Cases) {
    // Ramp 1 has 700 and 80 waiting, ramp 3 700 and 90; supplies 1500 and 500.
    for rate in [499.0, 500.0, 501.0, 779.0, 780.0, 781.0, 1e6, 1e18] {
        cases.fill(&input(
            &samples::three_cells(),
            [fixed(rate); Road::MAX_CELLS],
        ));
    }
    for (queue, arrivals) in [(0, 0), (0, 500), (300, 0), (1_000_000_000, 1_000_000)] {
        let mut draft = samples::three_cells();
        draft.cells[0].queue = queue;
        for row in &mut draft.rows {
            row[1] = arrivals;
        }
        for law in [fixed(1e9), alinea(0.5, 8_000.0)] {
            cases.fill(&input(&draft, [law; Road::MAX_CELLS]));
        }
    }
    // Cells that could take more than any release may be.
    for rate in [999_999.5, 1_000_000.0, 1_000_001.0, 1e300] {
        let mut draft = samples::wide();
        draft.cells[0].capacity = 1_000_000;
        cases.fill(&input(&draft, [fixed(rate); Road::MAX_CELLS]));
    }
}

/// A law for a cell.
pub type MakeLaw = fn(&CellDraft, &mut Dice) -> LawInput;

/// A random road with some ramp, releases of any size, and laws.
pub fn random(k: usize, make_law: MakeLaw, dice: &mut Dice) -> FillInput {
    let style = STYLES[k % STYLES.len()];
    let n = match dice.upto(11) {
        0 => 1,
        1 => 13 + dice.upto(7) as usize,
        _ => 1 + dice.upto(5) as usize,
    };
    let mut draft = road_with_ramp(style, n, dice);
    let row_bytes = record::size(1, n, 1) - record::size(1, n, 0);
    let most = (dice.pick(&[200, 500, 900]) / row_bytes).max(2) as u32;
    let steps = dice.between(1 + most / 2, most) as usize;
    draft.rows = (0..steps)
        .map(|_| any_releases(style, &draft.cells, dice))
        .collect();
    draft.steps = steps as u16;
    let mut laws = [(); Road::MAX_CELLS].map(|()| any_law(dice));
    for (law, cell) in laws.iter_mut().zip(&draft.cells) {
        if cell.ramp == 1 {
            *law = make_law(cell, dice);
        }
    }
    let mut fill = input(&draft, laws);
    fill.length += dice.pick(&[0, 0, 0, 1, 25]);
    fill
}

fn road_with_ramp(style: Style, n: usize, dice: &mut Dice) -> Draft {
    loop {
        let draft = style.road(n, dice);
        if draft.cells.iter().any(|cell| cell.ramp == 1) {
            return draft;
        }
    }
}

/// Arrivals of the style; releases that filling puts over.
fn any_releases(style: Style, cells: &[CellDraft], dice: &mut Dice) -> Vec<u32> {
    let mut row = vec![style.arrivals(true, dice)];
    for cell in cells {
        let pair = [style.arrivals(false, dice), dice.any_size(1_000_000) as u32];
        row.extend(pair.map(|number| number * u32::from(cell.ramp)));
    }
    row
}

/// Any bits at all.
pub fn any_law(dice: &mut Dice) -> LawInput {
    LawInput {
        kind: dice.upto(3) as u32,
        bits: [dice.bits(), dice.bits(), dice.bits()],
    }
}

/// From 0 to this, in sevenths, which no float holds exactly.
fn sevenths(most: u32, dice: &mut Dice) -> f64 {
    dice.upto(7 * u64::from(most)) as f64 / 7.0
}

/// A law whose numbers are those of its cell.
pub fn common_law(cell: &CellDraft, dice: &mut Dice) -> LawInput {
    match dice.upto(4) {
        0 => fixed(sevenths(cell.capacity, dice)),
        1 | 2 => {
            let gain = dice.pick(&[0.01, 0.1, 0.3, 0.5, 1.0, 1.9]);
            alinea(gain, sevenths(cell.jam, dice))
        }
        _ => {
            let capacity = sevenths(cell.capacity, dice) + f64::from(cell.capacity / 2);
            let least = sevenths(cell.capacity / 4, dice);
            demand_capacity(capacity, sevenths(cell.jam, dice), least)
        }
    }
}

/// A law of tiny, huge and negative numbers, seldom one that isn't finite.
pub fn odd_law(cell: &CellDraft, dice: &mut Dice) -> LawInput {
    let odd = [
        0.0,
        -0.0,
        5e-324,
        1e-300,
        1e-9,
        -0.1,
        -3.0,
        70.0,
        1e9,
        1e300,
        f64::MAX,
        f64::MIN,
    ];
    let mut law = common_law(cell, dice);
    for slot in 0..=law.kind as usize {
        if dice.one_in(2) {
            law.bits[slot] = dice.pick(&odd).to_bits();
        }
        if dice.one_in(40) {
            law.bits[slot] = dice.pick(&NOT_FINITE).to_bits();
        }
    }
    law
}

/// 64 cells with many ramps, and the longest table.
fn wide(cases: &mut Cases, dice: &mut Dice) {
    for style in STYLES {
        let mut draft = road_with_ramp(style, Road::MAX_CELLS, dice);
        draft.rows = (0..3)
            .map(|_| any_releases(style, &draft.cells, dice))
            .collect();
        draft.steps = 3;
        let mut laws = [fixed(0.0); Road::MAX_CELLS];
        for (law, cell) in laws.iter_mut().zip(&draft.cells) {
            *law = common_law(cell, dice);
        }
        cases.fill(&input(&draft, laws));
    }
    let mut draft = samples::even(6, 1_257);
    draft.cells[2] = with_ramp(draft.cells[2], 900);
    for (t, row) in draft.rows.iter_mut().enumerate() {
        row[5] = (t % 400) as u32;
    }
    cases.fill(&input(&draft, [alinea(0.4, 3_100.3); Road::MAX_CELLS]));
}

/// The example road by the laws of its page.
fn rocade_sud(cases: &mut Cases) {
    for text in ROCADE_SUD_LAWS {
        cases.fill(&rocade_sud_by(text, vec![]));
    }
}

/// The example road with the lanes closed that its page closes: run, and filled
/// by ALINEA.
pub fn works(cases: &mut Cases) {
    let lanes = lanes_text::table_of(ROCADE_SUD_WORKS).expect("the example's lanes");
    cases.run_under(378 * 22, &lanes, ROCADE_SUD);
    cases.fill(&rocade_sud_by(ROCADE_SUD_LAWS[2], lanes));
}

fn rocade_sud_by(laws: &str, lanes: Vec<u8>) -> FillInput {
    let laws = laws::laws_of(laws).expect("the example's laws");
    FillInput {
        laws: laws.map(LawInput::from),
        length: 378 * 22,
        lanes,
        record: ROCADE_SUD.to_vec(),
    }
}
