//! Two neighbouring roads joined, refusals 20, 21 and 22, and a road cut in two.

use crate::support::*;
use reference::draft::{CellDraft, Draft};
use reference::join::{cut, join};
use reference::record::{read, size};
use reference::write::Written;
use trials::cases::all_cases;
use trials::cases::case::Case;

/// A byte of a target that nobody wrote.
const KEPT: u8 = 0xA5;

/// Two roads and their joint.
struct Pair {
    up: Draft,
    down: Draft,
    share: u16,
}

impl Pair {
    /// Bytes of the joined record as the formula gives them.
    fn size(&self) -> usize {
        let n = self.up.cells.len() + self.down.cells.len();
        size(self.up.version, n, self.up.rows.len())
    }

    /// The answer and the target after it, of so many bytes.
    fn join(&self, length: usize) -> (Written, Vec<u8>) {
        joined(&self.up.encode(), &self.down.encode(), self.share, length)
    }

    /// Number and place, with a target of just the size.
    fn verdict(&self) -> (u32, usize) {
        let (written, _) = self.join(self.size());
        (written.number, written.place)
    }

    fn timed(self, seconds: u16) -> Pair {
        Pair {
            up: self.up.timed(seconds),
            down: self.down.timed(seconds),
            ..self
        }
    }
}

/// A refusal writes nothing; else all is kept beyond what was written.
fn joined(up: &[u8], down: &[u8], share: u16, length: usize) -> (Written, Vec<u8>) {
    let mut target = vec![KEPT; length];
    let written = join(up, down, share, &mut target);
    if written.number != 0 {
        assert_eq!(written.count, 0);
    }
    assert!(target[written.count..].iter().all(|&byte| byte == KEPT));
    (written, target)
}

/// The example before another road of two cells, the first of them with a ramp.
fn pair() -> Pair {
    let up = example_draft();
    let mut down = example_draft();
    down.gate_queue = 0;
    down.gate_capacity = 77;
    down.cells[0] = CellDraft {
        v: 400,
        ramp: 1,
        queue: 9,
        ..down.cells[0]
    };
    for (t, row) in down.rows.iter_mut().enumerate() {
        *row = vec![0, 10 + t as u32, 12, 30, 40];
    }
    let share = 650;
    Pair { up, down, share }
}

/// What the joined record should be, put together from the values.
fn wanted(pair: &Pair) -> Draft {
    let mut wanted = pair.up.clone();
    wanted.cells.last_mut().unwrap().b = pair.share;
    wanted.cells.extend(&pair.down.cells);
    wanted.n = wanted.cells.len() as u8;
    for (row, other) in wanted.rows.iter_mut().zip(&pair.down.rows) {
        row.extend(&other[1..]);
    }
    wanted
}

/// A road of n like cells and T like rows, with nobody at its gate.
fn idle(n: usize, steps: usize) -> Draft {
    let cell = CellDraft {
        v: 500,
        w: 250,
        b: 0,
        ramp: 1,
        jam: 8_000,
        capacity: 2_000,
        held: 2_000,
        queue: 0,
    };
    Draft::new((900, 0), vec![cell; n], vec![vec![0; 1 + 2 * n]; steps])
}

fn idle_pair(n: usize, other: usize, steps: usize) -> Pair {
    Pair {
        up: idle(n, steps),
        down: idle(other, steps),
        share: 1_000,
    }
}

#[test]
fn cells_and_rows_stand_one_after_another() {
    for pair in [pair(), pair().timed(20)] {
        let length = pair.size();
        let (written, target) = pair.join(length);
        let answer = Written {
            number: 0,
            place: 0,
            count: length,
        };
        assert_eq!(written, answer);
        assert_eq!(target, wanted(&pair).encode());
        let reading = read(&target);
        assert_eq!((reading.number, reading.road.n, reading.steps), (0, 4, 3));
        assert_eq!(reading.road.b[..4], [750, 650, 750, 0]);
        assert_eq!(reading.road.gate_capacity, 2_000);
        assert_eq!(reading.state.gate_queue, 3_000);
        // The same with room to spare.
        let (longer, target) = pair.join(length + 30);
        assert_eq!((longer, read(&target[..length])), (answer, reading));
    }
}

/// On paper: four bytes of the second gate's arrivals and the head fall away.
#[test]
fn sizes_of_the_parts() {
    assert_eq!(pair().size(), 124 + 124 - 16 - 3 * 4);
    assert_eq!(pair().timed(1).size(), 126 + 126 - 18 - 3 * 4);
}

/// 1,000 passes; one more is 5 at the last cell upstream.
#[test]
fn the_joint_s_share() {
    let of = |share: u16| Pair { share, ..pair() }.verdict();
    for share in [0, 1, 650, 999, 1_000] {
        assert_eq!(of(share), (0, 0));
    }
    for share in [1_001, 1_002, 32_768, 65_535] {
        assert_eq!(of(share), (5, 2));
        let long = Pair {
            share,
            ..idle_pair(7, 1, 2)
        };
        assert_eq!(long.verdict(), (5, 7));
    }
}

#[test]
fn a_target_too_short() {
    for pair in [pair(), pair().timed(900)] {
        let size = pair.size();
        for length in [0, 1, 16, 124, size - 2, size - 1] {
            assert_eq!(pair.join(length).0, Written::refused(15, 0));
        }
        assert_eq!(pair.join(size).0.number, 0);
        assert_eq!(pair.join(size + 1).0.number, 0);
    }
}

type Change = fn(&mut Pair);

/// Number and place after some changes.
fn after(changes: &[Change]) -> (u32, usize) {
    let mut pair = pair();
    changes.iter().for_each(|change| change(&mut pair));
    pair.verdict()
}

fn longer(draft: &mut Draft) {
    draft.rows.push(vec![0; 5]);
    draft.steps += 1;
}

fn timed(draft: &mut Draft, seconds: u16) {
    (draft.version, draft.seconds) = (2, Some(seconds));
}

#[test]
fn refusal_20() {
    let changes: [Change; 6] = [
        |x| longer(&mut x.up),
        |x| longer(&mut x.down),
        |x| timed(&mut x.up, 20),
        |x| timed(&mut x.down, 20),
        |x| (timed(&mut x.up, 20), timed(&mut x.down, 21)).1,
        |x| (timed(&mut x.up, 900), timed(&mut x.down, 1)).1,
    ];
    for change in changes {
        assert_eq!(after(&[change]), (20, 0));
    }
    let same: [Change; 2] = [
        |x| (timed(&mut x.up, 900), timed(&mut x.down, 900)).1,
        |x| (longer(&mut x.up), longer(&mut x.down)).1,
    ];
    for change in same {
        assert_eq!(after(&[change]), (0, 0));
    }
}

#[test]
fn refusal_21() {
    let changes: [Change; 6] = [
        |x| x.down.gate_queue = 1,
        |x| x.down.gate_queue = 1_000_000_000,
        |x| x.down.rows[0][0] = 1,
        |x| x.down.rows[1][0] = 256,
        |x| x.down.rows[2][0] = 1,
        |x| x.down.rows[2][0] = 1_000_000,
    ];
    for change in changes {
        assert_eq!(after(&[change]), (21, 0));
        let both: [Change; 3] = [change, |x| timed(&mut x.up, 3), |x| timed(&mut x.down, 3)];
        assert_eq!(after(&both), (21, 0));
    }
    // The last of many steps.
    let mut long = idle_pair(1, 1, 1_440);
    long.down.rows[1_439][0] = 1;
    assert_eq!(long.verdict(), (21, 0));
    // The first gate may have both, and the second gate any capacity.
    let first: [Change; 3] = [
        |x| (x.up.gate_queue, x.up.rows[2][0]) = (1_000_000_000, 1_000_000),
        |x| x.down.gate_capacity = 0,
        |x| x.down.gate_capacity = 1_000_000,
    ];
    for change in first {
        assert_eq!(after(&[change]), (0, 0));
    }
}

#[test]
fn refusal_22_by_cells() {
    for (n, other) in [(1, 63), (32, 32), (63, 1), (1, 1)] {
        assert_eq!(idle_pair(n, other, 2).verdict(), (0, 0));
        assert_eq!(idle_pair(n, other, 2).timed(9).verdict(), (0, 0));
    }
    for (n, other) in [(1, 64), (64, 1), (33, 32), (64, 64)] {
        assert_eq!(idle_pair(n, other, 2).verdict(), (22, 0));
    }
}

/// Version 1 has 65,536 bytes with 21 cells and 378 steps, 63 and 126, 64 and 124.
/// Two bytes more are version 2. The next size of version 1 is 65,544: 14 cells and 562
/// steps, or 56 and 142.
#[test]
fn refusal_22_by_bytes() {
    for (n, other, steps) in [(20, 1, 378), (30, 33, 126), (1, 63, 124), (32, 32, 124)] {
        let pair = idle_pair(n, other, steps);
        assert_eq!((pair.size(), pair.verdict()), (65_536, (0, 0)));
        let later = pair.timed(20);
        assert_eq!((later.size(), later.verdict()), (65_538, (22, 0)));
    }
    for (n, other, steps) in [(1, 13, 562), (7, 7, 562), (55, 1, 142)] {
        let pair = idle_pair(n, other, steps);
        assert_eq!((pair.size(), pair.verdict()), (65_544, (22, 0)));
    }
    let most = idle_pair(2, 4, 1_257).timed(20);
    assert_eq!((most.size(), most.verdict()), (65_526, (0, 0)));
    assert_eq!(idle_pair(64, 64, 124).verdict(), (22, 0));
    // A record that long is 1 already when it is read.
    let mut long = idle_pair(1, 1, 1);
    long.down = idle(64, 125);
    assert_eq!(long.verdict(), (1, 0));
}

type Spoil = fn(&mut Draft);

/// One of each of reading's refusals, with its place.
const SPOILS: [(Spoil, u32, usize); 10] = [
    (|d| d.length = Some(9), 1, 0),
    (|d| d.version = 3, 2, 0),
    (|d| d.n = 65, 3, 0),
    (|d| d.steps = 0, 3, 0),
    (|d| timed(d, 901), 19, 0),
    (|d| d.extra = 1, 4, 0),
    (|d| d.gate_capacity = 1_000_001, 5, 0),
    (|d| d.cells[1].b = 1, 5, 2),
    (|d| d.rows[0][0] = 1_000_001, 6, 0),
    (|d| d.rows[2][4] = 1_000_001, 6, 2),
];

#[test]
fn each_input_reads_first() {
    for (spoil, number, place) in SPOILS {
        let (mut one, mut other) = (pair(), pair());
        spoil(&mut one.up);
        spoil(&mut other.down);
        for pair in [&mut one, &mut other] {
            assert_eq!(pair.verdict(), (number, place));
            // Before the joint's share and a target too short.
            pair.share = 1_001;
            assert_eq!(pair.join(0).0, Written::refused(number, place));
        }
        // Upstream first.
        for (spoil_other, ..) in SPOILS {
            let mut both = pair();
            spoil(&mut both.up);
            spoil_other(&mut both.down);
            assert_eq!(both.verdict(), (number, place));
        }
    }
}

#[test]
fn bytes_that_are_no_record() {
    let record = pair().down.encode();
    assert_eq!(joined(&[], &[], 0, 0).0, Written::refused(1, 0));
    for count in [0, 4, 5, 15, 16, 63, 64, 123] {
        let short = &record[..count];
        assert_eq!(joined(short, &record, 0, 999).0, Written::refused(1, 0));
        assert_eq!(joined(&record, short, 0, 999).0, Written::refused(1, 0));
    }
}

/// All faults at once, mended one after another: the next one shows.
#[test]
fn joining_refuses_in_order() {
    let mut pair = Pair {
        up: idle(40, 160),
        down: idle(25, 161).timed(20),
        share: 65_535,
    };
    pair.up.cells[39].held = 8_001;
    pair.up.rows[3][1] = 1_000_001;
    pair.down.cells[6].w = 1_001;
    pair.down.rows[150][0] = 1_000_001;
    pair.down.gate_queue = 1;
    let mends: [(u32, usize, Change); 11] = [
        (5, 40, |x| x.up.cells[39].held = 8_000),
        (6, 3, |x| x.up.rows[3][1] = 1_000_000),
        (5, 7, |x| x.down.cells[6].w = 1_000),
        (6, 150, |x| x.down.rows[150][0] = 1_000_000),
        (5, 40, |x| x.share = 1_000),
        (20, 0, |x| {
            x.down.rows.pop();
            x.down.steps = 160;
        }),
        (20, 0, |x| timed(&mut x.up, 21)),
        (20, 0, |x| timed(&mut x.up, 20)),
        (21, 0, |x| x.down.gate_queue = 0),
        (21, 0, |x| x.down.rows[150][0] = 0),
        (22, 0, |x| {
            x.down = idle(24, 160).timed(20);
        }),
    ];
    for (number, place, mend) in mends {
        assert_eq!(pair.join(0).0, Written::refused(number, place));
        mend(&mut pair);
    }
    // 64 cells, and still too many bytes.
    assert_eq!(pair.join(0).0, Written::refused(22, 0));
    let fits = idle_pair(40, 24, 123).timed(20);
    assert_eq!(fits.join(0).0, Written::refused(15, 0));
    assert_eq!(fits.verdict(), (0, 0));
}

/// The printed run's road cut after cell 1 and joined again.
#[test]
fn a_road_cut_and_joined_again() {
    for draft in [example_draft(), example_draft().timed(20)] {
        let record = draft.encode();
        let (up, down, share) = cut(&record, 1);
        assert_eq!(share, 750);
        let (first, second) = (read(&up), read(&down));
        assert_eq!((first.number, first.road.n, first.road.b[0]), (0, 1, 0));
        assert_eq!(first.state.gate_queue, 3_000);
        assert_eq!((second.number, second.road.n), (0, 1));
        assert_eq!((second.road.gate_capacity, second.state.gate_queue), (0, 0));
        assert_eq!(second.state.queue[0], 1_500);
        let (written, target) = joined(&up, &down, share, record.len());
        assert_eq!((written.number, target), (0, record));
    }
}

/// At every cell of the records of the trials.
#[test]
fn every_record_cut_and_joined_again() {
    let mut count = 0;
    for case in all_cases() {
        let Case::Run { record, .. } = case else {
            continue;
        };
        if record.len() > 6_000 || read(&record).number != 0 {
            continue;
        }
        for cell in 1..read(&record).road.n {
            let (up, down, share) = cut(&record, cell);
            assert_eq!((read(&up).number, read(&down).number), (0, 0));
            let (written, target) = joined(&up, &down, share, record.len());
            assert_eq!((written.number, &target), (0, &record));
            count += 1;
        }
    }
    assert!(count > 5_000, "{count}");
}

/// The joint's share alone ties the two: with nothing onward, and no refusal in either, each runs as it would alone.
#[test]
fn with_share_0_each_runs_as_alone() {
    let pair = Pair { share: 0, ..pair() };
    let (_, target) = pair.join(pair.size());
    let (answer, list) = run_whole(&target);
    assert_eq!(answer.number, 0);
    let (alone, first) = run_whole(&pair.up.encode());
    let (later, second) = run_whole(&pair.down.encode());
    assert_eq!((alone.number, later.number), (0, 0));
    for t in 0..3 {
        assert_eq!(list[5 * t..5 * t + 3], first[3 * t..3 * t + 3]);
        assert_eq!(list[5 * t + 3..5 * t + 5], second[3 * t + 1..3 * t + 3]);
    }
    assert_eq!(sums(&answer).0, sums(&alone).0 + sums(&later).0);
    assert_eq!(sums(&answer).1, sums(&alone).1 + sums(&later).1);
}
