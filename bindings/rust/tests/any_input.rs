//! Calls that allocate their own lists, on any input: they answer, and after a refusal the record is unchanged.
use nobyaluk::{
    at_ramps, entering, exits, fill, fill_longest, gate_demand, grant, history, join, judge, lent,
    load, on_road, onward, outflow, outflow_by_halves, present, put, put_wanted, read, room, row,
    rows, run, run_longest, run_weighted, step, total, vehicle_seconds, wanted, write, Lanes, Law,
    Refusal, Road, Start, State, Weights, CELLS,
};
use std::path::PathBuf;

const MOST: [usize; 6] = [0, 1, 2, 64, 65, usize::MAX];

/// What joining two short records can be refused by.
const JOINING: [Refusal; 9] = [
    Refusal::Length,
    Refusal::Version,
    Refusal::Counts,
    Refusal::Size,
    Refusal::Limits,
    Refusal::Rates,
    Refusal::Seconds,
    Refusal::RoadsDiffer,
    Refusal::SecondGate,
];

/// Records damaged in one to three bytes, cut, or without sense, by the stated load.
fn records() -> Vec<Vec<u8>> {
    let folder = PathBuf::from(env!("CARGO_MANIFEST_DIR")).join("../../examples");
    let whole = std::fs::read(folder.join("printed-run.rec")).unwrap();
    let draws = load(1, 1_000_000, 4_000).unwrap().arrivals;
    let mut made = vec![vec![], vec![0; 16], vec![255; 70_000]];
    for few in draws.chunks(8) {
        let few: Vec<usize> = few.iter().map(|&draw| draw as usize).collect();
        let mut record = whole.clone();
        for pair in few[..6].chunks(2).take(1 + few[7] % 3) {
            record[pair[0] % whole.len()] = pair[1] as u8;
        }
        if few[6] % 9 == 1 {
            record.truncate(few[5] % whole.len());
        }
        made.push(record);
    }
    made
}

#[test]
fn every_record_is_answered() {
    let laws = [Law::Alinea {
        gain: f64::MAX,
        target: -1.0,
    }; 70];
    let (mut accepted, mut refused) = (0, 0);
    for record in records() {
        match run(&record, &[]) {
            Ok(whole) => {
                accepted += 1;
                let judged = judge(&record, &[], &whole.outflow).unwrap();
                assert_eq!(judged.total, whole.ended.total);
                assert_eq!(history(&record, &[], &whole.outflow), Ok(whole.clone()));
                assert_eq!(run_longest(&record, &[]).unwrap().ended, whole.ended);
                let (weighed, total) = run_weighted(&record, &[], Weights::EVEN).unwrap();
                assert_eq!((weighed, total), (whole.clone(), whole.ended.total));
            }
            Err(_) => refused += 1,
        }
        for lanes in [&[][..], &[1; 8], &[0; 3]] {
            let mut filled = record.clone();
            let (answer, mut again) = (fill(&mut filled, &laws, lanes), record.clone());
            if answer.is_err() {
                assert!(filled == record);
            }
            let longest = fill_longest(&mut again, &laws, lanes).map(|longest| longest.ended);
            assert!(longest == answer.map(|run| run.ended) && again == filled);
        }
        let reading = read(&record);
        assert_eq!(rows(&record).is_ok(), reading.is_ok());
        if let (Ok(rows), Ok(reading)) = (rows(&record), reading) {
            let start = reading.state.start();
            let again = write(reading.road, reading.steps as usize, start, &rows);
            assert!(again == Ok(record.clone()));
        }
        for (k, number) in MOST.into_iter().enumerate() {
            let numbers = lent::row(&record, number, MOST[5 - k]).numbers;
            match row(&record, number, MOST[5 - k]) {
                Some(row) => assert!(numbers.starts_with(&row) && row.len() == 1 + 2 * number),
                None => assert_eq!(numbers, [0; 129]),
            }
            let mut changed = record.clone();
            if put(&mut changed, number, MOST[5 - k], u32::MAX).is_err() {
                assert!(changed == record);
            }
            if !matches!(put_wanted(&mut changed, number, 2_000, 900), Ok(Some(_))) {
                assert!(changed == record);
            }
        }
    }
    assert!(accepted > 20 && refused > 20, "{accepted} and {refused}");
}

/// Two records that both read are joined if T, version and seconds agree and the second gate is idle; all others are refused.
#[test]
fn every_pair_of_records_is_answered() {
    let records = records();
    let idle = |record: &[u8]| {
        let mut record = record.to_vec();
        for at in [12, 64, 84, 104] {
            record
                .iter_mut()
                .skip(at)
                .take(4)
                .for_each(|byte| *byte = 0);
        }
        record
    };
    let mut joined = 0;
    for (k, up) in records.iter().enumerate() {
        let down = idle(&records[(7 * k + 1) % records.len()]);
        for share in [0, 1_000, 1_001, u16::MAX] {
            match join(up, &down, share) {
                Ok(record) => {
                    joined += 1;
                    let n = read(up).unwrap().road.n + read(&down).unwrap().road.n;
                    assert_eq!(read(&record).unwrap().road.n, n);
                    assert!(share <= 1_000);
                }
                Err(refused) => assert!(JOINING.contains(&refused.refusal), "{refused}"),
            }
        }
    }
    assert!(joined > 20, "{joined}");
}

#[test]
fn every_number_is_answered() {
    for n in MOST {
        let road = Road { n, ..Road::EMPTY };
        for steps in MOST {
            assert!(write(road, steps, Start::EMPTY, &[]).is_err());
        }
        let stepped = step(road, State::EMPTY, &[u32::MAX; 5], Lanes::OPEN);
        assert_eq!(stepped.unwrap_err().refusal, Refusal::StepInput);
    }
    for number in [0, 1, 1_000_000, 1_000_001, u32::MAX] {
        let _ = wanted(number, number, number, &[number; 3]);
        let _ = grant(number, &[number; 3], &[number; 2]);
        let _ = grant(number, &[number; 9], &[number; 9]);
        assert_eq!(load(number, number, 2).is_ok(), number <= 1_000_000);
    }
    let refused = wanted(0, 0, 0, &[0; 1_441]).unwrap_err();
    assert_eq!(refused.refusal, Refusal::WantedInput);
}

/// The greatest outflow by both ways, and the other rules of one place.
#[test]
fn every_place_is_answered() {
    let ends = [0, 1, 999, 1_000_000, u32::MAX];
    for share in [0, 1, 999, 1_000, 1_001, u16::MAX] {
        for f in ends {
            let gone = u64::from(share) * u64::from(f) / 1_000;
            assert_eq!(onward(share, f), gone);
            for (most, demand) in ends
                .iter()
                .flat_map(|&most| ends.map(|demand| (most, demand)))
            {
                let sent = outflow(share, f, most, demand);
                let fits = |sent| entering(share, f, sent) <= u64::from(most);
                assert_eq!(outflow_by_halves(share, f, most, demand), sent);
                assert!(sent <= demand && fits(sent) && (sent == demand || !fits(sent + 1)));
            }
        }
    }
    for (a, b) in ends.iter().flat_map(|&a| ends.map(|b| (a, b))) {
        assert_eq!(
            (gate_demand(a, b), room(a, b)),
            (a.min(b), a.saturating_sub(b))
        );
    }
}

/// What a state holds that is full to its last bit; n above 64 counts as 64, and a share above 1,000 gives no exits.
#[test]
fn every_state_is_answered() {
    let (count, time) = (u64::from(u32::MAX), u64::MAX / 3);
    let full = State {
        gate_time: time,
        road_time: time,
        ramp_time: time,
        gate_queue: u32::MAX,
        held: [u32::MAX; CELLS],
        queue: [u32::MAX; CELLS],
        cumulative: [u32::MAX; CELLS],
        ..State::EMPTY
    };
    for n in MOST {
        let (road, cells) = (Road { n, ..Road::EMPTY }, n.min(CELLS) as u64);
        assert_eq!(present(road, full), count * (1 + 2 * cells));
        assert_eq!(
            (on_road(road, full), at_ramps(road, full)),
            (count * cells, count * cells)
        );
        assert_eq!(exits(road, full), count * cells);
        let share = [1_001; CELLS];
        assert_eq!(exits(Road { share, ..road }, full), 0);
    }
    let ends = [0, 1, time, u64::MAX - 1, u64::MAX];
    for (gate_time, road_time) in ends.iter().flat_map(|&a| ends.map(|b| (a, b))) {
        for ramp_time in ends {
            let state = State {
                gate_time,
                road_time,
                ramp_time,
                ..full
            };
            let sum = gate_time.saturating_add(road_time);
            assert_eq!(total(state), sum.saturating_add(ramp_time));
        }
    }
    let part = |seconds: u16| u128::from(u64::MAX) * u128::from(seconds) / 1_000;
    for seconds in [0, 1, 999, 1_000] {
        assert_eq!(u128::from(vehicle_seconds(seconds, full)), part(seconds));
    }
    let more = State {
        gate_time: u64::MAX,
        ..full
    };
    for state in [full, more] {
        assert_eq!(vehicle_seconds(1_001, state), u64::MAX);
        assert_eq!(vehicle_seconds(u16::MAX, state), u64::MAX);
    }
    assert_eq!(vehicle_seconds(1_000, more), u64::MAX);
}
