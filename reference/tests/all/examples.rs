//! The files of `examples/` and the tables of its README.

use crate::support::{judge, record_of, without_comments};
use reference::as_text::text_of;
use reference::fill::fill;
use reference::join::{cut, join};
use reference::lanes_text::table_of;
use reference::laws::laws_of;
use reference::print::{judgement_line, printed_run, printed_under};
use reference::record;
use reference::run::run;
use reference::text::schedule_of;
use reference::wanted::{wanted, Asked, Wanted};
use reference::weigh::{self, Weights};
use std::collections::BTreeSet;
use std::fs;
use std::path::PathBuf;

/// The path of a file of `examples/`.
fn example(name: &str) -> PathBuf {
    let top = PathBuf::from(env!("CARGO_MANIFEST_DIR"));
    top.join("../examples").join(name)
}

/// The bytes of such a file.
fn bytes_of(name: &str) -> Vec<u8> {
    fs::read(example(name)).unwrap_or_else(|error| panic!("{name}: {error}"))
}

/// The text of such a file.
fn text_in(name: &str) -> String {
    String::from_utf8(bytes_of(name)).unwrap()
}

/// The names of the files with this ending, without it.
fn named(ending: &str) -> BTreeSet<String> {
    let files = fs::read_dir(example("")).unwrap();
    files
        .map(|file| file.unwrap().file_name().into_string().unwrap())
        .filter_map(|name| name.strip_suffix(ending).map(str::to_string))
        .collect()
}

/// The rows of a page's tables whose first column has this head, without
/// backquotes.
fn table_rows(page: &str, head: &str) -> Vec<Vec<String>> {
    let text = text_in(page);
    let mut rows = Vec::new();
    let mut inside = false;
    for line in text.lines() {
        let cells: Vec<String> = line
            .split('|')
            .map(|cell| cell.trim().trim_matches('`').to_string())
            .collect();
        match cells.get(1) {
            None => inside = false,
            Some(first) if first == head => inside = true,
            Some(first) if inside && !first.starts_with("---") => {
                rows.push(cells[1..cells.len() - 1].to_vec())
            }
            Some(_) => {}
        }
    }
    rows
}

#[test]
fn the_tables_of_records_say_what_is_printed() {
    let rows = table_rows("README.md", "file");
    for row in &rows {
        let [file, _, command, said] = &row[..] else {
            panic!("four columns: {row:?}");
        };
        assert_eq!(command, &format!("./run examples/{file}.rec"));
        let printed = printed_run(&bytes_of(&format!("{file}.rec")));
        assert_eq!(printed.lines().last(), Some(said.as_str()), "{file}");
    }
    let files: BTreeSet<String> = rows.iter().map(|row| row[0].clone()).collect();
    assert_eq!(files, named(".rec"));
    assert_eq!(files.len(), rows.len());
}

#[test]
fn the_table_of_schedules_says_what_judging_prints() {
    let rows = table_rows("README.md", "schedule");
    for row in &rows {
        let [schedule, record, _, said] = &row[..] else {
            panic!("four columns: {row:?}");
        };
        let numbers = schedule_of(&text_in(&format!("{schedule}.schedule.txt"))).unwrap();
        let answer = judge(&bytes_of(&format!("{record}.rec")), &numbers);
        assert_eq!(judgement_line(&answer).trim_end(), said, "{schedule}");
    }
    let files: BTreeSet<String> = rows.iter().map(|row| row[0].clone()).collect();
    assert_eq!(files, named(".schedule.txt"));
    assert_eq!(files.len(), rows.len());
}

/// A number with a comma before each three digits.
fn with_commas(number: u64) -> String {
    match number {
        0..=999 => number.to_string(),
        _ => format!("{},{:03}", with_commas(number / 1_000), number % 1_000),
    }
}

/// Part-steps of 20 s in hundredths of vehicle-hours.
fn hundredths_of_hours(time: u64) -> u64 {
    (100 * time + 90_000) / 180_000
}

/// The same as a number with two decimals.
fn hours(time: u64) -> String {
    let hundredths = hundredths_of_hours(time);
    format!("{}.{:02}", with_commas(hundredths / 100), hundredths % 100)
}

/// Parts in vehicles.
fn vehicles(parts: u32) -> String {
    format!("{}.{:03}", parts / 1_000, parts % 1_000)
}

/// The longest queue at one ramp after any step of a printed run.
fn longest_queue(printed: &str) -> u32 {
    let lines = printed.lines().skip(1);
    let queues = lines.filter_map(|line| match line.split(' ').collect::<Vec<_>>()[..] {
        [_, _, _, _, queue] => queue.parse().ok(),
        _ => None,
    });
    queues.max().unwrap()
}

/// A run's times in hours and its longest queue, as the page has them.
fn who_waits_where(record: &[u8], lanes: &[u8]) -> [String; 5] {
    let mut list = vec![0; 378 * 22];
    let state = run(record, lanes, &mut list).state;
    let total = state.gate_time + state.road_time + state.ramp_time;
    [
        hours(total),
        hours(state.gate_time),
        hours(state.road_time),
        hours(state.ramp_time),
        vehicles(longest_queue(&printed_under(record, lanes))),
    ]
}

#[test]
fn the_page_of_rocade_sud_says_who_waits_where() {
    let rows = table_rows("rocade-sud.md", "record");
    for row in &rows {
        let record = bytes_of(&format!("{}.rec", row[0]));
        assert_eq!(row[1..], who_waits_where(&record, &[]), "{}", row[0]);
    }
    let filled = rows.iter().map(|row| row[0].clone()).skip(1);
    assert_eq!(filled.collect::<BTreeSet<_>>(), named(".laws.txt"));
}

/// Rocade Sud cut after cell 9, and joined again.
#[test]
fn two_stretches_of_rocade_sud_are_the_whole() {
    let [up, down, whole] =
        ["-upstream", "-downstream", ""].map(|part| bytes_of(&format!("rocade-sud{part}.rec")));
    assert!(cut(&whole, 9) == (up.clone(), down.clone(), 890));
    let mut target = vec![0; whole.len()];
    assert_eq!(join(&up, &down, 890, &mut target).count, whole.len());
    assert!(target == whole);
}

#[test]
fn the_page_of_the_ceiling_says_who_waits_where() {
    let rows = table_rows("rocade-sud-ceiling.md", "record");
    assert_eq!(rows.len(), 2);
    let page = text_in("rocade-sud-ceiling.md");
    for row in &rows {
        let record = bytes_of(&format!("{}.rec", row[0]));
        assert_eq!(row[1..], who_waits_where(&record, &[]), "{}", row[0]);
        let printed = printed_run(&record);
        let last = format!("`{}` (`{}`)", printed.lines().last().unwrap(), row[0]);
        assert!(page.contains(&last), "{last}");
    }
    let [before, after] = ["alinea", "ceiling"].map(|name| {
        let mut list = vec![0; 378 * 22];
        run(&bytes_of(&format!("rocade-sud-{name}.rec")), &[], &mut list).state
    });
    let [ramp, road] = [
        before.ramp_time - after.ramp_time,
        after.road_time - before.road_time,
    ];
    let [ramp_hours, road_hours, more] = [ramp, road, road - ramp].map(hours);
    for said in [
        format!("{ramp_hours} vehicle-hours fewer"),
        format!("{road_hours} more on the road"),
        format!("{more} more in all"),
    ] {
        assert!(page.contains(&said), "{said}");
    }
}

/// The page's steps, arrivals, releases and queues are those of the record's on-ramp, and its releases are the wanted ones.
#[test]
fn the_page_of_the_ceiling_has_its_table() {
    let record = bytes_of("rocade-sud-ceiling.rec");
    let rows: Vec<_> = (0..378).map(|t| record::row(&record, 21, t)).collect();
    let (mut queue, mut from, mut said) = (2_500, 0, vec![]);
    for (t, row) in rows.iter().enumerate() {
        let [arrivals, release] = [row[31], row[32]];
        queue = queue + arrivals - release;
        let next = rows.get(t + 1);
        if next.is_none_or(|next| next[31..33] != [arrivals, release]) {
            let numbers = [arrivals, release, queue].map(|number| with_commas(u64::from(number)));
            said.push([vec![format!("{from} to {t}")], numbers.to_vec()].concat());
            from = t + 1;
        }
    }
    assert_eq!(table_rows("rocade-sud-ceiling.md", "steps"), said);
    let arrivals: Vec<u32> = rows.iter().map(|row| row[31]).collect();
    let mut table = vec![0; arrivals.len()];
    let asked = |ceiling| Asked {
        start: 2_500,
        ceiling,
        rate: 3_750,
        arrivals: &arrivals,
    };
    assert_eq!(wanted(asked(44_999), &mut table), Wanted::NoTable);
    assert_eq!(wanted(asked(45_000), &mut table), Wanted::Found);
    assert_eq!(wanted(asked(50_000), &mut table), Wanted::Found);
    assert!(rows
        .iter()
        .zip(table)
        .all(|(row, release)| row[32] == release));
}

/// With the works of the other page in the rush: 10 for the ceiling's record, none for the one it was made from.
#[test]
fn the_page_of_the_ceiling_says_where_10_comes() {
    let works = text_in("rocade-sud-works.lanes.txt").replace("0 to 89", "90 to 179");
    let lanes = table_of(&works).unwrap();
    let verdict = |name: &str| {
        let mut list = vec![0; 378 * 22];
        let answer = run(&bytes_of(name), &lanes, &mut list);
        (answer.number, answer.step, answer.place)
    };
    assert_eq!(verdict("rocade-sud-ceiling.rec"), (10, 192, 2));
    assert_eq!(verdict("rocade-sud-alinea.rec"), (0, 0, 0));
    assert!(text_in("rocade-sud-ceiling.md").contains("`refused 10 192 2`"));
}

#[test]
fn the_page_of_rocade_sud_says_who_waits_where_under_works() {
    let lanes = table_of(&text_in("rocade-sud-works.lanes.txt")).unwrap();
    let rows = table_rows("rocade-sud.md", "under works");
    assert_eq!(rows.len(), 1 + named(".laws.txt").len());
    for row in &rows {
        let mut record = bytes_of("rocade-sud.rec");
        if row[0] != "rocade-sud" {
            let laws = laws_of(&text_in(&format!("{}.laws.txt", row[0]))).unwrap();
            let mut list = vec![0; 378 * 22];
            assert_eq!(fill(&mut record, &laws, &lanes, &mut list).number, 0);
        }
        assert_eq!(row[1..], who_waits_where(&record, &lanes), "{}", row[0]);
    }
}

#[test]
fn the_page_of_rocade_sud_counts_the_gate_double() {
    let mut weights = Weights {
        places: [1; 65],
        ramps: [1; 64],
    };
    weights.places[0] = 2;
    let rows = table_rows("rocade-sud.md", "gate double");
    let weighed = |name: &str| {
        let mut list = vec![0; 378 * 22];
        let record = bytes_of(&format!("{name}.rec"));
        weigh::run(&record, &[], &weights, &mut list)
    };
    let base = hundredths_of_hours(weighed("rocade-sud").1) as i64;
    assert_eq!(rows.len(), 3);
    for row in &rows {
        let (answer, weighted) = weighed(&row[0]);
        let state = answer.state;
        let total = state.gate_time + state.road_time + state.ramp_time;
        let more = hundredths_of_hours(weighted) as i64 - base;
        let against = match more {
            0 => String::new(),
            _ => format!("−{}.{:02}", -more / 100, -more % 100),
        };
        let wanted = [
            hours(total),
            hours(state.gate_time),
            hours(weighted),
            against,
        ];
        assert_eq!(row[1..], wanted, "{}", row[0]);
    }
}

#[test]
fn the_page_of_rocade_sud_explains_its_seconds() {
    let rows = table_rows("rocade-sud.md", "version 2");
    let record = bytes_of("rocade-sud-seconds.rec");
    let printed = printed_run(&record);
    let [total, seconds] = ["total ", "seconds "].map(|word| {
        let line = printed.lines().find_map(|line| line.strip_prefix(word));
        let number = line.unwrap().split(' ').next().unwrap();
        number.parse::<u64>().unwrap()
    });
    // A vehicle-hour has 3,600 vehicle-seconds.
    let hundredths = (100 * seconds + 1_800) / 3_600;
    let wanted = vec![
        "rocade-sud-seconds".to_string(),
        with_commas(total),
        with_commas(seconds),
        format!("{}.{:02}", with_commas(hundredths / 100), hundredths % 100),
    ];
    assert_eq!(rows, [wanted]);
    assert_eq!(hundredths_of_hours(total), hundredths);
}

#[test]
fn laws_fill_the_records_of_their_names() {
    for name in named(".laws.txt") {
        let laws = laws_of(&text_in(&format!("{name}.laws.txt"))).unwrap();
        let mut record = bytes_of("rocade-sud.rec");
        let mut list = vec![0; 378 * 22];
        assert_eq!(fill(&mut record, &laws, &[], &mut list).number, 0);
        assert!(record == bytes_of(&format!("{name}.rec")), "{name}");
    }
}

#[test]
fn texts_make_the_records_and_come_back() {
    for name in named(".rec") {
        let text = text_in(&format!("{name}.txt"));
        let record = bytes_of(&format!("{name}.rec"));
        assert_eq!(record_of(&text), record, "{name}");
        let written = text_of(&record).unwrap();
        assert_eq!(
            without_comments(&written),
            without_comments(&text),
            "{name}"
        );
    }
}
