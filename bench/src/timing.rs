//! Times and instructions of the programs, by interleaved calls.
use crate::load::{besides, closures, record, record_under, LOADS, PEAK, SEED};
use crate::programs::{Besides, ENGINE, OTHERS, VARIANTS};
use crate::{number, SIZES};
use nobyaluk::Refused;
use std::hint::black_box;
use std::process::Command;
use std::time::{Duration, Instant};

/// Rounds of calls that are timed, for each size: each program once a round.
const ROUNDS: usize = 4_000;
/// Records of each size that the rounds take in turn.
pub const RECORDS: u32 = 8;
/// How often each program runs all loads of the study.
const PASSES: usize = 15;
/// For each size, the target ratios to straightforward Rust and to C, and the target instructions per step and cell.
const BARS: [(f64, f64, f64); SIZES.len()] =
    [(0.35, 1.3, 55.0), (0.35, 1.3, 60.0), (0.38, 1.3, 80.0)];

/// The arguments of the calls of one size: the records, and what goes with them; the same with lanes closed, under which their records
/// were filled.
struct Given {
    length: usize,
    plain: (Vec<Vec<u8>>, Besides),
    closed: (Vec<Vec<u8>>, Besides),
}

impl Given {
    fn of(n: usize, steps: usize, records: u32) -> Result<Given, Refused> {
        let with = |lanes: Vec<u8>| -> Result<_, Refused> {
            let records =
                (SEED..SEED + records).map(|seed| record_under(seed, PEAK, n, steps, &lanes));
            Ok((records.collect::<Result<_, _>>()?, besides(n, lanes)))
        };
        Ok(Given {
            length: steps * (n + 1),
            plain: with(vec![])?,
            closed: with(closures(n, steps))?,
        })
    }
}

/// A call of one program on the record of a number.
type Call<'a> = Box<dyn FnMut(usize) + 'a>;

/// The engine's run and those of the others, each with its own list.
fn runs<'a>(records: &'a [Vec<u8>], length: usize) -> impl Iterator<Item = Call<'a>> {
    std::iter::once(ENGINE).chain(OTHERS).map(move |program| {
        let mut list = vec![0; length];
        Box::new(move |k: usize| (program.call)(&records[k], &mut list)) as Call
    })
}

/// The engine's other runs and fillings, each with its own list and records; filling writes the releases that a record already has.
fn variants(given: &Given) -> impl Iterator<Item = Call<'_>> {
    VARIANTS.into_iter().map(|variant| {
        let (records, besides) = if variant.closed {
            &given.closed
        } else {
            &given.plain
        };
        let (mut records, mut list) = (records.clone(), vec![0; given.length]);
        Box::new(move |k: usize| {
            let (record, list) = (black_box(&mut records[k]), black_box(&mut list));
            black_box((variant.call)(record, black_box(besides), list));
        }) as Call
    })
}

/// The names and words of all calls, in their order.
fn named() -> impl Iterator<Item = (&'static str, &'static str)> {
    let programs = std::iter::once(ENGINE).chain(OTHERS);
    let programs = programs.map(|program| (program.name, program.word));
    programs.chain(VARIANTS.map(|variant| (variant.name, variant.word)))
}

/// All calls of one size, in the order of their names.
fn calls(given: &Given) -> Vec<Call<'_>> {
    runs(&given.plain.0, given.length)
        .chain(variants(given))
        .collect()
}

fn timed(call: &mut Call, k: usize) -> Duration {
    let begin = Instant::now();
    call(k);
    begin.elapsed()
}

/// The times of each call over these records: a round calls each once on one record, and begins one call later than the round before.
fn interleaved(calls: &mut [Call], records: impl Iterator<Item = usize>) -> Vec<Vec<Duration>> {
    let count = calls.len();
    let mut times = vec![Vec::new(); count];
    for (round, k) in records.enumerate() {
        for place in 0..count {
            let which = (round + place) % count;
            times[which].push(timed(&mut calls[which], k));
        }
    }
    times
}

fn median(mut times: Vec<Duration>) -> f64 {
    times.sort_unstable();
    times[times.len() / 2].as_nanos() as f64
}

fn least(times: impl Iterator<Item = Duration>) -> f64 {
    times.min().map_or(0.0, |time| time.as_nanos() as f64)
}

/// A line of the table: nanoseconds per step and cell, microseconds per call, and instructions per step and cell.
fn print_line(name: &str, time: f64, cells: f64, counted: Option<f64>) {
    let counted = counted.map_or("-".into(), |count| format!("{count:.1}"));
    let (cell, call) = (time / cells, time / 1e3);
    println!("  {name:22}{cell:8.2} ns a step-cell{call:8.1} us a call{counted:>8} instructions a step-cell");
}

fn within(name: &str, value: f64, bar: f64) -> String {
    let said = if value <= bar { "within" } else { "ABOVE" };
    format!("  {name} {value:.2}, {said} {bar}")
}

/// The median of each call's times, over the records in turn.
fn medians(mut calls: Vec<Call>) -> Vec<f64> {
    // each record as often as there are calls, because a round begins one call later than the round before
    let turns = calls.len();
    let order = (0..ROUNDS).map(|round| round / turns % RECORDS as usize);
    let times = interleaved(&mut calls, order);
    times.into_iter().map(median).collect()
}

/// Times one size, and gives the ratios engine / other.
fn time_size(size: usize) -> Result<Vec<f64>, Refused> {
    let (n, steps) = SIZES[size];
    let given = Given::of(n, steps, RECORDS)?;
    let mut times = medians(runs(&given.plain.0, given.length).collect());
    let beside = runs(&given.plain.0, given.length).take(1);
    let variants = medians(beside.chain(variants(&given)).collect());
    // the variants' times, scaled as if the run had taken as long among them as it took among the others
    let scale = times[0] / variants[0];
    times.extend(variants[1..].iter().map(|time| time * scale));

    println!("n {n} T {steps}");
    let counted: Vec<Option<f64>> = named()
        .map(|(_, word)| instructions(word, n, steps))
        .collect();
    for (((name, _), time), counted) in named().zip(&times).zip(&counted) {
        print_line(name, *time, (n * steps) as f64, *counted);
    }
    let ratios: Vec<f64> = times[1..=OTHERS.len()]
        .iter()
        .map(|t| times[0] / t)
        .collect();
    print_bars(size, &ratios, counted[0]);
    print_variants(&times);
    Ok(ratios)
}

/// The ratios engine / other and the instructions, each with its target if it has one.
fn print_bars(size: usize, ratios: &[f64], instructions: Option<f64>) {
    let (bar_straight, bar_c, bar_instructions) = BARS[size];
    println!(
        "{}",
        within("engine / straightforward Rust", ratios[0], bar_straight)
    );
    println!("  engine / tuned Rust {:.2}", ratios[1]);
    println!("{}", within("engine / C", ratios[2], bar_c));
    if let Some(engine) = instructions {
        println!("{}", within("instructions", engine, bar_instructions));
    }
}

/// The ratios of the engine's other calls: of runs and of filling to the plain run, of filling with more to filling.
fn print_variants(times: &[f64]) {
    let (run, variants) = (times[0], &times[1 + OTHERS.len()..]);
    let filling = VARIANTS.iter().position(|variant| variant.fills);
    for (k, (variant, time)) in VARIANTS.iter().zip(variants).enumerate() {
        let (beside, least) = match filling {
            Some(first) if k > first => ("filling", variants[first]),
            _ => ("run", run),
        };
        println!("  {} / {beside} {:.2}", variant.name, time / least);
    }
}

/// A thousand loads over one road, one after the other, as in a study. For each load the least time of several passes counts, so
/// an interruption affects only one load of one pass.
fn time_study() -> Result<(), Refused> {
    let (n, steps) = SIZES[0];
    let records: Vec<Vec<u8>> = LOADS
        .map(|seed| record(seed, PEAK, n, steps))
        .collect::<Result<_, _>>()?;
    let order = (0..PASSES * records.len()).map(|k| k % records.len());
    let mut calls: Vec<Call> = runs(&records, steps * (n + 1)).collect();
    let times = interleaved(&mut calls, order);
    let sums: Vec<f64> = times
        .iter()
        .map(|times| {
            let of_load = |k| times.iter().skip(k).step_by(records.len()).copied();
            (0..records.len()).map(|k| least(of_load(k))).sum::<f64>()
        })
        .collect();
    println!(
        "{} loads over one road of {n} cells, T {steps}",
        records.len()
    );
    println!("  engine {:.1} ms", sums[0] / 1e6);
    for (program, sum) in OTHERS.iter().zip(&sums[1..]) {
        println!(
            "  {} {:.1} ms, ratio {:.2}",
            program.name,
            sum / 1e6,
            sums[0] / sum
        );
    }
    Ok(())
}

pub fn time_all() -> Result<(), Refused> {
    println!("C compiled by {}", limit::COMPILER);
    let ratios: Vec<Vec<f64>> = (0..SIZES.len()).map(time_size).collect::<Result<_, _>>()?;
    time_study()?;
    for (k, program) in OTHERS.iter().enumerate() {
        let of: Vec<String> = ratios.iter().map(|of| format!("{:.2}", of[k])).collect();
        println!(
            "engine / {}: ratio {} at n 64, 21, 6",
            program.name,
            of.join(" ")
        );
    }
    Ok(())
}

/// For a profiler: calls on one record, and nothing else that differs with `count`.
pub fn make_calls(program: &str, n: &str, steps: &str, count: &str) -> Result<(), String> {
    let (n, steps, count) = (number(n)?, number(steps)?, number(count)?);
    let given = Given::of(n, steps, 1).map_err(|refused| refused.to_string())?;
    let mut known = named().zip(calls(&given));
    let called = known.find(|((_, word), _)| *word == program);
    let (_, mut call) = called.ok_or(format!("no such program: {program}"))?;
    for _ in 0..count {
        call(0);
    }
    Ok(())
}

/// Instructions per step and cell, as callgrind counts them: those of many calls less those of none; none if valgrind isn't installed.
fn instructions(program: &str, n: usize, steps: usize) -> Option<f64> {
    const COUNT: usize = 20;
    let whole = |count: usize| -> Option<f64> {
        let words = [
            program.into(),
            n.to_string(),
            steps.to_string(),
            count.to_string(),
        ];
        let ran = Command::new("valgrind")
            .args(["--tool=callgrind", "--callgrind-out-file=/dev/null"])
            .arg(std::env::current_exe().ok()?)
            .arg("calls")
            .args(words)
            .output()
            .ok()?;
        let said = String::from_utf8_lossy(&ran.stderr).into_owned();
        let line = said.lines().find(|line| line.contains("Collected : "))?;
        line.rsplit(' ').next()?.parse().ok()
    };
    Some((whole(COUNT)? - whole(0)?) / (COUNT * n * steps) as f64)
}
