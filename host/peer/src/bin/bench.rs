//! Nanoseconds an event for submit, grab and complete, then for grabs alone from different queues: the core's archive
//! beside the ordinary server, in one run.
//! usage: bench [--rounds N] [--events N]. The sides take turns; only numbers of one run should be compared. With the
//! feature `before` an older archive takes its turn as well (host/bench.sh).
#![forbid(unsafe_code)]

use peer::archive;
use peer::load::{self, grabs, Case, COMPLETE, GRAB, SUBMIT};
use peer::options;
use peer::sides::{clears, Archive, Plain, Side};
use std::hint::black_box;
use std::process::ExitCode;
use std::time::Instant;

const ROUNDS: u64 = 20;
/// Document 02 wants 100,000; the cases with three events a job then end with whole jobs.
const EVENTS: u64 = 100_002;
const KINDS: [&str; 4] = ["submit", "grab", "complete", "all three"];
const ALL: usize = 3;
/// Which times are printed of a case in each of the two parts.
const ALL_KINDS: [usize; 4] = [SUBMIT, GRAB, COMPLETE, ALL];
const GRABS_ALONE: [usize; 1] = [GRAB];

/// The sides in the order of the columns.
struct Sides {
    archive: Archive,
    before: Option<Archive>,
    plain: Plain,
}

/// The times of one side: those of each round, for each kind.
type Times = [Vec<f64>; 4];

impl Sides {
    fn new() -> Self {
        #[cfg(feature = "before")]
        let before = Some(Archive::new(&archive::BEFORE));
        #[cfg(not(feature = "before"))]
        let before = None;
        Sides { archive: Archive::new(&archive::ARCHIVE), before, plain: Plain::new() }
    }

    fn names(&self) -> Vec<&'static str> {
        match self.before {
            Some(_) => vec!["archive", "before", "plain"],
            None => vec!["archive", "plain"],
        }
    }

    /// One round of one side, by its column.
    fn measure(&mut self, column: usize, case: &Case, kinds: &[usize], clock: f64) -> [f64; 4] {
        match (column, &mut self.before) {
            (0, _) => measure(case, kinds, &mut self.archive, clock),
            (1, Some(before)) => measure(case, kinds, before, clock),
            _ => measure(case, kinds, &mut self.plain, clock),
        }
    }

    /// So many rounds of each side, by columns. The side that goes first changes from round to round.
    fn rounds(&mut self, rounds: usize, case: &Case, kinds: &[usize], clock: f64) -> Vec<Times> {
        let columns = self.names().len();
        let mut times: Vec<Times> = vec![Times::default(); columns];
        for round in 0..rounds {
            for turn in 0..columns {
                let column = (round + turn) % columns;
                let measured = self.measure(column, case, kinds, clock);
                for (kind, time) in measured.into_iter().enumerate() {
                    times[column][kind].push(time);
                }
            }
        }
        times
    }
}

fn main() -> ExitCode {
    let usage = "usage: bench [--rounds N] [--events N]";
    let [rounds, events] = match options::numbers(["--rounds", "--events"], [ROUNDS, EVENTS]) {
        // With fewer events some case would lack a kind.
        Ok([rounds, events]) if rounds > 0 && events >= 17 => [rounds as usize, events as usize],
        Ok(_) => {
            eprintln!("at least 1 round and 17 events\n{usage}");
            return ExitCode::from(2);
        }
        Err(text) => {
            eprintln!("{text}\n{usage}");
            return ExitCode::from(2);
        }
    };
    match bench(rounds, events) {
        Ok(()) => ExitCode::SUCCESS,
        Err(text) => {
            println!("{text}");
            ExitCode::from(1)
        }
    }
}

fn bench(rounds: usize, events: usize) -> Result<(), String> {
    let mut sides = Sides::new();
    let clock = clock_cost();
    println!(
        "nanoseconds an event, minimum and median of {rounds} rounds of {events} events; ratios to the plain server"
    );
    println!("{}", memory(&mut sides));
    let parts: [(&str, Vec<Case>, &[usize]); 2] =
        [("case", load::cases(events), &ALL_KINDS), ("grabs alone", grabs::cases(events), &GRABS_ALONE)];
    for (name, cases, kinds) in parts {
        heading(name, &sides);
        for case in cases {
            all_same(&case, &mut sides)?;
            let mut times = sides.rounds(rounds, &case, kinds, clock);
            report(&case, kinds, &mut times);
        }
    }
    Ok(())
}

/// What each side does with memory that is not needed any more, as a trial found it.
fn memory(sides: &mut Sides) -> String {
    let word = |clears: bool| if clears { "yes" } else { "NO" };
    let mut found = vec![format!("archive {}", word(clears(&mut sides.archive)))];
    if let Some(before) = &mut sides.before {
        found.push(format!("before {}", word(clears(before))));
    }
    found.push(format!("plain {}", word(clears(&mut sides.plain))));
    format!(
        "memory cleared (zeros after a new workload to the end of its 1,024 bytes, all of them zero at an ending): {}",
        found.join(", ")
    )
}

fn heading(part: &str, sides: &Sides) {
    let names = sides.names();
    let mut line = format!("{part:<42} {:<10}", "event");
    names.iter().for_each(|name| line += &format!(" {name:>15}"));
    names[..names.len() - 1].iter().for_each(|name| line += &format!(" {:>13}", format!("{name}/plain")));
    println!("{line}");
}

fn report(case: &Case, kinds: &[usize], times: &mut [Times]) {
    for (index, &kind) in kinds.iter().enumerate() {
        let found: Vec<(f64, f64)> = times
            .iter_mut()
            .map(|times| {
                times[kind].sort_by(f64::total_cmp);
                (times[kind][0], times[kind][times[kind].len() / 2])
            })
            .collect();
        let mut line = format!("{:<42} {:<10}", if index == 0 { case.name } else { "" }, KINDS[kind]);
        found.iter().for_each(|(least, median)| line += &format!(" {least:>7.0} {median:>7.0}"));
        let (plain, archives) = found.split_last().expect("the plain server is there");
        archives.iter().for_each(|times| line += &format!(" {:>6.2} {:>6.2}", times.0 / plain.0, times.1 / plain.1));
        println!("{line}");
    }
}

/// Each archive must do every step and write what the ordinary server writes, or else the times say nothing.
fn all_same(case: &Case, sides: &mut Sides) -> Result<(), String> {
    same(case, &mut sides.archive, &mut sides.plain).map_err(|text| format!("{}: {text}", case.name))?;
    match &mut sides.before {
        Some(before) => same(case, before, &mut sides.plain).map_err(|text| format!("{}, before: {text}", case.name)),
        None => Ok(()),
    }
}

fn same(case: &Case, archive: &mut Archive, plain: &mut Plain) -> Result<(), String> {
    archive.reset();
    plain.reset();
    for (index, step) in case.before.iter().chain(&case.steps).enumerate() {
        let (connection, packet) = (u32::from(step.connection), case.packet(step));
        let (left, right) = (archive.run(connection, packet), plain.run(connection, packet));
        if left != right || left.0 != 0 || archive.output(left.1) != plain.output(right.1) {
            return Err(format!("the sides differ at packet {index}, or it is refused: {left:?} {right:?}"));
        }
    }
    Ok(())
}

/// One round on one side: nanoseconds of a submit, a grab and a complete, each timed apart, and of all timed together
/// where that is asked for.
fn measure(case: &Case, kinds: &[usize], side: &mut impl Side, clock: f64) -> [f64; 4] {
    let mut times = [0.0; 4];
    if kinds.contains(&ALL) {
        prepare(case, side);
        let start = Instant::now();
        for step in &case.steps {
            black_box(side.run(u32::from(step.connection), black_box(case.packet(step))));
        }
        times[ALL] = start.elapsed().as_nanos() as f64 / case.steps.len() as f64;
    }

    prepare(case, side);
    let mut counts = [0u32; 3];
    for step in &case.steps {
        let start = Instant::now();
        black_box(side.run(u32::from(step.connection), black_box(case.packet(step))));
        times[usize::from(step.kind)] += start.elapsed().as_nanos() as f64 - clock;
        counts[usize::from(step.kind)] += 1;
    }
    for kind in [SUBMIT, GRAB, COMPLETE] {
        times[kind] /= f64::from(counts[kind]);
    }
    times
}

fn prepare(case: &Case, side: &mut impl Side) {
    side.reset();
    for step in &case.before {
        side.run(u32::from(step.connection), case.packet(step));
    }
}

/// What reading the clock twice costs by itself; it is taken off each single time.
fn clock_cost() -> f64 {
    let mut costs: Vec<f64> = (0..10_001)
        .map(|_| {
            let start = Instant::now();
            black_box(());
            start.elapsed().as_nanos() as f64
        })
        .collect();
    costs.sort_by(f64::total_cmp);
    costs[costs.len() / 2]
}
