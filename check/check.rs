//! The independent check: the proved programs `desk`, `ledger` and `import` are asked random questions, and every
//! answer is compared with one that this program works out by itself from documents 01 and 02. `check/run` builds and
//! starts it.

mod desk;
mod draw;
mod faults;
mod figures;
mod frames;
mod logger;
mod month;
mod pairs;
mod programs;
mod questions;
mod rules;
mod tally;

use draw::Draw;
use programs::{Program, Runner};
use std::process::ExitCode;
use std::sync::atomic::{AtomicUsize, Ordering};
use std::sync::Mutex;
use tally::{compare, Tally};

const USAGE: &str = "usage: check [--seed N] [--size N] [--part NAME] [--fault NAME] --programs DIR --room DIR
       check --faults";

// ---- the parts

/// What a part writes, and for which program.
#[derive(Clone, Copy)]
enum Asks {
    Desk(fn(&mut Draw) -> String),
    Ledger(fn(&mut Draw) -> Vec<u8>),
    Import(fn(&mut Draw) -> Vec<u8>),
    /// What desk prints goes into this program.
    Into(Program, fn(&mut Draw) -> String),
    /// What import prints for the lines goes into desk, after the text.
    Imported(fn(&mut Draw) -> (String, Vec<u8>)),
}

struct Part {
    name: &'static str,
    asks: Asks,
    /// How many runs of the program at size 1, and whether a larger size has more of them.
    runs: usize,
    grows: bool,
}

const fn once(name: &'static str, asks: Asks) -> Part {
    Part { name, asks, runs: 1, grows: false }
}

const fn each(name: &'static str, runs: usize, asks: Asks) -> Part {
    Part { name, asks, runs, grows: false }
}

const fn runs(name: &'static str, runs: usize, asks: Asks) -> Part {
    Part { name, asks, runs, grows: true }
}

const PARTS: [Part; 52] = [
    once("figures", Asks::Desk(figures::questions)),
    once("kilowatts", Asks::Desk(questions::kilowatts)),
    once("curve", Asks::Desk(questions::curve)),
    runs("score", 1, Asks::Desk(questions::score)),
    runs("ramp", 1, Asks::Desk(questions::ramp)),
    runs("rate", 1, Asks::Desk(questions::rate)),
    runs("reached", 1, Asks::Desk(questions::reached)),
    runs("bands", 1, Asks::Desk(questions::bands)),
    runs("fees", 1, Asks::Desk(questions::fees)),
    runs("energy", 1, Asks::Desk(questions::energy)),
    runs("loss", 1, Asks::Desk(questions::loss)),
    runs("dreg", 3, Asks::Desk(questions::dreg)),
    runs("edreg", 3, Asks::Desk(questions::edreg)),
    runs("sreg", 3, Asks::Desk(questions::sreg)),
    runs("sreg events", 1, Asks::Desk(questions::sreg_events)),
    runs("sreg handed on", 1, Asks::Desk(questions::sreg_handed_on)),
    once("sreg states", Asks::Desk(questions::sreg_states)),
    once("sreg limits", Asks::Desk(questions::sreg_limits)),
    runs("first windows", 1, Asks::Desk(questions::first_windows)),
    once("dreg limits", Asks::Desk(questions::dreg_limits)),
    once("edreg limits", Asks::Desk(questions::edreg_limits)),
    runs("hour orders", 1, Asks::Desk(questions::hour_orders)),
    runs("frame", 1, Asks::Desk(questions::frame)),
    runs("pair", 5, Asks::Desk(pairs::pairs)),
    runs("pair frequencies", 1, Asks::Desk(pairs::frequencies)),
    runs("pair ties", 1, Asks::Desk(pairs::ties)),
    once("pair exponents", Asks::Desk(pairs::exponents)),
    once("pair limits", Asks::Desk(pairs::limits)),
    runs("pair frame", 1, Asks::Desk(pairs::frames)),
    runs("short texts", 60, Asks::Desk(questions::short_text)),
    runs("long texts", 1, Asks::Desk(questions::long_text)),
    runs("counts", 1, Asks::Desk(questions::counts)),
    runs("desk | ledger", 2, Asks::Into(Program::Ledger, questions::month)),
    once("desk | ledger fees", Asks::Into(Program::Ledger, figures::piped_fees)),
    runs("desk | import", 1, Asks::Into(Program::Import, pairs::framed_hour)),
    runs("import | desk", 4, Asks::Imported(pairs::piped_hour)),
    runs("import hours", 2, Asks::Import(pairs::hour)),
    each("import flaws", pairs::EVERY_FLAW, Asks::Import(pairs::flaws)),
    runs("import orders", 13, Asks::Import(pairs::orders)),
    runs("import many flaws", 8, Asks::Import(pairs::many_flaws)),
    each("import counts", 2 * pairs::COUNTS.len(), Asks::Import(pairs::counts)),
    runs("import line ends", pairs::ENDS, Asks::Import(pairs::line_ends)),
    once("ledger figures", Asks::Ledger(figures::frames)),
    once("ledger fees", Asks::Ledger(figures::fees)),
    runs("ledger reader", 1, Asks::Ledger(frames::reader)),
    once("ledger limits", Asks::Ledger(frames::limits)),
    runs("ledger months", 4, Asks::Ledger(frames::month_limits)),
    runs("ledger lives", 60, Asks::Ledger(frames::life)),
    runs("ledger long lives", 1, Asks::Ledger(frames::long_life)),
    runs("ledger line ends", 60, Asks::Ledger(frames::line_ends)),
    runs("ledger pairs", 1, Asks::Ledger(pairs::in_the_ledger)),
    once("ledger million", Asks::Ledger(frames::million)),
];

// ---- one run

/// Runs a program on an input and compares; the input is kept where something differs. Gives what was printed too.
fn ask(runner: &Runner, program: Program, input: &[u8], label: &str) -> (Tally, Vec<u8>) {
    let kept = runner.input_file(label);
    let printed = match runner.run(program, input, label) {
        Ok(printed) => printed,
        Err(why) => return (Tally::of_broken(format!("{why} ({})", kept.display())), Vec::new()),
    };
    let tally = compare(program, input, &program.expected(input), &printed, &kept.display().to_string());
    if tally.differences == 0 {
        std::fs::remove_file(kept).ok();
    }
    (tally, printed)
}

fn one_run(runner: &Runner, part: &Part, seed: u64, run: usize) -> Tally {
    let draw = &mut Draw::new(seed, part.name, run);
    let label = format!("{}-{}", part.name.replace(" | ", "-").replace(' ', "-"), run + 1);
    match part.asks {
        Asks::Desk(text) => ask(runner, Program::Desk, text(draw).as_bytes(), &label).0,
        Asks::Ledger(lines) => ask(runner, Program::Ledger, &lines(draw), &label).0,
        Asks::Import(lines) => ask(runner, Program::Import, &lines(draw), &label).0,
        Asks::Into(program, text) => {
            let (mut tally, frames) = ask(runner, Program::Desk, text(draw).as_bytes(), &label);
            tally.add(ask(runner, program, &frames, &format!("{label}-{}", program.name())).0);
            tally
        }
        Asks::Imported(hour) => {
            let (question, lines) = hour(draw);
            let (mut tally, readings) = ask(runner, Program::Import, &lines, &label);
            let text = [question.as_bytes(), &readings].concat();
            tally.add(ask(runner, Program::Desk, &text, &format!("{label}-desk")).0);
            tally
        }
    }
}

// ---- all of them

struct Settings {
    seed: u64,
    size: usize,
    part: String,
    runner: Runner,
}

/// Every run of every part asked for, shared out to the machine's processors; a tally for each part.
fn run_all(settings: &Settings, parts: &[&Part]) -> Vec<Tally> {
    let count = |part: &Part| if part.grows { part.runs * settings.size } else { part.runs };
    let jobs: Vec<_> = parts.iter().enumerate().flat_map(|(at, part)| (0..count(part)).map(move |run| (at, run))).collect();
    let next = AtomicUsize::new(0);
    let tallies: Mutex<Vec<Tally>> = Mutex::new(parts.iter().map(|_| Tally::default()).collect());
    let work = || {
        while let Some((at, run)) = jobs.get(next.fetch_add(1, Ordering::Relaxed)) {
            let tally = one_run(&settings.runner, parts[*at], settings.seed, *run);
            if tally.broken {
                next.store(jobs.len(), Ordering::Relaxed);
            }
            tallies.lock().expect("no worker fails")[*at].add(tally);
        }
    };
    std::thread::scope(|scope| {
        for _ in 0..std::thread::available_parallelism().map_or(1, usize::from) {
            scope.spawn(work);
        }
    });
    tallies.into_inner().expect("no worker fails")
}

fn print_row(name: &str, tally: &Tally) {
    println!("{name:<20}{:>8}{:>10}{:>12}{:>13}", tally.runs, tally.cases, tally.answers, tally.differences);
}

/// Prints the table, the first differences and the last line; says whether there are none.
fn report(parts: &[&Part], tallies: Vec<Tally>) -> bool {
    println!("{:<20}{:>8}{:>10}{:>12}{:>13}", "part", "runs", "cases", "answers", "differences");
    let mut all = Tally::default();
    for (part, tally) in parts.iter().zip(tallies) {
        print_row(part.name, &tally);
        all.add(tally);
    }
    print_row("all", &all);
    for difference in &all.shown {
        println!("{difference}");
    }
    if all.broken {
        println!("nothing more was run after a program that did not end as it should");
    }
    println!("{} answers compared, {} differences", all.answers, all.differences);
    all.differences == 0
}

// ---- the command line

fn settings(mut words: impl Iterator<Item = String>) -> Option<Settings> {
    let runner = Runner { programs: "".into(), room: "".into() };
    let mut settings = Settings { seed: 1, size: 1, part: String::new(), runner };
    while let Some(word) = words.next() {
        let value = words.next()?;
        match word.as_str() {
            "--seed" => settings.seed = value.parse().ok()?,
            "--size" => settings.size = value.parse().ok().filter(|size| *size > 0)?,
            "--part" => settings.part = value,
            "--fault" => faults::switch_on(&value).then_some(())?,
            "--programs" => settings.runner.programs = value.into(),
            "--room" => settings.runner.room = value.into(),
            _ => return None,
        }
    }
    Some(settings)
}

fn main() -> ExitCode {
    let words: Vec<_> = std::env::args().skip(1).collect();
    if words == ["--faults"] {
        faults::FAULTS.iter().for_each(|(name, _, what)| println!("{name:<24}{what}"));
        return ExitCode::SUCCESS;
    }
    let Some(settings) = settings(words.into_iter()) else {
        eprintln!("{USAGE}");
        return ExitCode::from(2);
    };
    let parts: Vec<_> = PARTS.iter().filter(|part| part.name.starts_with(&settings.part)).collect();
    if parts.is_empty() {
        eprintln!("check: no part is named {}; the parts: {}", settings.part, PARTS.map(|part| part.name).join(", "));
        return ExitCode::from(2);
    }
    if let (false, Some(figure)) = (faults::any(), figures::missed()) {
        eprintln!("check: its own rules miss a figure of the paper: {figure}");
        return ExitCode::from(2);
    }
    let tallies = run_all(&settings, &parts);
    ExitCode::from(u8::from(!report(&parts, tallies)))
}
