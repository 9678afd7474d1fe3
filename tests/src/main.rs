//! compare: asks the library at the end of a pipe, and compares each reply with the independent
//! implementation's. Its last line counts the cases, the calls and each number seen.

use std::process::ExitCode;
use std::time::{Duration, Instant};

use tessarquin_tests::calls::LAW;
use tessarquin_tests::cases;
use tessarquin_tests::compare::{counts, Checker, Difference};
use tessarquin_tests::runner::Runner;

const USAGE: &str = "usage: compare [--seed S] [--cases N] [--case K] -- RUNNER [ARGUMENT..]

  --seed S    the seed of all cases (1)
  --cases N   how many cases to run (4000)
  --case K    run case K alone and print each call";

/// How often a line tells how far it is.
const PROGRESS: Duration = Duration::from_secs(10);

struct Options {
    seed: u64,
    cases: u64,
    case: Option<u64>,
    runner: Vec<String>,
}

fn main() -> ExitCode {
    let options = match options(std::env::args().skip(1)) {
        Ok(options) => options,
        Err(why) => {
            eprintln!("{why}\n{USAGE}");
            return ExitCode::from(2);
        }
    };
    let result = match options.case {
        Some(case) => run_one(&options, case),
        None => run_all(&options),
    };
    match result {
        Ok(last_line) => {
            println!("{last_line}");
            ExitCode::SUCCESS
        }
        Err(why) => {
            println!("{why}");
            ExitCode::FAILURE
        }
    }
}

fn options(mut arguments: impl Iterator<Item = String>) -> Result<Options, String> {
    let mut options = Options { seed: 1, cases: 4000, case: None, runner: vec![] };
    while let Some(argument) = arguments.next() {
        if argument == "--" {
            options.runner = arguments.collect();
            break;
        }
        let value = arguments.next().ok_or(format!("{argument} stands alone"))?;
        let number = value.parse().map_err(|_| format!("{argument}: {value} is no number"))?;
        match argument.as_str() {
            "--seed" => options.seed = number,
            "--cases" => options.cases = number,
            "--case" => options.case = Some(number),
            _ => return Err(format!("{argument} is not known")),
        }
    }
    if options.runner.is_empty() {
        return Err("no runner is named".into());
    }
    Ok(options)
}

fn run_all(options: &Options) -> Result<String, String> {
    let Options { seed, cases, runner, .. } = options;
    Runner::probe(runner)?;
    let mut core = Runner::start(runner)?;
    let mut checker = Checker::new(&mut core, LAW);
    let start = Instant::now();
    let mut told = start;
    for case in 0..*cases {
        run_case(&mut checker, options, case)?;
        if told.elapsed() >= PROGRESS {
            told = Instant::now();
            let rate = (case + 1) as f64 / start.elapsed().as_secs_f64();
            eprintln!("{} of {cases} cases, {rate:.0} a second, seed {seed}", case + 1);
        }
    }
    let tally = checker.tally;
    if let Some(missing) = tally.missing() {
        return Err(format!("{cases} cases are too few: {missing}"));
    }
    let (calls, by_name, numbers) = (tally.all_calls(), counts(&tally.calls), counts(&tally.seen));
    let checked = tally.checked().map(|(what, count)| format!("{count} {what}")).join("; ");
    Ok(format!(
        "{cases} cases, {calls} calls, no difference ({by_name}); {checked}; numbers seen: {numbers}"
    ))
}

fn run_one(options: &Options, case: u64) -> Result<String, String> {
    let mut core = Runner::start(&options.runner)?;
    let mut checker = Checker::new(&mut core, LAW);
    checker.verbose = true;
    let kind = run_case(&mut checker, options, case)?;
    Ok(format!("case {case} of seed {} ({kind}): no difference", options.seed))
}

/// The kind of the case, or its difference and how to repeat it.
fn run_case(checker: &mut Checker, options: &Options, case: u64) -> Result<String, String> {
    let seed = options.seed;
    let (kind, result) = cases::run(checker, seed, case);
    match result {
        Ok(()) => Ok(kind),
        Err(Difference(text)) => Err(format!(
            "DIFFERENCE: seed {seed}, case {case} ({kind})\n  {text}\n  repeat it: compare --seed {seed} --case {case} -- {}",
            options.runner.join(" ")
        )),
    }
}
