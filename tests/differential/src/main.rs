//! Compares an engine with the independent implementation until told to stop.

use differential::cases::{describe, inputs, Harness};
use differential::mutants::MUTANTS;
use differential::options::{Options, USAGE};
use differential::random::Random;
use differential::subjects::{Independent, Linked, Subject};
use differential::sweep;
use differential::tally::Tally;
use std::process::ExitCode;
use std::time::{Duration, Instant};

/// After so many random cases every refusal should have been met.
const ENOUGH_CASES: u64 = 200_000;

/// Cases between two looks at the clock.
const CASES_AT_A_TIME: u64 = 64;

fn main() -> ExitCode {
    let options = match Options::parse(std::env::args().skip(1)) {
        Ok(options) => options,
        Err(message) => return usage(&message),
    };
    if options.list {
        MUTANTS
            .iter()
            .for_each(|mutant| println!("{}", mutant.name));
        return ExitCode::SUCCESS;
    }
    let Some(subject) = subject(&options.subject) else {
        return usage(&format!("no such subject: {}", options.subject));
    };
    let harness = Harness {
        subject,
        seed: options.seed,
        surroundings: options.surroundings,
    };
    match options.case {
        Some(number) => one_case(&harness, &options, number),
        None => many_cases(&harness, &options),
    }
}

fn usage(message: &str) -> ExitCode {
    eprintln!("{message}\n{USAGE}");
    ExitCode::from(2)
}

fn subject(name: &str) -> Option<&'static dyn Subject> {
    match name {
        "library" => Some(&Linked::LIBRARY),
        "c" => Some(&Linked::PLAIN_C),
        "rust" => Some(&Independent),
        _ => {
            let mutant = MUTANTS.iter().find(|mutant| mutant.name == name)?;
            Some(mutant)
        }
    }
}

fn one_case(harness: &Harness, options: &Options, number: u64) -> ExitCode {
    println!(
        "{}",
        describe(&inputs(number, &mut Random::new(options.seed, number)))
    );
    match harness.check(number, &mut Tally::default()) {
        Ok(()) => {
            println!("no difference");
            ExitCode::SUCCESS
        }
        Err(finding) => failed(options, number, &finding),
    }
}

fn failed(options: &Options, number: u64, finding: &str) -> ExitCode {
    let Options { subject, seed, .. } = options;
    println!(
        "FAILED: run again with --subject {subject} --seed {seed} --case {number} ({finding})"
    );
    ExitCode::FAILURE
}

fn many_cases(harness: &Harness, options: &Options) -> ExitCode {
    println!("subject {}, seed {}", options.subject, options.seed);
    let first = if options.sweep { 0 } else { sweep::CASES };
    let mut tally = Tally::default();
    let begun = Instant::now();
    let mut done = 0;
    while goes_on(options, done, begun) {
        if let Err(finding) = harness.check(first + done, &mut tally) {
            return failed(options, first + done, &finding);
        }
        done += 1;
    }
    report(done, begun.elapsed(), &tally);
    let random_cases = (first + done).saturating_sub(sweep::CASES);
    let missing = tally.missing();
    if random_cases >= ENOUGH_CASES && !missing.is_empty() {
        println!("FAILED: never met: {}", missing.join(", "));
        return ExitCode::FAILURE;
    }
    ExitCode::SUCCESS
}

fn goes_on(options: &Options, done: u64, begun: Instant) -> bool {
    if options.cases.is_some_and(|cases| done >= cases) {
        return false;
    }
    match options.seconds {
        Some(seconds) if done.is_multiple_of(CASES_AT_A_TIME) => {
            begun.elapsed() < Duration::from_secs(seconds)
        }
        _ => true,
    }
}

fn report(done: u64, took: Duration, tally: &Tally) {
    let seconds = took.as_secs_f64();
    let rate = done as f64 / seconds * 60.0 / 1e6;
    println!("{tally}");
    println!("{done} cases in {seconds:.1} s, {rate:.2} million a minute: no difference");
}
