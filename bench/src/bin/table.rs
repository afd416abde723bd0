//! Times the engines in one process, turn and turn about, and prints medians.

use bench::engines::{Engine, ENGINES};
use bench::rows::{rows, rows_by_events, rows_by_seats, Row};
use std::fmt::Display;
use std::time::Instant;

const ROUNDS: usize = 201;

/// Median nanoseconds of one piece of work, for each engine.
type Medians = [f64; ENGINES.len()];

fn main() {
    println!("One process, turn and turn about; medians of {ROUNDS} rounds, in nanoseconds.");
    println!("C: gcc -O3, plain x86-64, no -march=native. Rust: release, link-time optimised.");
    println!("C portable: C99, byte loads. C x86-64: word loads, bit tricks and SSE2.");
    println!("Books are restored by copy before each round, outside of the timed part; answer");
    println!("and event areas are not cleared.");
    println!();
    print_head("row");
    for mut row in rows() {
        let medians = measure(&mut row);
        print_row(&row.title, medians);
    }
    println!();
    print_head("doubling (x: to the row above)");
    print_doubling(rows_by_seats());
    print_doubling(rows_by_events());
}

fn measure(row: &mut Row) -> Medians {
    compare(row);
    let mut times: [Vec<f64>; ENGINES.len()] = Default::default();
    for round in 0..ROUNDS {
        for turn in 0..ENGINES.len() {
            let place = (round + turn) % ENGINES.len();
            times[place].push(time(row, ENGINES[place]));
        }
    }
    times.map(median)
}

/// No engine is timed that does other work than the others.
fn compare(row: &mut Row) {
    for work in &mut row.works {
        let expected = work.outcome(Engine::Rust);
        for engine in ENGINES {
            assert!(
                work.outcome(engine) == expected,
                "engines differ in row {}",
                row.name
            );
        }
    }
}

fn time(row: &mut Row, engine: Engine) -> f64 {
    row.works.iter_mut().for_each(|work| work.restore());
    let begun = Instant::now();
    for work in &mut row.works {
        work.perform(engine);
    }
    begun.elapsed().as_nanos() as f64 / row.works.len() as f64
}

fn median(mut times: Vec<f64>) -> f64 {
    times.sort_by(f64::total_cmp);
    times[times.len() / 2]
}

fn print_head(title: &str) {
    let titles = ENGINES.map(Engine::title);
    let times = columns(titles.iter());
    let ratios = columns(titles[1..].iter());
    let middle = times.len();
    println!("{:50} {:middle$}    {} divided by", "", "", titles[0]);
    println!("{title:50} {times}    {ratios}");
}

fn print_row(title: &str, medians: Medians) {
    let [library, others @ ..] = medians;
    let times = columns(medians.iter().map(|time| format!("{time:.0}")));
    let ratios = columns(others.iter().map(|other| format!("{:.2}", library / other)));
    println!("{title:50} {times}    {ratios}");
}

fn columns(cells: impl Iterator<Item = impl Display>) -> String {
    cells.map(|cell| format!("{cell:>11}")).collect()
}

fn print_doubling(rows: Vec<Row>) {
    let mut before: Option<Medians> = None;
    for mut row in rows {
        let medians = measure(&mut row);
        print_row(&row.title, medians);
        if let Some(before) = before {
            let growth = medians.iter().zip(before).map(|(now, before)| now / before);
            let growth = columns(growth.map(|times| format!("x{times:.2}")));
            println!("{:50} {growth}", "");
        }
        before = Some(medians);
    }
}
