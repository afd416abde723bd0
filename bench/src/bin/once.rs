//! Does one row's work with one engine a number of times, for a tool that counts
//! instructions: `once ENGINE ROW TIMES`. Prints how many pieces of work it did.

use bench::engines::Engine;
use bench::rows::row;

fn main() {
    let words: Vec<String> = std::env::args().skip(1).collect();
    let [engine, name, times] = words.as_slice() else {
        panic!("once ENGINE ROW TIMES");
    };
    let engine = Engine::named(engine).expect("library, c-portable, c-x86-64, rust or nothing");
    let mut row = row(name).expect("a row of the benchmark");
    let times: usize = times.parse().expect("a number of times");
    for _ in 0..times {
        for work in &mut row.works {
            work.restore();
            work.perform(engine);
        }
    }
    println!("{}", times * row.works.len());
}
