//! `differential [TIMES [SEED]]` compares the library with the reference and fails
//! on any misfit, or if a condition was not met. It makes TIMES times the calls.

use linked::differential::{run, Proved, Tally};
use std::env;
use std::process::ExitCode;

/// The seed of the gate, so that its run is always the same one.
const SEED: u64 = 1_003;

fn main() -> ExitCode {
    let words = env::args().skip(1).map(|word| word.parse().ok());
    let (times, seed): (u64, u64) = match words.collect::<Option<Vec<u64>>>().as_deref() {
        Some([]) => (1, SEED),
        Some([times]) if *times > 0 => (*times, SEED),
        Some([times, seed]) if *times > 0 => (*times, *seed),
        _ => {
            eprintln!("usage: differential [TIMES [SEED]]");
            return ExitCode::from(2);
        }
    };
    println!("seed {seed}, times {times}");
    let mut good = true;
    for (kind, tally) in run(&Proved, seed, |kind| kind.calls.saturating_mul(times)) {
        print(kind.name, &tally);
        good &= tally.good();
    }
    match good {
        true => ExitCode::SUCCESS,
        false => ExitCode::FAILURE,
    }
}

fn print(name: &str, tally: &Tally) {
    let (calls, percent, misfits) = (tally.calls, tally.percent(), tally.misfits);
    println!("{name}: {calls} calls, {percent:.1} % accepted, {misfits} misfits");
    let found = tally.printed.iter().map(|words| format!("misfit: {words}"));
    let unmet = tally.unmet.iter().map(|name| format!("not met: {name}"));
    for line in found.chain(unmet) {
        println!("{line}");
    }
}
