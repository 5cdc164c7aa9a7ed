//! `make bench`: times the archive and prints Markdown tables. Figures that miss
//! an aim fail nothing; answers that differ do.

use linked::bench;
use std::process::ExitCode;

fn main() -> ExitCode {
    match bench::run() {
        Ok(text) => {
            print!("{text}");
            ExitCode::SUCCESS
        }
        Err(message) => {
            eprintln!("bench: {message}");
            ExitCode::FAILURE
        }
    }
}
