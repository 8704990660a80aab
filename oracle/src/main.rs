//! Runs the original Rust, unchanged, and records its answers for the replay programs.
//! Each subcommand is a module of its own and takes the folder that its files are written to.
//! It rests on the crate `original`, which `build.sh` makes of the sources handed to it.

mod choices;
mod costs;
mod expressions;
mod listings;
mod postfix;
mod random;
mod transforms;

use std::path::Path;
use std::process::ExitCode;

const USE: &str = "use: oracle (transforms | expressions | costs | choices | listings) FOLDER";

fn main() -> ExitCode {
    let arguments: Vec<String> = std::env::args().skip(1).collect();
    let words: Vec<&str> = arguments.iter().map(String::as_str).collect();
    let done = match words[..] {
        ["transforms", folder] => transforms::record(Path::new(folder)),
        ["expressions", folder] => expressions::record(Path::new(folder)),
        ["costs", folder] => costs::record(Path::new(folder)),
        ["choices", folder] => choices::record(Path::new(folder)),
        ["listings", folder] => listings::record(Path::new(folder)),
        _ => {
            eprintln!("{USE}");
            return ExitCode::from(2);
        }
    };
    match done {
        Ok(()) => ExitCode::SUCCESS,
        Err(error) => {
            eprintln!("oracle: {error}");
            ExitCode::FAILURE
        }
    }
}
