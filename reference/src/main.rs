//! The second program on the command line.
#![deny(warnings)]

mod commands;
mod help;
mod streams;

use std::process::ExitCode;

use commands::Stop;

fn main() -> ExitCode {
    let words: Vec<String> = std::env::args_os().skip(1).map(|word| word.to_string_lossy().into_owned()).collect();
    let words: Vec<&str> = words.iter().map(String::as_str).collect();
    match commands::run(&words) {
        Ok(()) => ExitCode::SUCCESS,
        Err(Stop::Violated) => ExitCode::FAILURE,
        Err(Stop::Refused(message)) => {
            streams::tell(&message);
            ExitCode::FAILURE
        }
        Err(Stop::Failed(error)) => {
            streams::tell(&format!("reference: {error}"));
            ExitCode::FAILURE
        }
        Err(Stop::Misused(message)) => {
            streams::tell(&message);
            ExitCode::from(2)
        }
    }
}
