//! The commands of the judge. See the README of this folder.

mod arguments;
mod commands;
mod numbers;
mod out;
mod progress;
mod run;
mod timing;

use std::ffi::OsString;
use std::process::ExitCode;

fn main() -> ExitCode {
    let words = std::env::args_os().skip(1).map(OsString::into_string).collect::<Result<_, _>>();
    let not_utf8 = |word: OsString| format!("an argument is not UTF-8: {word:?}");
    match words.map_err(not_utf8).and_then(commands::run) {
        Ok(true) => ExitCode::SUCCESS,
        Ok(false) => ExitCode::from(1),
        Err(message) => {
            out::error_line(format_args!("judge: {message}"));
            ExitCode::from(2)
        }
    }
}
