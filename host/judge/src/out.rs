//! Standard output and standard error that may be closed.

use std::fmt::Arguments;
use std::io::{ErrorKind, Write, stderr, stdout};
use std::process::exit;

/// Prints a line. Where nobody reads it any more, the program ends: what it would come to would not be seen.
pub fn line(text: Arguments) {
    if let Err(error) = writeln!(stdout(), "{text}") {
        if error.kind() != ErrorKind::BrokenPipe {
            error_line(format_args!("judge: standard output: {error}"));
        }
        exit(2);
    }
}

/// Prints a line to standard error, where that is open.
pub fn error_line(text: Arguments) {
    // There is nowhere left to say that it failed.
    let _ = writeln!(stderr(), "{text}");
}

/// As the standard macro, but for output that is closed.
macro_rules! println {
    ($($arguments:tt)*) => {
        $crate::out::line(format_args!($($arguments)*))
    };
}

pub(crate) use println;
