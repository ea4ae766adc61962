//! The command `plan`: a catalog and a statement from two files, the plan on standard output.

#![forbid(unsafe_code)]
#![deny(missing_docs)]

mod arguments;
mod hints;

use std::ffi::{OsStr, OsString};
use std::fs::File;
use std::io::{self, Read, Write};
use std::path::Path;
use std::process::ExitCode;

use arguments::{Arguments, Form, Wish};
use planner::{LEAST_AREA, Plan, Refusal, Text, library, plan};

/// A text longer than this is refused, however much longer it is, so no more is read.
const MOST_BYTES: u64 = 65_536;

/// Exit statuses.
const PLANNED: u8 = 0;
const REFUSED: u8 = 1;
const CANNOT: u8 = 2;

fn main() -> ExitCode {
    let status = match arguments::read(std::env::args_os().skip(1)) {
        Ok(Wish::Help) => print(arguments::HELP.as_bytes(), PLANNED),
        Ok(Wish::Version) => version(),
        Ok(Wish::Plan(arguments)) => run(&arguments),
        Err(message) => Err(format!("{message}\n{}", arguments::USAGE)),
    };
    ExitCode::from(status.unwrap_or_else(|message| {
        say(&format!("plan: {message}"));
        CANNOT
    }))
}

fn version() -> Result<u8, String> {
    let library = match library() {
        Ok(library) => library.to_string(),
        Err(unusable) => unusable.to_string(),
    };
    print(format!("plan {}\n{library}\n", env!("CARGO_PKG_VERSION")).as_bytes(), PLANNED)
}

/// Plans, and gives the exit status; the error is that something cannot be read or written.
fn run(arguments: &Arguments) -> Result<u8, String> {
    library().map_err(|unusable| unusable.to_string())?;
    let catalog = read(&arguments.catalog)?;
    let statement = read(&arguments.statement)?;
    let mut area = vec![0; LEAST_AREA];
    match plan(&catalog, &statement, &mut area) {
        Ok(plan) => print(&shown(&plan, arguments.form), PLANNED),
        Err(refusal) => {
            show_refusal(arguments, &refusal, &catalog, &statement);
            let listing = match arguments.form {
                Form::Listing => format!("{}\n", refusal.listing()),
                Form::Tree | Form::Area => String::new(),
            };
            print(listing.as_bytes(), REFUSED)
        }
    }
}

/// The plan in the form that is asked for.
fn shown(plan: &Plan, form: Form) -> Vec<u8> {
    match form {
        Form::Listing => plan.listing(),
        Form::Tree => format!("{}\n", plan.tree()).into_bytes(),
        Form::Area => {
            plan.numbers().iter().map(|number| format!("{number}\n")).collect::<String>().into_bytes()
        }
    }
}

/// Says on standard error why a statement is refused, shows the record, and what may help.
fn show_refusal(arguments: &Arguments, refusal: &Refusal, catalog: &[u8], statement: &[u8]) {
    let (name, text) = match refusal.text {
        Text::Catalog => (&arguments.catalog, catalog),
        Text::Statement => (&arguments.statement, statement),
    };
    let at = match refusal.line {
        0 => named(name),
        line => format!("{}:{line}", named(name)),
    };
    let record = refusal.record(catalog, statement);
    say(&format!("{at}: {} (refusal {})", refusal.reason, refusal.reason.number()));
    match record {
        Some(record) => say(&format!("    {}", hints::visible(record))),
        None if refusal.line > 0 => say("    the text ends here"),
        None => {}
    }
    for hint in hints::of(refusal, record, text) {
        say(&format!("hint: {hint}"));
    }
}

fn is_standard_input(name: &OsStr) -> bool {
    name == "-"
}

fn named(name: &OsStr) -> String {
    if is_standard_input(name) { "standard input".to_string() } else { Path::new(name).display().to_string() }
}

fn read(name: &OsString) -> Result<Vec<u8>, String> {
    let cannot = |error: io::Error| format!("{}: {error}", named(name));
    let mut bytes = Vec::new();
    if is_standard_input(name) {
        io::stdin().lock().take(MOST_BYTES + 1).read_to_end(&mut bytes).map_err(cannot)?;
    } else {
        File::open(name).map_err(cannot)?.take(MOST_BYTES + 1).read_to_end(&mut bytes).map_err(cannot)?;
    }
    Ok(bytes)
}

/// Writes on standard output, and gives the status. Whoever reads it may stop reading.
fn print(bytes: &[u8], status: u8) -> Result<u8, String> {
    let mut out = io::stdout().lock();
    match out.write_all(bytes).and_then(|()| out.flush()) {
        Err(error) if error.kind() != io::ErrorKind::BrokenPipe => Err(format!("standard output: {error}")),
        _ => Ok(status),
    }
}

/// Writes a line on standard error, if that can be done.
fn say(line: &str) {
    let _ = writeln!(io::stderr().lock(), "{line}");
}
