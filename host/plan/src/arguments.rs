//! What the command is asked for.

use std::ffi::OsString;

/// How it is called.
pub const USAGE: &str = "usage: plan CATALOG STATEMENT [--tree | --area]";

/// What `--help` prints.
pub const HELP: &str = "\
usage: plan CATALOG STATEMENT [--tree | --area]

Plans the statement over the catalog, and prints the plan. CATALOG and STATEMENT are
files; - is standard input, for one of them.

  --tree     the plan as a tree for people, as toydb's EXPLAIN shows it
  --area     the plan's numbers of 32 bits, one a line
  --help     this
  --version  the version, and which proved library was linked

Without --tree or --area the plan is printed line by line: a header, the cells, the nodes,
the statement's own lines. docs/TEXTS.md says how the two files are written, docs/PLAN.md
what is printed, and docs/REFUSALS.md what a refusal means.

Exit status: 0 planned; 1 refused, and the record at fault is shown on standard error;
2 something cannot be read or written, or the command is called wrongly.
";

/// What the command is to do.
pub enum Wish {
    /// Print what it does.
    Help,
    /// Print its version.
    Version,
    /// Plan.
    Plan(Arguments),
}

/// What is planned, and how it is shown.
pub struct Arguments {
    /// The file of the catalog.
    pub catalog: OsString,
    /// The file of the statement.
    pub statement: OsString,
    /// How the plan is shown.
    pub form: Form,
}

/// How a plan is shown.
#[derive(Clone, Copy)]
pub enum Form {
    /// Line by line.
    Listing,
    /// As a tree for people.
    Tree,
    /// As its numbers.
    Area,
}

/// Reads the arguments behind the command's name. Everything behind `--` is a file.
pub fn read(arguments: impl Iterator<Item = OsString>) -> Result<Wish, String> {
    let mut files = Vec::new();
    let mut form = None;
    let mut only_files = false;
    for argument in arguments {
        let option = if only_files { "" } else { argument.to_str().unwrap_or_default() };
        let asked = match option {
            "--help" | "-h" => return Ok(Wish::Help),
            "--version" | "-V" => return Ok(Wish::Version),
            "--tree" => Form::Tree,
            "--area" => Form::Area,
            "--" => {
                only_files = true;
                continue;
            }
            _ if option.len() > 1 && option.starts_with('-') => {
                return Err(format!("there is no option {option}"));
            }
            _ => {
                files.push(argument);
                continue;
            }
        };
        if form.replace(asked).is_some() {
            return Err("only one of --tree and --area, and once".to_string());
        }
    }
    let [catalog, statement] = files
        .try_into()
        .map_err(|files: Vec<_>| format!("two files are asked for, and {} given", files.len()))?;
    if catalog == "-" && statement == "-" {
        return Err("only one of both files can be standard input".to_string());
    }
    Ok(Wish::Plan(Arguments { catalog, statement, form: form.unwrap_or(Form::Listing) }))
}
