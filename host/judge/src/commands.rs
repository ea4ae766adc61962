//! What each command does. A command answers whether all went well.

use std::fs;
use std::path::{Path, PathBuf};
use std::time::Duration;

use judge::bench::Which;
use judge::compare::{STATEMENTS, Verdict, compare, compare_exactly};
use judge::generate::{Case, limits, pairs};
use judge::list::{self, Answered};
use judge::predict::predict;
use judge::program::{Fault, Program};
use judge::sample::sample;
use judge::{dropin, folder, planning, reading, stale, values};

use crate::arguments::Arguments;
use crate::numbers::{Cases, Numbers};
use crate::out::println;
use crate::progress::Progress;
use crate::run::{judge_cases, judge_printed, show};
use crate::timing;

const USAGE: &str = "judge COMMAND ..; --help shows this. Cases are those of a seed (--seed S, 1 unless given), from a number on
(--first N), so many (--count N). Exit status: 0 all well, 1 something differs or nothing was compared, 2 bad usage or input.

commands:
  compare [--threads N]                                  predictions with the Rust planner
  cases FOLDER [--bytes N]                               writes cases of at most some bytes
  limits FOLDER [--bytes N]                              writes the cases at the limits and with two faults
  sample FOLDER [--seed S] [--each N]                    writes a sample of small cases of every kind
  hold FOLDER                                            what was printed of a folder's cases with the Rust planner
  program PATH [--seconds N]                             a planning program with the Rust planner
  dropin [--threads N]                                   toydb's own plans from its planner and from the proved one
  list FOLDER FILE                                       writes the fixed list from a folder's cases
  replay FILE                                            the fixed list with the Rust planner
  values                                                 the proved operators with the Rust's, on pairs of values
  reading                                                the proved reading with the host's own, on damaged texts
  planned [--threads N] [--statements WORD,WORD..]       the proved planner with predictions and the Rust planner
  damaged [--threads N]                                  the same on damaged texts
  bench [--rounds N] [--median] [--check]                the proved planner's time beside toydb's and SQLite's
  growth                                                 how those times grow, by cells of the plan
  page PICTURE [--runs N] [--rounds N]                   the rows of docs/PERFORMANCE.md, and its picture";

pub fn run(mut arguments: Vec<String>) -> Result<bool, String> {
    if arguments.is_empty() {
        return Err(USAGE.to_string());
    }
    if arguments.iter().any(|argument| argument == "--help" || argument == "-h") || arguments[0] == "help" {
        println!("{USAGE}");
        return Ok(true);
    }
    let command = arguments.remove(0);
    match command.as_str() {
        "compare" => {
            let arguments = Arguments::new(arguments, &Numbers::OPTIONS)?;
            let numbers = Numbers::of(&arguments, 100_000)?;
            let [] = arguments.words([])?;
            let predicted = |case: &Case| predict(&case.catalog, &case.statement).listing;
            Ok(judge_cases(numbers, &Cases::All, |_, case| compare(case, &predicted(case))))
        }
        "cases" => {
            let arguments = Arguments::new(arguments, &["seed", "first", "count", "bytes"])?;
            let numbers = Numbers::of(&arguments, 1_000)?;
            let bytes = arguments.option("bytes", 2_000) as usize;
            let [folder] = arguments.words(["FOLDER"])?;
            write_cases(&PathBuf::from(folder), numbers, bytes)
        }
        "limits" => {
            let arguments = Arguments::new(arguments, &["bytes"])?;
            let bytes = arguments.option("bytes", 10_000) as usize;
            let [folder] = arguments.words(["FOLDER"])?;
            write_limits(&PathBuf::from(folder), bytes)
        }
        "sample" => {
            let arguments = Arguments::new(arguments, &["seed", "each"])?;
            let (seed, each) = (arguments.option("seed", 1), arguments.option("each", 20));
            let [folder] = arguments.words(["FOLDER"])?;
            write_sample(&PathBuf::from(folder), seed, each as usize)
        }
        "hold" => {
            let [folder] = Arguments::new(arguments, &[])?.words(["FOLDER"])?;
            hold(&PathBuf::from(folder))
        }
        "program" => {
            let arguments = Arguments::new(arguments, &["seed", "first", "count", "seconds"])?;
            let numbers = Numbers::of(&arguments, 1_000)?;
            let limit = Duration::from_secs(arguments.option("seconds", 10));
            let [program] = arguments.words(["PATH"])?;
            run_program(&PathBuf::from(program), limit, numbers)
        }
        "dropin" => {
            let arguments = Arguments::new(arguments, &Numbers::OPTIONS)?;
            let numbers = Numbers::of(&arguments, 100_000)?;
            let [] = arguments.words([])?;
            linked("planner", planning::AVAILABLE)?;
            Ok(judge_cases(numbers, &Cases::Read, |number, case| dropin::compare(case, numbers.seed, number)))
        }
        "list" => {
            let [folder, file] = Arguments::new(arguments, &[])?.words(["FOLDER", "FILE"])?;
            write_list(&PathBuf::from(folder), &PathBuf::from(file))
        }
        "replay" => {
            let [file] = Arguments::new(arguments, &[])?.words(["FILE"])?;
            replay(&PathBuf::from(file))
        }
        "values" => {
            let arguments = Arguments::new(arguments, &["seed", "first", "count"])?;
            let numbers = Numbers::of(&arguments, 1_000_000)?;
            let [] = arguments.words([])?;
            compare_values(numbers)
        }
        "reading" => {
            let arguments = Arguments::new(arguments, &["seed", "first", "count"])?;
            let numbers = Numbers::of(&arguments, 1_000_000)?;
            let [] = arguments.words([])?;
            compare_reading(numbers)
        }
        "planned" => {
            let arguments = Arguments::with_lists(arguments, &Numbers::OPTIONS, &["statements"])?;
            let numbers = Numbers::of(&arguments, 100_000)?;
            let statements = arguments.list("statements", &STATEMENTS)?;
            let [] = arguments.words([])?;
            compare_plans(numbers, &statements.map_or(Cases::All, Cases::Of))
        }
        "damaged" => {
            let arguments = Arguments::new(arguments, &Numbers::OPTIONS)?;
            let numbers = Numbers::of(&arguments, 100_000)?;
            let [] = arguments.words([])?;
            compare_plans(numbers, &Cases::Damaged)
        }
        "bench" => {
            let arguments = Arguments::with_flags(arguments, &["rounds"], &["median", "check"])?;
            let rounds = arguments.option("rounds", timing::ROUNDS);
            let which = if arguments.flag("median") { Which::Median } else { Which::Lowest };
            let check = arguments.flag("check");
            let [] = arguments.words([])?;
            timing::bench(rounds, which, check)
        }
        "growth" => {
            let [] = Arguments::new(arguments, &[])?.words([])?;
            timing::growth()
        }
        "page" => {
            let arguments = Arguments::new(arguments, &["runs", "rounds"])?;
            let (runs, rounds) = (arguments.option("runs", 3), arguments.option("rounds", timing::ROUNDS));
            let [picture] = arguments.words(["PICTURE"])?;
            timing::page(runs, rounds, &PathBuf::from(picture))
        }
        _ => Err(format!("no command {command}\n{USAGE}")),
    }
}

/// Judges what the planner makes of each case.
fn compare_plans(numbers: Numbers, cases: &Cases) -> Result<bool, String> {
    linked("planner", planning::AVAILABLE)?;
    Ok(judge_cases(numbers, cases, |number, case| planning::compare(case, numbers.seed, number)))
}

/// The library of a Rattle crate was linked, and is the one that its sources give.
fn linked(name: &str, is_linked: bool) -> Result<(), String> {
    if !is_linked {
        return Err(format!("`tools/build {name}` was not run"));
    }
    stale::check(name)
}

fn make_folder(folder: &Path) -> Result<(), String> {
    fs::create_dir_all(folder).map_err(|error| format!("{}: {error}", folder.display()))?;
    let mut entries = fs::read_dir(folder).map_err(|error| format!("{}: {error}", folder.display()))?;
    match entries.next() {
        Some(_) => Err(format!("{}: this folder is not empty", folder.display())),
        None => Ok(()),
    }
}

fn write_cases(folder: &Path, numbers: Numbers, bytes: usize) -> Result<bool, String> {
    make_folder(folder)?;
    let (mut written, mut too_long) = (0u64, 0u64);
    for (number, case) in numbers.cases() {
        if case.catalog.len() + case.statement.len() <= bytes {
            let expected = predict(&case.catalog, &case.statement).listing;
            folder::write(folder, number, &case, &expected)?;
            written += 1;
        } else {
            too_long += 1;
        }
    }
    println!("{written} cases written, {too_long} too long");
    Ok(true)
}

fn write_limits(folder: &Path, bytes: usize) -> Result<bool, String> {
    make_folder(folder)?;
    let mut written = 0;
    for (number, known) in limits::all().into_iter().chain(pairs::all()).enumerate() {
        if known.case.catalog.len() + known.case.statement.len() <= bytes {
            let expected = predict(&known.case.catalog, &known.case.statement).listing;
            folder::write(folder, number as u64, &known.case, &expected)?;
            written += 1;
        }
    }
    println!("{written} cases written");
    Ok(true)
}

fn write_sample(folder: &Path, seed: u64, each: usize) -> Result<bool, String> {
    make_folder(folder)?;
    let sample = sample(seed, each);
    for sampled in &sample {
        folder::write(folder, sampled.number, &sampled.case, &sampled.prediction.listing)?;
    }
    println!("{} cases written", sample.len());
    Ok(true)
}

fn hold(folder: &Path) -> Result<bool, String> {
    let cases = folder::read(folder)?;
    let missing = cases.iter().filter(|filed| filed.listing.is_none()).count();
    let held =
        judge_printed(cases.into_iter().filter_map(|filed| {
            Some(Ok((format!("case {}", filed.number), filed.case, Ok(filed.listing?))))
        }))?;
    if missing > 0 {
        println!("{missing} cases have no listing");
    }
    Ok(held && missing == 0)
}

/// Judges what a program prints of each case, and how it ends.
fn run_program(path: &Path, limit: Duration, numbers: Numbers) -> Result<bool, String> {
    let program = Program::new(path, limit)?;
    let progress = Progress::of(numbers.count);
    judge_printed(numbers.cases().map(|(number, case)| {
        let printed = match program.print(&case) {
            Err(Fault::System(error)) => return Err(format!("{} on case {number}: {error}", path.display())),
            Err(Fault::Ended(how)) => Err(how),
            Ok(printed) => Ok(printed),
        };
        progress.step();
        Ok((format!("case {number}"), case, printed))
    }))
}

fn write_list(folder: &Path, file: &Path) -> Result<bool, String> {
    let mut answers = Vec::new();
    for filed in folder::read(folder)? {
        let listing = filed.listing.ok_or(format!("case {} has no listing", filed.number))?;
        if let Verdict::Differ(message) = compare_exactly(&filed.case, &listing) {
            show(&format!("case {}", filed.number), &filed.case, &message);
            return Ok(false);
        }
        answers.push(Answered { case: filed.case, listing });
    }
    fs::write(file, list::write(&answers)).map_err(|error| format!("{}: {error}", file.display()))?;
    println!("{} cases written", answers.len());
    Ok(true)
}

fn replay(file: &Path) -> Result<bool, String> {
    let bytes = fs::read(file).map_err(|error| format!("{}: {error}", file.display()))?;
    let answers = list::read(&bytes)?;
    let answers = answers.into_iter().enumerate();
    judge_printed(
        answers.map(|(i, answer)| Ok((format!("record {}", i + 1), answer.case, Ok(answer.listing)))),
    )
}

/// Compares all pairs at the edges, and pairs from a seed; then times the calls that could take long.
fn compare_values(numbers: Numbers) -> Result<bool, String> {
    linked("value_host", values::LINKED)?;
    let mut tally = values::Tally::default();
    let edges = values::edge_pairs().inspect(|pair| values::compare_all(pair, &mut tally)).count();
    let progress = Progress::of(numbers.count);
    for number in numbers.all() {
        values::compare_all(&values::pair(numbers.seed, number), &mut tally);
        progress.step();
    }
    println!("{edges} pairs at the edges and {} from seed {}", numbers.count, numbers.seed);
    println!("{tally}");
    tally.shown.iter().for_each(|message| println!("differs: {message}"));
    if !values::AVAILABLE {
        println!("the Rust planner's sources are not at hand: nothing was compared");
    }
    values::times().iter().for_each(|timed| println!("{timed}"));
    Ok(tally.differ() == 0 && tally.agreed() > 0)
}

/// Compares the reading of damaged texts from a seed.
fn compare_reading(numbers: Numbers) -> Result<bool, String> {
    linked("reader_host", reader::AVAILABLE)?;
    let mut reader = reader::Reader::default();
    let mut tally = reading::Tally::default();
    let progress = Progress::of(numbers.count);
    for (number, case) in Cases::Damaged.of_thread(numbers, 0) {
        tally.add(&format!("damaged case {number}"), reading::compare(&mut reader, &case));
        progress.step();
    }
    println!("{tally}");
    tally.shown.iter().for_each(|message| println!("differs: {message}"));
    Ok(tally.differ() == 0 && tally.agreed() > 0)
}
