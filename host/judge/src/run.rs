//! Runs of comparisons: what they come to, and the cases that differ.

use std::sync::Mutex;
use std::sync::atomic::{AtomicUsize, Ordering};
use std::thread;

use judge::compare::{Tally, Verdict, compare_exactly};
use judge::generate::Case;
use judge::shrink::shrink;

use crate::numbers::{Cases, Numbers};
use crate::out::println;
use crate::progress::Progress;

/// How many of the cases that differ are shown.
pub const SHOWN: usize = 10;

/// The bytes of each thread's stack, as many as a program's first thread has.
const STACK: usize = 8 << 20;

/// Prints the tally. True where nothing differs, and something was compared with the Rust or the host's own reading.
pub fn report(tally: &Tally) -> bool {
    println!("{tally}");
    if !oracle::AVAILABLE {
        println!("the Rust planner's sources are not at hand: nothing was compared with it");
    } else if tally.compared() == 0 {
        println!("nothing was compared");
    }
    tally.differ == 0 && tally.compared() > 0 && oracle::AVAILABLE
}

pub fn show(name: &str, case: &Case, message: &str) {
    println!("{name} differs: {message}");
    for (text, bytes) in [("catalog", &case.catalog), ("statement", &case.statement)] {
        println!(" {text}:");
        String::from_utf8_lossy(bytes).lines().for_each(|line| println!("   {}", line.replace('\t', " ")));
    }
}

/// Comes to a verdict on each case, each thread on its own share, and shows those that differ, made small.
pub fn judge_cases(numbers: Numbers, cases: &Cases, verdict: impl Fn(u64, &Case) -> Verdict + Sync) -> bool {
    let (progress, shown, output) = (Progress::of(numbers.count), AtomicUsize::new(0), Mutex::new(()));
    let judge_share = |thread| {
        let mut tally = Tally::default();
        for (number, case) in cases.of_thread(numbers, thread) {
            let found = verdict(number, &case);
            tally.add(&found);
            progress.step();
            if matches!(found, Verdict::Differ(_)) && shown.fetch_add(1, Ordering::Relaxed) < SHOWN {
                let smallest = shrink(&case, |case| matches!(verdict(number, case), Verdict::Differ(_)));
                if let Verdict::Differ(message) = verdict(number, &smallest) {
                    let _alone = output.lock();
                    show(&format!("case {number}, made small,"), &smallest, &message);
                }
            }
        }
        tally
    };
    let mut tally = Tally::default();
    thread::scope(|scope| {
        let judge_share = &judge_share;
        let start = |thread| {
            let builder = thread::Builder::new().stack_size(STACK);
            builder.spawn_scoped(scope, move || judge_share(thread)).expect("a thread is started")
        };
        let threads: Vec<_> = (0..numbers.threads).map(start).collect();
        for thread in threads {
            tally.merge(thread.join().unwrap_or_else(|panic| std::panic::resume_unwind(panic)));
        }
    });
    report(&tally)
}

/// Judges printed answers, or what is wrong with how they came about, and shows those that differ.
pub fn judge_printed<P: AsRef<[u8]>>(
    printed: impl Iterator<Item = Result<(String, Case, Result<P, String>), String>>,
) -> Result<bool, String> {
    let mut tally = Tally::default();
    for answer in printed {
        let (name, case, printed) = answer?;
        let verdict = match printed {
            Ok(printed) => compare_exactly(&case, printed.as_ref()),
            Err(message) => Verdict::Differ(message),
        };
        tally.add(&verdict);
        if let Verdict::Differ(message) = verdict
            && tally.differ <= SHOWN
        {
            show(&name, &case, &message);
        }
    }
    Ok(report(&tally))
}
