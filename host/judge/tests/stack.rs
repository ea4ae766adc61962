//! The planner takes no memory but the stack, and of that little: the cases at the limits are planned in a thread that has
//! 320 KiB of it. A thread that needs more ends the test with its process.

use std::thread;

use judge::entry::{Answer, LEAST_AREA, plan};
use judge::generate::{Case, edges, limits, pairs};

/// More than any case here was seen to take, with what the thread itself needs.
const STACK: usize = 320 * 1024;

/// Plans the cases one after the other; how many of them are planned.
fn planned(cases: Vec<Case>) -> usize {
    let run = move || {
        let mut area = vec![0; LEAST_AREA];
        let planned =
            |case: &Case| matches!(plan(&case.catalog, &case.statement, &mut area), Answer::Planned { .. });
        cases.iter().map(planned).filter(|&planned| planned).count()
    };
    thread::Builder::new().stack_size(STACK).spawn(run).expect("the thread starts").join().expect("it ends")
}

/// Sixteen tables of sixteen columns in nested right joins, eight with a predicate of the greatest depth.
fn nested_joins() -> Case {
    let columns = (0..16).map(|column| format!("column\tc{column}\tint\tnull\nnodefault\n"));
    let catalog = "table\tt\t0\n".to_string() + &columns.collect::<String>();
    let deep = format!("op\teq\n{}col\ta0\tc0\nint\t1\n", "op\tneg\n".repeat(30));
    let mut statement = format!("select\nitem\nstar\n{}from\tt\ta0\n", "join\tright\ton\n".repeat(15));
    for table in 1..16 {
        statement += &format!("from\tt\ta{table}\n{}", if table < 9 { &deep } else { "int\t1\n" });
    }
    Case { catalog: catalog.into_bytes(), statement: (statement + "end\n").into_bytes() }
}

#[test]
#[cfg_attr(not(planning), ignore = "the planner's library is not linked")]
fn planning_at_the_limits_fits_a_small_stack() {
    let special = limits::all().into_iter().chain(pairs::all()).chain(edges::all()).map(|known| known.case);
    assert!(planned(special.collect()) > 20);
    assert_eq!(planned(vec![nested_joins()]), 1);
}
