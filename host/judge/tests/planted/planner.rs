//! Faults of a planner: its answer, the area that it leaves, and what it makes of a statement.

use std::cell::Cell;

use judge::compare::{Kind, Verdict};
use judge::generate::Case;
use judge::planning::{Answer, LEAST_AREA, compare_by, plan};
use texts::{Refusal, Statement, Text, read, write_statement};

use super::area::Area;
use super::{Named, cases, expect_noticed};

/// Alters what the proved planner left.
type Fault = fn(&Case, &mut Answer, &mut Area);

/// Alters a refusal.
fn refusal(answer: &mut Answer, alter: impl Fn(&mut Refusal)) {
    if let Answer::Refused(refusal) = answer {
        alter(refusal);
    }
}

/// Refuses at a line of the statement, whatever was answered.
fn refuse(answer: &mut Answer, area: &mut Area, number: u8, line: usize) {
    *answer = Answer::Refused(Refusal::in_statement(number, line));
    area.0.fill(0);
}

/// Alters the area of a plan.
fn planned(answer: &Answer, area: &mut Area, alter: impl Fn(&mut Area)) {
    if matches!(answer, Answer::Planned { .. }) {
        alter(area);
    }
}

fn is_good(case: &Case) -> bool {
    read(&case.catalog, &case.statement).is_ok()
}

/// The line of the first operator's record, where there is one.
fn operator_line(case: &Case) -> Option<usize> {
    let mut lines = case.statement.split(|&b| b == b'\n');
    lines.position(|line| line.starts_with(b"op\t") || line.starts_with(b"fn\t")).map(|line| line + 1)
}

/// Plans the statement without its LIMIT, the last clause.
fn without_limit(case: &Case, answer: &mut Answer, area: &mut Area) {
    let Ok(mut texts) = read(&case.catalog, &case.statement) else { return };
    let Statement::Select(select) = &mut texts.statement else { return };
    if select.limit.take().is_some() {
        *answer = plan(&case.catalog, &write_statement(&texts.statement), area.0);
    }
}

/// The plan of the heap question P1, for every question.
fn one_plan(_: &Case, answer: &mut Answer, area: &mut Area) {
    const CATALOG: &[u8] = b"table\theap\t0\ncolumn\tid\tint\tnull\nnodefault\n";
    const STATEMENT: &[u8] = b"select\nitem\ncol\tid\nfrom\theap\nend\n";
    *answer = plan(CATALOG, STATEMENT, area.0);
}

const FAULTS: [Named<Fault>; 35] = [
    ("the next refusal's number", |_, answer, _| refusal(answer, |refusal| refusal.number += 1)),
    ("the refusal's number before", |_, answer, _| refusal(answer, |refusal| refusal.number -= 1)),
    ("a line too high", |_, answer, _| refusal(answer, |refusal| refusal.line += 1)),
    ("line 0 for every refusal", |_, answer, _| refusal(answer, |refusal| refusal.line = 0)),
    ("the catalog for every refusal", |_, answer, _| refusal(answer, |refusal| refusal.text = Text::Catalog)),
    ("the area not zero after a refusal", |_, answer, area| {
        if matches!(answer, Answer::Refused(_)) {
            area.0[5_000] = 1;
        }
    }),
    ("a count one higher", |_, answer, _| {
        if let Answer::Planned { cells } = answer {
            *cells += 1;
        }
    }),
    ("a count one lower, in the header too", |_, answer, area| match answer {
        Answer::Planned { cells } if *cells > 0 => {
            *cells -= 1;
            area.0[2] -= 1;
        }
        _ => {}
    }),
    ("another layout's number", |_, answer, area| planned(answer, area, |area| area.0[0] += 1)),
    ("another kind of statement", |_, answer, area| {
        planned(answer, area, |area| area.0[1] = area.0[1] % 6 + 1)
    }),
    ("the last number of the area not zero", |_, answer, area| {
        planned(answer, area, |area| *area.0.last_mut().expect("an area has numbers") = 1)
    }),
    ("the number behind the plan not zero", |_, answer, area| {
        planned(answer, area, |area| area.0[area.end()] = 7)
    }),
    ("a column's position", |_, answer, area| planned(answer, area, |area| area.alter_cell(6..=6, 1, 1))),
    ("a constant's low half", |_, answer, area| planned(answer, area, |area| area.alter_cell(3..=4, 1, 2))),
    ("a constant's high half", |_, answer, area| planned(answer, area, |area| area.alter_cell(3..=4, 2, 4))),
    ("a text's place", |_, answer, area| planned(answer, area, |area| area.alter_cell(5..=5, 2, 1))),
    ("a truth value", |_, answer, area| planned(answer, area, |area| area.alter_cell(2..=2, 1, 1))),
    ("an operator's kind", |_, answer, area| planned(answer, area, |area| area.alter_cell(18..=26, 0, 1))),
    ("exchanged operands", |_, answer, area| planned(answer, area, |area| area.exchange_operands())),
    ("a scan's alias", |_, answer, area| planned(answer, area, |area| area.clear_node(1, 3..5))),
    ("a scan's table", |_, answer, area| planned(answer, area, |area| area.alter_node(1, 0, 1))),
    ("inner for outer and outer for inner", |_, answer, area| {
        planned(answer, area, |area| area.alter_node(3, 2, 1))
    }),
    ("a join without its predicate", |_, answer, area| {
        planned(answer, area, |area| area.clear_node(3, 3..4))
    }),
    ("the first group dropped", |_, answer, area| planned(answer, area, |area| area.alter_node(5, 1, 1))),
    ("an item's alias", |_, answer, area| planned(answer, area, |area| area.clear_node(6, 2..4))),
    ("a key's direction", |_, answer, area| planned(answer, area, |area| area.alter_node(7, 2, 1))),
    ("offset for limit", |_, answer, area| planned(answer, area, |area| area.rename_node(9, 8))),
    ("a right join's targets by the left width", |_, answer, area| {
        planned(answer, area, |area| area.turn_targets())
    }),
    ("28 for every operator", |case, answer, area| {
        if let (Some(line), true) = (operator_line(case), is_good(case)) {
            refuse(answer, area, 28, line);
        }
    }),
    ("2 for a good text", |case, answer, area| {
        if is_good(case) {
            refuse(answer, area, 2, 1);
        }
    }),
    ("4 for a good text", |case, answer, area| {
        if is_good(case) {
            refuse(answer, area, 4, 1);
        }
    }),
    ("3 for a good text", |case, answer, area| {
        if is_good(case) {
            refuse(answer, area, 3, 1);
        }
    }),
    ("8 for every question", |_, answer, area| refuse(answer, area, 8, 3)),
    ("one plan for all questions", one_plan),
    ("LIMIT passed over", without_limit),
];

/// The verdict on a planner with a fault, and whether the fault alters anything.
fn judged(case: &Case, number: u64, fault: Fault) -> (bool, Verdict) {
    let altered = Cell::new(false);
    let planner = |catalog: &[u8], statement: &[u8], area: &mut [u32]| {
        let right = plan(catalog, statement, area);
        let (mut answer, before) = (right, area.to_vec());
        fault(case, &mut answer, &mut Area(area));
        altered.set(answer != right || area != before);
        answer
    };
    let verdict = compare_by(planner, case, 42, number);
    (altered.get(), verdict)
}

#[test]
#[cfg_attr(not(planning), ignore = "the planner's library is not linked")]
fn faults_of_a_planner_are_noticed() {
    let cases = cases(400);
    for (what, fault) in FAULTS {
        expect_noticed(what, &cases, 3, |case| {
            let (altered, verdict) = judged(case, 0, fault);
            (altered, matches!(verdict, Verdict::Differ(_)))
        });
    }
}

/// An area that keeps a number which it held before.
#[test]
#[cfg_attr(not(planning), ignore = "the planner's library is not linked")]
fn an_area_that_is_not_wholly_written_is_noticed() {
    for place in [0, 2, 6, 1_000, LEAST_AREA - 1] {
        let planner = |catalog: &[u8], statement: &[u8], area: &mut [u32]| {
            let before = area[place];
            let answer = plan(catalog, statement, area);
            area[place] = before;
            answer
        };
        for case in cases(50) {
            let verdict = compare_by(planner, &case, 43, 0);
            assert!(matches!(verdict, Verdict::Differ(_)), "number {place}: {verdict:?}");
        }
    }
}

/// A planner that answers otherwise, or leaves something, where the area held the same number throughout.
#[test]
#[cfg_attr(not(planning), ignore = "the planner's library is not linked")]
fn minding_what_the_area_held_is_noticed() {
    for refuses in [false, true] {
        let planner = |catalog: &[u8], statement: &[u8], area: &mut [u32]| {
            let even = area.iter().all(|number| *number == area[0]);
            let mut answer = plan(catalog, statement, area);
            match (even, refuses) {
                (true, true) => refuse(&mut answer, &mut Area(area), 8, 99),
                (true, false) => area[LEAST_AREA - 1] = 1,
                (false, _) => {}
            }
            answer
        };
        for case in cases(50) {
            let verdict = compare_by(planner, &case, 49, 0);
            assert!(matches!(verdict, Verdict::Differ(_)), "{verdict:?}");
        }
    }
}

#[test]
#[cfg_attr(not(planning), ignore = "the planner's library is not linked")]
fn an_untouched_area_with_success_is_noticed() {
    for case in cases(50) {
        let verdict = compare_by(|_, _, _| Answer::Planned { cells: 0 }, &case, 44, 0);
        assert!(matches!(verdict, Verdict::Differ(_)), "{verdict:?}");
    }
}

/// Of a planner that refuses all that has an operator with 28, the judge once found no difference.
#[test]
#[cfg_attr(not(planning), ignore = "the planner's library is not linked")]
#[cfg_attr(all(planning, not(planner)), ignore = "the Rust planner's sources are not at hand")]
fn refusing_operators_with_28_is_noticed_by_the_rust_alone() {
    for case in cases(400).iter().filter(|case| is_good(case)) {
        let Some(line) = operator_line(case) else { continue };
        let right = judge::predict::predict(&case.catalog, &case.statement).listing;
        let printed = Refusal::in_statement(28, line).printed();
        let verdict = judge::compare::compare(case, &printed);
        let apart = matches!(verdict, Verdict::Apart(Kind::Refused(28), _));
        assert!(printed == right || matches!(verdict, Verdict::Differ(_)) || apart && !is_utf8(case));
    }
}

fn is_utf8(case: &Case) -> bool {
    std::str::from_utf8(&case.statement).is_ok() && std::str::from_utf8(&case.catalog).is_ok()
}
