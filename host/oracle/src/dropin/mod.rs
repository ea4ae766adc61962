//! The drop-in: toydb's own statement and tables go to the proved planner as texts, and its printed plan comes back as
//! toydb's own `Plan`, which is the one that `Planner::build` gives.

mod cells;
mod lines;
mod nodes;
mod plan;
mod write;

use texts::Texts;

use crate::ask::{Tables, asked, statement};
use crate::sql::planner::{Plan, Planner};
use crate::sql::types::Table;
use crate::{Answer, DropIn};

/// Plans a statement with both planners. The proved one is given the two texts and gives what it prints.
pub fn drop_in(texts: &Texts, planner: impl FnOnce(&[u8], &[u8]) -> Result<Vec<u8>, String>) -> DropIn {
    let (Some(mut tables), Some(statement)) =
        (statement::tables(&texts.tables), statement::statement(&texts.statement))
    else {
        return DropIn::NotUtf8;
    };
    set_other_fields(&mut tables);
    let adapted = match (write::catalog(&tables), write::statement(&statement)) {
        (Ok(catalog), Ok(statement)) => planner(&catalog, &statement),
        (Err(error), _) | (_, Err(error)) => Err(error),
    };
    let printed = match adapted {
        Ok(printed) if printed.starts_with(b"refused\t") => return DropIn::Refused(printed),
        Ok(printed) => printed,
        Err(error) => return DropIn::Differ(error),
    };
    let catalog = Tables(tables);
    let proved = match plan::read(&printed, &catalog.0) {
        Ok(proved) => proved,
        Err(error) => return DropIn::Differ(format!("the printed plan: {error}")),
    };
    match asked(|| Planner::new(&catalog).build(statement)) {
        Answer::Given(rust) if same(&proved, &rust) => DropIn::Same,
        Answer::Given(rust) => DropIn::Differ(format!("{proved:?}\n   Rust {rust:?}")),
        Answer::Refused { number, message } => {
            DropIn::Differ(format!("{proved:?}\n   Rust refused {number} ({message})"))
        }
        Answer::Trapped(message) => DropIn::Differ(format!("{proved:?}\n   Rust trapped ({message})")),
        Answer::NotSupplied | Answer::NotUtf8 | Answer::Unavailable => {
            DropIn::Differ(format!("{proved:?}\n   Rust did not run"))
        }
    }
}

/// What the texts do not say of a table's columns, and a plan has all the same: the tables of a plan are the catalog's.
fn set_other_fields(tables: &mut [Table]) {
    for (i, column) in tables.iter_mut().flat_map(|table| &mut table.columns).enumerate() {
        column.unique = i % 3 == 0;
        column.index = i % 2 == 0;
        column.references = (i % 5 == 0).then(|| "elsewhere".to_string());
    }
}

/// Whether two plans are equal by toydb's own equality and also by all that they show. Its equality alone takes 1 for 1.0
/// and 0.0 for -0.0. All NaNs are one in both.
fn same(one: &Plan, other: &Plan) -> bool {
    one == other && shown(one) == shown(other)
}

/// What a plan shows. The order of an INSERT's map is by chance, so the map is left to the plans' own equality.
fn shown(plan: &Plan) -> String {
    match plan {
        Plan::Insert { table, column_map, source } => {
            format!("{table:?} {} {source:?}", column_map.is_some())
        }
        plan => format!("{plan:?}"),
    }
}

#[cfg(test)]
mod tests {
    use super::*;
    use crate::sql::planner::Node;
    use crate::sql::types::{Expression, Value};

    fn of(value: Value) -> Plan {
        Plan::Select(Node::Values { rows: vec![vec![Expression::Constant(value)]] })
    }

    #[test]
    fn plans_are_the_same_only_with_the_same_values() {
        for value in [Value::Null, Value::Integer(1), Value::Float(-0.0), Value::Float(f64::NAN)] {
            assert!(same(&of(value.clone()), &of(value)));
        }
        assert!(same(&of(Value::Float(f64::NAN)), &of(Value::Float(-f64::NAN))));
        assert!(!same(&of(Value::Integer(1)), &of(Value::Float(1.0))));
        assert!(!same(&of(Value::Float(0.0)), &of(Value::Float(-0.0))));
    }
}
