//! A printed answer read back: a refusal, or a plan unfolded to its canonical tree.

mod cells;
mod fields;
mod nodes;
mod own;

use texts::Tree;

use cells::Plan;
use fields::{Lines, decimal, fields, words};

/// What a printed answer says.
#[derive(Clone, Debug, PartialEq)]
pub enum Printed {
    Refused { number: u8, text: String, line: usize },
    Planned(Tree),
}

/// Reads a printed answer. The error says what is wrong with it.
pub fn read(listing: &[u8]) -> Result<Printed, String> {
    let body = listing.strip_suffix(b"\n").ok_or("the last line is not closed")?;
    let mut lines = Lines { lines: body.split(|&b| b == b'\n').map(fields).collect(), next: 0 };
    let head = lines.take()?;
    match words(&head)?.as_slice() {
        ["refused", number, text @ ("catalog" | "statement"), line] => {
            lines.expect_end()?;
            Ok(Printed::Refused { number: decimal(number)?, text: text.to_string(), line: decimal(line)? })
        }
        ["plan", kind, nodes, cells] => {
            let mut plan = Plan::default();
            for number in 0..decimal(cells)? {
                plan.add_cell(lines.numbered("cell", number)?)?;
            }
            for number in 0..decimal(nodes)? {
                let node = plan.node(lines.numbered("node", number)?, kind)?;
                plan.add_node(node);
            }
            let tree = plan.statement(kind, &mut lines)?;
            lines.expect_end()?;
            plan.expect_all_used()?;
            Ok(Printed::Planned(tree))
        }
        _ => Err("neither a plan nor a refusal".to_string()),
    }
}
