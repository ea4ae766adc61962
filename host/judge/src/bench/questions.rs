//! The three questions that are timed, over a catalog of one table with sixteen probes.

use crate::generate::{Case, Lines};

/// A heap of sixteen probes: `id`, `p1` to `p16`.
pub const CATALOG: &[u8] = include_bytes!("../../../../crates/read_texts/data/catalog.txt");

/// A question by its name.
pub struct Question {
    pub name: &'static str,
    pub case: Case,
}

/// All questions.
pub fn questions() -> [Question; 3] {
    [("first", first()), ("sixteen", sixteen()), ("grouped", grouped())]
        .map(|(name, statement)| Question { name, case: Case { catalog: CATALOG.to_vec(), statement } })
}

/// A statement from its lines, with ` / ` for a line end and a blank for a tab.
fn statement(lines: &str) -> Vec<u8> {
    Lines::of(&lines.split(" / ").collect::<Vec<_>>()).end()
}

/// Document 01's first question.
fn first() -> Vec<u8> {
    statement("select / item / col p1 / from heap / where / op ge / col p2 / int 55 / order asc / col id")
}

/// A star beside an item, sixteen comparisons joined by AND and OR, and two order keys.
fn sixteen() -> Vec<u8> {
    let pair = |n: usize| format!("op and / op ge / col p{n} / int 55 / op lt / col p{} / int 70", n + 1);
    let ors = ["op or"; 7].join(" / ");
    let pairs = [1, 3, 5, 7, 9, 11, 13, 15].map(pair).join(" / ");
    let items = "item / star / item spread / op sub / col p1 / col p16";
    let order = "order desc / col p1 / order asc / col id";
    statement(&format!("select / {items} / from heap / where / {ors} / {pairs} / {order}"))
}

/// A left join of the table with itself, a group, two aggregates, HAVING and ORDER.
fn grouped() -> Vec<u8> {
    let (count, max) = ("fn count 1 / col n id", "fn max 1 / col n p2");
    let items = format!("item / col h id / item / {count} / item warmest / {max}");
    let from = "join left on / from heap h / from heap n / op gt / col n p1 / col h p1";
    let having = format!("having / op ge / {max} / int 55");
    let order = format!("order desc / {count} / order asc / col h id");
    statement(&format!("select / {items} / {from} / group / col h id / {having} / {order}"))
}
