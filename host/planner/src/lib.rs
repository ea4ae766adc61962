//! The proved query planner for a host in Rust: a catalog and a statement, two line texts, to toydb's query plan or to a
//! refusal by number, text and line.
//!
//! [`plan`] hands both texts and an area of 32-bit numbers to the proved library (`dist/libplanner.a`), which takes whatever
//! they hold. What comes back is a view: a [`Plan`] borrows the texts and the area and copies nothing.
//!
//! `docs/TEXTS.md` of the repository says how the two texts are written, `docs/PLAN.md` what a plan is made of, and
//! `docs/REFUSALS.md` what each refusal means.
//!
//! ```
//! use planner::{Cell, LEAST_AREA, Node, Reason, Statement, plan};
//!
//! // Which heaps are at 55 degrees or more at the second probe? SELECT p1 FROM heap WHERE p2 >= 55
//! let catalog = b"table\theap\t0\n\
//!     column\tid\tint\tnotnull\nnodefault\n\
//!     column\tp1\tfloat\tnull\nnodefault\n\
//!     column\tp2\tfloat\tnull\nnodefault\n";
//! let statement = b"select\nitem\ncol\tp1\nfrom\theap\nwhere\nop\tge\ncol\tp2\nint\t55\nend\n";
//!
//! // One area serves for any number of statements, one after the other.
//! let mut area = vec![0; LEAST_AREA];
//! let plan_of_it = plan(catalog, statement, &mut area)?;
//!
//! assert_eq!(plan_of_it.cell_count(), 6);
//! assert_eq!(
//!     plan_of_it.tree().to_string(),
//!     "Projection: heap.p1\n\
//!      └─ Filter: heap.p2 > 55 OR heap.p2 = 55\n   \
//!         └─ Scan: heap"
//! );
//!
//! // From the last node down.
//! let Statement::Select { source } = plan_of_it.statement() else { panic!("no select") };
//! let Node::Project { source, items } = plan_of_it.node(source) else { panic!("no projection") };
//! let item = items.get(0).expect("one item");
//! let Cell::Column(position) = plan_of_it.cell(item.cell) else { panic!("no column") };
//! assert_eq!(position.index(), 1);
//! let Node::Filter { source, .. } = plan_of_it.node(source) else { panic!("no filter") };
//! assert!(matches!(plan_of_it.node(source), Node::Scan { table: b"heap", .. }));
//!
//! // A name that the table does not have.
//! let statement = b"select\nitem\ncol\tp3\nfrom\theap\nend\n";
//! let refusal = plan(catalog, statement, &mut area).expect_err("there is no p3");
//! assert_eq!((refusal.reason, refusal.line), (Reason::UnknownColumn, 3));
//! assert_eq!(refusal.to_string(), "refused (8), statement line 3: there is no such column");
//! assert_eq!(refusal.record(catalog, statement), Some(&b"col\tp3"[..]));
//! # Ok::<(), planner::Refusal>(())
//! ```
//!
//! # Features
//!
//! `std`, on by default, adds the listing as a vector ([`Plan::listing`]). Without it the crate needs neither the standard
//! library nor memory beyond the area and the stack; `docs/DECISIONS.md` says how much of the stack the library takes. The
//! library calls `memcpy` and `memset`.

#![no_std]
#![deny(missing_docs, unsafe_code)]

#[cfg(feature = "std")]
extern crate std;

mod cell;
mod check;
pub mod entry;
mod list;
mod listing;
mod lossy;
mod node;
mod numbers;
mod plan;
mod refusal;
mod statement;
mod texts;
mod tree;
mod values;

pub use cell::{Binary, Cell, Unary};
pub use entry::{AVAILABLE, Library, Unusable, library};
pub use list::{Elements, List};
pub use node::{Aggregate, Function, Item, Key, Node, Rows};
pub use numbers::Fault;
pub use plan::Plan;
pub use refusal::{Reason, Refusal, Text};
pub use statement::{DataType, Kind, Mapping, NewColumn, Set, Statement};
pub use tree::Tree;
pub use values::{CellNumber, Column, Constant, FloatBits, NodeNumber, ValuePosition};

use entry::Outcome;

/// The number of the area's layout that this crate reads.
pub const LAYOUT: u32 = 1;

/// The least numbers of an area.
pub const LEAST_AREA: usize = 16_384;

/// Plans a statement over a catalog, into the area, which may hold anything.
///
/// # Errors
///
/// A refusal. The area is then all zero, but for [`Reason::AreaTooShort`], which leaves it as it was.
///
/// # Panics
///
/// Where the linked library cannot be used, which [`library`] tells beforehand.
pub fn plan<'a>(catalog: &'a [u8], statement: &'a [u8], area: &'a mut [u32]) -> Result<Plan<'a>, Refusal> {
    if let Err(unusable) = library() {
        panic!("{unusable}");
    }
    let outcome = entry::planner_plan(catalog, statement, area);
    match (outcome, Reason::of(outcome.number)) {
        (Outcome { number: 0, text: 0, line: 0, count }, _) => {
            match Plan::of(texts::Texts { catalog, statement }, area) {
                Ok(plan) if plan.cells == count => Ok(plan),
                _ => panic!("the library answers a plan of {count} cells that is not in the area"),
            }
        }
        (Outcome { text: 1, line, count: 0, .. }, Some(reason)) => {
            Err(Refusal { reason, text: Text::Catalog, line })
        }
        (Outcome { text: 2, line, count: 0, .. }, Some(reason)) => {
            Err(Refusal { reason, text: Text::Statement, line })
        }
        _ => panic!("the library answers neither a plan nor a refusal: {outcome:?}"),
    }
}
