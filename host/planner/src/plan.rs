//! The view of a plan.

use core::fmt;

use crate::cell::{CELL, Cell};
use crate::list::Bounds;
use crate::listing;
use crate::node::Node;
use crate::numbers::{Fault, Numbers};
use crate::statement::{Kind, Statement};
use crate::texts::Texts;
use crate::tree::Tree;
use crate::values::{CellNumber, NodeNumber};

/// How many numbers the header has.
pub const HEADER: usize = 6;

/// A plan, read in place from the area and the two texts.
///
/// It is made by [`plan`](crate::plan), or from an area that was saved by [`Plan::check`].
#[derive(Clone, Copy)]
pub struct Plan<'a> {
    pub(crate) texts: Texts<'a>,
    /// The plan's numbers, without the zeros behind them.
    pub(crate) numbers: &'a [u32],
    pub(crate) kind: Kind,
    pub(crate) cells: u32,
    pub(crate) nodes: u32,
    /// Where the statement's own numbers start.
    pub(crate) own: usize,
}

impl<'a> Plan<'a> {
    /// The plan of an area, from its header alone.
    pub(crate) fn of(texts: Texts<'a>, area: &'a [u32]) -> Result<Self, Fault> {
        let mut numbers = Numbers::of(area);
        if numbers.take()? != crate::LAYOUT {
            return Err(Fault { at: 0, what: "no plan" });
        }
        let kind = numbers.take_code(&Kind::ALL, "no statement")?;
        let (cells, nodes) = (numbers.take()?, numbers.take()?);
        let own = numbers.take()? as usize;
        let length = numbers.take()? as usize;
        let numbers = area.get(..length).ok_or(Fault { at: 5, what: "behind the end of the area" })?;
        Ok(Plan { texts, numbers, kind, cells, nodes, own })
    }

    /// The kind of the statement.
    pub fn kind(&self) -> Kind {
        self.kind
    }

    /// How many cells there are.
    pub fn cell_count(&self) -> usize {
        self.cells as usize
    }

    /// How many nodes there are.
    pub fn node_count(&self) -> usize {
        self.nodes as usize
    }

    /// The plan's numbers, without the zeros behind them: what to save. [`Plan::check`] takes them back.
    pub fn numbers(&self) -> &'a [u32] {
        self.numbers
    }

    /// The cell of a number.
    ///
    /// # Panics
    ///
    /// Where the number is another plan's and this one has no such cell.
    pub fn cell(&self, number: CellNumber) -> Cell<'a> {
        kept(self.try_cell(number))
    }

    /// The cells in order.
    pub fn cells(&self) -> impl ExactSizeIterator<Item = (CellNumber, Cell<'a>)> + use<'a> {
        let plan = *self;
        // A range of `u32` has no exact size; there are no more cells than numbers.
        (0..plan.cell_count()).map(move |number| {
            let number = CellNumber(number as u32);
            (number, plan.cell(number))
        })
    }

    /// The node of a number.
    ///
    /// # Panics
    ///
    /// Where the number is another plan's and this one has no such node.
    pub fn node(&self, number: NodeNumber) -> Node<'a> {
        let mut numbers = kept(self.node_numbers());
        for _ in 0..number.get() {
            kept(skip_node(&mut numbers));
        }
        assert!(number.get() < self.nodes, "the plan has no node {number}");
        kept(Node::take(number.get(), &mut numbers, self.bounds()))
    }

    /// The nodes in order.
    pub fn nodes(&self) -> impl Iterator<Item = (NodeNumber, Node<'a>)> + use<'a> {
        let (bounds, mut numbers) = (self.bounds(), kept(self.node_numbers()));
        (0..self.nodes)
            .map(move |number| (NodeNumber(number), kept(Node::take(number, &mut numbers, bounds))))
    }

    /// The statement's own part.
    pub fn statement(&self) -> Statement<'a> {
        kept(self.try_statement())
    }

    /// The columns of a table that the plan names, by their names in the catalog; none where it has no such table.
    pub fn table_columns(&self, table: &[u8]) -> Option<impl Iterator<Item = &'a [u8]> + use<'a>> {
        self.texts.table(table)
    }

    /// The plan as a tree for people, as toydb's EXPLAIN shows it.
    pub fn tree(&self) -> Tree<'a> {
        Tree(*self)
    }

    /// Hands out the listing, byte for byte that of `docs/PLAN.md`, piece by piece. Names and texts stand in it as they
    /// are, whether UTF-8 or not.
    pub fn write_listing<E>(&self, mut out: impl FnMut(&[u8]) -> Result<(), E>) -> Result<(), E> {
        let mut written = Ok(());
        let mut piece = |bytes: &[u8]| {
            written = out(bytes);
            if written.is_ok() { Ok(()) } else { Err(fmt::Error) }
        };
        // The only error is that of a piece, which is kept.
        let _ = listing::print(self, &mut piece);
        written
    }

    /// The listing, byte for byte that of `docs/PLAN.md`.
    #[cfg(feature = "std")]
    pub fn listing(&self) -> std::vec::Vec<u8> {
        let mut listing = std::vec::Vec::new();
        let Ok(()) = self.write_listing(|bytes| {
            listing.extend_from_slice(bytes);
            Ok::<(), core::convert::Infallible>(())
        });
        listing
    }

    pub(crate) fn bounds(&self) -> Bounds<'a> {
        Bounds { texts: self.texts, cells: self.cells }
    }

    pub(crate) fn try_cell(&self, number: CellNumber) -> Result<Cell<'a>, Fault> {
        let mut numbers = Numbers::of(self.numbers);
        numbers.part(number.index().saturating_mul(CELL).saturating_add(HEADER))?;
        if number.get() >= self.cells {
            return Err(numbers.fault("no cell's number"));
        }
        Cell::of(number.get(), numbers.part(CELL)?, self.bounds())
    }

    /// The numbers from the first node on.
    pub(crate) fn node_numbers(&self) -> Result<Numbers<'a>, Fault> {
        let mut numbers = Numbers::of(self.numbers);
        numbers.part((self.cells as usize).saturating_mul(CELL).saturating_add(HEADER))?;
        Ok(numbers)
    }

    pub(crate) fn try_statement(&self) -> Result<Statement<'a>, Fault> {
        let mut numbers = Numbers::of(self.numbers);
        numbers.part(self.own)?;
        Statement::of(self.kind, self.nodes.checked_sub(1).map(NodeNumber), numbers, self.bounds())
    }
}

fn skip_node(numbers: &mut Numbers) -> Result<(), Fault> {
    numbers.take()?;
    let length = numbers.take()?;
    numbers.part(length as usize)?;
    Ok(())
}

/// What the planner's promise, or the check, lets a reader rely on.
fn kept<T>(taken: Result<T, Fault>) -> T {
    match taken {
        Ok(taken) => taken,
        Err(fault) => panic!("the plan is not as promised: {fault}"),
    }
}

/// The listing, with what is not UTF-8 replaced. [`Plan::write_listing`] gives its bytes.
impl fmt::Display for Plan<'_> {
    fn fmt(&self, f: &mut fmt::Formatter<'_>) -> fmt::Result {
        listing::print(self, &mut |bytes| crate::lossy::write(f, bytes))
    }
}

impl fmt::Debug for Plan<'_> {
    fn fmt(&self, f: &mut fmt::Formatter<'_>) -> fmt::Result {
        f.debug_struct("Plan")
            .field("kind", &self.kind)
            .field("cells", &self.cells)
            .field("nodes", &self.nodes)
            .finish_non_exhaustive()
    }
}
