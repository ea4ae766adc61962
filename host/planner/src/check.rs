//! Whether an area that was saved has all that docs/PLAN.md promises of a plan.

use crate::cell::Cell;
use crate::list::List;
use crate::node::Node;
use crate::numbers::{Fault, Numbers};
use crate::plan::Plan;
use crate::statement::{Kind, Statement};
use crate::texts::Texts;
use crate::values::{CellNumber, Column, NodeNumber};

/// The most cells that a statement within the limits makes: 4 · 512 + 256.
const MOST_CELLS: usize = 2_304;
/// The most nodes: 16 scans, 15 joins with a remap each, and 8 above them.
const MOST_NODES: usize = 54;
/// The deepest expression: 31 comparisons of two cells each, and a leaf.
const MOST_DEPTH: u8 = 63;
/// The most columns of a table.
const MOST_TABLE_COLUMNS: u32 = 64;
/// The most columns that a remap rearranges.
const MOST_COLUMNS: usize = 256;

impl<'a> Plan<'a> {
    /// The plan that an area holds, which may have been saved, shortened to the plan's own numbers, damaged or made up.
    ///
    /// All promises of `docs/PLAN.md` are checked, and that the plan is no larger than the limits allow. The texts are those
    /// that it was planned from. No area and no texts make this or any use of the plan panic or run on.
    ///
    /// # Errors
    ///
    /// The first number that breaks a promise.
    pub fn check(catalog: &'a [u8], statement: &'a [u8], area: &'a [u32]) -> Result<Self, Fault> {
        let plan = Plan::of(Texts { catalog, statement }, area)?;
        if plan.own > plan.numbers.len() {
            return Err(Fault { at: 4, what: "behind the end of the plan" });
        }
        let mut behind = Numbers::of(area);
        behind.part(plan.numbers.len())?;
        behind.expect_zeros()?;
        if plan.numbers.len() > crate::LEAST_AREA {
            return Err(Fault { at: 5, what: "more numbers than a plan can have" });
        }
        if plan.cell_count() > MOST_CELLS {
            return Err(Fault { at: 2, what: "more cells than a statement can have" });
        }
        if plan.node_count() > MOST_NODES {
            return Err(Fault { at: 3, what: "more nodes than a statement can have" });
        }
        let mut check = Check {
            plan,
            columns: [0; MOST_CELLS],
            reached: [false; MOST_CELLS],
            widths: [0; MOST_NODES],
            used: [false; MOST_NODES],
        };
        check.cells()?;
        let mut numbers = plan.node_numbers()?;
        for node in 0..plan.nodes {
            check.node(NodeNumber(node), &mut numbers)?;
        }
        if numbers.at() != plan.own {
            return Err(Fault { at: 4, what: "not where the nodes end" });
        }
        check.statement()?;
        check.all_used()?;
        Ok(plan)
    }
}

/// What is known of the cells and nodes so far.
struct Check<'a> {
    plan: Plan<'a>,
    /// For each cell how many columns there must be for it to be read.
    columns: [u32; MOST_CELLS],
    /// Whether a node, a set or a cell that is reached has it.
    reached: [bool; MOST_CELLS],
    /// For each node how many columns it gives.
    widths: [u32; MOST_NODES],
    /// Whether a node has it as its source.
    used: [bool; MOST_NODES],
}

impl<'a> Check<'a> {
    fn cells(&mut self) -> Result<(), Fault> {
        let mut depths = [0u8; MOST_CELLS];
        for number in 0..self.plan.cell_count() {
            let cell = self.plan.try_cell(CellNumber(number as u32))?;
            let deepest = cell.operands().map(|operand| depths[operand.index()]).max().unwrap_or(0);
            if deepest >= MOST_DEPTH {
                return Err(self.at_cell(number, "deeper than an expression can be"));
            }
            depths[number] = deepest + 1;
            self.columns[number] = match cell {
                Cell::Column(position) => position.get().saturating_add(1),
                _ => cell.operands().map(|operand| self.columns[operand.index()]).max().unwrap_or(0),
            };
        }
        Ok(())
    }

    fn at_cell(&self, number: usize, what: &'static str) -> Fault {
        Fault { at: crate::plan::HEADER + crate::cell::CELL * number, what }
    }

    /// The next node, which stands first in the numbers.
    fn node(&mut self, number: NodeNumber, numbers: &mut Numbers<'a>) -> Result<(), Fault> {
        let at = numbers.at();
        let node = Node::take(number.get(), numbers, self.plan.bounds())?;
        for source in node.sources() {
            if core::mem::replace(&mut self.used[source.index()], true) {
                return Err(Fault { at, what: "a source that another node has too" });
            }
        }
        self.belongs(&node).map_err(|what| Fault { at, what })?;
        self.widths[number.index()] = self.width(&node).map_err(|what| Fault { at, what })?;
        self.node_cells(number, &node).map_err(|what| Fault { at, what })
    }

    /// Whether a node may stand in a plan of this kind.
    fn belongs(&self, node: &Node) -> Result<(), &'static str> {
        match (self.plan.kind, node) {
            (Kind::Select, Node::Scan { filter: Some(_), .. }) => Err("a filtered scan in a select"),
            (Kind::Select, _) => Ok(()),
            (Kind::Insert, Node::Values { .. }) => Ok(()),
            (Kind::Delete | Kind::Update, Node::Scan { alias: None, .. }) => Ok(()),
            _ => Err("a node that this statement does not have"),
        }
    }

    /// How many columns a node gives.
    fn width(&self, node: &Node<'a>) -> Result<u32, &'static str> {
        let of = |source: NodeNumber| self.widths[source.index()];
        Ok(match node {
            Node::Scan { table, .. } => self.table_width(table)?,
            Node::Values { rows } => rows.iter().next().map_or(0, |row| row.len() as u32),
            Node::Join { left, right, .. } => of(*left).saturating_add(of(*right)),
            Node::Aggregate { groups, aggregates, .. } => (groups.len() + aggregates.len()) as u32,
            Node::Project { items, .. } => items.len() as u32,
            Node::Remap { source, targets } => remap_width(of(*source), targets)?,
            Node::Filter { source, .. }
            | Node::Order { source, .. }
            | Node::Offset { source, .. }
            | Node::Limit { source, .. } => of(*source),
        })
    }

    fn table_width(&self, table: &[u8]) -> Result<u32, &'static str> {
        let columns = self.plan.texts.table(table).ok_or("a table that the catalog does not have")?;
        Ok(columns.count() as u32)
    }

    /// The cells that a node has, each over the columns that it counts.
    fn node_cells(&mut self, number: NodeNumber, node: &Node<'a>) -> Result<(), &'static str> {
        let own = self.widths[number.index()];
        let below = node.sources().next().map_or(0, |source| self.widths[source.index()]);
        match node {
            Node::Scan { filter, .. } => filter.iter().try_for_each(|cell| self.reach(*cell, own)),
            Node::Values { rows } => rows.iter().flatten().try_for_each(|cell| self.reach(cell, 0)),
            Node::Join { predicate, .. } => predicate.iter().try_for_each(|cell| self.reach(*cell, own)),
            Node::Filter { predicate, .. } => self.reach(*predicate, below),
            Node::Aggregate { groups, aggregates, .. } => {
                groups.iter().try_for_each(|cell| self.reach(cell, below))?;
                aggregates.iter().try_for_each(|of| self.reach(of.argument, below))
            }
            Node::Project { items, .. } => items.iter().try_for_each(|item| self.reach(item.cell, below)),
            Node::Order { keys, .. } => keys.iter().try_for_each(|key| self.reach(key.cell, below)),
            Node::Offset { .. } | Node::Limit { .. } | Node::Remap { .. } => Ok(()),
        }
    }

    /// A node or set has a cell, over so many columns.
    fn reach(&mut self, cell: CellNumber, columns: u32) -> Result<(), &'static str> {
        self.reached[cell.index()] = true;
        if self.columns[cell.index()] <= columns {
            Ok(())
        } else {
            Err("a cell with a column that is not there")
        }
    }

    /// The statement's own numbers.
    fn statement(&mut self) -> Result<(), Fault> {
        let statement = self.plan.try_statement()?;
        self.over_table(statement).map_err(|what| Fault { at: self.plan.own, what })
    }

    fn over_table(&mut self, statement: Statement<'a>) -> Result<(), &'static str> {
        match statement {
            Statement::Select { .. } | Statement::Create { .. } | Statement::Drop { .. } => Ok(()),
            Statement::Delete { table, key, .. } => {
                self.only_node(Some(table))?;
                below(key, self.table_width(table)?)
            }
            Statement::Insert { table, map, .. } => {
                self.only_node(None)?;
                let width = self.table_width(table)?;
                let Some(map) = map else { return Ok(()) };
                if map.iter().enumerate().any(|(place, to)| to.value.index() != place) {
                    return Err("a value out of its order");
                }
                differ(map.iter().map(|to| to.column), width)
            }
            Statement::Update { table, key, sets, .. } => {
                self.only_node(Some(table))?;
                let width = self.table_width(table)?;
                below(key, width)?;
                differ(sets.iter().map(|set| set.column), width)?;
                sets.iter().try_for_each(|set| self.reach(set.cell, width))
            }
        }
    }

    /// There is one node, and where it is a scan, it stands by the same name as the statement's table.
    fn only_node(&self, table: Option<&[u8]>) -> Result<(), &'static str> {
        let scanned = match self.plan.node(NodeNumber(0)) {
            Node::Scan { table, .. } => Some(table),
            _ => None,
        };
        let same = match (scanned, table) {
            (Some(scanned), Some(table)) => core::ptr::eq(scanned, table),
            (None, None) => true,
            _ => false,
        };
        if same && self.plan.nodes == 1 { Ok(()) } else { Err("not over the one node of its table") }
    }

    /// Every cell is reached, and every node but the last is a source.
    fn all_used(&mut self) -> Result<(), Fault> {
        for number in (0..self.plan.cell_count()).rev() {
            if !self.reached[number] {
                return Err(self.at_cell(number, "a cell that nothing has"));
            }
            for operand in self.plan.try_cell(CellNumber(number as u32))?.operands() {
                self.reached[operand.index()] = true;
            }
        }
        let sources = self.plan.node_count().saturating_sub(1);
        if self.used[..sources].iter().all(|used| *used) {
            Ok(())
        } else {
            Err(Fault { at: 3, what: "a node that is no source" })
        }
    }
}

fn below(column: Column, width: u32) -> Result<(), &'static str> {
    if column.get() < width { Ok(()) } else { Err("no column of the table") }
}

/// The columns are the table's, and no two are the same.
fn differ(mut columns: impl Iterator<Item = Column>, width: u32) -> Result<(), &'static str> {
    let mut seen = 0u64;
    columns.try_for_each(|column| {
        below(column, width.min(MOST_TABLE_COLUMNS))?;
        let bit = 1 << column.get();
        let repeated = seen & bit != 0;
        seen |= bit;
        if repeated { Err("a column twice") } else { Ok(()) }
    })
}

/// A remap has a target or none for each column of its source; the targets are 0, 1, 2 .. in some order.
fn remap_width(source: u32, targets: &List<Option<Column>>) -> Result<u32, &'static str> {
    if targets.len() != source as usize || targets.len() > MOST_COLUMNS {
        return Err("not a target for each column of its source");
    }
    let width = targets.iter().flatten().count();
    let mut taken = [false; MOST_COLUMNS];
    for target in targets.iter().flatten() {
        if target.index() >= width || core::mem::replace(&mut taken[target.index()], true) {
            return Err("targets that leave one out");
        }
    }
    Ok(width as u32)
}
