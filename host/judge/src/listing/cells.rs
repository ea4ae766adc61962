//! The cells of a printed plan, and their use.

use texts::Tree;

use super::fields::{Fields, decimal, literal, number, word};

/// Unfolded cells of more parts than this are not built.
const LARGEST: usize = 1 << 20;

/// The cells and nodes read so far.
#[derive(Default)]
pub struct Plan {
    cells: Vec<Entry>,
    pub nodes: Vec<Entry>,
    /// The size of the cells that were used since it was last reset.
    size: usize,
}

/// A cell or node unfolded, the number of its cells, and whether something uses it.
pub struct Entry {
    tree: Tree,
    size: usize,
    used: bool,
}

const UNARY: [&str; 5] = ["not", "fact", "ident", "neg", "sqrt"];
const BINARY: [&str; 12] = ["and", "or", "eq", "gt", "lt", "add", "div", "pow", "mul", "rem", "sub", "like"];

impl Plan {
    /// Adds a cell by the fields behind its number.
    pub fn add_cell(&mut self, fields: Fields) -> Result<(), String> {
        self.size = 1;
        let tree = self.cell_tree(fields)?;
        self.cells.push(Entry { tree, size: self.size, used: false });
        Ok(())
    }

    pub fn add_node(&mut self, tree: Tree) {
        self.nodes.push(Entry { tree, size: 1, used: false });
    }

    fn cell_tree(&mut self, fields: Fields) -> Result<Tree, String> {
        if let Some(value) = literal(&fields) {
            return Ok(value);
        }
        let kind = word(fields[0])?;
        let known = |kinds: &[&'static str]| kinds.iter().copied().find(|known| *known == kind);
        if let (Some(head), [operand]) = (known(&UNARY), &fields[1..]) {
            return Ok(Tree::list(head, [self.use_cell(operand)?]));
        }
        if let (Some(head), [left, right]) = (known(&BINARY), &fields[1..]) {
            return Ok(Tree::list(head, [self.use_cell(left)?, self.use_cell(right)?]));
        }
        match fields.as_slice() {
            [b"col", position] => Ok(Tree::list("col", [number(position)?])),
            [b"is", operand, value @ ..] => {
                let value = literal(value).ok_or("an `is` without its literal")?;
                Ok(Tree::list("is", [self.use_cell(operand)?, value]))
            }
            _ => Err(format!("a cell of kind {kind} with {} fields", fields.len())),
        }
    }

    pub fn use_cell(&mut self, field: &[u8]) -> Result<Tree, String> {
        let cell = use_one(&mut self.cells, field, "cell")?;
        self.size += cell.size;
        if self.size > LARGEST {
            return Err("the tree is too large to unfold".to_string());
        }
        Ok(cell.tree.clone())
    }

    pub fn use_node(&mut self, field: &[u8]) -> Result<Tree, String> {
        self.size = 0;
        Ok(use_one(&mut self.nodes, field, "node")?.tree.clone())
    }

    /// Every cell and node has a user.
    pub fn expect_all_used(&self) -> Result<(), String> {
        for (kind, trees) in [("cell", &self.cells), ("node", &self.nodes)] {
            if let Some(unused) = trees.iter().position(|entry| !entry.used) {
                return Err(format!("{kind} {unused} has no user"));
            }
        }
        Ok(())
    }
}

/// An earlier cell or node, which is used now.
fn use_one<'a>(entries: &'a mut [Entry], field: &[u8], kind: &str) -> Result<&'a Entry, String> {
    let position: usize = decimal(word(field)?)?;
    let entry = entries.get_mut(position).ok_or(format!("{kind} {position} is used before it stands"))?;
    entry.used = true;
    Ok(entry)
}
