//! The cells and nodes of a plan, and how they are printed.

use texts::{Literal, literal_record};

/// The number of a cell.
pub type Cell = usize;
/// The number of a node.
pub type Node = usize;

/// The cells and nodes of a plan in the order of their making, each as its printed fields behind its number.
#[derive(Default)]
pub struct Plan {
    cells: Vec<Vec<u8>>,
    nodes: Vec<Vec<u8>>,
}

impl Plan {
    pub fn literal(&mut self, literal: &Literal) -> Cell {
        let mut fields = literal_record(literal);
        fields.pop();
        self.push_cell(fields)
    }

    pub fn column(&mut self, position: usize) -> Cell {
        self.push_cell(format!("col\t{position}").into_bytes())
    }

    /// A cell with operand cells.
    pub fn operation(&mut self, kind: &str, operands: &[Cell]) -> Cell {
        let mut fields = Fields::new(kind);
        operands.iter().for_each(|operand| fields.number(*operand));
        self.push_cell(fields.0)
    }

    pub fn is(&mut self, operand: Cell, literal: &Literal) -> Cell {
        let mut fields = Fields::new("is");
        fields.number(operand);
        let mut record = literal_record(literal);
        record.pop();
        fields.bytes(&record);
        self.push_cell(fields.0)
    }

    pub fn node(&mut self, fields: Fields) -> Node {
        self.nodes.push(fields.0);
        self.nodes.len() - 1
    }

    /// The printed plan, without a statement's own lines.
    pub fn print(&self, kind: &str) -> Vec<u8> {
        let mut out = format!("plan\t{kind}\t{}\t{}\n", self.nodes.len(), self.cells.len()).into_bytes();
        for (word, lines) in [("cell", &self.cells), ("node", &self.nodes)] {
            for (number, fields) in lines.iter().enumerate() {
                out.extend(format!("{word}\t{number}\t").into_bytes());
                out.extend(fields);
                out.push(b'\n');
            }
        }
        out
    }

    fn push_cell(&mut self, fields: Vec<u8>) -> Cell {
        self.cells.push(fields);
        self.cells.len() - 1
    }
}

/// Fields parted by tabs.
pub struct Fields(Vec<u8>);

impl Fields {
    pub fn new(word: &str) -> Self {
        Fields(word.as_bytes().to_vec())
    }

    pub fn bytes(&mut self, bytes: &[u8]) {
        self.0.push(b'\t');
        self.0.extend(bytes);
    }

    pub fn word(&mut self, word: &str) {
        self.bytes(word.as_bytes());
    }

    pub fn number(&mut self, number: usize) {
        self.word(&number.to_string());
    }

    /// `as` and the alias, where there is one.
    pub fn alias(&mut self, alias: Option<&Vec<u8>>) {
        if let Some(alias) = alias {
            self.word("as");
            self.bytes(alias);
        }
    }

    /// The fields as a line.
    pub fn line(mut self) -> Vec<u8> {
        self.0.push(b'\n');
        self.0
    }
}
