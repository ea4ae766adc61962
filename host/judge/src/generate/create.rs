//! CREATE statements.

use texts::{NewColumn, Statement};

use super::{Maker, names};

impl Maker {
    pub fn create(&mut self) -> Statement {
        let name = names::table_name(&mut self.random);
        let width = self.random.weighted(&[(2, 0), (28, 1), (30, 2), (25, 3), (15, 5)]);
        let key = self.random.between(0, width);
        let keys = self.random.weighted(&[(86, 1), (7, 0), (7, 2)]);
        let mut columns: Vec<NewColumn> = (0..width).map(|_| self.new_column()).collect();
        for i in 0..keys.min(width) {
            columns[(key + i) % width].key = true;
        }
        Statement::Create { line: 0, name, columns }
    }

    fn new_column(&mut self) -> NewColumn {
        NewColumn {
            line: 0,
            name: names::column_name(&mut self.random),
            datatype: names::datatype(&mut self.random),
            key: false,
            nullable: *self.random.pick(&[None, Some(true), Some(false)]),
            unique: self.random.percent(25),
            index: self.random.percent(25),
            default: self.random.percent(60).then(|| self.constant()),
            reference: self.random.percent(25).then(|| names::table_name(&mut self.random)),
        }
    }
}
