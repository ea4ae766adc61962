//! Expressions over columns.

use texts::{Expr, ExprKind, Literal, Name, Operator};

use super::{Maker, names};

pub const AGGREGATES: [&str; 5] = ["avg", "count", "max", "min", "sum"];

pub fn column(table: Option<&Name>, name: &Name) -> Expr {
    ExprKind::Column { table: table.cloned(), name: name.clone() }.into()
}

pub fn literal(literal: Literal) -> Expr {
    ExprKind::Literal(literal).into()
}

pub fn function(name: &str, arguments: Vec<Expr>) -> Expr {
    ExprKind::Function { name: name.as_bytes().to_vec(), arguments }.into()
}

pub fn operator(operator: Operator, operands: Vec<Expr>) -> Expr {
    ExprKind::Operator(operator, operands).into()
}

impl Maker {
    /// An expression over some that are known to be good.
    pub fn expression(&mut self, leaves: &[Expr], depth: usize) -> Expr {
        if depth <= 1 || self.random.percent(40) {
            return self.leaf(leaves);
        }
        if self.mistake() {
            return self.bad_function(leaves, depth);
        }
        match self.random.between(0, 99) {
            0..8 => {
                let argument = self.expression(leaves, depth - 1);
                function("sqrt", vec![argument])
            }
            8..18 => self.is(leaves, depth),
            _ => {
                let chosen = *self.random.pick(&Operator::ALL);
                let operands = (0..chosen.arity()).map(|_| self.expression(leaves, depth - 1)).collect();
                operator(chosen, operands)
            }
        }
    }

    /// A chain of comparisons, in which the Rust doubles the operands at each step.
    pub fn chain(&mut self, leaves: &[Expr]) -> Expr {
        let mut chain = self.leaf(leaves);
        for _ in 0..self.random.between(2, 16) {
            let chosen = *self.random.pick(&[Operator::Ge, Operator::Le]);
            let mut operands = vec![chain, self.leaf(leaves)];
            if self.random.percent(20) {
                operands.reverse();
            }
            chain = operator(chosen, operands);
        }
        chain
    }

    fn leaf(&mut self, leaves: &[Expr]) -> Expr {
        if self.mistake() {
            return self.bad_leaf();
        }
        if !leaves.is_empty() && self.random.percent(75) {
            return self.random.pick(leaves).clone();
        }
        literal(names::literal(&mut self.random))
    }

    /// A star, or a column of any name.
    fn bad_leaf(&mut self) -> Expr {
        if self.random.percent(25) {
            return ExprKind::Star.into();
        }
        let name = names::column_name(&mut self.random);
        let table = if self.random.percent(40) { Some(names::table_name(&mut self.random)) } else { None };
        column(table.as_ref(), &name)
    }

    /// A function that may not stand here, of any number of arguments.
    fn bad_function(&mut self, leaves: &[Expr], depth: usize) -> Expr {
        let name = *self.random.pick(&["f", "g", "sqrt", "sum", "count", "max"]);
        let count = self.random.weighted(&[(30, 0), (35, 1), (25, 2), (10, 3)]);
        let arguments = (0..count).map(|_| self.expression(leaves, depth - 1)).collect();
        function(name, arguments)
    }

    fn is(&mut self, leaves: &[Expr], depth: usize) -> Expr {
        let operand = self.expression(leaves, depth - 1);
        let literal = if self.mistake() || self.random.percent(4) {
            names::literal(&mut self.random)
        } else if self.random.percent(50) {
            Literal::Null
        } else {
            Literal::Float(names::nan(&mut self.random))
        };
        ExprKind::Is(Box::new(operand), literal).into()
    }

    /// An aggregate over expressions that are known to be good under it.
    pub fn aggregate(&mut self, leaves: &[Expr]) -> Expr {
        let name = *self.random.pick(&AGGREGATES);
        if self.mistake() || self.random.percent(2) {
            return self.bad_aggregate(name, leaves);
        }
        if name == "count" && self.random.percent(50) {
            return function(name, vec![ExprKind::Star.into()]);
        }
        let depth = self.random.weighted(&[(70, 1), (30, 3)]);
        let argument = self.expression(leaves, depth);
        function(name, vec![argument])
    }

    /// An aggregate with no argument or several, with another inside, or over a star.
    fn bad_aggregate(&mut self, name: &str, leaves: &[Expr]) -> Expr {
        let leaf = self.leaf(leaves);
        match self.random.between(0, 9) {
            0 => function(name, vec![]),
            1 => function(name, vec![leaf.clone(), leaf]),
            2..4 => function(name, vec![function("max", vec![leaf])]),
            4 => {
                let sum = operator(Operator::Add, vec![leaf.clone(), function("f", vec![])]);
                function(name, vec![sum])
            }
            5 => function(name, vec![function("sqrt", vec![function("sum", vec![leaf])])]),
            6 => function(name, vec![function("f", vec![])]),
            7 => function(name, vec![function("f", vec![function("sum", vec![leaf.clone()]), leaf])]),
            8 => function(name, vec![function("f", vec![leaf.clone(), function("sum", vec![leaf])])]),
            _ => function(name, vec![ExprKind::Star.into()]),
        }
    }
}
