//! Expressions that are worked out: OFFSET, LIMIT and the defaults of CREATE.

use texts::{Expr, ExprKind, Literal, Operator};

use super::expression::{function, literal, operator};
use super::{Maker, names};

/// What a constant is likely to be.
#[derive(Clone, Copy)]
enum Kind {
    Bool,
    Int,
    Float,
    Text,
}

impl Maker {
    /// OFFSET's or LIMIT's expression.
    pub fn row_number(&mut self) -> Expr {
        match self.random.between(0, 99) {
            0..60 => literal(Literal::Int(self.random.between(0, 9) as i64)),
            60..85 => self.typed(Kind::Int, 3),
            _ => self.constant(),
        }
    }

    /// A constant of any type, with or without operators.
    pub fn constant(&mut self) -> Expr {
        let depth = self.random.weighted(&[(25, 1), (35, 2), (30, 3), (10, 4)]);
        let kind =
            self.random.weighted(&[(25, Kind::Bool), (45, Kind::Int), (22, Kind::Float), (8, Kind::Text)]);
        self.typed(kind, depth)
    }

    /// A constant that is of a type unless an operand is null or another choice was made.
    fn typed(&mut self, kind: Kind, depth: usize) -> Expr {
        if self.random.percent(self.mistakes / 3) {
            return self.expression(&[], depth);
        }
        if self.random.percent(4) {
            return literal(Literal::Null);
        }
        if depth <= 1 || self.random.percent(20) {
            return literal(match kind {
                Kind::Bool => Literal::Bool(self.random.percent(50)),
                Kind::Int => Literal::Int(names::integer(&mut self.random)),
                Kind::Float => Literal::Float(names::float(&mut self.random)),
                Kind::Text => Literal::Text(names::text(&mut self.random)),
            });
        }
        match kind {
            Kind::Bool => self.truth(depth - 1),
            Kind::Int => self.whole(depth - 1),
            Kind::Float => self.fraction(depth - 1),
            Kind::Text => self.typed(kind, 1),
        }
    }

    fn any_kind(&mut self) -> Kind {
        *self.random.pick(&[Kind::Bool, Kind::Int, Kind::Float, Kind::Text])
    }

    fn truth(&mut self, depth: usize) -> Expr {
        match self.random.between(0, 9) {
            0 => {
                let operand = self.typed(Kind::Bool, depth);
                operator(Operator::Not, vec![operand])
            }
            1..4 => {
                let chosen = *self.random.pick(&[Operator::And, Operator::Or]);
                let operands = (0..2).map(|_| self.typed(Kind::Bool, depth)).collect();
                operator(chosen, operands)
            }
            4 => {
                let kind = self.any_kind();
                let operand = self.typed(kind, depth);
                ExprKind::Is(Box::new(operand), Literal::Null).into()
            }
            5 => {
                let operand = self.typed(Kind::Float, depth);
                let nan = Literal::Float(names::nan(&mut self.random));
                ExprKind::Is(Box::new(operand), nan).into()
            }
            6 if self.random.percent(30) => {
                let operands = (0..2).map(|_| self.typed(Kind::Text, depth)).collect();
                operator(Operator::Like, operands)
            }
            _ => self.comparison(depth),
        }
    }

    /// A comparison of two of a type, or of an integer and a float.
    fn comparison(&mut self, depth: usize) -> Expr {
        const COMPARISONS: [Operator; 6] =
            [Operator::Eq, Operator::Ne, Operator::Gt, Operator::Ge, Operator::Lt, Operator::Le];
        let chosen = *self.random.pick(&COMPARISONS);
        let left = self.any_kind();
        let right = match left {
            Kind::Int | Kind::Float => *self.random.pick(&[Kind::Int, Kind::Float]),
            kind => kind,
        };
        let operands = vec![self.typed(left, depth), self.typed(right, depth)];
        operator(chosen, operands)
    }

    fn whole(&mut self, depth: usize) -> Expr {
        const ARITHMETIC: [Operator; 6] =
            [Operator::Add, Operator::Sub, Operator::Mul, Operator::Div, Operator::Rem, Operator::Pow];
        if self.random.percent(4) {
            return self.lowest();
        }
        if self.random.percent(25) {
            let chosen = *self.random.pick(&[Operator::Neg, Operator::Ident, Operator::Fact]);
            let operand = self.typed(Kind::Int, depth);
            return operator(chosen, vec![operand]);
        }
        let chosen = *self.random.pick(&ARITHMETIC);
        let operands = (0..2).map(|_| self.typed(Kind::Int, depth)).collect();
        operator(chosen, operands)
    }

    /// The lowest integer where its result passes the integers' end.
    fn lowest(&mut self) -> Expr {
        let lowest = literal(Literal::Int(i64::MIN));
        let minus_one = literal(Literal::Int(-1));
        match self.random.between(0, 2) {
            0 => operator(Operator::Neg, vec![lowest]),
            1 => operator(Operator::Div, vec![lowest, minus_one]),
            _ => operator(Operator::Rem, vec![lowest, minus_one]),
        }
    }

    fn fraction(&mut self, depth: usize) -> Expr {
        const ARITHMETIC: [Operator; 5] =
            [Operator::Add, Operator::Sub, Operator::Mul, Operator::Div, Operator::Rem];
        match self.random.between(0, 99) {
            0..5 => {
                let kind = self.any_kind();
                let operand = self.typed(kind, depth);
                function("sqrt", vec![operand])
            }
            5..10 => {
                let operands = vec![self.typed(Kind::Float, depth), self.typed(Kind::Int, depth)];
                operator(Operator::Pow, operands)
            }
            10..30 => {
                let chosen = *self.random.pick(&[Operator::Neg, Operator::Ident]);
                let operand = self.typed(Kind::Float, depth);
                operator(chosen, vec![operand])
            }
            _ => {
                let chosen = *self.random.pick(&ARITHMETIC);
                let mut kinds = [Kind::Float, *self.random.pick(&[Kind::Int, Kind::Float])];
                self.random.shuffle(&mut kinds);
                let operands = kinds.iter().map(|kind| self.typed(*kind, depth)).collect();
                operator(chosen, operands)
            }
        }
    }
}
