/// A name: 1 to 64 bytes, compared by bytes.
pub type Name = Vec<u8>;

/// A literal. Floats are their 64 bits, so that equality is by bits.
#[derive(Clone, Debug, PartialEq, Eq)]
pub enum Literal {
    Null,
    Bool(bool),
    Int(i64),
    Float(u64),
    Text(Vec<u8>),
}

impl Literal {
    /// Whether this is a float that is not a number.
    pub fn is_nan(&self) -> bool {
        matches!(self, Literal::Float(bits) if f64::from_bits(*bits).is_nan())
    }
}

/// An expression with the line of its root's record.
#[derive(Clone, Debug)]
pub struct Expr {
    pub line: usize,
    pub kind: ExprKind,
}

/// Two expressions are equal when they are the same but for their lines.
impl PartialEq for Expr {
    fn eq(&self, other: &Self) -> bool {
        self.kind == other.kind
    }
}

#[derive(Clone, Debug, PartialEq)]
pub enum ExprKind {
    Star,
    Column {
        table: Option<Name>,
        name: Name,
    },
    Literal(Literal),
    Function {
        name: Name,
        arguments: Vec<Expr>,
    },
    /// An operator other than `is`, with as many operands as it takes.
    Operator(Operator, Vec<Expr>),
    Is(Box<Expr>, Literal),
}

impl From<ExprKind> for Expr {
    /// An expression that stands in no text yet.
    fn from(kind: ExprKind) -> Self {
        Expr { line: 0, kind }
    }
}

impl Expr {
    /// The operands or arguments.
    pub fn operands(&self) -> &[Expr] {
        match &self.kind {
            ExprKind::Star | ExprKind::Column { .. } | ExprKind::Literal(_) => &[],
            ExprKind::Function { arguments, .. } => arguments,
            ExprKind::Operator(_, operands) => operands,
            ExprKind::Is(operand, _) => std::slice::from_ref(operand),
        }
    }

    /// The number of its records, the literal of an `is` apart.
    pub fn cells(&self) -> usize {
        1 + self.operands().iter().map(Expr::cells).sum::<usize>()
    }
}

/// The operators, `is` apart.
#[derive(Clone, Copy, Debug, PartialEq, Eq)]
pub enum Operator {
    And,
    Not,
    Or,
    Eq,
    Gt,
    Ge,
    Lt,
    Le,
    Ne,
    Add,
    Div,
    Pow,
    Fact,
    Ident,
    Mul,
    Neg,
    Rem,
    Sub,
    Like,
}

impl Operator {
    pub const ALL: [Operator; 19] = [
        Operator::And,
        Operator::Not,
        Operator::Or,
        Operator::Eq,
        Operator::Gt,
        Operator::Ge,
        Operator::Lt,
        Operator::Le,
        Operator::Ne,
        Operator::Add,
        Operator::Div,
        Operator::Pow,
        Operator::Fact,
        Operator::Ident,
        Operator::Mul,
        Operator::Neg,
        Operator::Rem,
        Operator::Sub,
        Operator::Like,
    ];

    /// The word of the texts for the operator.
    pub fn word(self) -> &'static str {
        match self {
            Operator::And => "and",
            Operator::Not => "not",
            Operator::Or => "or",
            Operator::Eq => "eq",
            Operator::Gt => "gt",
            Operator::Ge => "ge",
            Operator::Lt => "lt",
            Operator::Le => "le",
            Operator::Ne => "ne",
            Operator::Add => "add",
            Operator::Div => "div",
            Operator::Pow => "pow",
            Operator::Fact => "fact",
            Operator::Ident => "ident",
            Operator::Mul => "mul",
            Operator::Neg => "neg",
            Operator::Rem => "rem",
            Operator::Sub => "sub",
            Operator::Like => "like",
        }
    }

    /// The number of operands.
    pub fn arity(self) -> usize {
        match self {
            Operator::Not | Operator::Fact | Operator::Ident | Operator::Neg => 1,
            _ => 2,
        }
    }

    pub(crate) fn of(word: &[u8]) -> Option<Self> {
        Self::ALL.into_iter().find(|operator| operator.word().as_bytes() == word)
    }
}
