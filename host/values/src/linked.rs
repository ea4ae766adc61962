//! Calls of the static library: a value goes over as its kind and 64 bits, a text as a place in two byte slices.

use texts::Literal;
use texts::limits::TEXT_BYTES;

use crate::{Operation, Worked};

#[repr(C)]
struct Answer {
    refusal: u32,
    kind: u32,
    bits: u64,
}

// SAFETY of the declarations: they are those of crates/value_host/src/lib.rt, a `&[u8]` as a pointer and a length. Each
// function takes all numbers, reads no further than the slices' lengths and keeps nothing.
unsafe extern "C" {
    safe fn value_unary(op: u32, kind: u32, bits: u64) -> Answer;
    safe fn value_is_null(kind: u32, bits: u64) -> Answer;
    safe fn value_is_nan(kind: u32, bits: u64) -> Answer;
    fn value_binary(
        catalog: *const u8,
        catalog_length: usize,
        statement: *const u8,
        statement_length: usize,
        op: u32,
        kind: u32,
        bits: u64,
        other_kind: u32,
        other_bits: u64,
    ) -> Answer;
}

pub fn work_out(operation: Operation, operands: &[Literal]) -> Worked {
    assert_eq!(operands.len(), operation.arity(), "operands of {}", operation.word());
    let mut lent = Lent::default();
    let passed: Vec<(u32, u64)> = operands.iter().map(|operand| lent.pass(operand)).collect();
    let answer = match (operation.code(), passed.as_slice()) {
        (Some(code), [(kind, bits)]) => value_unary(code, *kind, *bits),
        (Some(code), [left, right]) => lent.binary(code, *left, *right),
        (None, [(kind, bits)]) if operation == Operation::IsNull => value_is_null(*kind, *bits),
        (None, [(kind, bits)]) => value_is_nan(*kind, *bits),
        _ => unreachable!("one operand or two"),
    };
    match answer {
        Answer { refusal: 0, kind, bits } => Worked::Value(literal(kind, bits)),
        Answer { refusal, .. } => Worked::Refused(refusal),
    }
}

/// The bytes that are lent for a call: texts of even length stand in the first slice, the others in the second.
#[derive(Default)]
struct Lent {
    catalog: Vec<u8>,
    statement: Vec<u8>,
}

/// The address of the second slice's first byte.
const STATEMENT: u64 = TEXT_BYTES as u64;

impl Lent {
    /// A value's kind and 64 bits.
    fn pass(&mut self, value: &Literal) -> (u32, u64) {
        match value {
            Literal::Null => (1, 0),
            Literal::Bool(value) => (2, u64::from(*value)),
            Literal::Int(value) => (3, value.cast_unsigned()),
            Literal::Float(bits) => (4, *bits),
            Literal::Text(bytes) => (5, (self.place(bytes) << 32) + bytes.len() as u64),
        }
    }

    /// The address of a text among the bytes.
    fn place(&mut self, bytes: &[u8]) -> u64 {
        let (first, slice) = match bytes.len() % 2 {
            0 => (0, &mut self.catalog),
            _ => (STATEMENT, &mut self.statement),
        };
        let address = first + slice.len() as u64;
        slice.extend(bytes);
        assert!(slice.len() as u64 <= STATEMENT, "a text of at most {STATEMENT} bytes");
        address
    }

    fn binary(&self, code: u32, left: (u32, u64), right: (u32, u64)) -> Answer {
        // SAFETY: the pointers and lengths are those of the two vectors, which live through the call.
        unsafe {
            value_binary(
                self.catalog.as_ptr(),
                self.catalog.len(),
                self.statement.as_ptr(),
                self.statement.len(),
                code,
                left.0,
                left.1,
                right.0,
                right.1,
            )
        }
    }
}

/// The value of a kind and 64 bits. No operator gives a text.
fn literal(kind: u32, bits: u64) -> Literal {
    match (kind, bits) {
        (1, 0) => Literal::Null,
        (2, 0 | 1) => Literal::Bool(bits == 1),
        (3, _) => Literal::Int(bits.cast_signed()),
        (4, _) => Literal::Float(bits),
        _ => panic!("an operator gave kind {kind} with the bits {bits:016x}"),
    }
}
