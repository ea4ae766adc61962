//! The call of the static library: two texts go over as slices, with the four slices of numbers that it fills.

use texts::{Refusal, Text};

use crate::{Answer, Kind, Read};

/// How many numbers each slice has: constants of crates/schema, crates/statement and crates/ast, which the library does not export.
const TABLE_NUMBERS: usize = 16_545;
const CELL_NUMBERS: usize = 6_144;
const FROM_NUMBERS: usize = 248;
const PART_NUMBERS: usize = 3_863;

#[repr(C)]
struct Numbers {
    number: u32,
    text: u32,
    line: u32,
    kind: u32,
    cells: u32,
    tables: u32,
}

// SAFETY of the declaration: it is that of crates/reader_host/src/lib.rt, a `&[u8]` as a pointer and a length, a `&mut` of
// an array as a pointer. The function takes all bytes, reads and writes no further than the slices, and keeps nothing.
unsafe extern "C" {
    fn reader_read_texts(
        catalog: *const u8,
        catalog_length: usize,
        statement: *const u8,
        statement_length: usize,
        tables: *mut [u32; TABLE_NUMBERS],
        cells: *mut [u32; CELL_NUMBERS],
        froms: *mut [u32; FROM_NUMBERS],
        parts: *mut [u32; PART_NUMBERS],
    ) -> Numbers;
}

/// The slices that are lent for reading.
pub struct Reader {
    tables: Box<[u32; TABLE_NUMBERS]>,
    cells: Box<[u32; CELL_NUMBERS]>,
    froms: Box<[u32; FROM_NUMBERS]>,
    parts: Box<[u32; PART_NUMBERS]>,
}

impl Default for Reader {
    fn default() -> Self {
        Reader {
            tables: Box::new([0; TABLE_NUMBERS]),
            cells: Box::new([0; CELL_NUMBERS]),
            froms: Box::new([0; FROM_NUMBERS]),
            parts: Box::new([0; PART_NUMBERS]),
        }
    }
}

impl Reader {
    /// Reads a catalog and a statement.
    pub fn read(&mut self, catalog: &[u8], statement: &[u8]) -> Answer {
        // SAFETY: the pointers and lengths are those of slices and arrays that live through the call; those that are
        // written are lent to nobody else.
        let numbers = unsafe {
            reader_read_texts(
                catalog.as_ptr(),
                catalog.len(),
                statement.as_ptr(),
                statement.len(),
                &raw mut *self.tables,
                &raw mut *self.cells,
                &raw mut *self.froms,
                &raw mut *self.parts,
            )
        };
        answer(&numbers)
    }
}

/// What the numbers say. Those that the library never gives are a fault.
fn answer(numbers: &Numbers) -> Answer {
    let Numbers { number, text, line, kind, cells, tables } = *numbers;
    match (number, text) {
        (0, 0) => {
            let kind = Kind::ALL.into_iter().find(|known| *known as u32 == kind);
            let kind = kind.unwrap_or_else(|| panic!("no statement has the kind {:?}", numbers.kind));
            Answer::Read(Read { kind, cells: cells as usize, tables: tables as usize })
        }
        (2..=4, 1 | 2) => {
            let text = if text == 1 { Text::Catalog } else { Text::Statement };
            Answer::Refused(Refusal { number: number as u8, text, line: line as usize })
        }
        _ => panic!("reading gave the number {number} and the text {text}"),
    }
}

#[cfg(test)]
mod tests {
    use super::*;

    /// The number of a constant in the source of a Rattle crate.
    fn constant(source: &str, name: &str) -> usize {
        let line = source.lines().find_map(|line| line.split_once(&format!("const {name}: ")));
        let (_, rest) = line.unwrap_or_else(|| panic!("no constant {name}"));
        let value = rest.split_once(" = ").and_then(|(_, value)| value.strip_suffix(';'));
        value.and_then(|value| value.parse().ok()).unwrap_or_else(|| panic!("{name} is no number: {rest}"))
    }

    #[test]
    fn sizes_are_those_of_the_crates() {
        let schema = include_str!("../../../crates/schema/src/lib.rt");
        let from = include_str!("../../../crates/from/src/lib.rt");
        let sections = include_str!("../../../crates/sections/src/lib.rt");
        let rows = include_str!("../../../crates/ast/src/rows.rt");
        assert_eq!(TABLE_NUMBERS, constant(schema, "NUMBERS"));
        let count = constant(rows, "STATEMENT_ROWS") + constant(rows, "STARRED_ROWS");
        assert_eq!(CELL_NUMBERS, constant(rows, "ROW_SIZE") * count);
        assert_eq!(FROM_NUMBERS, constant(from, "FROM_NUMBERS"));
        assert_eq!(PART_NUMBERS, constant(sections, "PART_NUMBERS"));
    }
}
