//! Damage to a text: bytes, fields and lines that are not as they should be.

use super::{Case, Maker};

impl Maker {
    /// Damages one of a case's texts, once or twice.
    pub fn damage(&mut self, case: &mut Case) {
        let text = if self.random.percent(25) { &mut case.catalog } else { &mut case.statement };
        for _ in 0..self.random.weighted(&[(80, 1), (20, 2)]) {
            if !text.is_empty() {
                self.damage_once(text);
            }
        }
    }

    fn damage_once(&mut self, text: &mut Vec<u8>) {
        let at = self.random.between(0, text.len() - 1);
        match self.random.between(0, 11) {
            0 => text[at] ^= 1 << self.random.between(0, 7),
            1 => text[at] = *self.random.pick(b"\t\n0-ax \xff"),
            2 => text.truncate(at),
            3 => text.insert(at, *self.random.pick(b"\t\n01-a")),
            4 => drop(text.remove(at)),
            5 => text.extend_from_slice(b"end\n"),
            6 => self.damage_field(text),
            _ => self.damage_lines(text),
        }
    }

    /// Exchanges one field for a word of the texts, a number, or nothing.
    fn damage_field(&mut self, text: &mut Vec<u8>) {
        const WORDS: [&str; 26] = [
            "end",
            "item",
            "from",
            "where",
            "group",
            "order",
            "limit",
            "col",
            "op",
            "fn",
            "is",
            "star",
            "null",
            "default",
            "column",
            "table",
            "row",
            "int",
            "007",
            "-0",
            "99999999999999999999",
            "9223372036854775808",
            "pk",
            "-",
            "",
            "t",
        ];
        let mut fields: Vec<&[u8]> = text.split_inclusive(|&b| b == b'\t' || b == b'\n').collect();
        let at = self.random.between(0, fields.len() - 1);
        let mut field = self.random.pick(&WORDS).as_bytes().to_vec();
        field.extend(fields[at].last().filter(|&&b| b == b'\t' || b == b'\n'));
        fields[at] = &field;
        *text = fields.concat();
    }

    /// Drops, doubles, swaps or moves lines, or doubles a run of them.
    fn damage_lines(&mut self, text: &mut Vec<u8>) {
        let mut lines: Vec<&[u8]> = text.split_inclusive(|&b| b == b'\n').collect();
        let last = lines.len() - 1;
        let (one, other) = (self.random.between(0, last), self.random.between(0, last));
        match self.random.between(0, 4) {
            0 => drop(lines.remove(one)),
            1 => lines.insert(one, lines[one]),
            2 => lines.swap(one, other),
            3 => {
                let run = lines[one..lines.len().min(one + self.random.between(2, 4))].to_vec();
                lines.splice(one..one, run);
            }
            _ => {
                let line = lines.remove(one);
                lines.insert(other.min(lines.len()), line);
            }
        }
        *text = lines.concat();
    }
}
