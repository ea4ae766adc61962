//! Names from small pools, literals at the edges, and the catalog.

use texts::limits::NAME_BYTES;
use texts::{Column, DataType, Literal, Name, Table};

use crate::random::Random;

const TABLES: [&str; 6] = ["t", "u", "v", "w", "a", "x"];
const COLUMNS: [&str; 6] = ["a", "b", "c", "d", "id", "t"];
const ALIASES: [&str; 7] = ["a", "b", "x", "y", "t", "u", "sum"];
const ODD: [&str; 8] = ["as", "-", "default", "naïve", "end", "a b", "select", "0"];

fn odd(random: &mut Random) -> Name {
    if random.percent(20) {
        return vec![b'n'; NAME_BYTES];
    }
    random.pick(&ODD).as_bytes().to_vec()
}

fn from_pool(random: &mut Random, pool: &[&str]) -> Name {
    if random.percent(2) { odd(random) } else { random.pick(pool).as_bytes().to_vec() }
}

pub fn table_name(random: &mut Random) -> Name {
    from_pool(random, &TABLES)
}

pub fn column_name(random: &mut Random) -> Name {
    from_pool(random, &COLUMNS)
}

pub fn alias(random: &mut Random) -> Name {
    from_pool(random, &ALIASES)
}

pub fn datatype(random: &mut Random) -> DataType {
    *random.pick(&DataType::ALL)
}

/// The tables of a catalog, rarely none.
pub fn tables(random: &mut Random) -> Vec<Table> {
    let count = random.weighted(&[(2, 0), (30, 1), (35, 2), (25, 3), (8, 5)]);
    let mut tables: Vec<Table> = Vec::new();
    for _ in 0..count {
        let name = table_name(random);
        if tables.iter().all(|table| table.name != name) {
            tables.push(table(random, name));
        }
    }
    tables
}

fn table(random: &mut Random, name: Name) -> Table {
    let width = random.weighted(&[(15, 1), (30, 2), (35, 3), (15, 4), (5, 8)]);
    let repeats = random.percent(12);
    let mut columns: Vec<Column> = Vec::new();
    while columns.len() < width {
        let name = column_name(random);
        let known = columns.iter().any(|column| column.name == name);
        if known && !repeats && columns.len() < COLUMNS.len() {
            continue;
        }
        let default = if random.percent(50) { Some(literal(random)) } else { None };
        columns.push(Column { name, datatype: datatype(random), nullable: random.percent(50), default });
    }
    Table { name, key: random.between(0, width - 1), columns }
}

/// A literal of any type, often at an edge.
pub fn literal(random: &mut Random) -> Literal {
    match random.between(0, 9) {
        0 => Literal::Null,
        1 => Literal::Bool(random.percent(50)),
        2..6 => Literal::Int(integer(random)),
        6..8 => Literal::Float(float(random)),
        _ => Literal::Text(text(random)),
    }
}

pub fn integer(random: &mut Random) -> i64 {
    const EDGES: [i64; 18] = [
        i64::MIN,
        i64::MIN + 1,
        i64::MAX,
        i64::MAX - 1,
        -1,
        20,
        21,
        62,
        63,
        64,
        1 << 32,
        (1 << 32) - 1,
        1 << 53,
        (1 << 53) + 1,
        -(1 << 53) - 1,
        3_037_000_500,
        -3_037_000_500,
        10,
    ];
    match random.between(0, 9) {
        0..6 => random.between(0, 4) as i64,
        6 => -(random.between(0, 4) as i64),
        7 => *random.pick(&EDGES),
        8 => random.bits() as i64 >> random.between(0, 63),
        _ => random.between(0, 100) as i64,
    }
}

pub fn float(random: &mut Random) -> u64 {
    const EDGES: [u64; 20] = [
        0x0000_0000_0000_0000, // 0.0
        0x8000_0000_0000_0000, // -0.0
        0x3ff0_0000_0000_0000, // 1.0
        0xbff0_0000_0000_0000, // -1.0
        0x7ff0_0000_0000_0000, // infinity
        0xfff0_0000_0000_0000, // -infinity
        0x7ff8_0000_0000_0000, // NaN
        0xfff8_0000_0000_0000, // NaN with a sign
        0x7ff8_0000_0000_0001, // NaN with a payload
        0x7ff0_0000_0000_0001, // signalling NaN
        0xffff_ffff_ffff_ffff, // NaN, all ones
        0x0000_0000_0000_0001, // the least subnormal
        0x000f_ffff_ffff_ffff, // the greatest subnormal
        0x0010_0000_0000_0000, // the least normal
        0x7fef_ffff_ffff_ffff, // the greatest
        0xffef_ffff_ffff_ffff, // the least
        0x43e0_0000_0000_0000, // 2 to the 63
        0xc3e0_0000_0000_0000, // -2 to the 63
        0x4340_0000_0000_0000, // 2 to the 53
        0x4004_0000_0000_0000, // 2.5
    ];
    match random.between(0, 9) {
        0..7 => *random.pick(&EDGES),
        7..9 => (random.between(0, 100) as f64 / 4.0).to_bits(),
        _ => random.bits(),
    }
}

/// The bits of some NaN.
pub fn nan(random: &mut Random) -> u64 {
    const NANS: [u64; 4] =
        [0x7ff8_0000_0000_0000, 0xfff8_0000_0000_0000, 0x7ff8_0000_0000_0001, 0x7ff0_0000_0000_0001];
    *random.pick(&NANS)
}

pub fn text(random: &mut Random) -> Vec<u8> {
    const TEXTS: [&str; 8] = ["", "a", "b", "ab", "a%", "_", "ž é", "null"];
    random.pick(&TEXTS).as_bytes().to_vec()
}
