//! Operands: every pair of values at the edges, and pairs from a seed.

use texts::Literal;

use crate::random::Random;

/// Two operands; an operator of one takes the first.
pub type Pair = [Literal; 2];

const INTEGERS: [i64; 22] = [
    0,
    1,
    2,
    3,
    7,
    10,
    20,
    21,
    62,
    63,
    64,
    255,
    3_037_000_499, // the greatest whose square fits
    3_037_000_500,
    4_294_967_295, // the greatest exponent
    4_294_967_296,
    (1 << 53) - 1, // the last that a float holds with all below it
    1 << 53,
    (1 << 53) + 1,
    1 << 62,
    i64::MAX - 1,
    i64::MAX,
];

const FLOATS: [u64; 25] = [
    0x0000_0000_0000_0000, // 0.0
    0x0000_0000_0000_0001, // the least subnormal
    0x000f_ffff_ffff_ffff, // the greatest subnormal
    0x0010_0000_0000_0000, // the least normal
    0x3cb0_0000_0000_0000, // 2 to the -52
    0x3fb9_9999_9999_999a, // 0.1
    0x3fe0_0000_0000_0000, // 0.5
    0x3fef_ffff_ffff_ffff, // just below 1.0
    0x3ff0_0000_0000_0000, // 1.0
    0x3ff0_0000_0000_0001, // just above 1.0
    0x4000_0000_0000_0000, // 2.0
    0x4004_0000_0000_0000, // 2.5
    0x4008_0000_0000_0000, // 3.0
    0x404f_8000_0000_0000, // 63.0
    0x433f_ffff_ffff_ffff, // 2 to the 53, less 1
    0x4340_0000_0000_0000, // 2 to the 53
    0x4340_0000_0000_0001, // 2 to the 53, and 2
    0x43df_ffff_ffff_ffff, // just below 2 to the 63
    0x43e0_0000_0000_0000, // 2 to the 63
    0x7fef_ffff_ffff_ffff, // the greatest
    0x7ff0_0000_0000_0000, // infinity
    0x7ff0_0000_0000_0001, // a signalling NaN
    0x7ff8_0000_0000_0000, // NaN
    0x7ff8_0000_0000_0001, // NaN with a payload
    0x7fff_ffff_ffff_ffff, // NaN, all ones
];

const TEXTS: [&str; 14] =
    ["", "a", "A", "b", "aa", "ab", "abc", "a\u{0}", "%", "_", "null", "é", "éa", "\u{1f600}"];

const SIGN: u64 = 1 << 63;

/// Integers at their edges, each with its negation and its complement.
fn integers() -> Vec<i64> {
    let mut integers: Vec<i64> = INTEGERS.iter().flat_map(|n| [*n, -n, !n]).collect();
    integers.sort();
    integers.dedup();
    integers
}

/// The values at the edges of each type.
fn edges() -> Vec<Literal> {
    let mut edges = vec![Literal::Null, Literal::Bool(false), Literal::Bool(true)];
    edges.extend(integers().into_iter().map(Literal::Int));
    edges.extend(FLOATS.iter().flat_map(|bits| [Literal::Float(*bits), Literal::Float(bits | SIGN)]));
    edges.extend(TEXTS.iter().map(|text| Literal::Text(text.as_bytes().to_vec())));
    edges
}

/// All pairs of values at the edges.
pub fn edge_pairs() -> impl Iterator<Item = Pair> {
    let edges = edges();
    let pairs = edges.len() * edges.len();
    (0..pairs).map(move |i| [edges[i / edges.len()].clone(), edges[i % edges.len()].clone()])
}

#[derive(Clone, Copy)]
enum Kind {
    Null,
    Bool,
    Int,
    Float,
    Text,
}

/// The pair of a number under a seed.
pub fn pair(seed: u64, number: u64) -> Pair {
    let mut random = Random::new(seed, number);
    let left = kind(&mut random);
    let right = match left {
        Kind::Int | Kind::Float if random.percent(85) => *random.pick(&[Kind::Int, Kind::Int, Kind::Float]),
        Kind::Bool | Kind::Text if random.percent(70) => left,
        _ => kind(&mut random),
    };
    [literal(&mut random, left), literal(&mut random, right)]
}

fn kind(random: &mut Random) -> Kind {
    random.weighted(&[(4, Kind::Null), (6, Kind::Bool), (45, Kind::Int), (35, Kind::Float), (10, Kind::Text)])
}

fn literal(random: &mut Random, kind: Kind) -> Literal {
    match kind {
        Kind::Null => Literal::Null,
        Kind::Bool => Literal::Bool(random.percent(50)),
        Kind::Int => Literal::Int(integer(random)),
        Kind::Float => Literal::Float(float(random)),
        Kind::Text => Literal::Text(text(random)),
    }
}

/// Of every size, small ones often.
fn integer(random: &mut Random) -> i64 {
    match random.between(0, 9) {
        0..2 => {
            let edge = *random.pick(&INTEGERS);
            *random.pick(&[edge, -edge, !edge])
        }
        2..4 => random.between(0, 70) as i64 - 5,
        _ => random.bits() as i64 >> random.between(0, 63),
    }
}

/// Any bits, bits near one, quarters, and floats of integers.
fn float(random: &mut Random) -> u64 {
    match random.between(0, 9) {
        0..2 => random.pick(&FLOATS) | if random.percent(50) { SIGN } else { 0 },
        2..4 => random.bits(),
        4..6 => random.bits() % (1 << 58) + 0x3e00_0000_0000_0000,
        6..8 => ((random.between(0, 400) as f64 - 200.0) / 4.0).to_bits(),
        _ => (integer(random) as f64).to_bits(),
    }
}

fn text(random: &mut Random) -> Vec<u8> {
    const LETTERS: [&str; 7] = ["a", "a", "b", "%", "é", "\u{0}", "\u{1f600}"];
    let length = random.between(0, 5);
    (0..length).flat_map(|_| random.pick(&LETTERS).as_bytes().to_vec()).collect()
}
