//! Each promise of docs/PLAN.md ("How a reader checks the form"), broken alone in an area that keeps all others.

mod worked;

use worked::{STATEMENT, WORKED};

/// The worked areas by what they are.
const P1: usize = 0;
const INSERT: usize = 1;
const UPDATE: usize = 4;
const DELETE: usize = 5;
const CREATE: usize = 6;
const DROP: usize = 7;
const JOINS: usize = 8;

/// What the check says of a worked area with some numbers exchanged.
fn said(of: usize, changes: &[(usize, u32)]) -> String {
    let mut area = WORKED[of].area();
    for (place, number) in changes {
        area[*place] = *number;
    }
    match WORKED[of].listing(&area) {
        Ok(_) => "taken".to_string(),
        Err(fault) => format!("{}: {}", fault.at, fault.what),
    }
}

/// What the check says of an area over P1's texts.
fn said_of(area: &[u32]) -> String {
    match WORKED[P1].listing(area) {
        Ok(_) => "taken".to_string(),
        Err(fault) => format!("{}: {}", fault.at, fault.what),
    }
}

/// The name `heap` in P1's statement, and a scan of it.
const NAME: u32 = 65_560;
const SCAN: [u32; 7] = [1, 5, NAME, 4, 0, 0, 0];

#[test]
fn worked_areas_are_taken() {
    (0..WORKED.len()).for_each(|of| assert_eq!(said(of, &[]), "taken"));
}

#[test]
fn the_parts_fit() {
    // 1: layout and statement.
    assert_eq!(said(P1, &[(0, 2)]), "0: no plan");
    assert_eq!(said(P1, &[(1, 0)]), "1: no statement");
    assert_eq!(said(P1, &[(1, 7)]), "1: no statement");
    // 2: the nodes end where the statement's own numbers start.
    assert_eq!(said(P1, &[(4, 67)]), "4: not where the nodes end");
    assert_eq!(said(P1, &[(3, 4), (66, 0)]), "4: not where the nodes end");
    // 3: the end, and zeros behind it.
    assert_eq!(said(P1, &[(5, 67)]), "4: behind the end of the plan");
    assert_eq!(said(P1, &[(5, 16_385)]), "5: behind the end of the area");
    for place in [68, 70, 131, 132, 133, 16_382, 16_383] {
        assert_eq!(said(P1, &[(place, 1)]), format!("{place}: not 0"));
        assert_eq!(said(P1, &[(place, 1 << 31), (16_383, 1)]), format!("{place}: not 0"));
    }
    // 4: as many own numbers as the statement has.
    assert_eq!(said(P1, &[(5, 69)]), "68: a number is left over");
    assert_eq!(said(DROP, &[(5, 10)]), "9: a number is left over");
    assert_eq!(said(DELETE, &[(5, 25)]), "24: a number is left over");
    assert_eq!(said(INSERT, &[(5, 37)]), "36: a number is left over");
    assert_eq!(said(INSERT, &[(31, 2)]), "34: a number is left over");
    assert_eq!(said(UPDATE, &[(5, 46)]), "45: a number is left over");
    assert_eq!(said(UPDATE, &[(40, 3)]), "41: fewer numbers than there should be");
    assert_eq!(said(CREATE, &[(5, 59)]), "58: a number is left over");
    assert_eq!(said(CREATE, &[(9, 5)]), "10: fewer numbers than there should be");
    // 5: a node, or none.
    let mismatch = "a statement without a node, or with cells or nodes that it has none of";
    assert_eq!(said_of(&[1, 1, 0, 0, 6, 6]), format!("6: {mismatch}"));
    assert_eq!(said_of(&[1, 3, 0, 0, 6, 9, NAME, 4, 0]), "taken");
    assert_eq!(said_of(&[1, 3, 1, 0, 10, 13, 1, 0, 0, 0, NAME, 4, 0]), format!("10: {mismatch}"));
    let dropping = [&[1, 3, 0, 1, 13, 16][..], &SCAN, &[NAME, 4, 0]].concat();
    assert_eq!(said_of(&dropping), "6: a node that this statement does not have");
    assert_eq!(said_of(&[1, 4, 0, 0, 6, 9, NAME, 4, 0]), format!("6: {mismatch}"));
}

#[test]
fn numbers_are_of_their_kinds() {
    // 6: the kinds of cells, and what is not named.
    for kind in [0, 7, 13, 28, 256 + 6, u32::MAX] {
        assert_eq!(said(P1, &[(6, kind)]), "6: no kind of cell");
    }
    assert_eq!(said(P1, &[(8, 1)]), "8: not 0");
    assert_eq!(said(P1, &[(13, 1)]), "13: not 0");
    assert_eq!(said(P1, &[(17, 1)]), "17: not 0");
    assert_eq!(said(DELETE, &[(10, 14), (12, 0)]), "13: not 0");
    // 7: the kinds and lengths of nodes.
    assert_eq!(said(P1, &[(38, 0)]), "38: no kind of node");
    assert_eq!(said(P1, &[(38, 11)]), "38: no kind of node");
    assert_eq!(said(P1, &[(39, 4)]), "44: a number is missing");
    assert_eq!(said(P1, &[(39, 6)]), "45: a number is left over");
    assert_eq!(said(P1, &[(46, 3)]), "49: a number is left over");
    assert_eq!(said(P1, &[(50, 6)]), "57: a number is missing");
    assert_eq!(said(P1, &[(59, 2)]), "62: a number is missing");
    assert_eq!(
        said(P1, &[(64, 2), (4, 67), (5, 67), (67, 0)]),
        "63: not a target for each column of its source"
    );
    let limit = [&[1, 1, 0, 2, 17, 17][..], &SCAN, &[9, 2, 0, 1]].concat();
    assert_eq!(said_of(&limit), "17: a number is missing");
    assert_eq!(said(JOINS, &[(207, 9)]), "208: fewer numbers than there should be");
    assert_eq!(said(JOINS, &[(207, 3)]), "211: no aggregate's code");
    assert_eq!(said(INSERT, &[(24, 5)]), "25: fewer numbers than there should be");
    // 8: names, and texts.
    assert_eq!(said(P1, &[(41, 0)]), "40: a name outside its text, empty or too long");
    assert_eq!(said(P1, &[(40, 0), (41, 0)]), "40: a name is missing");
    assert_eq!(said(P1, &[(40, u32::MAX)]), "40: a name outside its text, empty or too long");
    assert_eq!(said(P1, &[(40, NAME + 1)]), "38: a table that the catalog does not have");
    assert_eq!(said(P1, &[(53, 1)]), "53: a name outside its text, empty or too long");
    assert_eq!(said(JOINS, &[(175, 0)]), "174: a name outside its text, empty or too long");
    assert_eq!(said(INSERT, &[(12, 60)]), "11: a place outside its text");
    assert_eq!(said(INSERT, &[(11, STATEMENT + 1_000)]), "11: a place outside its text");
    assert_eq!(said(INSERT, &[(12, 0)]), "taken");
    // 9: what is 0 or 1, and codes.
    assert_eq!(said(P1, &[(62, 2)]), "62: neither 0 nor 1");
    assert_eq!(said(JOINS, &[(160, 2)]), "160: neither 0 nor 1");
    assert_eq!(said(DROP, &[(8, 2)]), "8: neither 0 nor 1");
    (13..16).for_each(|place| assert_eq!(said(CREATE, &[(place, 2)]), format!("{place}: neither 0 nor 1")));
    assert_eq!(said(P1, &[(10, 2), (11, 2)]), "11: neither 0 nor 1");
    assert_eq!(said(JOINS, &[(210, 0)]), "210: no aggregate's code");
    assert_eq!(said(JOINS, &[(210, 6)]), "210: no aggregate's code");
    assert_eq!(said(CREATE, &[(12, 0)]), "12: no type");
    assert_eq!(said(CREATE, &[(12, 5)]), "12: no type");
    assert_eq!(said(DELETE, &[(12, 0)]), "taken");
    assert_eq!(said(DELETE, &[(13, 0x3ff0_0000)]), "12: no NaN");
    assert_eq!(said(DELETE, &[(12, 0), (13, 0x7ff0_0000)]), "12: no NaN");
    // 10: defaults.
    assert_eq!(said(CREATE, &[(18, 6)]), "19: behind a kind that is no constant's");
    assert_eq!(said(CREATE, &[(18, 0)]), "19: not 0");
    assert_eq!(said(CREATE, &[(21, 1)]), "21: not 0");
}

#[test]
fn numbers_point_to_what_is_there() {
    // 11: operands.
    assert_eq!(said(P1, &[(16, 2)]), "16: an operand that does not stand before its user");
    assert_eq!(said(P1, &[(16, u32::MAX)]), "16: an operand that does not stand before its user");
    assert_eq!(said(P1, &[(15, 1), (16, 0)]), "15: a left operand that does not stand before the right one");
    assert_eq!(said(P1, &[(16, 0)]), "15: a left operand that does not stand before the right one");
    assert_eq!(said(UPDATE, &[(11, 1)]), "11: an operand that does not stand before its user");
    // 12: cells of nodes and sets; each cell is reached.
    assert_eq!(said(P1, &[(48, 8)]), "48: no cell's number");
    assert_eq!(said(P1, &[(61, 8)]), "61: no cell's number");
    assert_eq!(said(P1, &[(55, 8)]), "55: no cell's number");
    assert_eq!(said(JOINS, &[(161, 35)]), "161: no cell's number");
    assert_eq!(said(JOINS, &[(208, 34)]), "208: no cell's number");
    assert_eq!(said(JOINS, &[(211, 34)]), "211: no cell's number");
    assert_eq!(said(INSERT, &[(25, 4)]), "25: no cell's number");
    assert_eq!(said(UPDATE, &[(34, 7)]), "34: no cell's number");
    assert_eq!(said(UPDATE, &[(42, 6)]), "42: no cell's number");
    assert_eq!(said(P1, &[(48, 3)]), "22: a cell that nothing has");
    assert_eq!(said(P1, &[(61, 6)]), "34: a cell that nothing has");
    assert_eq!(said(UPDATE, &[(34, 0)]), "10: a cell that nothing has");
    assert_eq!(said(UPDATE, &[(44, 4)]), "26: a cell that nothing has");
    assert_eq!(said(INSERT, &[(28, 2)]), "18: a cell that nothing has");
    // 13: sources.
    assert_eq!(said(P1, &[(47, 1)]), "47: a source that does not stand before its user");
    assert_eq!(said(P1, &[(51, 0)]), "49: a source that another node has too");
    assert_eq!(said(JOINS, &[(158, 1)]), "158: a left source that does not stand before the right one");
    assert_eq!(
        said(JOINS, &[(158, 1), (159, 0)]),
        "158: a left source that does not stand before the right one"
    );
    let two = [&[1, 1, 0, 2, 20, 20][..], &SCAN, &SCAN].concat();
    assert_eq!(said_of(&two), "3: a node that is no source");
    // 14: targets.
    assert_eq!(said(P1, &[(66, 2)]), "63: targets that leave one out");
    assert_eq!(said(P1, &[(67, 1)]), "63: targets that leave one out");
    assert_eq!(said(P1, &[(66, 2), (67, 1)]), "taken");
    assert_eq!(said(P1, &[(66, 0)]), "taken");
    assert_eq!(said(JOINS, &[(191, u32::MAX)]), "188: targets that leave one out");
}

#[test]
fn columns_are_there() {
    // 15: over a table, a projection, both sides of a join, an aggregate; in values; a set, a map, a key.
    let absent = "a cell with a column that is not there";
    assert_eq!(said(P1, &[(7, 3)]), format!("45: {absent}"));
    assert_eq!(said(P1, &[(7, u32::MAX)]), format!("45: {absent}"));
    assert_eq!(said(P1, &[(35, 2)]), format!("58: {absent}"));
    assert_eq!(said(JOINS, &[(11, 4)]), "taken");
    assert_eq!(said(JOINS, &[(11, 5)]), format!("156: {absent}"));
    assert_eq!(said(JOINS, &[(63, 9)]), format!("204: {absent}"));
    assert_eq!(said(JOINS, &[(79, 4)]), format!("214: {absent}"));
    assert_eq!(said(INSERT, &[(6, 6), (7, 0), (8, 0)]), format!("22: {absent}"));
    assert_eq!(said(UPDATE, &[(7, 2)]), format!("30: {absent}"));
    assert_eq!(said(UPDATE, &[(19, 2)]), format!("37: {absent}"));
    assert_eq!(said(DELETE, &[(23, 2)]), "21: no column of the table");
    assert_eq!(said(UPDATE, &[(39, 2)]), "37: no column of the table");
    assert_eq!(said(UPDATE, &[(43, 2)]), "37: no column of the table");
    assert_eq!(said(INSERT, &[(32, 3)]), "29: no column of the table");
    assert_eq!(said(INSERT, &[(29, STATEMENT)]), "29: a table that the catalog does not have");
    assert_eq!(said(CREATE, &[(8, 4)]), "8: a key that is no column");
}

#[test]
fn a_plan_keeps_more_than_the_form() {
    assert_eq!(said(P1, &[(42, 1)]), "38: a filtered scan in a select");
    assert_eq!(said(DELETE, &[(19, STATEMENT + 7), (20, 1)]), "14: a node that this statement does not have");
    // The same name at another place: the first byte of `table`.
    assert_eq!(said(DELETE, &[(16, 0)]), "21: not over the one node of its table");
    assert_eq!(said(UPDATE, &[(32, 0)]), "37: not over the one node of its table");
    let scanned = [&[1, 5, 0, 1, 13, 16][..], &SCAN, &[NAME, 4, 0]].concat();
    assert_eq!(said_of(&scanned), "6: a node that this statement does not have");
    let given = [1, 4, 0, 1, 9, 12, 2, 1, 0, NAME, 4, 0];
    assert_eq!(said_of(&given), "6: a node that this statement does not have");
    let two = [&[1, 4, 0, 2, 20, 23][..], &SCAN, &SCAN, &[NAME, 4, 0]].concat();
    assert_eq!(said_of(&two), "20: not over the one node of its table");
    assert_eq!(said(INSERT, &[(33, 1)]), "29: a value out of its order");
    assert_eq!(said(INSERT, &[(33, 1), (35, 0)]), "29: a value out of its order");
    assert_eq!(said(INSERT, &[(34, 2)]), "29: a column twice");
    assert_eq!(said(UPDATE, &[(43, 0)]), "37: a column twice");
    assert_eq!(said(JOINS, &[(250, 1 << 31)]), "249: more rows than an integer counts");
    assert_eq!(said(P1, &[(53, STATEMENT), (54, 64)]), "taken");
    assert_eq!(said(P1, &[(53, STATEMENT), (54, 65)]), "53: a name outside its text, empty or too long");
}

/// Larger than a statement within the limits makes it.
#[test]
fn a_plan_is_no_larger_than_the_limits_allow() {
    let filters = |nodes: u32| {
        let mut area = vec![1, 1, 1, nodes, 0, 0, 2, 1, 0, 0];
        area.extend(SCAN);
        (1..nodes).for_each(|node| area.extend([4, 2, node - 1, 0]));
        (area[4], area[5]) = (area.len() as u32, area.len() as u32);
        area
    };
    assert_eq!(said_of(&filters(54)), "taken");
    assert_eq!(said_of(&filters(55)), "3: more nodes than a statement can have");
    let negated = |cells: u32| {
        let mut area = vec![1, 1, cells, 2, 0, 0, 3, 1, 0, 0];
        (1..cells).for_each(|cell| area.extend([11, cell - 1, 0, 0]));
        area.extend(SCAN);
        area.extend([4, 2, 0, cells - 1]);
        (area[4], area[5]) = (area.len() as u32, area.len() as u32);
        area
    };
    assert_eq!(said_of(&negated(63)), "taken");
    assert_eq!(said_of(&negated(64)), "258: deeper than an expression can be");
    let ordered = |cells: u32| {
        let mut area = vec![1, 1, cells, 2, 0, 0];
        (0..cells).for_each(|_| area.extend([1, 0, 0, 0]));
        area.extend(SCAN);
        area.extend([7, 1 + 2 * cells, 0]);
        (0..cells).for_each(|cell| area.extend([cell, 0]));
        (area[4], area[5]) = (area.len() as u32, area.len() as u32);
        area
    };
    assert_eq!(said_of(&ordered(2_304)), "taken");
    let keys = |keys: u32| {
        let mut area = vec![1, 1, 1, 2, 0, 0, 2, 1, 0, 0];
        area.extend(SCAN);
        area.extend([7, 1 + 2 * keys, 0]);
        (0..keys).for_each(|_| area.extend([0, 0]));
        (area[4], area[5]) = (area.len() as u32, area.len() as u32);
        area
    };
    assert_eq!(said_of(&keys(8_182)), "taken");
    assert_eq!(said_of(&keys(8_183)), "5: more numbers than a plan can have");
    assert_eq!(said_of(&ordered(2_305)), "2: more cells than a statement can have");
}
