//! Areas whose numbers are written out in the rules' questions (crates/rules/specs/Questions).
//!
//! A slash stands for a line end and a blank for a tab.

// Each test uses some of it.
#![allow(dead_code)]

use planner::{Fault, LEAST_AREA, Plan};

pub const HEAP: &str = "table heap 0/column id int notnull/nodefault/column p1 float null/nodefault/column p2 float null/nodefault/";
pub const AB: &str = "table t 0/column a int notnull/nodefault/column b int null/nodefault/";
pub const KEYED: &str = "table t 1/column a int null/int 7/column b int notnull/nodefault/";
pub const TU: &str = "table t 0/column a int notnull/nodefault/column b int null/nodefault/\
    table u 0/column c int notnull/nodefault/column d int null/nodefault/column e int null/nodefault/";

/// The address of the statement's first byte.
pub const STATEMENT: u32 = 65_536;

/// A catalog, a statement, the numbers of their plan in front of its zeros, and what is printed of it.
pub struct Worked {
    pub catalog: &'static str,
    pub statement: &'static str,
    pub numbers: &'static [u32],
    pub printed: &'static str,
}

pub const WORKED: [Worked; 9] = [
    Worked {
        catalog: HEAP,
        statement: "select/item/col p1/from heap/where/op ge/col p2/int 55/order asc/col id/end/",
        numbers: &[
            1, 1, 8, 5, 68, 68, 6, 2, 0, 0, 3, 55, 0, 0, 19, 0, 1, 0, 18, 0, 1, 0, 17, 2, 3, 0, 6, 1, 0, 0,
            6, 0, 0, 0, 6, 1, 0, 0, 1, 5, 65560, 4, 0, 0, 0, 4, 2, 0, 4, 6, 7, 1, 5, 0, 0, 6, 0, 0, 7, 3, 2,
            7, 0, 10, 3, 3, 1, 0,
        ],
        printed: "plan select 5 8/cell 0 col 2/cell 1 int 55/cell 2 gt 0 1/cell 3 eq 0 1/cell 4 or 2 3/\
            cell 5 col 1/cell 6 col 0/cell 7 col 1/node 0 scan heap/node 1 filter 0 4/node 2 project 1 5 6/\
            node 3 order 2 7 asc/node 4 remap 3 0 -/",
    },
    Worked {
        catalog: TU,
        statement: "insert u/columns/name e/name c/row 2/int -1/text ab/row 1/op neg/float 3ff0000000000000/end/",
        numbers: &[
            1, 5, 4, 1, 29, 36, 3, 4294967295, 4294967295, 0, 5, 65585, 2, 0, 4, 0, 1072693248, 0, 11, 2, 0,
            0, 2, 5, 2, 0, 1, 1, 3, 65543, 1, 3, 2, 0, 0, 1,
        ],
        printed: "plan insert 1 4/cell 0 int -1/cell 1 text ab/cell 2 float 3ff0000000000000/cell 3 neg 2/\
            node 0 values row 2 0 1 row 1 3/insert u 0/columns 2/map 2 0/map 0 1/",
    },
    Worked {
        catalog: AB,
        statement: "insert t/columns/row 1/int 1/end/",
        numbers: &[1, 5, 1, 1, 14, 17, 3, 1, 0, 0, 2, 2, 1, 0, 65543, 1, 1],
        printed: "plan insert 1 1/cell 0 int 1/node 0 values row 1 0/insert t 0/columns 0/",
    },
    Worked {
        catalog: AB,
        statement: "insert t/row 1/int 1/end/",
        numbers: &[1, 5, 1, 1, 14, 17, 3, 1, 0, 0, 2, 2, 1, 0, 65543, 1, 0],
        printed: "plan insert 1 1/cell 0 int 1/node 0 values row 1 0/insert t 0/",
    },
    Worked {
        catalog: KEYED,
        statement: "update t/set a default/set b/op add/col b/int 1/where/op is/col a/null/end/",
        numbers: &[
            1, 6, 6, 1, 37, 45, 6, 0, 0, 0, 14, 0, 0, 0, 3, 7, 0, 0, 6, 1, 0, 0, 3, 1, 0, 0, 21, 3, 4, 0, 1,
            5, 65543, 1, 2, 0, 0, 65543, 1, 1, 2, 0, 2, 1, 5,
        ],
        printed: "plan update 1 6/cell 0 col 0/cell 1 is 0 null/cell 2 int 7/cell 3 col 1/cell 4 int 1/\
            cell 5 add 3 4/node 0 scan t 1/update t 1 0/set 0 2/set 1 5/",
    },
    Worked {
        catalog: KEYED,
        statement: "delete t/where/op is/col b/float 7ff8000000000001/end/",
        numbers: &[
            1, 4, 2, 1, 21, 24, 6, 1, 0, 0, 15, 0, 1, 2146959360, 1, 5, 65543, 1, 2, 0, 0, 65543, 1, 1,
        ],
        printed: "plan delete 1 2/cell 0 col 1/cell 1 is 0 float 7ff8000000000001/node 0 scan t 1/delete t 1 0/",
    },
    Worked {
        catalog: "",
        statement: "create v/column s text - - - - default/text ab/column k int pk - - - -/\
            column b bool - notnull unique - default/op not/bool t/column r float - - - - - heap/end/",
        numbers: &[
            1, 2, 0, 0, 6, 58, 65543, 1, 1, 4, 65552, 1, 4, 1, 0, 0, 0, 0, 5, 65580, 2, 0, 65590, 1, 2, 0, 1,
            0, 0, 0, 0, 0, 0, 0, 65614, 1, 1, 0, 1, 1, 0, 0, 2, 0, 0, 0, 65669, 1, 3, 1, 0, 1, 65687, 4, 1,
            0, 0, 0,
        ],
        printed: "plan create 0 0/create v 1/column s text null - -/text ab/column k int notnull unique -/nodefault/\
            column b bool notnull unique index/bool f/column r float null - index heap/null/",
    },
    Worked {
        catalog: "",
        statement: "drop heap yes/end/",
        numbers: &[1, 3, 0, 0, 6, 9, 65541, 4, 1],
        printed: "plan drop 0 0/drop heap yes/",
    },
    Worked {
        catalog: "table turn 0/column heap int notnull/nodefault/column driver int null/nodefault/\
            table driver 0/column id int notnull/nodefault/column name text null/nodefault/\
            table heap 0/column id int notnull/nodefault/column site int null/nodefault/\
            table probe 0/column heap int notnull/nodefault/column depth int null/nodefault/\
            column temp float null/nodefault/",
        statement: "select/item place/col heap site/item/fn count 1/star/item most/fn max 1/col temp/\
            item/op sub/int 70/fn max 1/col temp/item/op div/col depth/int 10/\
            join right on/join left on/from turn/from driver d/op eq/col driver/col d id/\
            join left on/from heap/from probe/op eq/col heap id/col probe heap/op eq/col turn heap/col heap id/\
            where/op ge/col temp/int 55/group/col heap site/group/col depth/having/op ne/fn count 1/star/int 1/\
            order desc/col most/order asc/col depth/offset/op add/int 2/int 3/limit/int 10/end/",
        numbers: &[
            1, 1, 34, 16, 265, 265, // join predicates
            6, 0, 0, 0, 6, 2, 0, 0, 18, 0, 1, 0, 6, 1, 0, 0, 6, 2, 0, 0, 18, 3, 4, 0, 6, 5, 0, 0, 6, 0, 0, 0,
            18, 6, 7, 0, // WHERE
            6, 8, 0, 0, 3, 55, 0, 0, 19, 9, 10, 0, 18, 9, 10, 0, 17, 11, 12, 0,
            // groups, then aggregate arguments
            6, 5, 0, 0, 6, 7, 0, 0, 2, 1, 0, 0, 6, 8, 0, 0, // items
            6, 0, 0, 0, 6, 2, 0, 0, 6, 3, 0, 0, 3, 70, 0, 0, 6, 3, 0, 0, 26, 21, 22, 0, 6, 1, 0, 0, 3, 10, 0,
            0, 22, 24, 25, 0, // the hidden column
            6, 1, 0, 0, // HAVING
            6, 1, 0, 0, 3, 1, 0, 0, 18, 28, 29, 0, 8, 30, 0, 0, // ORDER
            6, 2, 0, 0, 6, 5, 0, 0, // scans of heap and probe, and their join
            1, 5, 65778, 4, 0, 0, 0, 1, 5, 65788, 5, 0, 0, 0, 3, 4, 0, 1, 1, 3,
            // scans of turn and of driver as d, and their join
            1, 5, 65715, 4, 0, 0, 0, 1, 5, 65725, 6, 0, 65732, 1, 3, 4, 3, 4, 1, 6,
            // the join of both, and the columns swapped back
            3, 4, 2, 5, 1, 9, 10, 10, 6, 5, 6, 7, 8, 9, 1, 2, 3, 4, // WHERE, and the aggregate
            4, 2, 7, 13, 5, 8, 8, 2, 14, 15, 2, 16, 3, 17,
            // the projection: five items, two of them with an alias, and the hidden column
            6, 19, 9, 18, 65548, 5, 19, 0, 0, 20, 65594, 4, 23, 0, 0, 26, 0, 0, 27, 0, 0,
            // HAVING, ORDER, OFFSET, LIMIT
            4, 2, 10, 31, 7, 5, 11, 32, 1, 33, 0, 8, 3, 12, 5, 0, 9, 3, 13, 10, 0,
            // the hidden column dropped
            10, 7, 14, 1, 2, 3, 4, 5, 0,
        ],
        printed: "plan select 16 34/cell 0 col 0/cell 1 col 2/cell 2 eq 0 1/cell 3 col 1/cell 4 col 2/cell 5 eq 3 4/\
            cell 6 col 5/cell 7 col 0/cell 8 eq 6 7/cell 9 col 8/cell 10 int 55/cell 11 gt 9 10/cell 12 eq 9 10/\
            cell 13 or 11 12/cell 14 col 5/cell 15 col 7/cell 16 bool t/cell 17 col 8/cell 18 col 0/cell 19 col 2/\
            cell 20 col 3/cell 21 int 70/cell 22 col 3/cell 23 sub 21 22/cell 24 col 1/cell 25 int 10/\
            cell 26 div 24 25/cell 27 col 1/cell 28 col 1/cell 29 int 1/cell 30 eq 28 29/cell 31 not 30/\
            cell 32 col 2/cell 33 col 5/node 0 scan heap/node 1 scan probe/node 2 join 0 1 outer 2/node 3 scan turn/\
            node 4 scan driver as d/node 5 join 3 4 outer 5/node 6 join 2 5 outer 8/\
            node 7 remap 6 4 5 6 7 8 0 1 2 3/node 8 filter 7 13/node 9 aggregate 8 14 15 count 16 max 17/\
            node 10 project 9 18 as place 19 20 as most 23 26 27/node 11 filter 10 31/node 12 order 11 32 desc 33 asc/\
            node 13 offset 12 5/node 14 limit 13 10/node 15 remap 14 0 1 2 3 4 -/",
    },
];

impl Worked {
    /// The numbers with zeros behind them.
    pub fn area(&self) -> Vec<u32> {
        let mut area = self.numbers.to_vec();
        area.resize(LEAST_AREA, 0);
        area
    }

    /// The listing of an area that is first checked.
    pub fn listing(&self, area: &[u32]) -> Result<Vec<u8>, Fault> {
        Ok(Plan::check(&bytes(self.catalog), &bytes(self.statement), area)?.listing())
    }
}

pub fn bytes(text: &str) -> Vec<u8> {
    text.replace(' ', "\t").replace('/', "\n").into_bytes()
}
