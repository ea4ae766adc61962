//! The linked library through this crate: plans as views, refusals, and plans at the limits.

#![cfg(all(target_arch = "x86_64", target_os = "linux"))]

mod worked;

use std::error::Error;

use planner::{
    Cell, Constant, FloatBits, Function, Kind, LEAST_AREA, Node, Plan, Reason, Refusal, Statement, Text,
    library, plan,
};
use worked::{HEAP, TU, WORKED, bytes};

#[test]
fn worked_plans_are_made() {
    let mut area = vec![7; LEAST_AREA + 100];
    for worked in &WORKED {
        let (catalog, statement) = (bytes(worked.catalog), bytes(worked.statement));
        let plan = plan(&catalog, &statement, &mut area).expect(worked.statement);
        assert_eq!(plan.numbers(), worked.numbers);
        assert_eq!(plan.listing(), bytes(worked.printed));
        assert_eq!(plan.to_string().as_bytes(), bytes(worked.printed));
        let saved = plan.numbers().to_vec();
        let again = Plan::check(&catalog, &statement, &saved).expect("a plan keeps its promises");
        assert_eq!(again.tree().to_string(), plan.tree().to_string());
    }
}

#[test]
fn the_library_is_named() {
    let library = library().expect("a library is linked");
    let file = std::fs::read(env!("PLANNER_LIBRARY_FILE")).expect("it is there");
    assert!(library.to_string().contains(library.sha256));
    assert_eq!(library.sha256.len(), 64);
    assert!(file.starts_with(b"!<arch>"));
    if library.shipped {
        let sums = concat!(env!("CARGO_MANIFEST_DIR"), "/../../dist/SHA256SUMS");
        let sums = std::fs::read_to_string(sums).expect("dist/ has it");
        assert_eq!(sums, format!("{}  libplanner.a\n", library.sha256));
        assert!(library.toolchain.starts_with("rattle-kit"), "{}", library.toolchain);
    }
}

#[test]
fn a_plan_is_read_by_its_types() {
    let worked = &WORKED[WORKED.len() - 1];
    let (catalog, statement) = (bytes(worked.catalog), bytes(worked.statement));
    let mut area = vec![0; LEAST_AREA];
    let plan = plan(&catalog, &statement, &mut area).expect("planned");
    assert_eq!((plan.kind(), plan.cell_count(), plan.node_count()), (Kind::Select, 34, 16));
    assert_eq!((plan.cells().len(), plan.nodes().count()), (34, 16));
    let Statement::Select { source } = plan.statement() else { panic!("no select") };
    assert_eq!(source.get(), 15);
    let Node::Remap { source, targets } = plan.node(source) else { panic!("no remap") };
    assert_eq!(targets.len(), 6);
    assert!(targets.get(5) == Some(None) && targets.get(6).is_none());
    assert_eq!(targets.iter().flatten().map(|target| target.get()).collect::<Vec<_>>(), [0, 1, 2, 3, 4]);
    let Node::Limit { source, rows: 10 } = plan.node(source) else { panic!("no limit") };
    let Node::Offset { rows: 5, .. } = plan.node(source) else { panic!("no offset") };
    let aggregate = plan.nodes().find_map(|(_, node)| match node {
        Node::Aggregate { groups, aggregates, .. } => Some((groups.len(), aggregates)),
        _ => None,
    });
    let (groups, aggregates) = aggregate.expect("an aggregate");
    assert_eq!(groups, 2);
    assert_eq!(
        aggregates.iter().map(|of| (of.function, of.argument.get())).collect::<Vec<_>>(),
        [(Function::Count, 16), (Function::Max, 17)]
    );
    let aliases: Vec<_> = plan
        .nodes()
        .filter_map(|(_, node)| match node {
            Node::Scan { table, alias, filter: None } => Some((table, alias)),
            _ => None,
        })
        .collect();
    assert_eq!(
        aliases,
        [(&b"heap"[..], None), (b"probe", None), (b"turn", None), (b"driver", Some(&b"d"[..]))]
    );
    let columns: Vec<_> = plan.table_columns(b"probe").expect("a table").collect();
    assert_eq!(columns, [&b"heap"[..], b"depth", b"temp"]);
    assert!(plan.table_columns(b"prob").is_none());
}

#[test]
fn constants_are_not_copied() {
    let catalog = bytes(TU);
    let statement = bytes("insert u/row 5/text \u{e9}/text /float fff8000000000001/bool f/null/end/");
    let mut area = vec![0; LEAST_AREA];
    let plan = plan(&catalog, &statement, &mut area).expect("planned");
    let constants: Vec<_> = plan
        .cells()
        .map(|(_, cell)| match cell {
            Cell::Constant(constant) => constant,
            cell => panic!("{cell:?}"),
        })
        .collect();
    assert_eq!(
        constants,
        [
            Constant::Text("\u{e9}".as_bytes()),
            Constant::Text(b""),
            Constant::Float(FloatBits(0xfff8_0000_0000_0001)),
            Constant::Bool(false),
            Constant::Null,
        ]
    );
    let Constant::Text(text) = constants[0] else { panic!("no text") };
    assert!(statement.as_ptr_range().contains(&text.as_ptr()));
}

fn refused(catalog: &[u8], statement: &[u8]) -> Refusal {
    plan(catalog, statement, &mut vec![0; LEAST_AREA]).expect_err("refused")
}

#[test]
fn refusals_point_at_their_records() {
    let (catalog, statement) = (bytes(HEAP), bytes("select/item/col p3/from heap/end/"));
    let refusal = refused(&catalog, &statement);
    assert_eq!(refusal, Refusal { reason: Reason::UnknownColumn, text: Text::Statement, line: 3 });
    assert_eq!(refusal.record(&catalog, &statement), Some(&b"col\tp3"[..]));
    assert_eq!(refusal.listing().to_string(), "refused\t8\tstatement\t3");
    let error: &dyn Error = &refusal;
    assert_eq!(error.to_string(), "refused (8), statement line 3: there is no such column");
    // In the catalog.
    let refusal = refused(b"table\theap\t0\n", &statement);
    assert_eq!((refusal.text, refusal.line), (Text::Catalog, 1));
    assert_eq!(refusal.record(b"table\theap\t0\n", &statement), Some(&b"table\theap\t0"[..]));
    // A record that is missing, an empty one, and none.
    let refusal = refused(&catalog, b"select\n");
    assert_eq!((refusal.line, refusal.record(&catalog, b"select\n")), (2, None));
    let refusal = refused(&catalog, b"\n");
    assert_eq!((refusal.line, refusal.record(&catalog, b"\n")), (1, Some(&b""[..])));
    let long = vec![b'x'; 65_537];
    let refusal = refused(&catalog, &long);
    assert_eq!((refusal.reason, refusal.line), (Reason::LimitPassed, 0));
    assert_eq!(refusal.record(&catalog, &long), None);
    assert_eq!(refusal.to_string(), "refused (3), statement: a limit is passed");
}

#[test]
fn a_short_area_is_left_as_it_was() {
    let mut area = vec![7; LEAST_AREA - 1];
    let refusal = plan(&bytes(HEAP), &bytes(WORKED[0].statement), &mut area).expect_err("refused");
    assert_eq!(refusal, Refusal { reason: Reason::AreaTooShort, text: Text::Statement, line: 0 });
    assert!(area.iter().all(|number| *number == 7));
}

/// The names of the reasons, by their numbers from 1.
const REASONS: [&str; 29] = [
    "AreaTooShort",
    "WrongRecord",
    "LimitPassed",
    "OtherStatement",
    "UnknownTable",
    "TableNameTaken",
    "UnknownQualifier",
    "UnknownColumn",
    "AmbiguousColumn",
    "NoColumns",
    "UngroupedColumn",
    "MisplacedStar",
    "UnknownFunction",
    "AggregateArguments",
    "NestedAggregate",
    "StarWithoutFrom",
    "HavingWithoutAggregate",
    "OffsetNoCount",
    "LimitNoCount",
    "NoKey",
    "SeveralKeys",
    "UnknownInsertedColumn",
    "RepeatedInsertedColumn",
    "NoDefault",
    "Overflow",
    "DivisionByZero",
    "OperandKinds",
    "NotWorkedOut",
    "IsNeitherNullNorNan",
];

#[test]
fn reasons_have_their_numbers() {
    for (number, name) in (1..).zip(REASONS) {
        let reason = Reason::of(number).expect("a reason");
        assert_eq!((format!("{reason:?}").as_str(), u32::from(reason.number())), (name, number));
    }
    assert_eq!(Reason::ALL.len(), REASONS.len());
    assert!([0, 30, 256 + 8, u32::MAX].iter().all(|number| Reason::of(*number).is_none()));
}

/// All sixteen tables joined from the right, with every clause: as many nodes as a plan can have.
#[test]
fn the_most_nodes_are_taken() {
    let mut statement = "select/item/col t0 a/item/fn count 1/star/".to_string();
    (0..15).for_each(|_| statement += "join right bare/");
    (0..16).for_each(|table| statement += &format!("from t t{table}/"));
    statement += "where/bool t/group/col t0 a/group/col t1 a/having/op gt/fn count 1/star/int 1/\
        order asc/col t1 a/offset/int 1/limit/int 1/end/";
    let (catalog, statement) = (bytes("table t 0/column a int notnull/nodefault/"), bytes(&statement));
    let mut area = vec![0; LEAST_AREA];
    let plan = plan(&catalog, &statement, &mut area).expect("planned");
    assert_eq!(plan.node_count(), 54);
    Plan::check(&catalog, &statement, plan.numbers()).expect("a plan keeps its promises");
    assert!(
        plan.tree()
            .to_string()
            .starts_with("Remap: t0.a, #1 (dropped: t1.a)\n└─ Limit: 1\n   └─ Offset: 1\n")
    );
}

/// Comparisons nested as deep as they can be: their cells are shared, and shown whole they would not end.
#[test]
fn the_deepest_expression_is_taken_and_shown_in_part() {
    let mut statement = "select/item/".to_string();
    (0..31).for_each(|_| statement += "op ge/");
    (0..32).for_each(|_| statement += "col a/");
    statement += "from t/end/";
    let (catalog, statement) = (bytes("table t 0/column a int notnull/nodefault/"), bytes(&statement));
    let mut area = vec![0; LEAST_AREA];
    let plan = plan(&catalog, &statement, &mut area).expect("planned");
    assert_eq!(plan.cell_count(), 32 + 3 * 31);
    Plan::check(&catalog, &statement, plan.numbers()).expect("a plan keeps its promises");
    let tree = plan.tree().to_string();
    assert!(tree.contains("..") && tree.len() < 4_000_000, "{} bytes", tree.len());
}
