//! The text of each kind of node, and of the trees of document 01's sheets.
use std::collections::HashSet;
use wenduulig::{to_sql, Date, Num, Op, QString, Refusal, Settings, Timestamp, E, G};

fn sheets() -> Settings {
    Settings::new(7, "NC", "NA", "NCA")
}

fn text(e: &E) -> String {
    to_sql(&sheets(), e).unwrap_or_else(|r| panic!("{e:?}: {r}"))
}

fn num(mantissa: i64, scale: u8) -> E {
    E::Num(Num { mantissa, scale })
}

#[test]
fn leaves() {
    assert_eq!(E::Null.encode(), [2, 0, 0, 0, 0, 0]); // sheet A
    assert_eq!(text(&E::Null), "NULL");
    assert_eq!(text(&E::Unbounded), "'-2021-01-01'");
    assert_eq!(text(&E::Bool(true)), "TRUE");
    assert_eq!(text(&E::Bool(false)), "FALSE");
    assert_eq!(text(&E::date(2024, 2, 29)), "'2024-02-29'");
    let noon = Timestamp { date: Date { year: 7, month: 1, day: 2 }, hour: 12, minute: 3, second: 59 };
    assert_eq!(text(&E::Timestamp(noon)), "'0007-01-02T12:03:59'");
    assert_eq!(E::timestamp(7, 1, 2, 12, 3, 59), E::Timestamp(noon));
    let point = E::spatial(4326, "POINT (1 2)");
    assert_eq!(point, E::Spatial(G { srid: 4326, wkt: "POINT (1 2)".into() }));
    assert_eq!(text(&point), "ST_GeomFromText('POINT (1 2)', 4326)");
    assert_eq!(text(&E::id("a")), "a");
}

#[test]
fn numbers() {
    assert_eq!(text(&num(-5, 1)), "-0.5"); // sheet B
    assert_eq!(text(&num(1500, 2)), "15"); // sheet C
    assert_eq!(text(&num(0, 9)), "0");
    assert_eq!(text(&num(999_999_999_999_999, 0)), "999999999999999");
    assert_eq!(text(&num(-999_999_999_999_999, 9)), "-999999.999999999");
    assert_eq!(to_sql(&sheets(), &num(1_000_000_000_000_000, 0)), Err(Refusal::BadField));
    assert_eq!(to_sql(&sheets(), &num(i64::MIN, 0)), Err(Refusal::BadField));
    assert_eq!(text(&E::int(-7)), "-7");
    assert_eq!(text(&E::int(-999_999_999_999_999)), "-999999999999999");
    assert_eq!(to_sql(&sheets(), &E::int(1_000_000_000_000_000)), Err(Refusal::BadField));
    assert_eq!((Num::from(-7_i64), Num::from(i64::MIN).mantissa), (Num::from(-7_i32), i64::MIN));
}

#[test]
fn numbers_from_floats() {
    for x in [0.0, -0.5, 15.0, 1e14, 0.1, 123_456.789, -3.25e-7, 1e-9, 999_999_999_999_999.0] {
        let n = Num::try_from(x).expect("a record holds it");
        assert_eq!(text(&E::Num(n)), x.to_string());
    }
    assert_eq!(Num::try_from(-0.0), Ok(Num { mantissa: 0, scale: 0 }));
    for x in [f64::NAN, f64::INFINITY, 1e15, 1e300, 0.1 + 0.2, 1e-10] {
        assert_eq!(Num::try_from(x), Err(Refusal::BadField), "{x}");
    }
}

#[test]
fn strings_by_their_flags() {
    let x = QString::plain("x y");
    assert_eq!(text(&E::Str(x.clone())), "'x y'");
    assert_eq!(text(&E::Str(x.and_icase())), "'x y' COLLATE NC");
    assert_eq!(text(&E::Str(x.and_iaccent())), "'x y' COLLATE NA");
    assert_eq!(text(&E::Str(x.and_iaccent().and_icase())), "'x y' COLLATE NCA");
    assert_eq!((x.and_icase().flags(), x.as_str()), (1, "x y"));
    assert_eq!(text(&E::str("")), "''");
}

#[test]
fn operators_of_one() {
    assert_eq!(text(&E::monadic(Op::Minus, E::id("a"))), "- a");
    assert_eq!(text(&E::monadic(Op::Neg, E::Null)), "NOT (NULL)");
    assert_eq!(text(&E::monadic(Op::IsNull, E::id("a"))), "a IS NULL");
    assert_eq!(text(&E::monadic(Op::IsNotNull, E::id("a"))), "a IS NOT NULL");
    assert_eq!(text(&E::monadic(Op::CaseI, E::id("a"))), "a COLLATE NC");
    assert_eq!(text(&E::monadic(Op::AccentI, E::id("a"))), "a COLLATE NA");
    assert_eq!(text(&E::monadic(Op::CaseI, E::monadic(Op::AccentI, E::id("a")))), "a COLLATE NCA");
    // sheet H
}

#[test]
fn operators_of_two() {
    let a = || E::id("a");
    assert_eq!(text(&E::dyadic(Op::Eq, a(), E::Null)), "a = (NULL)"); // sheet D
    assert_eq!(text(&E::dyadic(Op::IsLike, a(), E::str("x"))), "a LIKE ('x')"); // sheet G
    let bounds = E::Array(vec![E::int(0), E::int(1)]);
    assert_eq!(text(&E::dyadic(Op::IsBetween, a(), bounds)), "a BETWEEN 0 AND 1");
    let point = E::spatial(4326, "POINT (1 2)");
    assert_eq!(
        text(&E::dyadic(Op::SWithin, E::id("g"), point)), // sheet L
        "ST_Within(ST_ReducePrecision(g, 1E-7), ST_GeomFromText('POINT (1 2)', 4326))"
    );
    assert_eq!(text(&E::dyadic(Op::SWithin, E::id("g"), E::id("h"))), "ST_Within(g, h)");
    // sheet M
}

#[test]
fn lists_and_functions() {
    let a = || E::id("a");
    assert_eq!(text(&E::dyadic(Op::IsInList, a(), E::Array(vec![E::int(1), E::int(2)]))), "a IN (1, 2)"); // sheet E
    assert_eq!(text(&E::dyadic(Op::IsInList, a(), E::Array(vec![E::id("b"), E::int(2)]))), "a IN ((b, 2))"); // sheet F
    assert_eq!(text(&E::Array(vec![])), "()");
    assert_eq!(text(&E::function("f", vec![a(), E::int(2)])), "f(a, 2)");
    assert_eq!(text(&E::function("f", vec![])), "f()");
}

#[test]
fn intervals() {
    let [a, b, c, d] = ["a", "b", "c", "d"].map(E::id);
    assert_eq!(
        text(&E::dyadic(Op::TAfter, E::interval(a, b), E::interval(c, d))), // sheet I
        r#""b" IS NOT NULL AND "c" NOT NULL AND (a > d)"#
    );
    assert_eq!(
        text(&E::dyadic(Op::TIntersects, E::date(2024, 2, 29), E::interval(E::Unbounded, E::id("c")))), // sheet K
        "NOT(('2024-02-29' < '-2021-01-01') OR ('2024-02-29' > c))"
    );
}

#[test]
fn default_settings_are_the_sources() {
    let x = E::Str(QString::plain("x").and_icase().and_iaccent());
    assert_eq!(to_sql(&Settings::default(), &x).as_deref(), Ok("'x' COLLATE CQL2_CI_AI"));
}

#[test]
fn operator_numbers() {
    assert_eq!(Op::ALL.len(), 53);
    for (k, op) in Op::ALL.into_iter().enumerate() {
        assert_eq!(usize::from(op.number()), k);
        let one = to_sql(&sheets(), &E::monadic(op, E::id("a")));
        assert_eq!(one == Err(Refusal::BadKindOrOperator), !op.is_monadic(), "{op:?}");
        let two = to_sql(&sheets(), &E::dyadic(op, E::id("a"), E::id("b")));
        assert_eq!(two == Err(Refusal::BadKindOrOperator), !op.is_dyadic(), "{op:?}");
        let needs_intervals = op.temporal() && !op.instant_or_interval();
        let between = matches!(op, Op::IsBetween | Op::IsNotBetween);
        assert_eq!(two == Err(Refusal::BadOperand), needs_intervals || between, "{op:?}");
    }
}

/// A variant's name as the header writes it: TFinishedBy is T_FINISHED_BY.
fn in_c(name: &str) -> String {
    let mut shown = String::from("WENDUULIG");
    for c in name.chars() {
        if c.is_ascii_uppercase() {
            shown.push('_');
        }
        shown.push(c.to_ascii_uppercase());
    }
    shown
}

/// Fails if the header does not give the name this number.
fn expect_in_header(name: &str, number: u16) {
    let header = include_str!("../../../include/wenduulig.h");
    let line = format!("{} = {number}", in_c(name));
    assert!(header.lines().any(|given| given.trim().trim_end_matches(',') == line), "the header has no line {line}");
}

/// One tree of each kind, in the order of the kinds.
fn kinds() -> [E; 14] {
    [
        E::Null,
        E::Unbounded,
        E::Bool(true),
        E::int(1),
        E::str(""),
        E::date(2024, 1, 2),
        E::timestamp(2024, 1, 2, 12, 0, 0),
        E::spatial(0, "a"),
        E::id("a"),
        E::monadic(Op::Neg, E::Null),
        E::dyadic(Op::And, E::Null, E::Null),
        E::function("f", vec![]),
        E::Array(vec![]),
        E::interval(E::Null, E::Null),
    ]
}

/// The enums of include/wenduulig.h have the numbers of this crate, and records made here hold them.
#[test]
fn header_numbers() {
    Op::ALL.into_iter().for_each(|op| expect_in_header(&format!("{op:?}"), op.number()));
    Refusal::ALL.into_iter().for_each(|r| expect_in_header(&format!("{r:?}"), u16::from(r.number())));
    for (k, e) in kinds().iter().enumerate() {
        let (shown, bytes) = (format!("{e:?}"), e.encode());
        let number = u16::from_le_bytes([bytes[4], bytes[5]]);
        assert_eq!(usize::from(number), k);
        expect_in_header(shown.split('(').next().unwrap_or(&shown), number);
    }
    expect_in_header("Settings", 100);
    expect_in_header("Column", 200);
}

#[test]
fn trees_as_keys() {
    let twice = [E::function("f", vec![E::int(1)]), E::function("f", vec![E::int(1)]), E::Null];
    assert_eq!(twice.into_iter().collect::<HashSet<E>>().len(), 2);
}
