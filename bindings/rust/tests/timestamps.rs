//! The two calls that write, on trees without open ends: their texts differ in timestamps alone, and they refuse alike but for
//! 8 and 9, by which each counts the text that it writes.
use wenduulig::{
    read, to_geopackage_sql, to_geopackage_sql_bytes, to_geopackage_sql_into, to_sql, to_sql_bytes, to_sql_into, Op,
    Refusal, Row, Settings, E, TEXT_MAX,
};

fn noon() -> E {
    E::timestamp(2024, 2, 29, 12, 0, 0)
}

fn first(e: &E) -> Result<String, Refusal> {
    to_sql(&Settings::new(7, "NC", "NA", "NCA"), e)
}

fn second(e: &E) -> Result<String, Refusal> {
    to_geopackage_sql(&Settings::new(7, "NC", "NA", "NCA"), e)
}

fn a() -> E {
    E::id("a")
}

/// A timestamp in every place of a tree; each `%` is one as it is written.
fn places() -> Vec<(E, &'static str)> {
    let list = || E::Array(vec![noon(), noon()]);
    vec![
        (noon(), "%"),
        (E::dyadic(Op::Eq, a(), noon()), "a = %"),
        (E::dyadic(Op::IsInList, a(), list()), "a IN (%, %)"),
        (E::dyadic(Op::IsBetween, noon(), list()), "% BETWEEN % AND %"),
        (E::dyadic(Op::IsLike, noon(), noon()), "% LIKE (%)"),
        (E::monadic(Op::CaseI, noon()), "% COLLATE NC"),
        (E::monadic(Op::IsNull, noon()), "% IS NULL"),
        (E::function("f", vec![a(), noon(), list()]), "f(a, %, (%, %))"),
        (E::dyadic(Op::AEquals, list(), a()), "(%, %) = a"),
        (E::dyadic(Op::TDisjoint, noon(), noon()), "% != %"),
        (E::dyadic(Op::TAfter, a(), E::interval(a(), noon())), r#""a" IS NOT NULL AND (a > %)"#),
        (E::dyadic(Op::TIntersects, a(), E::interval(noon(), noon())), "NOT((a < %) OR (a > %))"),
        (E::dyadic(Op::TEquals, noon(), E::interval(E::Unbounded, noon())), "(% = '-2021-01-01') AND (% = %)"),
        (E::date(2024, 2, 29), "'2024-02-29'"),
        (E::str("2024-02-29T12:00:00"), "'2024-02-29T12:00:00'"),
        (E::str("'2024-02-29T12:00:00'"), "'''2024-02-29T12:00:00'''"),
        (E::str("2024-02-29T12:00:00.000Z"), "'2024-02-29T12:00:00.000Z'"),
    ]
}

#[test]
fn texts() {
    for (e, form) in places() {
        assert_eq!(first(&e), Ok(form.replace('%', "'2024-02-29T12:00:00'")));
        assert_eq!(second(&e), Ok(form.replace('%', "'2024-02-29T12:00:00.000Z'")));
    }
    assert_eq!(second(&E::timestamp(7, 1, 2, 3, 4, 59)).as_deref(), Ok("'0007-01-02T03:04:59.000Z'"));
}

#[test]
fn refusals() {
    let settings = Settings::default().encode();
    for bad in [
        (0..32).fold(noon(), |e, _| E::monadic(Op::Neg, e)),
        E::monadic(Op::Eq, noon()),
        E::timestamp(2023, 2, 29, 0, 0, 0),
        E::timestamp(2024, 2, 29, 24, 0, 0),
        E::id("Order"),
        E::interval(noon(), noon()),
    ] {
        assert!(first(&bad).is_err() && first(&bad) == second(&bad), "{bad:?}");
    }
    for (s, t) in [(&[][..], &[][..]), (&settings, &[]), (&settings, &[2, 0, 0, 0, 14, 0]), (&settings, &[0; 32_769])] {
        assert!(to_sql_bytes(s, t).is_err() && to_sql_bytes(s, t) == to_geopackage_sql_bytes(s, t));
    }
}

/// An Array of 2,340 timestamps and a name: 28 bytes each by the second call, 23 by the first, the name and 2 more.
#[test]
fn lengths() {
    let many = |name: &str| E::Array((0..2340).map(|_| noon()).chain([E::id(name)]).collect());
    assert_eq!(second(&many("thirteen_long")).map(|s| s.len()), Ok(TEXT_MAX));
    assert_eq!(second(&many("fourteen_bytes")), Err(Refusal::TextTooLong));
    assert_eq!(first(&many("fourteen_bytes")).map(|s| s.len()), Ok(53_836));
    let (settings, tree) = (Settings::default().encode(), noon().encode());
    let mut out = [7; 26];
    for room in [0, 21, 25] {
        assert_eq!(to_geopackage_sql_into(&settings, &tree, &mut out[..room]), Err(Refusal::BufferTooShort));
    }
    assert_eq!(out, [7; 26], "a refusal leaves the buffer as it was");
    assert_eq!(to_sql_into(&settings, &tree, &mut out), Ok(21));
    assert_eq!(&out, b"'2024-02-29T12:00:00'\x07\x07\x07\x07\x07");
    assert_eq!(to_geopackage_sql_into(&settings, &tree, &mut out), Ok(26));
    assert_eq!(&out, b"'2024-02-29T12:00:00.000Z'");
}

/// Comparisons of noon with values to the millisecond around it: as their instants stand to one another.
#[test]
fn values_of_a_geopackage() {
    let values = ["11:59:59.999", "12:00:00.000", "12:00:00.001", "12:00:00.999", "12:00:01.000"];
    let mut wrong = Vec::new();
    for (k, value) in values.iter().enumerate() {
        let row = Row::new().with("a", format!("2024-02-29T{value}Z"));
        let order = k.cmp(&1);
        for (op, want) in [
            (Op::Eq, order.is_eq()),
            (Op::Neq, order.is_ne()),
            (Op::Lt, order.is_lt()),
            (Op::Gt, order.is_gt()),
            (Op::Lte, order.is_le()),
            (Op::Gte, order.is_ge()),
            (Op::TAfter, order.is_gt()),
            (Op::TBefore, order.is_lt()),
        ] {
            let e = E::dyadic(op, a(), noon());
            assert_eq!(read(&second(&e).expect("a text"), &row), Ok(Some(want)), "{op:?} {value}");
            if read(&first(&e).expect("a text"), &row) != Ok(Some(want)) {
                wrong.push((*value, op));
            }
        }
    }
    // the first call's text is below noon as the column has it
    assert_eq!(wrong, [Op::Eq, Op::Neq, Op::Gt, Op::Lte, Op::TAfter].map(|op| ("12:00:00.000", op)));
}
