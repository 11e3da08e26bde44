//! Reading the lowered text of time filters on rows, held against truths that are worked out here without any text.
mod relation;

use relation::relation;
use wenduulig::{read, to_sql, Op, Row, Settings, E};

fn truth(e: &E, row: &Row) -> Option<bool> {
    let sql = to_sql(&Settings::default(), e).unwrap_or_else(|r| panic!("{e:?}: {r}"));
    read(&sql, row).unwrap_or_else(|r| panic!("{sql}: {r}"))
}

fn id(name: &str) -> E {
    E::id(name)
}

fn day(n: u8) -> String {
    format!("2024-02-{n:02}")
}

fn written(n: u8) -> E {
    E::date(2024, 2, n)
}

fn pairs() -> impl Iterator<Item = (u8, u8)> {
    (1..=4).flat_map(|a| (a + 1..=5).map(move |b| (a, b)))
}

/// All fifteen operators on all pairs of proper intervals over five days: as columns, and as written dates.
#[test]
fn fifteen_operators_on_intervals() {
    let temporal: Vec<Op> = Op::ALL.into_iter().filter(|op| op.temporal()).collect();
    assert_eq!(temporal.len(), 15);
    for op in temporal {
        for (x, y) in pairs().flat_map(|x| pairs().map(move |y| (x, y))) {
            let want = Some(relation(op, x, y));
            let row = Row::new().with("a", day(x.0)).with("b", day(x.1)).with("c", day(y.0)).with("d", day(y.1));
            let columns = E::dyadic(op, E::interval(id("a"), id("b")), E::interval(id("c"), id("d")));
            assert_eq!(truth(&columns, &row), want, "{op:?} {x:?} {y:?}");
            let dates = E::dyadic(op, E::interval(written(x.0), written(x.1)), E::interval(id("c"), id("d")));
            assert_eq!(truth(&dates, &row), want, "{op:?} {x:?} {y:?}, dates");
        }
    }
}

/// The five operators that take instants: an instant is an interval whose ends are equal.
#[test]
fn five_operators_on_instants() {
    for op in Op::ALL.into_iter().filter(|op| op.instant_or_interval()) {
        for (x, y) in (1..=5).flat_map(|x| pairs().map(move |y| (x, y))) {
            let row = Row::new().with("a", day(x)).with("c", day(y.0)).with("d", day(y.1));
            let later = E::dyadic(op, id("a"), E::interval(id("c"), id("d")));
            assert_eq!(truth(&later, &row), Some(relation(op, (x, x), y)), "{op:?} {x} {y:?}");
            let earlier = E::dyadic(op, E::interval(id("c"), id("d")), id("a"));
            assert_eq!(truth(&earlier, &row), Some(relation(op, y, (x, x))), "{op:?} {y:?} {x}");
            let instants = E::dyadic(op, id("a"), id("c"));
            assert_eq!(truth(&instants, &row), Some(relation(op, (x, x), (y.0, y.0))), "{op:?} {x} {}", y.0);
        }
    }
}

/// An open start lies below every instant.
#[test]
fn open_start() {
    let row = Row::new().with("a", day(2)).with("c", day(3));
    let until_c = || E::interval(E::Unbounded, id("c"));
    assert_eq!(truth(&E::dyadic(Op::TIntersects, id("a"), until_c()), &row), Some(true));
    assert_eq!(truth(&E::dyadic(Op::TAfter, id("a"), until_c()), &row), Some(false));
    assert_eq!(truth(&E::dyadic(Op::TBefore, id("a"), until_c()), &row), Some(false));
}

#[test]
fn nulls_and_guards() {
    let no_start = Row::new().with("a", "2024-01-02").with_null("b").with("c", "2024-01-01");
    let disjoint = || E::dyadic(Op::TDisjoint, id("a"), E::interval(id("b"), id("c")));
    assert_eq!(truth(&disjoint(), &no_start), None); // sheet N
    let after = E::dyadic(Op::TAfter, id("a"), E::interval(id("b"), id("c")));
    assert_eq!(truth(&after, &no_start), Some(false)); // the guard on b
    assert_eq!(truth(&E::monadic(Op::Neg, after), &no_start), Some(true));
    assert_eq!(truth(&E::monadic(Op::IsNull, id("b")), &no_start), Some(true));
    assert_eq!(truth(&E::monadic(Op::IsNotNull, id("b")), &no_start), Some(false));
    assert_eq!(truth(&E::dyadic(Op::TEquals, id("a"), E::Null), &no_start), None);
}

/// And, Or and Neg by the three-valued tables: b = b is unknown where b is NULL.
#[test]
fn three_values() {
    let row = Row::new().with_null("b");
    let make = |v: Option<bool>| match v {
        Some(x) => E::Bool(x),
        None => E::dyadic(Op::Eq, id("b"), id("b")),
    };
    let all = [Some(true), Some(false), None];
    for x in all {
        assert_eq!(truth(&E::monadic(Op::Neg, make(x)), &row), x.map(|x| !x));
        for y in all {
            let and = if x == Some(false) || y == Some(false) { Some(false) } else { x.and(y) };
            let or = if x == Some(true) || y == Some(true) { Some(true) } else { x.and(y) };
            assert_eq!(truth(&E::dyadic(Op::And, make(x), make(y)), &row), and, "{x:?} AND {y:?}");
            assert_eq!(truth(&E::dyadic(Op::Or, make(x), make(y)), &row), or, "{x:?} OR {y:?}");
        }
    }
}

#[test]
fn comparisons() {
    let row = Row::new().with("a", "2024-01-02").with("b", "x").with_null("n");
    for (op, want) in
        [(Op::Eq, false), (Op::Neq, true), (Op::Lt, true), (Op::Gt, false), (Op::Lte, true), (Op::Gte, false)]
    {
        assert_eq!(truth(&E::dyadic(op, id("a"), E::date(2024, 1, 3)), &row), Some(want), "{op:?}");
        assert_eq!(truth(&E::dyadic(op, id("n"), E::date(2024, 1, 3)), &row), None, "{op:?}");
    }
    assert_eq!(truth(&E::dyadic(Op::Eq, id("b"), E::str("x")), &row), Some(true));
    assert_eq!(truth(&E::dyadic(Op::Lt, id("b"), E::str("x ")), &row), Some(true));
    // a shorter prefix comes first
}
