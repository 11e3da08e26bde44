//! `..` by the two calls that write: as the second end of an interval it lies above every instant by the second call, and below
//! by the first; in any other place below, by both.
mod relation;

use relation::relation;
use wenduulig::{
    read, to_geopackage_sql, to_geopackage_sql_into, to_sql, to_sql_into, Op, Refusal, Row, Settings, E, TEXT_MAX,
};

const BELOW: &str = "'-2021-01-01'";
const ABOVE: &str = "'A'";

fn first(e: &E) -> Result<String, Refusal> {
    to_sql(&Settings::new(7, "NC", "NA", "NCA"), e)
}

fn second(e: &E) -> Result<String, Refusal> {
    to_geopackage_sql(&Settings::new(7, "NC", "NA", "NCA"), e)
}

/// What the second call's text says of the row.
fn truth(e: &E, row: &Row) -> Option<bool> {
    read(&second(e).expect("a text"), row).expect("a truth")
}

/// The same of the first call's.
fn first_truth(e: &E, row: &Row) -> Option<bool> {
    read(&first(e).expect("a text"), row).expect("a truth")
}

fn a() -> E {
    E::id("a")
}

fn b() -> E {
    E::id("b")
}

fn since(start: E) -> E {
    E::interval(start, E::Unbounded)
}

fn until(end: E) -> E {
    E::interval(E::Unbounded, end)
}

/// `..` in every place of a tree; each `^` is one as the second end of an interval, each `_` any other.
fn places() -> Vec<(E, &'static str)> {
    let (always, open) = (|| since(E::Unbounded), || E::Unbounded);
    vec![
        (E::dyadic(Op::TAfter, a(), since(b())), r#""b" IS NOT NULL AND (a > ^)"#),
        (E::dyadic(Op::TBefore, since(a()), b()), r#""a" IS NOT NULL AND (^ < b)"#),
        (E::dyadic(Op::TAfter, since(a()), b()), "a > b"),
        (E::dyadic(Op::TAfter, until(a()), b()), r#""a" IS NOT NULL AND (_ > b)"#),
        (E::dyadic(Op::TIntersects, a(), since(b())), "NOT((a < b) OR (a > ^))"),
        (E::dyadic(Op::TIntersects, always(), always()), "NOT((^ < _) OR (_ > ^))"),
        (E::dyadic(Op::TEquals, since(a()), since(b())), "(a = b) AND (^ = ^)"),
        (E::dyadic(Op::TEquals, open(), always()), "(_ = _) AND (_ = ^)"),
        (E::dyadic(Op::TDuring, until(a()), since(b())), "(_ > b) AND (a < ^)"),
        (E::dyadic(Op::TMeets, since(a()), until(b())), r#""a" IS NOT NULL AND "b" NOT NULL AND (^ = _)"#),
        (E::dyadic(Op::TMetBy, until(a()), since(b())), r#""a" IS NOT NULL AND "b" NOT NULL AND (_ = ^)"#),
        (open(), "_"),
        (E::dyadic(Op::TAfter, a(), open()), "a > _"),
        (E::dyadic(Op::Eq, a(), open()), "a = (_)"),
        (E::Array(vec![open(), open()]), "(_, _)"),
        (E::function("f", vec![open(), E::dyadic(Op::TAfter, a(), always())]), "f(_, a > ^)"),
        (E::dyadic(Op::TAfter, a(), E::interval(b(), E::Array(vec![open()]))), r#""b" IS NOT NULL AND (a > (_))"#),
        (E::dyadic(Op::TAfter, a(), E::interval(b(), E::str("A"))), r#""b" IS NOT NULL AND (a > 'A')"#),
        (
            E::dyadic(Op::TAfter, a(), E::interval(b(), E::str("-2021-01-01"))),
            r#""b" IS NOT NULL AND (a > '-2021-01-01')"#,
        ),
    ]
}

#[test]
fn texts() {
    for (e, form) in places() {
        let form = form.replace('_', BELOW);
        assert_eq!(first(&e), Ok(form.replace('^', BELOW)));
        assert_eq!(second(&e), Ok(form.replace('^', ABOVE)));
    }
}

const OPEN_START: u8 = 0;
const OPEN_END: u8 = u8::MAX;

/// Starts and ends, the end not before the start: of three instants, and open ones.
fn sides() -> impl Iterator<Item = (u8, u8)> {
    [OPEN_START, 1, 2, 3].into_iter().flat_map(|x| [1, 2, 3, OPEN_END].map(|y| (x, y))).filter(|(x, y)| x <= y)
}

fn instant(n: u8) -> String {
    format!("2024-02-29T12:00:00.{n:03}Z")
}

/// The interval of two columns, with `..` for an open start or end.
fn interval((start, end): (u8, u8), columns: [&str; 2]) -> E {
    let open = |is: bool, name| if is { E::Unbounded } else { E::id(name) };
    E::interval(open(start == OPEN_START, columns[0]), open(end == OPEN_END, columns[1]))
}

/// All fifteen operators on all pairs of intervals with open starts and ends, on values as a GeoPackage has them: by the second
/// call the answer is that of 21-065r2, an open end above every instant and equal to any other.
#[test]
fn fifteen_operators() {
    let (mut asked, mut wrong) = (0, 0);
    for op in Op::ALL.into_iter().filter(|op| op.temporal()) {
        for (x, y) in sides().flat_map(|x| sides().map(move |y| (x, y))) {
            let row = Row::new()
                .with("a", instant(x.0))
                .with("b", instant(x.1))
                .with("c", instant(y.0))
                .with("d", instant(y.1));
            let e = E::dyadic(op, interval(x, ["a", "b"]), interval(y, ["c", "d"]));
            let want = Some(relation(op, x, y));
            assert_eq!(truth(&e, &row), want, "{op:?} {x:?} {y:?}");
            let other = first_truth(&e, &row) != want;
            assert!(!other || x.1 == OPEN_END || y.1 == OPEN_END, "{op:?} {x:?} {y:?} by the first call");
            (asked, wrong) = (asked + 1, wrong + usize::from(other));
        }
    }
    assert_eq!(asked, 15 * 13 * 13);
    assert!(wrong > 200, "{wrong}");
}

/// The five operators that take instants.
#[test]
fn five_operators_on_instants() {
    for op in Op::ALL.into_iter().filter(|op| op.instant_or_interval()) {
        for (x, y) in (1..=3).flat_map(|x| sides().map(move |y| (x, y))) {
            let row = Row::new().with("a", instant(x)).with("c", instant(y.0)).with("d", instant(y.1));
            let later = E::dyadic(op, a(), interval(y, ["c", "d"]));
            assert_eq!(truth(&later, &row), Some(relation(op, (x, x), y)), "{op:?} {x} {y:?}");
            let earlier = E::dyadic(op, interval(y, ["c", "d"]), a());
            assert_eq!(truth(&earlier, &row), Some(relation(op, y, (x, x))), "{op:?} {y:?} {x}");
        }
    }
}

/// A stay of a DATE column that has not ended is there on a later day, by the second call.
#[test]
fn days() {
    let e = E::dyadic(Op::TIntersects, since(E::id("entry")), E::date(2024, 3, 1));
    let row = Row::new().with("entry", "2024-02-29");
    assert_eq!((truth(&e, &row), first_truth(&e, &row)), (Some(true), Some(false)));
}

/// The second call's text can be the shorter one: 9 and 8 count what the call writes.
#[test]
fn lengths() {
    let (settings, tree) = (Settings::default().encode(), E::dyadic(Op::TAfter, a(), since(b())).encode());
    let mut out = [7; 39];
    assert_eq!(to_sql_into(&settings, &tree, &mut out[..38]), Err(Refusal::BufferTooShort));
    assert_eq!(to_geopackage_sql_into(&settings, &tree, &mut out[..28]), Err(Refusal::BufferTooShort));
    assert_eq!(out, [7; 39], "a refusal leaves the buffer as it was");
    assert_eq!(to_geopackage_sql_into(&settings, &tree, &mut out[..29]), Ok(29));
    assert_eq!(to_sql_into(&settings, &tree, &mut out), Ok(39));
    // ends that are written twice at each of eleven levels
    let doubled = |n: usize| {
        let ends = (0..11).fold(a(), |e, _| E::dyadic(Op::TEquals, e, since(E::Unbounded)));
        E::dyadic(Op::And, ends, E::str("y".repeat(n)))
    };
    assert_eq!(second(&doubled(21)).map(|s| s.len()), Ok(TEXT_MAX));
    assert_eq!(second(&doubled(22)), Err(Refusal::TextTooLong));
    assert_eq!(first(&doubled(21)), Err(Refusal::TextTooLong));
}

#[test]
fn refusals() {
    for bad in
        [since(a()), E::dyadic(Op::TDuring, E::Unbounded, since(a())), E::dyadic(Op::TAfter, a(), since(since(b())))]
    {
        assert_eq!((first(&bad), second(&bad)), (Err(Refusal::BadOperand), Err(Refusal::BadOperand)), "{bad:?}");
    }
}
