//! Each refusal, by the safe API or by raw bytes, with its number and words; lent bytes after it; trees of any depth.
use std::collections::hash_map::DefaultHasher;
use std::hash::{Hash, Hasher};
use wenduulig::{read, read_bytes, to_sql, to_sql_bytes, to_sql_into, Op, Refusal, Row, Settings, E, TEXT_MAX};

fn lower(e: &E) -> Result<String, Refusal> {
    to_sql(&Settings::default(), e)
}

fn nested(levels: usize) -> E {
    (1..levels).fold(E::Null, |e, _| E::monadic(Op::Neg, e))
}

/// An Array of n open ends and a name: a text of 15 n bytes, the name and 2 more.
fn long(n: usize, name: &str) -> E {
    let mut items: Vec<E> = (0..n).map(|_| E::Unbounded).collect();
    items.push(E::id(name));
    E::Array(items)
}

#[test]
fn settings() {
    let set = |p, ci: &str| to_sql(&Settings::new(p, ci, "NA", "NCA"), &E::Null);
    assert_eq!(set(15, "NC").as_deref(), Ok("NULL"));
    assert_eq!(set(16, "NC"), Err(Refusal::BadSettings));
    assert_eq!(set(7, ""), Err(Refusal::BadSettings));
    assert_eq!(set(7, "null"), Err(Refusal::BadSettings));
    assert_eq!(set(7, "Collate"), Err(Refusal::BadSettings));
    assert_eq!(set(7, "key"), Err(Refusal::BadSettings));
    assert_eq!(set(7, &"n".repeat(65)), Err(Refusal::BadSettings));
    assert_eq!(set(7, &"n".repeat(70_000)), Err(Refusal::BadSettings));
    assert_eq!(to_sql_bytes(&[], &[]), Err(Refusal::BadSettings));
}

#[test]
fn frames_and_depth() {
    let settings = Settings::default().encode();
    assert_eq!(to_sql_bytes(&settings, &[]), Err(Refusal::BadFrame)); // sheet P
    assert_eq!(to_sql_bytes(&settings, &[2, 0, 0, 0, 0, 0, 9]), Err(Refusal::BadFrame));
    assert_eq!(to_sql_bytes(&settings, &[2, 0, 0, 0, 14, 0]), Err(Refusal::BadKindOrOperator));
    assert!(lower(&nested(32)).is_ok());
    assert_eq!(lower(&nested(33)), Err(Refusal::TooDeep));
}

#[test]
fn tree_length() {
    let list = |name: &str| E::Array((0..5459).map(|_| E::Null).chain([E::id(name)]).collect());
    assert_eq!(list("ab").encode().len(), 32_768);
    assert_eq!(lower(&list("ab")).map(|s| s.len()), Ok(5459 * 6 + 4));
    assert_eq!(lower(&list("abc")), Err(Refusal::TreeTooLong));
}

#[test]
fn operators_and_fields() {
    assert_eq!(lower(&E::monadic(Op::Eq, E::Null)), Err(Refusal::BadKindOrOperator));
    assert_eq!(lower(&E::dyadic(Op::Neg, E::Null, E::Null)), Err(Refusal::BadKindOrOperator));
    for bad in [
        E::str("a\tb"),
        E::str("\0"),
        E::str("it's\u{1f}"),
        E::str("é\u{7f}"),
        E::str("x".repeat(4097)),
        E::str("é".repeat(2049)),
        E::str("'".repeat(4097)),
        E::id("é"),
        E::id("a'"),
        E::spatial(0, "'"),
        E::spatial(0, "é"),
        E::id(""),
        E::id("and"),
        E::id("Order"),
        E::id("group"),
        E::id("1a"),
        E::id("x".repeat(65)),
        E::function("x".repeat(300), vec![E::Null]),
        E::date(1900, 2, 29),
        E::date(0, 1, 1),
    ] {
        assert_eq!(lower(&bad), Err(Refusal::BadField), "{bad:?}");
    }
}

#[test]
fn operands() {
    assert_eq!(lower(&E::interval(E::Null, E::Null)), Err(Refusal::BadOperand)); // sheet O
    assert_eq!(lower(&E::dyadic(Op::TDuring, E::id("a"), E::id("b"))), Err(Refusal::BadOperand));
    for n in [0, 1, 3] {
        let list = E::Array((0..n).map(E::int).collect());
        assert_eq!(lower(&E::dyadic(Op::IsBetween, E::id("a"), list)), Err(Refusal::BadOperand));
    }
}

#[test]
fn lengths() {
    let fits = long(4368, "thirteen_long");
    assert_eq!(lower(&fits).map(|s| s.len()), Ok(TEXT_MAX));
    assert_eq!(lower(&long(4368, "fourteen_bytes")), Err(Refusal::TextTooLong));
    let (settings, tree) = (Settings::default().encode(), fits.encode());
    let mut out = vec![7; TEXT_MAX - 1];
    assert_eq!(to_sql_into(&settings, &tree, &mut out), Err(Refusal::BufferTooShort));
    assert!(out.iter().all(|b| *b == 7), "a refusal leaves the buffer as it was");
    let mut out = [7; 9];
    assert_eq!(to_sql_into(&settings, &E::Null.encode(), &mut out), Ok(4));
    assert_eq!(&out, b"NULL\x07\x07\x07\x07\x07");
    assert_eq!(to_sql_into(&settings, &E::Null.encode(), &mut []), Err(Refusal::BufferTooShort));
}

/// Texts on both sides of the size that is tried first.
#[test]
fn texts_around_the_first_try() {
    for n in [1022, 1023, 1024, 1025, 1026] {
        let want = format!("'{}'", "x".repeat(n - 2));
        assert_eq!(lower(&E::str("x".repeat(n - 2))), Ok(want));
    }
}

#[test]
fn reading() {
    let row = Row::new().with("a", "x");
    assert_eq!(read(&format!("TRUE{}", " ".repeat(TEXT_MAX - 4)), &row), Ok(Some(true)));
    assert_eq!(read(&format!("TRUE{}", " ".repeat(TEXT_MAX - 3)), &row), Err(Refusal::InputTooLong));
    assert_eq!(read_bytes(b"TRUE", &[0; 32_769]), Err(Refusal::InputTooLong));
    for bad in [
        Row::new().with("a", "x").with("A", "x"),
        Row::new().with("a", "a\tb"),
        Row::new().with("a", "é".repeat(33)),
        Row::new().with("a", "'".repeat(65)),
        Row::new().with("é", "x"),
        Row::new().with("a", "x".repeat(65)),
        Row::new().with("or", "x"),
        Row::new().with("n".repeat(300), "x"),
        Row::new().with_null(""),
    ] {
        assert_eq!(read("TRUE", &bad), Err(Refusal::BadRow), "{bad:?}");
    }
    assert_eq!(read("a = ", &row), Err(Refusal::BadText));
    assert_eq!(read("a = 1", &row), Err(Refusal::BadText));
    assert_eq!(read("order IS NULL", &row), Err(Refusal::BadText));
    assert_eq!(read("\"Group\" IS NULL", &row), Err(Refusal::BadText));
    assert_eq!(read(&format!("{}TRUE{}", "(".repeat(65), ")".repeat(65)), &row), Err(Refusal::BadText));
    assert_eq!(read("b IS NULL", &row), Err(Refusal::MissingColumn));
    assert_eq!(read("A = 'x'", &row), Err(Refusal::MissingColumn));
}

/// Words that name the limit or the rule, for each number.
#[test]
fn words() {
    let named = [
        "not exactly one record of kind 100 with a precision of 0 to 15",
        "for the controller 2,000",
        "a record is missing where one is due, a length is below 2 or passes the end around it, or bytes are left over",
        "for the controller 8",
        "kind is above 13, an operator's number above 52, or an operator stands at the wrong number of operands: of one",
        "times from 00:00:00 to 23:59:59; numbers",
        "BETWEEN and NOT BETWEEN need an Array of exactly two",
        "for the controller 4,000",
        "larger",
        "65,535",
        "two equal in any letter case",
        "a column with IS NULL, IS NOT NULL or NOT NULL, TRUE",
        "does not have",
        "has a literal on both sides, neither of them Null, as 1 = 1 has",
    ];
    for (k, (refusal, part)) in Refusal::ALL.into_iter().zip(named).enumerate() {
        let said = refusal.to_string();
        assert_eq!(usize::from(refusal.number()), k + 1);
        assert_eq!(Refusal::from_number(refusal.number()), Some(refusal));
        assert!(said.starts_with(&format!("refused {}: ", k + 1)) && said.contains(part), "{said}");
    }
    let words = "no digit first, in any letter case no keyword of SQLite, as ORDER or GROUP";
    for refusal in [Refusal::BadSettings, Refusal::BadField, Refusal::BadRow] {
        let said = refusal.to_string();
        assert!(said.contains(words), "{said}");
    }
    assert_eq!((Refusal::from_number(0), Refusal::from_number(15)), (None, None));
    let error: Box<dyn std::error::Error> = Box::new(Refusal::TooDeep);
    assert!(error.to_string().contains("balanced"));
}

fn hashed(e: &E) -> u64 {
    let mut hasher = DefaultHasher::new();
    e.hash(&mut hasher);
    hasher.finish()
}

/// A chain of 200,000 levels is encoded, refused, copied, compared, hashed, shown and dropped on the small stack of a
/// test's thread.
#[test]
fn any_depth() {
    let chain = |wrap: fn(E) -> E| (0..200_000).fold(E::Null, |e, _| wrap(e));
    for deep in [
        chain(|e| E::monadic(Op::Neg, e)),
        chain(|e| E::dyadic(Op::And, E::id("a"), e)),
        chain(|e| E::Array(vec![e])),
        chain(|e| E::function("f", vec![e, E::Null])),
        chain(|e| E::interval(e, E::Null)),
    ] {
        assert_eq!(lower(&deep), Err(Refusal::TreeTooLong));
        let copy = deep.clone();
        assert!(copy == deep && hashed(&copy) == hashed(&deep));
        let shown = format!("{deep:?}");
        assert!(shown.len() > 1_000_000 && shown.matches("Null").count() >= 1, "{}", shown.len());
    }
}
