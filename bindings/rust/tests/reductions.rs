//! Reducing: each rule, refusals and their order, buffers, and random trees, which are reduced to themselves afterwards.
mod random;

use random::Random;
use wenduulig::{reduce_bytes, reduce_into, to_sql, Num, Op, QString, Refusal, Settings, E, TREE_MAX};

fn day() -> E {
    E::date(2024, 2, 29)
}

fn at(hour: u8) -> E {
    E::timestamp(2024, 2, 29, hour, 0, 0)
}

fn not(e: E) -> E {
    E::monadic(Op::Neg, e)
}

fn a() -> E {
    E::id("a")
}

fn constant() -> E {
    E::dyadic(Op::Eq, E::int(1), E::int(1))
}

/// Each tree, and what comes of it.
fn reduces(trees: Vec<(E, E)>) {
    for (tree, want) in trees {
        assert_eq!(tree.reduce().as_ref(), Ok(&want), "{tree:?}");
        assert_eq!(want.reduce().as_ref(), Ok(&want), "{tree:?}");
    }
}

#[test]
fn of_one_operand() {
    let (minus, case, accent) =
        (|e| E::monadic(Op::Minus, e), |e| E::monadic(Op::CaseI, e), |e| E::monadic(Op::AccentI, e));
    let label = QString::plain("Flügel");
    reduces(vec![
        (minus(E::Null), E::Null),
        (minus(E::Num(Num { mantissa: 1500, scale: 2 })), E::Num(Num { mantissa: -1500, scale: 2 })),
        (minus(E::Num(Num { mantissa: 0, scale: 9 })), E::Num(Num { mantissa: 0, scale: 9 })),
        (minus(minus(E::int(5))), E::int(5)),
        (minus(minus(a())), minus(minus(a()))),
        (not(E::Null), E::Null),
        (not(not(E::Bool(true))), E::Bool(true)),
        (E::monadic(Op::IsNull, E::Null), E::Bool(true)),
        (E::monadic(Op::IsNotNull, E::Null), E::Bool(false)),
        (E::monadic(Op::IsNull, a()), E::monadic(Op::IsNull, a())),
        (case(E::Str(label.and_iaccent())), E::Str(label.and_icase().and_iaccent())),
        (accent(case(E::str("Flügel"))), E::Str(label.and_icase().and_iaccent())),
        (case(case(a())), case(a())),
        (accent(accent(accent(a()))), accent(a())),
        (case(accent(case(a()))), case(accent(case(a())))),
    ]);
}

#[test]
fn and_or() {
    let (no, null, yes) = (|| E::Bool(false), || E::Null, || E::Bool(true));
    let join = |op, x: E, y: E| E::dyadic(op, x, y);
    reduces(vec![
        (join(Op::Or, null(), yes()), yes()),
        (join(Op::Or, yes(), null()), yes()),
        (join(Op::Or, null(), no()), null()),
        (join(Op::And, null(), no()), no()),
        (join(Op::And, yes(), null()), null()),
        (join(Op::And, yes(), not(no())), yes()),
        (join(Op::And, a(), no()), join(Op::And, a(), no())),
        (join(Op::Or, E::int(1), E::int(2)), join(Op::Or, E::int(1), E::int(2))),
    ]);
}

#[test]
fn instants() {
    let two = |op, x: E, y: E| E::dyadic(op, x, y);
    reduces(vec![
        (two(Op::TEquals, day(), at(0)), E::Bool(true)),
        (two(Op::TEquals, day(), at(12)), E::Bool(false)),
        (two(Op::TBefore, day(), at(12)), E::Bool(true)),
        (two(Op::TAfter, E::date(2024, 3, 1), at(23)), E::Bool(true)),
        (two(Op::TIntersects, at(12), at(12)), E::Bool(true)),
        (two(Op::TDisjoint, E::Unbounded, day()), E::Bool(true)),
        (two(Op::TEquals, E::Unbounded, E::Unbounded), E::Bool(true)),
        (two(Op::TBefore, E::Unbounded, E::date(1, 1, 1)), E::Bool(true)),
        (two(Op::TAfter, a(), day()), two(Op::TAfter, a(), day())),
        (two(Op::TAfter, E::Null, day()), E::Null),
    ]);
}

/// In lists, arguments, BETWEEN's bounds and the ends of intervals.
#[test]
fn every_place() {
    let (five, minus) = (|| E::int(-5), || E::monadic(Op::Minus, E::int(5)));
    let spans = |x: E| E::dyadic(Op::TMeets, E::interval(a(), x), E::interval(E::Unbounded, a()));
    let wraps: [fn(E) -> E; 5] = [
        |e| E::Array(vec![a(), e, E::str("O'Ring")]),
        |e| E::function("f", vec![e, a()]),
        |e| E::dyadic(Op::IsBetween, a(), E::Array(vec![E::int(-9), e])),
        |e| E::dyadic(Op::IsInList, e, E::Array(vec![a()])),
        |e| E::dyadic(Op::SWithin, a(), E::function("g", vec![E::spatial(4326, "POINT (1 2)"), e])),
    ];
    reduces(
        wraps
            .into_iter()
            .map(|wrap| (wrap(minus()), wrap(five())))
            .chain([(spans(not(E::Null)), spans(E::Null))])
            .collect(),
    );
}

#[test]
fn constants() {
    for tree in [
        constant(),
        E::dyadic(Op::Plus, E::int(1), E::int(2)),
        E::dyadic(Op::IsLike, E::str("x"), E::str("x")),
        E::dyadic(Op::Eq, day(), at(0)),
        E::dyadic(Op::TAfter, day(), E::str("2024-02-29")),
        E::dyadic(Op::SEquals, E::spatial(0, "P"), E::spatial(0, "P")),
        E::dyadic(Op::Eq, E::Null, constant()),
        E::dyadic(Op::And, E::Bool(false), constant()),
        E::Array(vec![a(), constant()]),
    ] {
        assert_eq!(tree.reduce(), Err(Refusal::ConstantOperands), "{tree:?}");
    }
}

/// 2 to 7, then 14, then 9; the buffer stays.
#[test]
fn order_and_buffers() {
    let list = |e: E| E::Array(vec![constant(), e]).encode();
    let deep = (0..32).fold(constant(), |e, _| not(e));
    for (tree, want) in [
        (vec![0; TREE_MAX + 1], Refusal::TreeTooLong),
        (vec![0; TREE_MAX], Refusal::BadFrame),
        (vec![], Refusal::BadFrame),
        (deep.encode(), Refusal::TooDeep),
        (list(E::monadic(Op::Eq, a())), Refusal::BadKindOrOperator),
        (list(E::id("order")), Refusal::BadField),
        (list(E::interval(a(), a())), Refusal::BadOperand),
        (list(a()), Refusal::ConstantOperands),
    ] {
        assert_eq!(reduce_bytes(&tree), Err(want));
        for size in [0, tree.len()] {
            let mut out = vec![7; size];
            assert_eq!(reduce_into(&tree, &mut out), Err(want));
            assert!(out.iter().all(|b| *b == 7), "a refusal leaves the buffer as it was");
        }
    }
    let (tree, want) = (not(not(a())).encode(), not(not(a())).encode());
    for size in [0, want.len() - 1, want.len(), want.len() + 9] {
        let mut out = vec![7; size];
        let said = reduce_into(&tree, &mut out);
        assert_eq!(said, if size < want.len() { Err(Refusal::BufferTooShort) } else { Ok(want.len()) });
        assert!(said.is_err() || out.starts_with(&want));
        assert!(out[said.unwrap_or(0)..].iter().all(|b| *b == 7));
    }
}

/// What comes of a tree is no longer, is lowered, and reduces to itself; both kinds of answers occur.
#[test]
fn random_trees() {
    let mut r = Random::new(8);
    let (mut changed, mut constants) = (0, 0);
    for k in 0..6000 {
        let depth = r.below(5);
        let e = if k % 2 == 0 { r.node(Op::ALL[k / 2 % 53], depth) } else { r.tree(depth + 1) };
        let tree = e.encode();
        match (reduce_bytes(&tree), e.reduce()) {
            (Ok(record), Ok(reduced)) => {
                assert_eq!(record, reduced.encode(), "{e:?}");
                assert!(record.len() <= tree.len(), "{e:?}");
                assert_eq!(reduced.reduce().as_ref(), Ok(&reduced), "{e:?}");
                assert!(
                    to_sql(&Settings::default(), &reduced).is_ok() || to_sql(&Settings::default(), &e).is_err(),
                    "{e:?}"
                );
                changed += usize::from(reduced != e);
            }
            (Err(refusal), Err(again)) => {
                assert_eq!(refusal, again);
                constants += usize::from(refusal == Refusal::ConstantOperands);
            }
            (one, other) => panic!("{e:?}: {one:?}, {other:?}"),
        }
    }
    assert!(changed > 600 && constants > 300, "{changed} {constants}");
}
