//! Previews: for every size what the call of the same name answers that writes into a buffer of it, and the text's length where
//! the size is enough.
mod random;

use random::Random;
use wenduulig::{
    preview_geopackage_sql, preview_geopackage_sql_bytes, preview_sql, preview_sql_bytes, to_geopackage_sql,
    to_geopackage_sql_into, to_sql, to_sql_into, Op, Refusal, Settings, E, TEXT_MAX,
};

type Preview = fn(&[u8], &[u8], usize) -> Result<usize, Refusal>;
type Writer = fn(&[u8], &[u8], &mut [u8]) -> Result<usize, Refusal>;

/// Both previews, each with the call whose answer it gives.
const CALLS: [(Preview, Writer); 2] =
    [(preview_sql_bytes, to_sql_into), (preview_geopackage_sql_bytes, to_geopackage_sql_into)];

const LARGE: [usize; 5] = [TEXT_MAX, TEXT_MAX + 1, 1 << 32, usize::MAX / 2 + 1, usize::MAX];

fn settings() -> Vec<u8> {
    Settings::default().encode()
}

/// An Array of n open ends and a name: a text of 15 n bytes, the name and 2 more.
fn long(n: usize, name: &str) -> E {
    E::Array((0..n).map(|_| E::Unbounded).chain([E::id(name)]).collect())
}

/// Holds both previews against the calls that write, at the sizes about the text's length; answers how many were texts.
fn compare(settings: &[u8], tree: &[u8]) -> usize {
    let mut texts = 0;
    for (preview, into) in CALLS {
        let most = preview(settings, tree, usize::MAX);
        assert!(most != Err(Refusal::BufferTooShort));
        let n = most.unwrap_or(20);
        for size in [0, n.saturating_sub(1), n, n + 1] {
            let mut out = vec![0xA5; size];
            let written = into(settings, tree, &mut out);
            assert_eq!(preview(settings, tree, size), written, "{size}: {tree:?}");
            assert_eq!(written, if size < n && most.is_ok() { Err(Refusal::BufferTooShort) } else { most });
        }
        assert!(LARGE.iter().all(|size| preview(settings, tree, *size) == most), "{tree:?}");
        texts += usize::from(most.is_ok());
    }
    texts
}

#[test]
fn random_trees() {
    let mut r = Random::new(6);
    let mut texts = 0;
    for k in 0..4000 {
        let depth = r.below(5);
        let e = if k % 2 == 0 { r.node(Op::ALL[k / 2 % 53], depth.min(3)) } else { r.tree(depth) };
        let (settings, tree) = (r.settings().encode(), e.encode());
        texts += compare(&settings, &tree);
        // cut, and with a byte changed
        compare(&settings, &tree[..r.below(tree.len())]);
        let mut other = tree.clone();
        other[r.below(tree.len())] ^= 1 << r.below(8);
        compare(&settings, &other);
    }
    assert_eq!(texts, 8000);
}

#[test]
fn texts() {
    let noon = || E::timestamp(2024, 2, 29, 12, 0, 0);
    for e in [
        E::Null,
        E::str("O'Ring für 5 mm"),
        E::dyadic(Op::TAfter, E::id("a"), noon()),
        E::dyadic(Op::TIntersects, E::interval(E::id("a"), E::Unbounded), E::interval(noon(), E::Unbounded)),
    ] {
        let s = Settings::default();
        let first = to_sql(&s, &e).expect("a text").len();
        let second = to_geopackage_sql(&s, &e).expect("a text").len();
        for size in 0..100 {
            let want = |n| if size < n { Err(Refusal::BufferTooShort) } else { Ok(n) };
            assert_eq!(preview_sql(&s, &e, size), want(first));
            assert_eq!(preview_geopackage_sql(&s, &e, size), want(second));
        }
    }
}

/// At every size the same refusal, 1 to 7: it is known before the text's length.
#[test]
fn refusals() {
    let nested = (0..32).fold(E::Null, |e, _| E::monadic(Op::Neg, e)).encode();
    let misplaced = E::dyadic(Op::And, long(4368, "fourteen_bytes"), E::interval(E::Null, E::Null)).encode();
    let cases: [(Vec<u8>, Vec<u8>, Refusal); 9] = [
        (vec![], vec![0; 32_769], Refusal::BadSettings),
        (Settings::new(16, "NC", "NA", "NCA").encode(), vec![], Refusal::BadSettings),
        (settings(), vec![0; 32_769], Refusal::TreeTooLong),
        (settings(), vec![], Refusal::BadFrame),
        (settings(), nested, Refusal::TooDeep),
        (settings(), vec![2, 0, 0, 0, 14, 0], Refusal::BadKindOrOperator),
        (settings(), E::date(1900, 2, 29).encode(), Refusal::BadField),
        (settings(), E::interval(E::Null, E::Null).encode(), Refusal::BadOperand),
        // the text would be too long as well
        (settings(), misplaced, Refusal::BadOperand),
    ];
    for (settings, tree, refusal) in cases {
        for (preview, _) in CALLS {
            for size in [0, 1, 100].into_iter().chain(LARGE) {
                assert_eq!(preview(&settings, &tree, size), Err(refusal));
            }
        }
    }
}

/// 8 counts the text of the call, and comes before 9.
#[test]
fn limits() {
    let longest = long(4368, "thirteen_long").encode();
    let longer = long(4368, "fourteen_bytes").encode();
    for (preview, _) in CALLS {
        assert_eq!(preview(&settings(), &longest, TEXT_MAX - 1), Err(Refusal::BufferTooShort));
        for size in LARGE {
            assert_eq!(preview(&settings(), &longest, size), Ok(TEXT_MAX));
            assert_eq!(preview(&settings(), &longer, size), Err(Refusal::TextTooLong));
        }
        assert_eq!(preview(&settings(), &longer, 0), Err(Refusal::TextTooLong));
    }
    let stamps = (0..2340).map(|_| E::timestamp(2024, 2, 29, 12, 0, 0)).chain([E::id("fourteen_bytes")]);
    let tree = E::Array(stamps.collect()).encode();
    assert_eq!(preview_sql_bytes(&settings(), &tree, usize::MAX), Ok(53_836));
    assert_eq!(preview_geopackage_sql_bytes(&settings(), &tree, usize::MAX), Err(Refusal::TextTooLong));
}

/// Texts that are shorter and longer than what `to_sql` tries first: 1,024 bytes, or three times the tree's.
#[test]
fn tried_anew() {
    let doubled = |n, e| (0..n).fold(e, |e, _| E::dyadic(Op::TEquals, e, E::interval(E::id("b"), E::id("c"))));
    for e in [doubled(7, E::id("a")), doubled(1, E::str("x".repeat(2000))), doubled(3, E::str("x".repeat(2000)))] {
        let text = to_sql(&Settings::default(), &e).expect("a text");
        assert!(text.len() > 1024);
        assert_eq!(preview_sql(&Settings::default(), &e, TEXT_MAX), Ok(text.len()));
        assert_eq!(to_geopackage_sql(&Settings::default(), &e).as_deref(), Ok(&text[..]));
        let (mut out, tree) = (vec![0; text.len()], e.encode());
        assert_eq!(to_sql_into(&settings(), &tree, &mut out), Ok(text.len()));
        assert_eq!(out, text.as_bytes());
    }
}
