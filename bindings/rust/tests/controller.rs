//! The controller's calls: its limits on both sides, and beside the planner's on random trees.
mod random;

use random::Random;
use wenduulig::{
    controller, preview_geopackage_sql_bytes, preview_sql_bytes, to_geopackage_sql_bytes, to_geopackage_sql_into,
    to_sql_bytes, to_sql_into, Op, Refusal, Settings, E,
};

type Preview = fn(&[u8], &[u8], usize) -> Result<usize, Refusal>;
type Writer = fn(&[u8], &[u8], &mut [u8]) -> Result<usize, Refusal>;
type Text = fn(&[u8], &[u8]) -> Result<String, Refusal>;

/// A call of one caller: its text, into a buffer, and its preview.
type Call = (Text, Writer, Preview);

/// Both calls that write, of the planner and of the controller.
const CALLS: [(Call, Call); 2] = [
    (
        (to_sql_bytes, to_sql_into, preview_sql_bytes),
        (controller::to_sql_bytes, controller::to_sql_into, controller::preview_sql_bytes),
    ),
    (
        (to_geopackage_sql_bytes, to_geopackage_sql_into, preview_geopackage_sql_bytes),
        (
            controller::to_geopackage_sql_bytes,
            controller::to_geopackage_sql_into,
            controller::preview_geopackage_sql_bytes,
        ),
    ),
];

/// Refusals of the controller where the planner may answer something else.
const OWN: [Refusal; 4] = [Refusal::TreeTooLong, Refusal::TooDeep, Refusal::TextTooLong, Refusal::BufferTooShort];

fn settings() -> Vec<u8> {
    Settings::default().encode()
}

/// What both calls of the controller answer, their texts' lengths; each is also held against the buffer and the preview.
fn both(tree: &[u8]) -> [Result<usize, Refusal>; 2] {
    CALLS.map(|(_, (text, into, preview))| {
        let answer = text(&settings(), tree).map(|t| t.len());
        let n = answer.unwrap_or(50);
        for size in [0, n.saturating_sub(1), n, n + 1, controller::TEXT_MAX, 65_535] {
            let mut out = vec![0xA5; size];
            let written = into(&settings(), tree, &mut out);
            assert_eq!(preview(&settings(), tree, size), written);
            assert_eq!(written, if answer.is_ok() && size < n { Err(Refusal::BufferTooShort) } else { answer });
            assert!(out[written.unwrap_or(0)..].iter().all(|b| *b == 0xA5));
        }
        assert_eq!(preview(&settings(), tree, usize::MAX), answer);
        answer
    })
}

fn nested(levels: usize) -> E {
    (1..levels).fold(E::Null, |e, _| E::monadic(Op::Neg, e))
}

#[test]
fn bytes_of_a_tree() {
    assert_eq!(both(&E::str("x".repeat(1993)).encode()), [Ok(1995); 2]);
    assert_eq!(both(&E::str("x".repeat(1994)).encode()), [Err(Refusal::TreeTooLong); 2]);
    assert_eq!(both(&vec![0; 2000]), [Err(Refusal::BadFrame); 2]);
    assert_eq!(both(&vec![0; 2001]), [Err(Refusal::TreeTooLong); 2]);
    assert_eq!(controller::to_sql_bytes(&[], &vec![0; 2001]), Err(Refusal::BadSettings));
}

#[test]
fn levels() {
    assert_eq!(both(&nested(8).encode()), [Ok(46); 2]);
    assert_eq!(both(&nested(9).encode()), [Err(Refusal::TooDeep); 2]);
    let day = || E::date(2024, 2, 29);
    let stay = |e| E::dyadic(Op::TAfter, E::interval(e, day()), day());
    assert_eq!(both(&(0..3).fold(E::Array(vec![day()]), |e, _| stay(e)).encode()).map(|n| n.is_ok()), [true; 2]);
    assert_eq!(both(&(0..4).fold(day(), |e, _| stay(e)).encode()), [Err(Refusal::TooDeep); 2]);
}

#[test]
fn bytes_of_a_text() {
    let opens = |name: &str| E::Array((0..266).map(|_| E::Unbounded).chain([E::id(name)]).collect()).encode();
    assert_eq!(both(&opens("eight_by")), [Ok(4000); 2]);
    assert_eq!(both(&opens("nine_byte")), [Err(Refusal::TextTooLong); 2]);
    let stamps = |name: &str| {
        let noon = || E::timestamp(2024, 2, 29, 12, 0, 0);
        E::Array((0..142).map(|_| noon()).chain([E::id(name)]).collect()).encode()
    };
    assert_eq!(both(&stamps("name_of_twenty_two_byt")), [Ok(3290), Ok(4000)]);
    assert_eq!(both(&stamps("name_of_twenty_three_by")), [Ok(3291), Err(Refusal::TextTooLong)]);
}

/// The controller's answer is the planner's, or one of its own refusals; both kinds occur.
#[test]
fn random_trees() {
    let mut r = Random::new(7);
    let (mut alike, mut own) = (0, 0);
    for k in 0..4000 {
        let depth = r.below(7);
        let e = if k % 2 == 0 { r.node(Op::ALL[k / 2 % 53], depth.min(5)) } else { r.tree(depth) };
        let (settings, mut tree) = (r.settings().encode(), e.encode());
        if k % 5 == 0 {
            let at = r.below(tree.len());
            tree[at] ^= 1 << r.below(8);
        }
        for ((planner, ..), (controller, ..)) in CALLS {
            let (theirs, ours) = (planner(&settings, &tree), controller(&settings, &tree));
            if ours == theirs {
                alike += 1;
            } else {
                assert!(ours.is_err_and(|refusal| OWN.contains(&refusal)), "{tree:?}");
                own += 1;
            }
        }
    }
    assert!(alike > 6000 && own > 100, "{alike} {own}");
}

/// The forms that take an `E`.
#[test]
fn of_values() {
    let (s, e) = (Settings::default(), E::dyadic(Op::TAfter, E::id("a"), E::timestamp(2024, 2, 29, 12, 0, 0)));
    assert_eq!(controller::to_sql(&s, &e).as_deref(), Ok("a > '2024-02-29T12:00:00'"));
    assert_eq!(controller::to_geopackage_sql(&s, &e).as_deref(), Ok("a > '2024-02-29T12:00:00.000Z'"));
    assert_eq!(controller::preview_sql(&s, &e, 25), Ok(25));
    assert_eq!(controller::preview_sql(&s, &e, 24), Err(Refusal::BufferTooShort));
    assert_eq!(controller::preview_geopackage_sql(&s, &e, 30), Ok(30));
    assert_eq!(controller::preview_geopackage_sql(&s, &nested(9), 0), Err(Refusal::TooDeep));
}
