//! The temporal operators by their meaning, without any text.
use wenduulig::Op;

/// What OGC 21-065r2 says of two intervals, by their starts and ends.
pub fn relation(op: Op, (a, b): (u8, u8), (c, d): (u8, u8)) -> bool {
    match op {
        Op::TAfter => a > d,
        Op::TBefore => b < c,
        Op::TContains => a < c && b > d,
        Op::TDisjoint => b < c || a > d,
        Op::TDuring => a > c && b < d,
        Op::TEquals => a == c && b == d,
        Op::TFinishedBy => a < c && b == d,
        Op::TFinishes => a > c && b == d,
        Op::TIntersects => !(b < c || a > d),
        Op::TMeets => b == c,
        Op::TMetBy => a == d,
        Op::TOverlappedBy => a > c && a < d && b > d,
        Op::TOverlaps => a < c && b > c && b < d,
        Op::TStartedBy => a == c && b > d,
        Op::TStarts => a == c && b < d,
        _ => unreachable!("{op:?} is not temporal"),
    }
}
