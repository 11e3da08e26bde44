//! Trees of records that reducing wrote. Such a record has been proved to be accepted, so nothing is checked here: one that is
//! not as it must be ends in a panic, and its at most 32 levels are walked by recursion.
use crate::expr::{Call, Date, Num, QString, Timestamp, E, G};
use crate::op::Op;

/// Where the kind stands in a record, and where its body begins.
const KIND: usize = 4;
const BODY: usize = 6;

/// The tree of a record that is whole and alone.
pub(crate) fn tree(record: &[u8]) -> E {
    let body = &record[BODY..];
    match record[KIND] {
        0 => E::Null,
        1 => E::Unbounded,
        2 => E::Bool(body[0] == 1),
        3 => E::Num(Num { mantissa: i64::from_le_bytes(first(body)), scale: body[8] }),
        4 => E::Str(string(body)),
        5 => E::Date(date(body)),
        6 => E::Timestamp(Timestamp { date: date(body), hour: body[4], minute: body[5], second: body[6] }),
        7 => E::Spatial(G { srid: u32::from_le_bytes(first(body)), wkt: text(&body[4..]) }),
        8 => E::Id(text(body)),
        kind => node(kind, body),
    }
}

/// A record that holds others.
fn node(kind: u8, body: &[u8]) -> E {
    match kind {
        9 => E::monadic(op(body), two(&body[2..]).0),
        10 => {
            let (x, y) = two(&body[2..]);
            E::dyadic(op(body), x, y)
        }
        11 => {
            let (name, items) = body[1..].split_at(usize::from(body[0]));
            E::Function(Call { name: text(name), params: trees(items) })
        }
        12 => E::Array(trees(body)),
        _ => {
            let (x, y) = two(body);
            E::interval(x, y)
        }
    }
}

/// The first record's tree and the second's; Null where there is no second.
fn two(records: &[u8]) -> (E, E) {
    let mut found = trees(records).into_iter();
    (found.next().expect("an operand"), found.next().unwrap_or_default())
}

fn trees(mut records: &[u8]) -> Vec<E> {
    let mut found = Vec::new();
    while !records.is_empty() {
        let length = u32::from_le_bytes(first(records)) as usize;
        let (one, rest) = records.split_at(KIND + length);
        found.push(tree(one));
        records = rest;
    }
    found
}

fn op(body: &[u8]) -> Op {
    Op::from_number(u16::from_le_bytes(first(body))).expect("an operator's number is at most 52")
}

fn string(body: &[u8]) -> QString {
    let plain = QString::plain(text(&body[1..]));
    let cased = if body[0] & 1 == 0 { plain } else { plain.and_icase() };
    if body[0] & 2 == 0 {
        cased
    } else {
        cased.and_iaccent()
    }
}

fn date(body: &[u8]) -> Date {
    Date { year: u16::from_le_bytes(first(body)), month: body[2], day: body[3] }
}

fn text(bytes: &[u8]) -> String {
    String::from_utf8(bytes.to_vec()).expect("names and texts are UTF-8")
}

fn first<const N: usize>(bytes: &[u8]) -> [u8; N] {
    bytes[..N].try_into().expect("a body has its fields")
}
