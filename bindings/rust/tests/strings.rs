//! Strings with apostrophes and characters of any length, as trees, rows and texts; which bytes are taken, held against
//! `std::str::from_utf8`.
use std::str::from_utf8;
use wenduulig::{read, read_bytes, to_sql, to_sql_bytes, Op, Refusal, Row, Settings, E};

const LABELS: [&str; 18] = [
    "",
    "'",
    "''",
    "'''",
    "O'Ring 5 mm",
    "O Ring",
    "O(Ring",
    "Flügel",
    "Flu\u{308}gel",
    "d'été",
    "a'",
    "a''",
    "a",
    "é",
    "車",
    "\u{ffff}",
    "🔩",
    "🔩'",
];

fn lower(e: &E) -> Result<String, Refusal> {
    to_sql(&Settings::default(), e)
}

fn quoted(s: &str) -> String {
    format!("'{}'", s.replace('\'', "''"))
}

fn is_control(b: u8) -> bool {
    b < 0x20 || b == 0x7F
}

#[test]
fn texts() {
    assert_eq!(lower(&E::str("O'Ring 5 mm")).as_deref(), Ok("'O''Ring 5 mm'"));
    assert_eq!(lower(&E::str("'")).as_deref(), Ok("''''"));
    assert_eq!(lower(&E::str("''")).as_deref(), Ok("''''''"));
    assert_eq!(lower(&E::str("Flügel")).as_deref(), Ok("'Flügel'"));
    for label in LABELS {
        assert_eq!(lower(&E::str(label)), Ok(quoted(label)));
    }
    for apostrophes in [4095, 4096] {
        let text = "'".repeat(apostrophes);
        assert_eq!(lower(&E::str(text.as_str())), Ok(quoted(&text)));
    }
}

/// The text of a comparison says of a row what Rust's own order says of the two strings.
#[test]
fn comparisons() {
    for (a, b) in LABELS.into_iter().flat_map(|a| LABELS.map(|b| (a, b))) {
        let row = Row::new().with("a", a).with("b", b);
        let signs = [
            (Op::Lt, a < b),
            (Op::Gt, a > b),
            (Op::Lte, a <= b),
            (Op::Gte, a >= b),
            (Op::Eq, a == b),
            (Op::Neq, a != b),
        ];
        for (op, says) in signs {
            for (x, y) in
                [(E::id("a"), E::str(b)), (E::str(a), E::id("b")), (E::str(a), E::str(b)), (E::id("a"), E::id("b"))]
            {
                let sql = lower(&E::dyadic(op, x, y)).expect("a text");
                assert_eq!(read(&sql, &row), Ok(Some(says)), "{sql}");
            }
        }
    }
}

/// Every character but the control bytes, a thousand in a string.
#[test]
fn every_character() {
    let all: Vec<char> = ('\u{0}'..=char::MAX).filter(|c| !u8::try_from(*c).is_ok_and(is_control)).collect();
    assert_eq!(all.len(), 0x11_0000 - 0x800 - 33);
    for part in all.chunks(1000) {
        let text: String = part.iter().collect();
        assert_eq!(lower(&E::str(text.as_str())), Ok(quoted(&text)));
        assert_eq!(read(&format!("{} = NULL", quoted(&text)), &Row::new()), Ok(None));
    }
}

/// A record of this kind.
fn record(kind: u8, body: &[u8]) -> Vec<u8> {
    let length = u32::try_from(body.len() + 2).expect("a short body").to_le_bytes();
    [&length[..], &[kind, 0], body].concat()
}

/// Whether the bytes are taken as a Str, as a value and in quotes: by all three, or by none.
fn taken(bytes: &[u8]) -> bool {
    let tree = to_sql_bytes(&Settings::default().encode(), &record(4, &[&[0], bytes].concat()));
    let row = read_bytes(b"TRUE", &record(200, &[&[1, b'a', 1], bytes].concat()));
    let text = read_bytes(&[b"'", bytes, b"'=NULL"].concat(), &[]);
    let all = tree.is_ok();
    assert_eq!(row, if all { Ok(Some(true)) } else { Err(Refusal::BadRow) }, "{bytes:x?}");
    assert_eq!(text, if all { Ok(None) } else { Err(Refusal::BadText) }, "{bytes:x?}");
    assert!(all || tree == Err(Refusal::BadField), "{bytes:x?}");
    all
}

/// All sequences of a byte and of two that hold no apostrophe; of three and four every lead with the edges of what follows.
#[test]
fn bytes_that_are_taken() {
    let edges = [0x20, 0x7F, 0x80, 0x8F, 0x90, 0x9F, 0xA0, 0xBF, 0xC0, 0xFF];
    let mut sequences: Vec<Vec<u8>> = (0..=255).map(|a| vec![a]).collect();
    sequences.extend((0..=255).flat_map(|a| (0..=255).map(move |b| vec![a, b])));
    for (lead, (a, b)) in
        (0xE0..=0xFF).flat_map(|lead| edges.into_iter().flat_map(move |a| edges.map(|b| (lead, (a, b)))))
    {
        sequences.push(vec![lead, a, b]);
        sequences.extend(edges.map(|c| vec![lead, a, b, c]));
    }
    for bytes in sequences.into_iter().filter(|bytes| !bytes.contains(&b'\'')) {
        let right = from_utf8(&bytes).is_ok() && !bytes.iter().copied().any(is_control);
        assert_eq!(taken(&bytes), right, "{bytes:x?}");
    }
}
