//! Lowers CQL2 filters to SQL text for a GeoPackage, by one call byte for byte that of ogc-cql2 but for apostrophes in
//! strings, which are doubled as SQLite reads them, by another with timestamps as a GeoPackage stores them and with open ends
//! above every instant; says beforehand how long either text is; reduces a filter before it is lowered; and reads what a time
//! filter's text says of a row.
//!
//! All of it is done by functions that are proved to meet the papers' rules on all inputs (crates/capi of this
//! repository, linked as `libcapi.a`, for x86-64 Linux); this crate builds their bytes from Rust types and refuses nothing
//! itself, except where an `f64` fits no [`Num`]. The layout of the bytes stands in include/wenduulig.h.
//!
//! Two calls write, and their texts differ in two things alone:
//!
//! | | [`to_sql`], as ogc-cql2 | [`to_geopackage_sql`] |
//! |---|---|---|
//! | a timestamp | `'2024-02-29T12:00:00'` | `'2024-02-29T12:00:00.000Z'`, as a GeoPackage's DATETIME columns hold it, in UTC |
//! | `..` as the second end of an interval | `'-2021-01-01'`, below every instant | `'A'`, above every instant |
//!
//! Texts compare byte by byte, so take the call that writes instants as the columns hold them. For stays that have not ended,
//! intervals from a start to `..`, take [`to_geopackage_sql`], of DATETIME columns and of DATE columns: by [`to_sql`] such a
//! stay ends before it begins. An open start, and a `..` that is no end of an interval, is `'-2021-01-01'` by both.
//!
//! [`preview_sql`] and [`preview_geopackage_sql`] answer what a call would that writes into a buffer of some size: the length
//! of the text, or the refusal. With [`TEXT_MAX`] or more, as `usize::MAX`, the length is what has to be reserved.
//!
//! A filter that is not reduced yet goes through [`E::reduce`] first, or as records through [`reduce_bytes`]; what comes of it is
//! lowered as any other.
//!
//! These are the planner's calls. [`controller`] has the same with the limits of the camera's controller.
//!
//! ```
//! use wenduulig::{preview_sql, read, to_geopackage_sql, to_sql, Op, Refusal, Row, Settings, E};
//!
//! // Stays that do not touch the day `a`: TDisjoint(a, [b, c]).
//! let filter = E::dyadic(Op::TDisjoint, E::id("a"), E::interval(E::id("b"), E::id("c")));
//! let sql = to_sql(&Settings::default(), &filter)?;
//! assert_eq!(sql, r#"("c" IS NOT NULL AND (a < b)) OR ("b" IS NOT NULL AND (a > c))"#);
//!
//! // Its length was to be had before, and a buffer that is a byte too short is refused.
//! assert_eq!(preview_sql(&Settings::default(), &filter, usize::MAX), Ok(62));
//! assert_eq!(preview_sql(&Settings::default(), &filter, 61), Err(Refusal::BufferTooShort));
//!
//! let row = Row::new().with("a", "2024-01-02").with("b", "2024-01-03").with("c", "2024-01-04");
//! assert_eq!(read(&sql, &row)?, Some(true));
//! let no_start = Row::new().with("a", "2024-01-02").with_null("b").with("c", "2024-01-01");
//! assert_eq!(read(&sql, &no_start)?, None); // unknown
//!
//! // A string is any `&str` without the characters U+0000 to U+001F and U+007F.
//! let label = to_sql(&Settings::default(), &E::dyadic(Op::Eq, E::id("label"), E::str("O'Ring für 5 mm")))?;
//! assert_eq!(label, "label = 'O''Ring für 5 mm'");
//! assert_eq!(read(&label, &Row::new().with("label", "O'Ring für 5 mm"))?, Some(true));
//!
//! // After noon, of a DATETIME column. The first call's text is shorter, and so lies below noon as the column has it.
//! let after = E::dyadic(Op::TAfter, E::id("seen"), E::timestamp(2024, 2, 29, 12, 0, 0));
//! let sql = to_geopackage_sql(&Settings::default(), &after)?;
//! assert_eq!(sql, "seen > '2024-02-29T12:00:00.000Z'");
//! let noon = Row::new().with("seen", "2024-02-29T12:00:00.000Z");
//! assert_eq!(read(&sql, &noon)?, Some(false));
//! assert_eq!(read(&to_sql(&Settings::default(), &after)?, &noon)?, Some(true)); // though noon is not after noon
//!
//! // A stay that has not ended: is it there a day later?
//! let (stay, later) = (E::interval(E::id("seen"), E::Unbounded), E::timestamp(2024, 3, 1, 12, 0, 0));
//! let there = E::dyadic(Op::TIntersects, stay, later);
//! let sql = to_geopackage_sql(&Settings::default(), &there)?;
//! assert_eq!(sql, "NOT(('A' < '2024-03-01T12:00:00.000Z') OR (seen > '2024-03-01T12:00:00.000Z'))");
//! assert_eq!(read(&sql, &noon)?, Some(true));
//! assert_eq!(read(&to_sql(&Settings::default(), &there)?, &noon)?, Some(false)); // there it has ended before it began
//!
//! // What breaks a rule is refused, with its number and words.
//! let refused = to_sql(&Settings::default(), &E::date(1900, 2, 29)).unwrap_err();
//! assert_eq!((refused, refused.number()), (Refusal::BadField, 6));
//! # Ok::<(), Refusal>(())
//! ```
//!
//! Calls keep no state and may run on any number of threads; each needs less than 128 KiB of stack.
#![deny(missing_docs, unsafe_code)]
#![warn(clippy::all)]

pub mod controller;
mod decode;
mod expr;
mod ffi;
mod op;
mod record;
mod refusal;
mod row;
mod settings;
mod walks;

use ffi::Caller::{self, Planner};
use ffi::Writing;

pub use expr::{Call, Date, Num, QString, Timestamp, E, G};
pub use op::Op;
pub use refusal::Refusal;
pub use row::Row;
pub use settings::Settings;

/// The length of the planner's longest text, in bytes; [`controller::TEXT_MAX`] is the controller's.
pub const TEXT_MAX: usize = 65_535;

/// The length of the planner's longest tree as records, in bytes, and so of a reduced one.
pub const TREE_MAX: usize = 32_768;

/// The bytes that are tried first for a tree of no more; for a longer tree [`TIMES_TREE`] times its own. Most texts are shorter,
/// and one that is not is lowered anew into as many as the caller's longest text has. To ask for the length by a preview first takes half as long
/// again where the first try is enough, as it mostly is (examples/reserving.rs).
const FIRST_TRY: usize = 1024;
const TIMES_TREE: usize = 3;

/// The SQL text of a filter, byte for byte that of ogc-cql2 but for doubled apostrophes. `..` lies below every instant, also as
/// the end of an interval: for stays that have not ended take [`to_geopackage_sql`].
///
/// # Errors
/// The first refusal of 1 to 8 that document 01's order gives.
pub fn to_sql(settings: &Settings, filter: &E) -> Result<String, Refusal> {
    to_sql_bytes(&settings.encode(), &filter.encode())
}

/// The SQL text of a filter that is at hand as records: settings and tree, laid out as include/wenduulig.h says.
///
/// # Errors
/// The first refusal of 1 to 8 that document 01's order gives. Any bytes may be handed in.
pub fn to_sql_bytes(settings: &[u8], tree: &[u8]) -> Result<String, Refusal> {
    lower(Planner, Writing::Rust, settings, tree)
}

/// Lowers into a buffer of the caller's and answers the text's length. Bytes past the text, and after a refusal all bytes,
/// stay as they were.
///
/// # Errors
/// The first refusal of 1 to 9 that document 01's order gives.
pub fn to_sql_into(settings: &[u8], tree: &[u8], out: &mut [u8]) -> Result<usize, Refusal> {
    lower_into(Planner, Writing::Rust, settings, tree, out)
}

/// The SQL text of a filter with timestamps as a GeoPackage stores them in DATETIME columns: `.000Z` stands after their
/// seconds, the fields being UTC; and with `..` above every instant where it is the second end of an interval: `'A'`, which
/// lies above every digit. All else is as [`to_sql`] writes it.
///
/// # Errors
/// Those of [`to_sql`]; 8 counts the text of this call.
pub fn to_geopackage_sql(settings: &Settings, filter: &E) -> Result<String, Refusal> {
    to_geopackage_sql_bytes(&settings.encode(), &filter.encode())
}

/// The same of records, as [`to_sql_bytes`].
///
/// # Errors
/// Those of [`to_sql_bytes`]; 8 counts the text of this call.
pub fn to_geopackage_sql_bytes(settings: &[u8], tree: &[u8]) -> Result<String, Refusal> {
    lower(Planner, Writing::GeoPackage, settings, tree)
}

/// The same into a buffer of the caller's, as [`to_sql_into`].
///
/// # Errors
/// Those of [`to_sql_into`]; 8 and 9 count the text of this call.
pub fn to_geopackage_sql_into(settings: &[u8], tree: &[u8], out: &mut [u8]) -> Result<usize, Refusal> {
    lower_into(Planner, Writing::GeoPackage, settings, tree, out)
}

/// The length that [`to_sql`]'s text has, in bytes, if it is no longer than `size`: what [`to_sql_into`] answers with a buffer
/// of that size. With [`TEXT_MAX`] or more it is never refused with [`Refusal::BufferTooShort`].
///
/// # Errors
/// The first refusal of 1 to 9 that document 01's order gives.
///
/// ```
/// use wenduulig::{preview_sql, Refusal, Settings, E};
///
/// let (settings, filter) = (Settings::default(), E::str("O'Ring"));
/// assert_eq!(preview_sql(&settings, &filter, usize::MAX), Ok(9)); // 'O''Ring'
/// assert_eq!(preview_sql(&settings, &filter, 8), Err(Refusal::BufferTooShort));
/// assert_eq!(preview_sql(&settings, &E::str("O\tRing"), 0), Err(Refusal::BadField));
/// ```
pub fn preview_sql(settings: &Settings, filter: &E, size: usize) -> Result<usize, Refusal> {
    preview_sql_bytes(&settings.encode(), &filter.encode(), size)
}

/// The same of records, as [`to_sql_bytes`]; for a caller that reserves its own buffers.
///
/// # Errors
/// The first refusal of 1 to 9 that document 01's order gives. Any bytes may be handed in.
///
/// ```
/// use wenduulig::{preview_sql_bytes, to_sql_into, Op, Refusal, Settings, E};
///
/// let settings = Settings::default().encode();
/// let tree = E::dyadic(Op::TAfter, E::id("entered"), E::date(2024, 2, 29)).encode();
/// let mut out = vec![0; preview_sql_bytes(&settings, &tree, usize::MAX)?];
/// assert_eq!(to_sql_into(&settings, &tree, &mut out), Ok(out.len()));
/// assert_eq!(out, b"entered > '2024-02-29'");
/// # Ok::<(), Refusal>(())
/// ```
pub fn preview_sql_bytes(settings: &[u8], tree: &[u8], size: usize) -> Result<usize, Refusal> {
    preview(Planner, Writing::Rust, settings, tree, size)
}

/// The same of [`to_geopackage_sql`]: what [`to_geopackage_sql_into`] answers with a buffer of that size.
///
/// # Errors
/// Those of [`preview_sql`]; 8 and 9 count the text of this call.
///
/// ```
/// use wenduulig::{preview_geopackage_sql, preview_sql, Settings, E};
///
/// let (settings, noon) = (Settings::default(), E::timestamp(2024, 2, 29, 12, 0, 0));
/// assert_eq!(preview_sql(&settings, &noon, usize::MAX), Ok(21));
/// assert_eq!(preview_geopackage_sql(&settings, &noon, usize::MAX), Ok(26)); // .000Z
/// ```
pub fn preview_geopackage_sql(settings: &Settings, filter: &E, size: usize) -> Result<usize, Refusal> {
    preview_geopackage_sql_bytes(&settings.encode(), &filter.encode(), size)
}

/// The same of records, as [`preview_sql_bytes`].
///
/// # Errors
/// Those of [`preview_sql_bytes`]; 8 and 9 count the text of this call.
pub fn preview_geopackage_sql_bytes(settings: &[u8], tree: &[u8], size: usize) -> Result<usize, Refusal> {
    preview(Planner, Writing::GeoPackage, settings, tree, size)
}

/// A tree reduced, as [`E::reduce`], from records to records.
///
/// # Errors
/// The first refusal of 2 to 7, then [`Refusal::ConstantOperands`]. Any bytes may be handed in.
pub fn reduce_bytes(tree: &[u8]) -> Result<Vec<u8>, Refusal> {
    // a reduced tree is no longer than its tree, and one that is longer than the limit is refused by 2
    let mut out = vec![0; tree.len().min(TREE_MAX)];
    let n = reduce_into(tree, &mut out)?;
    out.truncate(n);
    Ok(out)
}

/// The same into a buffer of the caller's: answers the length of the reduced tree. Bytes past it, and after a refusal all bytes,
/// stay as they were. With a buffer as long as the tree it is never refused with [`Refusal::BufferTooShort`].
///
/// # Errors
/// Those of [`reduce_bytes`], then 9: the reduced tree is longer than the buffer.
///
/// ```
/// use wenduulig::{reduce_into, Op, Refusal, E};
///
/// let tree = E::monadic(Op::Minus, E::int(5)).encode();
/// let mut out = [7; 20];
/// assert_eq!(reduce_into(&tree, &mut out), Ok(15));
/// assert_eq!((&out[..15], &out[15..]), (&E::int(-5).encode()[..], &[7; 5][..]));
/// assert_eq!(reduce_into(&tree, &mut [0; 14]), Err(Refusal::BufferTooShort));
/// ```
pub fn reduce_into(tree: &[u8], out: &mut [u8]) -> Result<usize, Refusal> {
    answered(ffi::reduce(tree, out))
}

/// The length of a caller's longest text, in bytes.
const fn text_max(caller: Caller) -> usize {
    match caller {
        Planner => TEXT_MAX,
        Caller::Controller => controller::TEXT_MAX,
    }
}

fn lower(caller: Caller, writing: Writing, settings: &[u8], tree: &[u8]) -> Result<String, Refusal> {
    let (mut short, mut long);
    let first: &mut [u8] = if tree.len() <= FIRST_TRY {
        short = [0; FIRST_TRY];
        &mut short
    } else {
        long = vec![0; text_max(caller).min(tree.len().saturating_mul(TIMES_TREE))];
        &mut long
    };
    match lower_into(caller, writing, settings, tree, first) {
        Err(Refusal::BufferTooShort) => {
            let mut out = vec![0; text_max(caller)];
            let n = lower_into(caller, writing, settings, tree, &mut out)?;
            Ok(string(&out[..n]))
        }
        answer => Ok(string(&first[..answer?])),
    }
}

fn lower_into(
    caller: Caller,
    writing: Writing,
    settings: &[u8],
    tree: &[u8],
    out: &mut [u8],
) -> Result<usize, Refusal> {
    answered(ffi::lower(caller, writing, settings, tree, out))
}

fn preview(caller: Caller, writing: Writing, settings: &[u8], tree: &[u8], size: usize) -> Result<usize, Refusal> {
    answered(ffi::preview(caller, writing, settings, tree, size))
}

/// A length, or the refusal of an answer below zero.
fn answered(answer: i64) -> Result<usize, Refusal> {
    usize::try_from(answer).map_err(|_| refusal(answer))
}

/// What an SQL text says of a row: true, false, or `None` for unknown.
///
/// # Errors
/// The first refusal of 10 to 13 that document 01's order gives.
pub fn read(text: &str, row: &Row) -> Result<Option<bool>, Refusal> {
    read_bytes(text.as_bytes(), &row.encode())
}

/// The same for a text and a row that are at hand as bytes; the row's layout stands in include/wenduulig.h.
///
/// # Errors
/// The first refusal of 10 to 13 that document 01's order gives. Any bytes may be handed in.
pub fn read_bytes(text: &[u8], row: &[u8]) -> Result<Option<bool>, Refusal> {
    match ffi::read(text, row) {
        0 => Ok(Some(false)),
        1 => Ok(Some(true)),
        2 => Ok(None),
        answer => Err(refusal(i64::from(answer))),
    }
}

/// The refusal of an answer below zero. The contract of crates/capi has no other answers than these.
fn refusal(answer: i64) -> Refusal {
    u8::try_from(-answer).ok().and_then(Refusal::from_number).expect("an answer below zero is minus a refusal's number")
}

/// Only UTF-8 is let into strings, and only ASCII into all else, so a text is UTF-8.
fn string(text: &[u8]) -> String {
    String::from_utf8(text.to_vec()).expect("a text is UTF-8")
}
