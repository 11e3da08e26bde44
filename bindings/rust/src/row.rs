//! A row for reading: names and values.
use crate::record::{begin, end, named};

/// The columns of a row, each a name and a value or NULL.
///
/// A name obeys the rule of names and stands once, in any letter case; a value is any `&str` of at most 64 bytes without
/// the characters U+0000 to U+001F and U+007F. [`read`](crate::read) refuses any other row (11). Dates are written as
/// `2024-01-02`, timestamps as `2024-01-02T03:04:05`: values compare as byte strings, which is as `&str` does.
#[derive(Clone, Debug, Default, PartialEq, Eq, Hash)]
pub struct Row {
    columns: Vec<(String, Option<String>)>,
}

impl Row {
    /// The empty row.
    pub fn new() -> Row {
        Row::default()
    }

    /// The row with one more column.
    #[must_use]
    pub fn with<N: Into<String>, V: Into<String>>(mut self, name: N, value: V) -> Row {
        self.columns.push((name.into(), Some(value.into())));
        self
    }

    /// The row with one more column, which is NULL.
    #[must_use]
    pub fn with_null<N: Into<String>>(mut self, name: N) -> Row {
        self.columns.push((name.into(), None));
        self
    }

    /// The columns, in order.
    pub fn columns(&self) -> &[(String, Option<String>)] {
        &self.columns
    }

    /// The run of records of kind 200.
    pub fn encode(&self) -> Vec<u8> {
        let mut out = Vec::new();
        for (name, value) in &self.columns {
            let start = begin(&mut out, 200);
            named(&mut out, name);
            out.push(u8::from(value.is_some()));
            out.extend_from_slice(value.as_deref().unwrap_or("").as_bytes());
            end(&mut out, start);
        }
        out
    }
}

/// `None` is NULL.
impl<N: Into<String>, V: Into<String>> FromIterator<(N, Option<V>)> for Row {
    fn from_iter<I: IntoIterator<Item = (N, Option<V>)>>(columns: I) -> Row {
        Row { columns: columns.into_iter().map(|(n, v)| (n.into(), v.map(Into::into))).collect() }
    }
}
