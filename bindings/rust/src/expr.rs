//! The owned tree that mirrors the source's `E`, and its records.
use crate::op::Op;
use crate::record::{begin, end, named};
use crate::refusal::Refusal;
use crate::{decode, reduce_bytes};
use std::mem;

/// A filter: an expression tree with the variants of `E` in ogc-cql2 (src/expr.rs).
///
/// Where the source holds an `f64`, a `Zoned` or a geometry, this holds what document 01 writes in their place: [`Num`],
/// civil fields ([`Date`], [`Timestamp`]) and a WKT text ([`G`]). Any tree may be built; the proved checker behind
/// [`to_sql`](crate::to_sql) and [`to_geopackage_sql`](crate::to_geopackage_sql) refuses what breaks a rule.
///
/// A tree may be as deep as memory allows: encoding, cloning, comparing, hashing, showing and dropping use no recursion
/// (so `E` implements `Drop`; take parts out of it by reference or by [`std::mem::take`]).
#[derive(Default)]
pub enum E {
    /// NULL.
    #[default]
    Null,
    /// `..`, an open start or end of an interval. As the second end of an [`E::Interval`] it lies above every instant by
    /// [`to_geopackage_sql`](crate::to_geopackage_sql), and below by [`to_sql`](crate::to_sql); in any other place below, by
    /// both.
    Unbounded,
    /// TRUE or FALSE.
    Bool(bool),
    /// A number.
    Num(Num),
    /// A string, to be compared as its flags say.
    Str(QString),
    /// A calendar day.
    Date(Date),
    /// A day and a time of day.
    Timestamp(Timestamp),
    /// A geometry.
    Spatial(G),
    /// A column's name.
    Id(String),
    /// An operator of one operand.
    Monadic(Op, Box<E>),
    /// An operator of two operands.
    Dyadic(Op, Box<E>, Box<E>),
    /// A call of a function.
    Function(Call),
    /// A list.
    Array(Vec<E>),
    /// An interval from its start to its end; only a direct operand of a temporal operator.
    Interval(Box<E>, Box<E>),
}

/// A decimal number: `mantissa` ÷ 10^`scale`.
#[derive(Clone, Copy, Debug, PartialEq, Eq, Hash)]
pub struct Num {
    /// From −(10^15 − 1) to 10^15 − 1.
    pub mantissa: i64,
    /// 0 to 9.
    pub scale: u8,
}

impl From<i32> for Num {
    fn from(x: i32) -> Num {
        Num::from(i64::from(x))
    }
}

/// Any number can be made; one of more than fifteen digits is refused (6) when it is lowered.
impl From<i64> for Num {
    fn from(x: i64) -> Num {
        Num { mantissa: x, scale: 0 }
    }
}

impl TryFrom<f64> for Num {
    type Error = Refusal;

    /// The shortest decimal that stands for `x`, as the source prints it; −0.0 becomes 0.
    ///
    /// # Errors
    /// [`Refusal::BadField`] where a record cannot hold it: not finite, more than fifteen digits, or more than nine after
    /// the point.
    fn try_from(x: f64) -> Result<Num, Refusal> {
        let shown = x.to_string();
        let (whole, part) = shown.split_once('.').unwrap_or((&shown, ""));
        let mantissa: i64 = format!("{whole}{part}").parse().map_err(|_| Refusal::BadField)?;
        match u8::try_from(part.len()) {
            Ok(scale) if scale <= 9 && mantissa.unsigned_abs() < 1_000_000_000_000_000 => Ok(Num { mantissa, scale }),
            _ => Err(Refusal::BadField),
        }
    }
}

/// A string with the flags of the source's `QString`: whether to ignore letter case, accents, or both.
#[derive(Clone, Debug, PartialEq, Eq, Hash)]
pub struct QString {
    inner: String,
    flags: u8,
}

impl QString {
    /// A plain string, compared as it is.
    pub fn plain<S: Into<String>>(s: S) -> QString {
        QString { inner: s.into(), flags: 0 }
    }

    /// The same, ignoring letter case too.
    #[must_use]
    pub fn and_icase(&self) -> QString {
        QString { inner: self.inner.clone(), flags: self.flags | 1 }
    }

    /// The same, ignoring accents too.
    #[must_use]
    pub fn and_iaccent(&self) -> QString {
        QString { inner: self.inner.clone(), flags: self.flags | 2 }
    }

    /// The string itself.
    pub fn as_str(&self) -> &str {
        &self.inner
    }

    /// 0 plain, 1 ignoring case, 2 ignoring accents, 3 both.
    pub fn flags(&self) -> u8 {
        self.flags
    }
}

/// A day of the Gregorian calendar.
#[derive(Clone, Copy, Debug, PartialEq, Eq, Hash, PartialOrd, Ord)]
pub struct Date {
    /// 1 to 9999.
    pub year: u16,
    /// 1 to 12.
    pub month: u8,
    /// From 1 to the month's last.
    pub day: u8,
}

/// A day and a time, as civil fields: for [`to_geopackage_sql`](crate::to_geopackage_sql) those of UTC.
#[derive(Clone, Copy, Debug, PartialEq, Eq, Hash, PartialOrd, Ord)]
pub struct Timestamp {
    /// The day.
    pub date: Date,
    /// 0 to 23.
    pub hour: u8,
    /// 0 to 59.
    pub minute: u8,
    /// 0 to 59.
    pub second: u8,
}

/// A geometry: its well-known text and the number of its reference system.
#[derive(Clone, Debug, PartialEq, Eq, Hash)]
pub struct G {
    /// The reference system, as 4326.
    pub srid: u32,
    /// 1 to 4,096 bytes of letters, digits, space, comma, parentheses, minus, point.
    pub wkt: String,
}

/// A function's name and its arguments.
#[derive(Clone, Debug, PartialEq, Eq, Hash)]
pub struct Call {
    /// The name.
    pub name: String,
    /// The arguments, in order.
    pub params: Vec<E>,
}

impl E {
    /// A column.
    pub fn id<S: Into<String>>(name: S) -> E {
        E::Id(name.into())
    }

    /// A plain string: any characters, of at most 4,096 bytes; one with a character of U+0000 to U+001F, or with
    /// U+007F, is refused (6) when it is lowered.
    pub fn str<S: Into<String>>(s: S) -> E {
        E::Str(QString::plain(s))
    }

    /// A whole number; one of more than fifteen digits is refused (6) when it is lowered.
    pub fn int(x: i64) -> E {
        E::Num(x.into())
    }

    /// A day.
    pub fn date(year: u16, month: u8, day: u8) -> E {
        E::Date(Date { year, month, day })
    }

    /// A day and a time of day, as civil fields: for [`to_geopackage_sql`](crate::to_geopackage_sql) those of UTC.
    pub fn timestamp(year: u16, month: u8, day: u8, hour: u8, minute: u8, second: u8) -> E {
        E::Timestamp(Timestamp { date: Date { year, month, day }, hour, minute, second })
    }

    /// A geometry: the number of its reference system, as 4326, and its well-known text, as `POINT (1 2)`.
    pub fn spatial<S: Into<String>>(srid: u32, wkt: S) -> E {
        E::Spatial(G { srid, wkt: wkt.into() })
    }

    /// An operator of one operand.
    pub fn monadic(op: Op, x: E) -> E {
        E::Monadic(op, Box::new(x))
    }

    /// An operator of two operands.
    pub fn dyadic(op: Op, x: E, y: E) -> E {
        E::Dyadic(op, Box::new(x), Box::new(y))
    }

    /// A call of a function.
    pub fn function<S: Into<String>>(name: S, params: Vec<E>) -> E {
        E::Function(Call { name: name.into(), params })
    }

    /// An interval. From a start to [`E::Unbounded`] it is a stay that has not ended, for
    /// [`to_geopackage_sql`](crate::to_geopackage_sql).
    pub fn interval(start: E, end: E) -> E {
        E::Interval(Box::new(start), Box::new(end))
    }

    /// The records, laid out as include/wenduulig.h says. Every tree has some; what breaks a rule is refused when they are
    /// lowered.
    pub fn encode(&self) -> Vec<u8> {
        let mut out = Vec::new();
        let mut open = vec![Step::Begin(self)];
        while let Some(step) = open.pop() {
            match step {
                Step::Begin(e) => {
                    let start = begin(&mut out, e.kind());
                    e.put_fields(&mut out);
                    open.push(Step::End(start));
                    open.extend(e.children().map(Step::Begin));
                }
                Step::End(start) => end(&mut out, start),
            }
        }
        out
    }

    /// The tree reduced as `E::reduce` of ogc-cql2 does it: what can be told of Null, Bools, negative numbers, strings under CaseI
    /// and AccentI, and of written instants under TAfter, TBefore, TDisjoint, TEquals and TIntersects, is put in its place. A
    /// date stands for its midnight, and `..` for an instant below all others. The negative of a zero is 0, where the source has
    /// −0.
    ///
    /// Reducing is a step of its own: [`to_sql`](crate::to_sql) and the others take a tree as it is, reduced or not. What comes of
    /// it reduces to itself.
    ///
    /// # Errors
    /// The first refusal of 2 to 7, then [`Refusal::ConstantOperands`], where an operator of two literals is none of these.
    ///
    /// ```
    /// use wenduulig::{to_sql, Op, Refusal, Settings, E};
    ///
    /// // a AND NOT (NULL AND FALSE): the part without a column is told beforehand.
    /// let nothing = E::dyadic(Op::And, E::Null, E::Bool(false));
    /// let filter = E::dyadic(Op::And, E::id("a"), E::monadic(Op::Neg, nothing));
    /// assert_eq!(filter.reduce()?, E::dyadic(Op::And, E::id("a"), E::Bool(true)));
    /// assert_eq!(to_sql(&Settings::default(), &filter.reduce()?)?, "a AND TRUE");
    ///
    /// // 1 = 1 is not reckoned.
    /// let constant = E::dyadic(Op::Eq, E::int(1), E::int(1));
    /// assert_eq!(constant.reduce(), Err(Refusal::ConstantOperands));
    /// # Ok::<(), Refusal>(())
    /// ```
    pub fn reduce(&self) -> Result<E, Refusal> {
        reduce_bytes(&self.encode()).map(|record| decode::tree(&record))
    }

    /// The kind's number, 0 to 13.
    pub(crate) fn kind(&self) -> u16 {
        match self {
            E::Null => 0,
            E::Unbounded => 1,
            E::Bool(_) => 2,
            E::Num(_) => 3,
            E::Str(_) => 4,
            E::Date(_) => 5,
            E::Timestamp(_) => 6,
            E::Spatial(_) => 7,
            E::Id(_) => 8,
            E::Monadic(..) => 9,
            E::Dyadic(..) => 10,
            E::Function(_) => 11,
            E::Array(_) => 12,
            E::Interval(..) => 13,
        }
    }

    /// Writes what the body holds before the records inside it.
    fn put_fields(&self, out: &mut Vec<u8>) {
        match self {
            E::Null | E::Unbounded | E::Array(_) | E::Interval(..) => {}
            E::Bool(x) => out.push(u8::from(*x)),
            E::Num(x) => {
                out.extend_from_slice(&x.mantissa.to_le_bytes());
                out.push(x.scale);
            }
            E::Str(x) => {
                out.push(x.flags);
                out.extend_from_slice(x.inner.as_bytes());
            }
            E::Date(x) => put_date(out, *x),
            E::Timestamp(x) => {
                put_date(out, x.date);
                out.extend_from_slice(&[x.hour, x.minute, x.second]);
            }
            E::Spatial(x) => {
                out.extend_from_slice(&x.srid.to_le_bytes());
                out.extend_from_slice(x.wkt.as_bytes());
            }
            E::Id(x) => out.extend_from_slice(x.as_bytes()),
            E::Monadic(op, _) | E::Dyadic(op, ..) => out.extend_from_slice(&op.number().to_le_bytes()),
            E::Function(x) => named(out, &x.name),
        }
    }

    /// The trees inside this one, the last first: a stack hands them out in order.
    pub(crate) fn children(&self) -> impl Iterator<Item = &E> {
        let (pair, list): ([Option<&E>; 2], &[E]) = match self {
            E::Monadic(_, x) => ([Some(x), None], &[]),
            E::Dyadic(_, x, y) | E::Interval(x, y) => ([Some(y), Some(x)], &[]),
            E::Function(x) => ([None, None], &x.params),
            E::Array(x) => ([None, None], x),
            _ => ([None, None], &[]),
        };
        pair.into_iter().flatten().chain(list.iter().rev())
    }

    fn children_mut(&mut self) -> impl Iterator<Item = &mut E> {
        let (pair, list): ([Option<&mut E>; 2], &mut [E]) = match self {
            E::Monadic(_, x) => ([Some(x), None], &mut []),
            E::Dyadic(_, x, y) | E::Interval(x, y) => ([Some(x), Some(y)], &mut []),
            E::Function(x) => ([None, None], &mut x.params),
            E::Array(x) => ([None, None], x),
            _ => ([None, None], &mut []),
        };
        pair.into_iter().flatten().chain(list.iter_mut())
    }

    /// Moves the children that have children of their own to `open`.
    fn take_inner(&mut self, open: &mut Vec<E>) {
        for child in self.children_mut() {
            if child.children().next().is_some() {
                open.push(mem::take(child));
            }
        }
    }
}

/// Drops a tree of any depth on a list instead of the stack.
impl Drop for E {
    fn drop(&mut self) {
        let mut open = Vec::new();
        self.take_inner(&mut open);
        while let Some(mut e) = open.pop() {
            e.take_inner(&mut open);
        }
    }
}

/// What is left to write: a tree, or the length of the record that began here.
enum Step<'a> {
    Begin(&'a E),
    End(usize),
}

fn put_date(out: &mut Vec<u8>, x: Date) {
    out.extend_from_slice(&x.year.to_le_bytes());
    out.extend_from_slice(&[x.month, x.day]);
}
