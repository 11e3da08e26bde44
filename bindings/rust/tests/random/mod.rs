//! Random trees from a fixed seed: all kinds, operators and flags, nested at every place.
#![allow(dead_code)] // each test takes a part of it
use wenduulig::{Date, Num, Op, QString, Settings, Timestamp, E, G};

/// Numbers from a seed (splitmix64).
pub struct Random(u64);

impl Random {
    pub fn new(seed: u64) -> Random {
        Random(seed)
    }

    fn next(&mut self) -> u64 {
        self.0 = self.0.wrapping_add(0x9E37_79B9_7F4A_7C15);
        let mut z = self.0;
        z = (z ^ (z >> 30)).wrapping_mul(0xBF58_476D_1CE4_E5B9);
        z = (z ^ (z >> 27)).wrapping_mul(0x94D0_49BB_1331_11EB);
        z ^ (z >> 31)
    }

    /// Below n.
    pub fn below(&mut self, n: usize) -> usize {
        (self.next() % n as u64) as usize
    }

    fn of<T: Copy>(&mut self, all: &[T]) -> T {
        all[self.below(all.len())]
    }

    fn letters(&mut self, from: &[u8], n: usize) -> String {
        (0..n).map(|_| char::from(self.of(from))).collect()
    }

    /// A name; now and then of 64 bytes.
    fn name(&mut self) -> String {
        let n = self.of(&[1, 1, 2, 3, 5, 8, 12, 64]);
        self.letters(b"acxzAZ_", 1) + &self.letters(b"acxzAZ_019", n - 1)
    }

    pub fn settings(&mut self) -> Settings {
        let [ci, ai, cai] = [self.name(), self.name(), self.name()];
        Settings::new(self.below(16) as u8, &ci, &ai, &cai)
    }

    fn date(&mut self) -> Date {
        let year = self.of(&[1, 4, 999, 1900, 2000, 2021, 2024, 9999]);
        let month = 1 + self.below(12) as u8;
        let leap = year % 4 == 0 && (year % 100 != 0 || year % 400 == 0);
        let last = match month {
            2 => 28 + usize::from(leap),
            4 | 6 | 9 | 11 => 30,
            _ => 31,
        };
        Date { year, month, day: 1 + self.below(last) as u8 }
    }

    fn num(&mut self) -> Num {
        let size = 10_i64.pow(1 + self.below(15) as u32);
        let least = 1 - size;
        let mantissa = match self.below(5) {
            0 => 0,
            1 => least,
            2 => size - 1,
            _ => least + (self.next() % (2 * size as u64 - 1)) as i64,
        };
        Num { mantissa, scale: self.below(10) as u8 }
    }

    /// Without an apostrophe, which the Rust does not double.
    fn string(&mut self) -> QString {
        let n = self.of(&[0, 1, 3, 9, 40]);
        let mut some: Vec<char> = (' '..='~').filter(|c| *c != '\'').collect();
        if self.below(2) == 0 {
            some.truncate(8);
            some.extend("éüßΩ車🔩\u{80}\u{9f}\u{7ff}\u{800}\u{ffff}\u{10000}\u{10ffff}".chars());
        }
        let s = QString::plain((0..n).map(|_| self.of(&some)).collect::<String>());
        match self.below(4) {
            0 => s,
            1 => s.and_icase(),
            2 => s.and_iaccent(),
            _ => s.and_icase().and_iaccent(),
        }
    }

    fn leaf(&mut self) -> E {
        match self.below(10) {
            0 => E::Null,
            1 => E::Unbounded,
            2 => E::Bool(self.below(2) == 1),
            3 => E::Num(self.num()),
            4 => E::Str(self.string()),
            5 => E::Date(self.date()),
            6 => {
                let date = self.date();
                let [hour, minute, second] = [24, 60, 60].map(|n| self.below(n) as u8);
                E::Timestamp(Timestamp { date, hour, minute, second })
            }
            7 => {
                let srid = self.of(&[0, 4326, u32::MAX]);
                E::Spatial(G { srid, wkt: self.of(&["POINT (1 2)", "LINESTRING(0 0,1.5 -2)", "a"]).into() })
            }
            _ => E::Id(self.name()),
        }
    }

    fn list(&mut self, n: usize, depth: usize) -> Vec<E> {
        (0..n).map(|_| self.tree(depth)).collect()
    }

    /// An operand of a temporal operator: an interval, if the operator wants one.
    fn operand(&mut self, op: Op, depth: usize) -> E {
        if op.instant_or_interval() && self.below(2) == 0 {
            return self.end(depth);
        }
        let (start, end) = (self.end(depth), self.end(depth));
        E::interval(start, end)
    }

    fn end(&mut self, depth: usize) -> E {
        match self.below(5) {
            0 => E::Null,
            1 => E::Unbounded,
            2 => E::Date(self.date()),
            3 => E::Id(self.name()),
            _ => self.tree(depth.saturating_sub(1)),
        }
    }

    /// A node of the operator, of one or two operands as it takes.
    pub fn node(&mut self, op: Op, depth: usize) -> E {
        if op.is_monadic() && (!op.is_dyadic() || self.below(2) == 0) {
            return E::monadic(op, self.tree(depth));
        }
        let (x, y) = match op {
            op if op.temporal() => (self.operand(op, depth), self.operand(op, depth)),
            Op::IsBetween | Op::IsNotBetween => (self.tree(depth), E::Array(self.list(2, depth))),
            Op::IsInList | Op::IsNotInList => {
                let n = self.below(4);
                (self.tree(depth), E::Array(self.list(n, depth)))
            }
            _ => (self.tree(depth), self.tree(depth)),
        };
        E::dyadic(op, x, y)
    }

    /// A tree of at most so many levels more.
    pub fn tree(&mut self, depth: usize) -> E {
        if depth == 0 || self.below(4) == 0 {
            return self.leaf();
        }
        match self.below(8) {
            0 => {
                let (name, n) = (self.name(), self.below(4));
                E::function(name, self.list(n, depth - 1))
            }
            1 => {
                let n = self.below(4);
                E::Array(self.list(n, depth - 1))
            }
            _ => {
                let op = self.of(&Op::ALL);
                self.node(op, depth - 1)
            }
        }
    }
}
