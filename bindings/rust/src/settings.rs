//! The settings record: what the source takes from its constants and its configuration.
use crate::record::{begin, end, named};

/// The precision to which a geometry column is reduced, and the names of the three collations.
#[derive(Clone, Debug, PartialEq, Eq, Hash)]
pub struct Settings {
    /// 0 to 15: p in `ST_ReducePrecision(g, 1E-p)`.
    pub precision: u8,
    /// The collation that ignores letter case, `CQL2_CI` in the source.
    pub ci: String,
    /// The collation that ignores accents, `CQL2_AI` in the source.
    pub ai: String,
    /// The collation that ignores both, `CQL2_CAI` in the source.
    pub cai: String,
}

/// Precision 7, as in document 01's sheets, and the collations' names that the source registers with SQLite.
impl Default for Settings {
    fn default() -> Settings {
        Settings::new(7, "CQL2_CI", "CQL2_AI", "CQL2_CI_AI")
    }
}

impl Settings {
    /// Settings from their four parts.
    pub fn new(precision: u8, ci: &str, ai: &str, cai: &str) -> Settings {
        Settings { precision, ci: ci.into(), ai: ai.into(), cai: cai.into() }
    }

    /// The record of kind 100.
    pub fn encode(&self) -> Vec<u8> {
        let mut out = Vec::new();
        let start = begin(&mut out, 100);
        out.push(self.precision);
        for name in [&self.ci, &self.ai, &self.cai] {
            named(&mut out, name);
        }
        end(&mut out, start);
        out
    }
}
