//! The operators, in the source's order.

macro_rules! operators {
    ($($name:ident: $words:literal,)*) => {
        /// An operator; names and order are those of `Op` in ogc-cql2 (src/op.rs), numbered 0 (`Plus`) to 52 (`IsNotNull`).
        #[derive(Clone, Copy, Debug, PartialEq, Eq, Hash, PartialOrd, Ord)]
        #[repr(u16)]
        pub enum Op {
            $(#[doc = $words] $name,)*
        }

        impl Op {
            /// All 53, in the order of their numbers.
            pub const ALL: [Op; 53] = [$(Op::$name,)*];
        }
    };
}

operators! {
    Plus: "Sum.",
    Minus: "Difference; of one operand its negative.",
    Mult: "Product.",
    Div: "Quotient.",
    IntDiv: "Whole quotient. Plain SQLite cannot read its text.",
    Mod: "Remainder.",
    Exp: "Power. Plain SQLite cannot read its text.",
    Neg: "NOT, of one operand.",
    Eq: "Equal.",
    Neq: "Not equal.",
    Lt: "Less.",
    Gt: "Greater.",
    Lte: "Less or equal.",
    Gte: "Greater or equal.",
    And: "AND.",
    Or: "OR.",
    CaseI: "Ignoring letter case, of one operand.",
    AccentI: "Ignoring accents, of one operand.",
    SIntersects: "S_INTERSECTS.",
    SEquals: "S_EQUALS.",
    SDisjoint: "S_DISJOINT.",
    STouches: "S_TOUCHES.",
    SWithin: "S_WITHIN.",
    SOverlaps: "S_OVERLAPS.",
    SCrosses: "S_CROSSES.",
    SContains: "S_CONTAINS.",
    TAfter: "T_AFTER, of instants or intervals.",
    TBefore: "T_BEFORE, of instants or intervals.",
    TContains: "T_CONTAINS, of intervals.",
    TDisjoint: "T_DISJOINT, of instants or intervals.",
    TDuring: "T_DURING, of intervals.",
    TEquals: "T_EQUALS, of instants or intervals.",
    TFinishedBy: "T_FINISHEDBY, of intervals.",
    TFinishes: "T_FINISHES, of intervals.",
    TIntersects: "T_INTERSECTS, of instants or intervals.",
    TMeets: "T_MEETS, of intervals.",
    TMetBy: "T_METBY, of intervals.",
    TOverlappedBy: "T_OVERLAPPEDBY, of intervals.",
    TOverlaps: "T_OVERLAPS, of intervals.",
    TStartedBy: "T_STARTEDBY, of intervals.",
    TStarts: "T_STARTS, of intervals.",
    AEquals: "A_EQUALS.",
    AContains: "A_CONTAINS. Plain SQLite cannot read its text.",
    AContainedBy: "A_CONTAINEDBY. Plain SQLite cannot read its text.",
    AOverlaps: "A_OVERLAPS. Plain SQLite cannot read its text.",
    IsLike: "LIKE.",
    IsNotLike: "NOT LIKE.",
    IsBetween: "BETWEEN; the right side is an `Array` of exactly two.",
    IsNotBetween: "NOT BETWEEN; the right side is an `Array` of exactly two.",
    IsInList: "IN.",
    IsNotInList: "NOT IN.",
    IsNull: "IS NULL, of one operand.",
    IsNotNull: "IS NOT NULL, of one operand.",
}

impl Op {
    /// The number that a record holds, 0 to 52.
    pub const fn number(self) -> u16 {
        self as u16
    }

    /// The operator of a number.
    pub(crate) fn from_number(number: u16) -> Option<Op> {
        Op::ALL.get(usize::from(number)).copied()
    }

    /// Whether a `Monadic` takes it (refusal 5 otherwise).
    pub const fn is_monadic(self) -> bool {
        matches!(self, Op::Minus | Op::Neg | Op::CaseI | Op::AccentI | Op::IsNull | Op::IsNotNull)
    }

    /// Whether a `Dyadic` takes it (refusal 5 otherwise): all others, and `Minus`.
    pub const fn is_dyadic(self) -> bool {
        matches!(self, Op::Minus) || !self.is_monadic()
    }

    /// Whether it is one of the fifteen temporal operators.
    pub const fn temporal(self) -> bool {
        matches!(self.number(), 26..=40)
    }

    /// Whether a temporal operator takes instants as well as intervals; the others need an `Interval` on both sides (refusal 7).
    pub const fn instant_or_interval(self) -> bool {
        matches!(self, Op::TAfter | Op::TBefore | Op::TDisjoint | Op::TEquals | Op::TIntersects)
    }
}
