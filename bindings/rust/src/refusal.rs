//! The fourteen refusals of documents 01 and 02.
use std::error::Error;
use std::fmt;

/// The rule of names, which three refusals say.
macro_rules! names {
    () => {
        "1 to 64 letters, digits and underscores, no digit first, in any letter case no keyword of SQLite, as ORDER or \
         GROUP (the 147 of release 3.40.0), nor DIV, FALSE or TRUE"
    };
}

macro_rules! refusals {
    ($($name:ident = $number:literal: $words:expr,)*) => {
        /// Why there is no answer: the refusals of document 01, "What a caller hears", and the one of reducing (document 02).
        /// Of several, the first in their order is given.
        #[derive(Clone, Copy, Debug, PartialEq, Eq, Hash, PartialOrd, Ord)]
        #[repr(u8)]
        pub enum Refusal {
            $(#[doc = concat!($number, ": ", $words, ".")] $name = $number,)*
        }

        impl Refusal {
            /// All fourteen, in order.
            pub const ALL: [Refusal; 14] = [$(Refusal::$name,)*];

            /// Which limit or rule, and what to do.
            const fn words(self) -> &'static str {
                match self {
                    $(Refusal::$name => $words,)*
                }
            }
        }
    };
}

refusals! {
    BadSettings = 1: concat!(
        "the settings are not exactly one record of kind 100 with a precision of 0 to 15 and the names of three \
         collations, each of ",
        names!()
    ),
    TreeTooLong = 2: "the filter is longer than 32,768 bytes as records, for the controller 2,000: split it, or shorten its lists and \
         texts",
    BadFrame = 3: "the filter's records are broken: a record is missing where one is due, a length is below 2 or passes \
         the end around it, or bytes are left over; trees made by `E::encode` never are",
    TooDeep = 4: "the filter is nested deeper than 32 levels, for the controller 8, the outermost being 1: build long AND and \
         OR chains as balanced trees",
    BadKindOrOperator = 5: "a record's kind is above 13, an operator's number above 52, or an operator stands at the \
         wrong number of operands: of one operand are only Minus, Neg, CaseI, AccentI, IsNull and IsNotNull, of two all \
         others and Minus",
    BadField = 6: concat!(
        "a value in the filter breaks its rule: names of ",
        names!(),
        "; strings of UTF-8 without the bytes 00 to 1F and 7F, at most 4,096 bytes; dates that the calendar has, years 1 \
         to 9999; times from 00:00:00 to 23:59:59; numbers of at most 15 digits, at most 9 after the point; WKT of \
         letters, digits, space, comma, parentheses, minus and point, 1 to 4,096 bytes; in raw records also a Bool of 0 \
         or 1, flags of 0 to 3, and bodies of their kind's size"
    ),
    BadOperand = 7: "an operand is out of place: an Interval stands only directly under a temporal operator, temporal \
         operators other than TAfter, TBefore, TDisjoint, TEquals and TIntersects need an Interval on both sides, and \
         BETWEEN and NOT BETWEEN need an Array of exactly two on their right",
    TextTooLong = 8: "the SQL text is longer than 65,535 bytes, for the controller 4,000: a smaller filter is needed; operands \
         of nested temporal operators are written more than once",
    BufferTooShort = 9: "the SQL text, or the reduced tree, is longer than the buffer that was lent: lend a larger one; for a text \
         65,535 bytes are always enough, for the controller 4,000, for a reduced tree as many as the tree has",
    InputTooLong = 10: "the SQL text to be read is longer than 65,535 bytes, or the row longer than 32,768 bytes as \
         records",
    BadRow = 11: concat!(
        "the row breaks its form: names of ",
        names!(),
        ", no two equal in any letter case; values of at most 64 bytes of UTF-8 without the bytes 00 to 1F and 7F; in \
         raw records also whole records of kind 200, NULL with no bytes after it"
    ),
    BadText = 12: "the SQL text is not one that can be read: only comparisons of columns, quoted texts and NULL, a \
         column with IS NULL, IS NOT NULL or NOT NULL, TRUE, FALSE, NULL, joined by NOT, AND, OR and at most 64 brackets \
         one inside another; no numbers, functions, LIKE, IN, BETWEEN or COLLATE; a quoted text ends at the first \
         apostrophe that is not doubled and is UTF-8 without the bytes 00 to 1F and 7F",
    MissingColumn = 13: "the SQL text names a column that the row does not have; names count with their letter case",
    ConstantOperands = 14: "the filter cannot be reduced: once its operands are reduced, an operator of two operands other than And and \
         Or has a literal on both sides, neither of them Null, as 1 = 1 has; only TAfter, TBefore, TDisjoint, TEquals and \
         TIntersects between dates, timestamps and Unbounded are reckoned: put the value in the operator's place, or leave it out",
}

impl Refusal {
    /// The papers' number, 1 to 14.
    pub const fn number(self) -> u8 {
        self as u8
    }

    /// The refusal of a number.
    pub fn from_number(number: u8) -> Option<Refusal> {
        Refusal::ALL.into_iter().find(|r| r.number() == number)
    }
}

/// The number, and words that say which limit or rule and what to do.
impl fmt::Display for Refusal {
    fn fmt(&self, f: &mut fmt::Formatter<'_>) -> fmt::Result {
        write!(f, "refused {}: {}", self.number(), self.words())
    }
}

impl Error for Refusal {}
