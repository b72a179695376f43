//! Why a call was refused.

use core::error::Error;
use core::fmt;

/// A call's refusal: a number, which stands for a [`Reason`], and where.
#[derive(Debug, Clone, Copy, PartialEq, Eq)]
#[non_exhaustive]
pub struct Refusal {
    /// The refusal number, 1 to 19.
    pub number: u8,
    /// The block of the table, counted from 0; 0 where the refusal is about no block.
    pub at: u32,
}

impl Refusal {
    /// What the number stands for. The planner of this package gives no number without a reason;
    /// there is none only where a newer planner was linked, which knows more numbers.
    pub const fn reason(self) -> Option<Reason> {
        Reason::of(self.number)
    }
}

impl fmt::Display for Refusal {
    fn fmt(&self, to: &mut fmt::Formatter<'_>) -> fmt::Result {
        write!(to, "refused {} at {}", self.number, self.at)?;
        match self.reason() {
            Some(reason) => write!(to, ": {reason}"),
            None => Ok(()),
        }
    }
}

impl Error for Refusal {}

/// Says each reason once: its name, its number, its sentence.
macro_rules! reasons {
    ($($name:ident $number:literal $sentence:literal)*) => {
        /// What a refusal number stands for.
        #[derive(Debug, Clone, Copy, PartialEq, Eq)]
        #[non_exhaustive]
        pub enum Reason {
            $(#[doc = concat!($number, ": ", $sentence)] $name = $number,)*
        }

        impl Reason {
            /// The reason with this number, if there is one.
            pub const fn of(number: u8) -> Option<Self> {
                match number {
                    $($number => Some(Reason::$name),)*
                    _ => None,
                }
            }

            /// The refusal number.
            pub const fn number(self) -> u8 {
                self as u8
            }

            /// When the number is given.
            pub const fn sentence(self) -> &'static str {
                match self {
                    $(Reason::$name => $sentence,)*
                }
            }
        }
    };
}

reasons! {
    Length 1 "length is 0 or no multiple of 512"
    Check 2 "check wrong"
    Kind 3 "kind wrong for this block"
    Edition 4 "edition unknown"
    Limits 5 "tasks, cores or common period beyond its limits"
    Unused 6 "an unused byte isn't zero"
    Blocks 7 "length isn't a header and a block per task"
    Number 8 "task number isn't its position (writer: above 31)"
    Shape 9 "elasticity or mode count beyond limits (writer: also if the figures lent aren't three per mode)"
    Permitted 10 "permitted modes empty or beyond the count"
    Period 11 "period zero or not dividing the common period"
    Work 12 "work or span zero, span above work, or work above 64 periods"
    Late 13 "mode can't meet its period"
    NoPlan 14 "no selection of permitted modes fits; of cells that others altered: column m of row 0 reads as the mark"
    Room 15 "a lent buffer is too short"
    Beyond 16 "progress above the number of cells"
    Unfilled 17 "progress below the number of cells when the plan is taken"
    Altered 18 "no permitted mode keeps a cell's cost: the cells aren't as portions over this table left them"
    NoneSuch 19 "no such task or mode"
}

impl fmt::Display for Reason {
    fn fmt(&self, to: &mut fmt::Formatter<'_>) -> fmt::Result {
        to.write_str(self.sentence())
    }
}
