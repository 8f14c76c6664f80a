use std::fmt;

/// Why a call did nothing. Where several reasons apply, the one with the lowest number is given.
#[derive(Clone, Copy, Debug, PartialEq, Eq, Hash)]
#[repr(u32)]
pub enum Refusal {
    /// 1: the library does not know the scheme.
    SchemeUnknown = 1,
    /// 2: the tables are not what the rule gives, or have not the shape of tables.
    TablesNotRight = 2,
    /// 3: a number that may not be zero is zero.
    NumberZero = 3,
    /// 4: a limit above 4,096, or balance numbers out of range.
    TooLarge = 4,
    /// 5: the relay or tablet is not there.
    NotThere = 5,
    /// 6: the relay or tablet is there already.
    ThereAlready = 6,
    /// 7: the table has no unused place.
    NoUnusedPlace = 7,
    /// 8: afterwards the limits would sum to fewer than the tablets.
    LimitsTooSmall = 8,
    /// 9: the move list is shorter than the moves.
    MoveListTooShort = 9,
    /// 10: the roster has not the shape of one.
    RosterShapeWrong = 10,
    /// 11: the roster's entries are not right tables under its scheme.
    RosterContentWrong = 11,
    /// 12: what is lent to be written to does not fit.
    OutputUnfit = 12,
}

impl Refusal {
    const ALL: [Refusal; 12] = [
        Refusal::SchemeUnknown,
        Refusal::TablesNotRight,
        Refusal::NumberZero,
        Refusal::TooLarge,
        Refusal::NotThere,
        Refusal::ThereAlready,
        Refusal::NoUnusedPlace,
        Refusal::LimitsTooSmall,
        Refusal::MoveListTooShort,
        Refusal::RosterShapeWrong,
        Refusal::RosterContentWrong,
        Refusal::OutputUnfit,
    ];

    /// The number that a reply bears.
    pub fn number(self) -> u32 {
        self as u32
    }

    /// The refusal with this number; none for 0, which is a call that was done.
    pub fn from_number(number: u32) -> Option<Refusal> {
        Refusal::ALL.into_iter().find(|r| r.number() == number)
    }
}

impl fmt::Display for Refusal {
    fn fmt(&self, f: &mut fmt::Formatter) -> fmt::Result {
        f.write_str(match self {
            Refusal::SchemeUnknown => "the scheme is not known",
            Refusal::TablesNotRight => "the tables are not right",
            Refusal::NumberZero => "a number is zero",
            Refusal::TooLarge => "a number is too large",
            Refusal::NotThere => "the relay or tablet is not there",
            Refusal::ThereAlready => "the relay or tablet is there already",
            Refusal::NoUnusedPlace => "the table has no unused place",
            Refusal::LimitsTooSmall => "the limits would sum to fewer than the tablets",
            Refusal::MoveListTooShort => "the move list is shorter than the moves",
            Refusal::RosterShapeWrong => "the roster has a wrong shape",
            Refusal::RosterContentWrong => "the roster's entries are not right",
            Refusal::OutputUnfit => "what is lent to be written to does not fit",
        })
    }
}

impl std::error::Error for Refusal {}
